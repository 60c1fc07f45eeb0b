// A file's page: tiles by Leaflet, the values of a texel, and what is done when the file was replaced.
'use strict';

const id = location.pathname.split('/')[2];
const at = (name) => document.getElementById(name);
const crs = L.extend({}, L.CRS.Simple, {transformation: new L.Transformation(1, 0, 1, 0)});
let facts = null, map = null, layer = null, marker = null, clicked = null;

const Tiles = L.GridLayer.extend({
  createTile(where, done) {
    const image = document.createElement('img'), stop = new AbortController();
    image.className = 'tile';
    image.stop = stop;
    const query = `channel=${at('channel').value}&wrap=${at('wrap').value}&g=${facts.generation}`;
    fetch(`/tile/${id}/${where.z}/${where.x}/${where.y}.png?${query}`, {signal: stop.signal}).then(async (reply) => {
      if (!reply.ok) throw new Error(await reply.text());
      // all texels of a tile are of this generation
      image.dataset.generation = reply.headers.get('X-Texcache-Generation');
      if (Number(image.dataset.generation) > facts.generation) again();
      image.src = URL.createObjectURL(await reply.blob());
      await image.decode();
      URL.revokeObjectURL(image.src);
      done(null, image);
    }).catch((error) => {
      image.title = error.message;
      done(error, image);
    });
    return image;
  },
});

function bounds(around) {
  const {width: w, height: h} = facts;
  return L.latLngBounds([-around * h, -around * w], [(1 + around) * h - 1e-6, (1 + around) * w - 1e-6]);
}

function draw() {
  if (layer) layer.remove();
  layer = new Tiles({tileSize: 256, noWrap: true, minZoom: 1 - facts.levels, maxZoom: 6, keepBuffer: 1,
    bounds: bounds(at('wrap').value === 'none' ? 0 : 1)});
  layer.on('tileunload', (it) => it.tile.stop.abort());
  layer.addTo(map);
}

function channels() {
  const count = facts.channels, names = [['rgb', count > 2 ? 'RGB' : 'grey']];
  for (let n = 0; n < Math.min(count, 8); n++) names.push([String(n), count > 2 && n < 3 ? 'RGB'[n] : `channel ${n}`]);
  if (count === 2 || count > 3) names.push(['a', 'alpha']);
  const before = at('channel').value;
  at('channel').replaceChildren(...names.map(([value, text]) => Object.assign(made('option', text), {value})));
  if (names.some((it) => it[0] === before)) at('channel').value = before;
}

function show(found) {
  const before = facts;
  facts = found;
  document.title = found.name;
  at('name').textContent = found.name;
  at('trouble').hidden = !found.reason;
  at('trouble').textContent = found.reason ? `${found.reason}${found.remedy ? `. What helps: ${found.remedy}` : ''}` : '';
  at('generation').textContent = found.generation || '-';
  if (found.reason) {
    if (layer) layer.remove();
    return;
  }
  at('about').textContent = `${found.width} x ${found.height}, ${found.depth} bits, ${found.channels} channels, ` +
    `${found.levels} levels, ${found.stored} stored`;
  channels();
  const isSame = map && before && before.width === found.width && before.height === found.height && before.levels === found.levels;
  if (!map) {
    map = L.map('map', {crs, attributionControl: false, zoomAnimation: false, fadeAnimation: false, inertia: false});
    map.on('zoomend', () => { at('level').textContent = Math.max(0, -map.getZoom()); });
    map.on('click', (event) => value(event.latlng.lng / facts.width, event.latlng.lat / facts.height));
  }
  map.setMinZoom(1 - found.levels).setMaxZoom(6);
  if (!isSame) map.fitBounds(bounds(0));
  draw();
  if (clicked) value(...clicked);
}

// asks for all facts; several calls at once are one
let asking = null;
function again() {
  asking = asking || fetch(`/api/file/${id}`).then((it) => it.ok ? it.json() : it.text().then((reason) => ({id: facts && facts.id, name: facts ? facts.name : id, reason})))
    .then((found) => {
      if (!facts || facts.reason || found.reason || found.generation !== facts.generation) show(found);
    }).finally(() => { asking = null; });
}

async function value(s, t) {
  const wrap = at('wrap').value, level = Math.max(0, -map.getZoom());
  if (wrap === 'none' && (s < 0 || s >= 1 || t < 0 || t >= 1)) return;
  clicked = [s, t];
  const reply = await fetch(`/value/${id}?s=${s}&t=${t}&level=${level}&wrap=${wrap === 'none' ? 'clamp' : wrap}`);
  if (!reply.ok) {
    at('hint').textContent = await reply.text();
    at('hint').hidden = false;
    return;
  }
  const found = await reply.json();
  at('hint').hidden = true;
  document.querySelector('#value table').hidden = false;
  at('value-st').textContent = `${found.s.toFixed(6)}, ${found.t.toFixed(6)}`;
  at('value-level').textContent = `${found.level} (${found.size.join(' x ')})`;
  at('value-texel').textContent = found.texel ? found.texel.join(', ') : 'outside';
  at('value-samples').textContent = `${found.samples.join(', ')} (${found.depth} bits)`;
  at('value-values').textContent = found.values.join(', ');
  at('value-floats').textContent = found.values.map((it) => (it / 65535).toFixed(4)).join(', ');
  at('value-generation').textContent = found.generation;
  if (marker) marker.remove();
  const [w, h] = found.size, x = Math.floor(s * w), y = Math.floor(t * h);
  const wide = facts.width / w, high = facts.height / h;
  marker = L.rectangle([[y * high, x * wide], [(y + 1) * high, (x + 1) * wide]], {color: '#ff0', weight: 1, fill: false,
    interactive: false}).addTo(map);
}

at('channel').addEventListener('change', draw);
at('wrap').addEventListener('change', draw);
live.listen((file) => { if (facts && file.id === facts.id) show(file); }, again);
