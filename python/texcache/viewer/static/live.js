// The live panel, and the events of the server. Pages give what they do if a file was replaced.
'use strict';

function made(tag, text, parent, kind) {
  const it = document.createElement(tag);
  // text is never read as HTML: names of files may hold anything
  if (text !== undefined) it.textContent = text;
  if (kind) it.className = kind;
  if (parent) parent.append(it);
  return it;
}

function bytes(count) {
  const units = ['bytes', 'KB', 'MB', 'GB', 'TB'];
  let unit = 0;
  while (count >= 1000 && unit < 4) { count /= 1000; unit++; }
  return `${unit ? count.toFixed(1) : count} ${units[unit]}`;
}

const live = (() => {
  const panel = document.getElementById('live'), past = [];
  const part = (title) => { const it = made('div', undefined, panel); made('h2', title, it); return it; };
  const counts = made('div', undefined, part('Cache'));
  const tiles = made('div', undefined, part('Tiles of each shard'), 'bars');
  const held = made('div', undefined, part('Bytes of each shard, beside its share'), 'bars bytes');
  const reads = part('Reads in a second');
  const space = 'http://www.w3.org/2000/svg', svg = document.createElementNS(space, 'svg');
  const curve = document.createElementNS(space, 'polyline');
  svg.setAttribute('class', 'curve');
  svg.setAttribute('viewBox', '0 0 60 60');
  svg.setAttribute('preserveAspectRatio', 'none');
  svg.append(curve);
  reads.append(svg);
  const most = made('small', '', reads);

  function bars(place, numbers, full) {
    const top = full || Math.max(1, ...numbers);
    place.replaceChildren(...numbers.map((it) => {
      const bar = made('i');
      bar.style.height = `${Math.min(100, 100 * it / top)}%`;
      bar.title = it;
      return bar;
    }));
  }

  function draw() {
    const rates = past.slice(1).map((it, n) => (it.reads - past[n].reads) / Math.max(0.1, it.seconds - past[n].seconds));
    const top = Math.max(1, ...rates);
    curve.setAttribute('points', rates.map((it, n) => `${60 - rates.length + n + 1},${58 - 56 * it / top}`).join(' '));
    most.textContent = rates.length ? `now ${rates[rates.length - 1].toFixed(0)}, at most ${top.toFixed(0)} in the last minute` : '';
  }

  function show(found) {
    past.push(found);
    if (past.length > 61) past.shift();
    counts.replaceChildren();
    const ratio = found.needs ? (100 * found.hits / found.needs).toFixed(1) : '0.0';
    made('p', `${found.hits} of ${found.needs} cells were in a pass's two latest tiles (${ratio}%)`, counts).id = 'hits';
    made('p', `${found.reads} reads, ${bytes(found.bytes)}`, counts).id = 'reads';
    made('p', `${found.tiles} tiles in memory, ${bytes(found.tile_bytes)} of ${bytes(found.budget)}`, counts);
    bars(tiles, found.tiles_of_shards);
    bars(held, found.bytes_of_shards, found.share);
    draw();
  }

  return {
    // `replaced` gets the facts of a file that was replaced, `again` is called when all facts have to be asked for
    listen(replaced, again) {
      const events = new EventSource('/events');
      events.addEventListener('statistics', (it) => show(JSON.parse(it.data)));
      events.addEventListener('file', (it) => replaced(JSON.parse(it.data)));
      events.addEventListener('hello', again);
    },
  };
})();
