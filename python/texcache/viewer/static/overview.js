// The first page: a card for each file.
'use strict';

const cards = new Map();
let changes = 0;
const place = document.getElementById('files');

function fill(card, file) {
  card.replaceChildren();
  card.className = file.reason ? 'card refused' : 'card';
  card.dataset.generation = file.generation;
  if (file.reason) {
    card.removeAttribute('href');
    made('b', file.name, card);
    made('span', file.reason, card, 'reason');
    if (file.remedy) {
      made('small', 'What helps:', card);
      made('code', file.remedy, card, 'remedy');
    }
    return;
  }
  card.href = `/file/${file.id}`;
  const image = made('img', undefined, card);
  image.loading = 'lazy';
  image.alt = '';
  // a browser may keep an image of the same address
  image.src = `/thumb/${file.id}?change=${++changes}`;
  made('b', file.name, card);
  const levels = file.stored === file.levels ? `${file.levels} levels` : `${file.levels} levels, ${file.stored} stored`;
  made('small', `${file.width} x ${file.height}, ${file.depth} bits, ${file.channels} channels`, card);
  made('small', `${levels}; generation ${file.generation}`, card);
  // a level that is generated reads all of the levels below it
  if (file.sampled) made('small', 'thumbnail of single texels; slow when zoomed out: texmake would store its levels', card);
}

async function all() {
  const found = await (await fetch('/api/files')).json();
  document.getElementById('folder').textContent = found.folder;
  const refused = found.files.filter((it) => it.reason).length;
  document.getElementById('about').textContent =
    `${found.files.length} files, ${refused} refused; budget ${bytes(found.budget)}; texcache ${found.version}`;
  for (const file of found.files) {
    let card = cards.get(file.id);
    if (!card) {
      card = made('a', undefined, place);
      card.dataset.name = file.name;
      cards.set(file.id, card);
    } else if (card.dataset.generation === String(file.generation) && !file.reason) continue;
    fill(card, file);
  }
  document.body.dataset.ready = 'yes';
}

document.getElementById('find').addEventListener('input', (event) => {
  const part = event.target.value.toLowerCase();
  for (const card of cards.values()) card.hidden = !card.dataset.name.toLowerCase().includes(part);
});

live.listen((file) => cards.has(file.id) && fill(cards.get(file.id), file), all);
