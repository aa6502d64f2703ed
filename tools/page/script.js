'use strict';
const at = id => document.getElementById(id);
const all = (query, where = document) => [...where.querySelectorAll(query)];
const cards = at('cards'), open = at('open'), aside = document.querySelector('aside'), main = document.querySelector('main');
const search = at('search'), results = at('results');

// The way from the left: the cards that were opened one from the other, the last on top.
let way = [];
function wanted() {
  const [id, field] = decodeURIComponent(location.hash.slice(1)).split('~');
  return { id, field, card: at(id) };
}
function show() {
  const { id, field, card } = wanted();
  if (!card || !card.classList.contains('card')) return;
  const place = way.indexOf(id);
  way = place < 0 ? [...way, id] : way.slice(0, place + 1);
  cards.append(...open.children);
  for (const one of way.slice(-8)) open.prepend(at(one));
  all('.chosen').forEach(one => one.classList.remove('chosen'));
  if (field) all('[data-field]', card).filter(one => one.dataset.field === field).forEach(one => one.classList.add('chosen'));
  at('start').hidden = true;
  at('trail').replaceChildren(...way.flatMap((one, i) => {
    const link = document.createElement('a');
    link.href = '#' + encodeURIComponent(one);
    link.textContent = at(one).querySelector('h3').textContent;
    return i ? [' → ', link] : [link];
  }));
  aside.scrollTop = 0;
}
document.addEventListener('click', event => {
  const link = event.target.closest('a[href^="#"]');
  if (!link) return;
  if (main.contains(link)) way = [];
  const from = link.closest('#open .card');
  if (from) way = way.slice(0, way.indexOf(from.id) + 1);
  if (link.hash === location.hash) show();
});
document.addEventListener('mouseover', event => {
  const link = event.target.closest('a[href^="#"]');
  if (!link || link.title) return;
  const card = at(decodeURIComponent(link.hash.slice(1)).split('~')[0]);
  if (card) link.title = card.querySelector('small').textContent + '\n' + (card.querySelector('.says')?.textContent ?? '');
});
addEventListener('hashchange', show);

// What was read: a tick keeps the digest of the text that it was set for.
const key = 'burst stacker, read';
const store = () => JSON.parse(localStorage.getItem(key) ?? '{}');
const ticks = all('.tick input');
const owner = tick => tick.closest('.card, .clause');
const links = new Map();
for (const link of all('#reached .names a')) links.set(decodeURIComponent(link.hash.slice(1)), link);
function mark(tick, kept) {
  const digest = kept[owner(tick).id];
  tick.checked = digest === tick.dataset.digest;
  tick.parentElement.classList.toggle('changed', digest !== undefined && !tick.checked);
  links.get(owner(tick).id)?.classList.toggle('read', tick.checked);
}
function count() {
  const done = kind => { const of = ticks.filter(tick => owner(tick).matches(kind)); return of.filter(tick => tick.checked).length + ' of ' + of.length; };
  at('progress').textContent = 'read: ' + done('.card') + ' statements, ' + done('.clause') + ' clauses';
}
function keep(tick) {
  const kept = store();
  if (tick.checked) kept[owner(tick).id] = tick.dataset.digest; else delete kept[owner(tick).id];
  localStorage.setItem(key, JSON.stringify(kept));
  mark(tick, kept);
  count();
}
for (const tick of ticks) tick.addEventListener('change', () => keep(tick));
at('export').addEventListener('click', () => {
  const read = ticks.filter(tick => tick.checked).map(tick => ({ name: owner(tick).id, digest: tick.dataset.digest }));
  const text = JSON.stringify({ review: document.querySelector('.bar h1 small').textContent, of: ticks.length, read }, null, 1);
  const link = document.createElement('a');
  link.href = 'data:application/json;charset=utf-8,' + encodeURIComponent(text);
  link.download = 'review.json';
  link.click();
});

// Search: every card by its name, then by what its comment says.
const index = all('.card', cards).map(card => ({ id: card.id, name: card.querySelector('h3').textContent, where: card.querySelector('small').textContent, says: card.querySelector('.says')?.textContent ?? '' }));
function rank(entry, words) {
  const name = entry.name.toLowerCase(), rest = (entry.where + ' ' + entry.says + ' ' + entry.id).toLowerCase();
  let sum = 0;
  for (const word of words) {
    const score = name === word ? 4 : name.startsWith(word) ? 3 : name.includes(word) ? 2 : rest.includes(word) ? 1 : 0;
    if (!score) return 0;
    sum += score;
  }
  return sum;
}
function find() {
  const words = search.value.toLowerCase().split(/\s+/).filter(Boolean);
  const found = words.length ? index.map(entry => [rank(entry, words), entry]).filter(([score]) => score).sort((a, b) => b[0] - a[0] || a[1].name.length - b[1].name.length).slice(0, 40) : [];
  results.replaceChildren(...found.map(([, entry], i) => {
    const item = document.createElement('li'), name = document.createElement('code'), where = document.createElement('small');
    name.textContent = entry.name;
    where.textContent = '  ' + entry.where + '  ' + entry.says;
    item.append(name, where);
    item.dataset.id = entry.id;
    item.setAttribute('aria-selected', i === 0);
    return item;
  }));
  results.hidden = !found.length;
}
function choose(item) {
  if (!item) return;
  way = [];
  results.hidden = true;
  search.blur();
  if (wanted().id === item.dataset.id) show(); else location.hash = encodeURIComponent(item.dataset.id);
}
function step(by) {
  const items = all('li', results), now = items.findIndex(item => item.getAttribute('aria-selected') === 'true');
  const next = Math.min(Math.max(now + by, 0), items.length - 1);
  items.forEach((item, i) => item.setAttribute('aria-selected', i === next));
  items[next]?.scrollIntoView({ block: 'nearest' });
}
search.addEventListener('input', find);
search.addEventListener('keydown', event => {
  if (event.key === 'ArrowDown' || event.key === 'ArrowUp') { step(event.key === 'ArrowDown' ? 1 : -1); event.preventDefault(); }
  if (event.key === 'Enter') choose(results.querySelector('[aria-selected=true]'));
  if (event.key === 'Escape') { results.hidden = true; search.blur(); }
});
results.addEventListener('mousedown', event => choose(event.target.closest('li')));
search.addEventListener('blur', () => setTimeout(() => { results.hidden = true; }, 150));

// Tabs and keys.
function turn(tab) {
  all('.tab').forEach(one => { one.hidden = one.id !== tab; });
  all('.tabs button').forEach(one => one.setAttribute('aria-selected', one.dataset.tab === tab));
}
all('.tabs button').forEach(one => one.addEventListener('click', () => turn(one.dataset.tab)));
const help = () => { at('start').hidden = !at('start').hidden; aside.scrollTop = 0; };
at('help').addEventListener('click', help);
function move(by) {
  const clauses = all('.clause'), now = clauses.indexOf(document.activeElement.closest?.('.clause'));
  turn('sentences');
  clauses[Math.min(Math.max(now + by, 0), clauses.length - 1)].focus();
}
const keys = {
  '/': () => { search.focus(); search.select(); },
  '?': help,
  j: () => move(1),
  k: () => move(-1),
  b: () => history.back(),
  r: () => open.querySelector('.tick input')?.click(),
};
addEventListener('keydown', event => {
  if (event.ctrlKey || event.metaKey || event.altKey || event.target === search) return;
  if (event.key === 'Enter' && event.target.matches('.clause')) event.target.querySelector('dd a')?.click();
  if (!keys[event.key]) return;
  event.preventDefault();
  keys[event.key]();
});

const kept = store();
ticks.forEach(tick => mark(tick, kept));
count();
turn('sentences');
show();
