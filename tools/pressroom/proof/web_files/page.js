// Links, actions, the keyboard, and the beginning.
'use strict';
// Links: everything that is shown stands behind the # of the address.
function linkTo(view, site, more = {}) {
  return '#' + new URLSearchParams({pair: view.pair, site, ...more});
}
function writeLink() {
  if (!now.view || !map) return;
  const {lat, lng} = map.getCenter(), more = {inks: LETTERS.filter(letter => now.inks.has(letter)).join('')};
  if (now.separate) more.black = 1;
  const layers = ['keys', 'limit', 'changes'].filter(name => now[name]);
  if (layers.length) more.show = layers.join(',');
  if (now.keys) more.keys = now.count;
  if (now.limit) more.over = now.over;
  if (now.rect) more.rect = now.rect.join(',');
  const rounded = (value, part) => Math.round(value * part) / part;
  const z = rounded(map.getZoom() - native(now.view), 1000);
  Object.assign(more, {x: rounded(lng, 10), y: rounded(lat, 10), z});
  history.replaceState(null, '', linkTo(now.view, now.site, more));
}
function readLink() {
  const link = new URLSearchParams(location.hash.slice(1)), pair = link.get('pair');
  const ofPair = PROOF.views.filter(view => view.pair === pair);
  const view = ofPair.find(view => view.sites.includes(link.get('site'))) || ofPair[0];
  if (!view) return showIndex();
  const site = view.sites.includes(link.get('site')) ? link.get('site') : view.sites[0];
  const number = (name, least, most) => {
    const value = parseFloat(link.get(name));
    return Number.isFinite(value) ? Math.max(least, Math.min(most, value)) : null;
  };
  const inks = link.has('inks') ? link.get('inks') : LETTERS;
  now.inks = new Set(LETTERS.filter(letter => inks.includes(letter)));
  now.separate = link.has('black');
  const layers = (link.get('show') || '').split(',');
  for (const name of ['keys', 'limit', 'changes']) now[name] = layers.includes(name);
  now.changes = now.changes && PROOF.compared;
  if (PROOF.keys.includes(number('keys', 1, 64))) now.count = number('keys', 1, 64);
  now.over = number('over', 0, 400) ?? (view.limit ? view.limit + GRAIN : NO_LIMIT);
  const x = number('x', 0, view.width), y = number('y', 0, 2 * view.length);
  const rect = link.has('rect') ? link.get('rect').split(',').map(Number) : null;
  showPair(view, site, {x, y, z: number('z', FARTHEST - native(view), CLOSEST)}, rect);
}

function toggle(layer, words) {
  now[layer] = !now[layer];
  update();
  tell(`${words} ${now[layer] ? 'on' : 'off'}`);
}
const ACTIONS = {
  index() { location.hash = ''; },
  previous() { step(-1); },
  next() { step(1); },
  all() { now.separate = false; now.inks = new Set(LETTERS); tell('All inks'); update(); },
  separate() {
    const inks = present();
    if (now.separate) now.inks = new Set(LETTERS);
    else now.inks = new Set([inks.find(letter => now.inks.has(letter)) || inks[0]]);
    now.separate = !now.separate;
    tell(now.separate ? `${PROOF.inks[[...now.inks][0]].name} alone, in black` : 'All inks');
    update();
  },
  keys() { toggle('keys', 'Ink keys'); if (now.keys) showChart(); },
  limit() { toggle('limit', `Sum of inks above ${now.over} percent`); },
  changes() { if (!byId('show-changes').disabled) toggle('changes', 'Changes'); },
  measure() { setMeasure(!now.measure); },
  view() {
    const bounds = map.getBounds();
    setRect(snapped(bounds.getNorthWest(), bounds.getSouthEast()));
    writeLink();
    tell(byId('rect-line').textContent);
  },
  clear() { setRect(null); setMeasure(false); writeLink(); },
  in() { map.zoomIn(); },
  out() { map.zoomOut(); },
  fit() { fit(); },
  native() { map.setZoom(native(now.view)); },
  closest() { map.setZoom(native(now.view) + CLOSEST); },
  dark() { setDark(!document.body.classList.contains('dark')); },
  link() {
    writeLink();
    const done = () => tell('The link is copied'), ask = () => prompt('Link', location.href);
    if (navigator.clipboard) navigator.clipboard.writeText(location.href).then(done, ask);
    else ask();
  },
  help() { byId('help').hidden = !byId('help').hidden; },
};
function showChart() {
  const {length} = now.view, ends = [map.getBounds().getSouth(), map.getBounds().getNorth()];
  if (Math.max(...ends) < length * 1.1 || Math.min(...ends) > length * 1.2) fit();
}

const KEYS = {
  '[': 'previous', ']': 'next', Home: 'index', a: 'all', b: 'separate', i: 'keys', l: 'limit', d: 'changes',
  r: 'measure', v: 'view', Escape: 'clear', '+': 'in', '=': 'in', '-': 'out', 0: 'fit', 1: 'native',
  8: 'closest', n: 'dark', '?': 'help',
};
const HELP = [
  ['C M Y K S', 'an ink on or off'], ['A', 'all inks'], ['B', 'one ink in black'], ['I', 'ink keys'],
  ['L', 'sum above a limit'], ['D', 'what changed'], ['R', 'drag a rectangle (or Shift and drag)'],
  ['V', 'measure what is in view'], ['Esc', 'no rectangle'], ['+ -', 'zoom'],
  ['0 1 8', 'whole, one to one, eight to one'], ['Arrows', 'move; with Shift by a window'],
  ['[ ]', 'previous, next pair'], ['N', 'dark surroundings'], ['Home', 'all pairs'],
];
const ARROWS = {ArrowLeft: [-1, 0], ArrowRight: [1, 0], ArrowUp: [0, -1], ArrowDown: [0, 1]};
document.onkeydown = event => {
  if (event.ctrlKey || event.altKey || event.metaKey || /^(INPUT|SELECT)$/.test(event.target.tagName)) return;
  const key = event.key.length === 1 ? event.key.toLowerCase() : event.key;
  if (key === 'n') return ACTIONS.dark();
  if (!map) return key === 'Home' && now.view ? ACTIONS.index() : undefined;
  if (ARROWS[key]) {
    const size = map.getSize(), [x, y] = ARROWS[key];
    map.panBy(event.shiftKey ? [x * size.x, y * size.y] : [x * 80, y * 80], {animate: false});
    pointer = null;
    cross.hidden = false;
    fillBar();
  } else if (LETTERS.includes(key.toUpperCase())) switchInk(key.toUpperCase());
  else if (KEYS[key]) ACTIONS[KEYS[key]]();
  else return;
  event.preventDefault();
};

// The scripts of the page. If one is missing or cut, the page keeps the words that it isn't whole.
const SCRIPTS = ['store', 'light', 'shares', 'state', 'tiles', 'counts', 'trust', 'pair', 'index_page', 'page'];
function begin() {
  for (const button of document.querySelectorAll('[data-do]'))
    button.onclick = () => ACTIONS[button.dataset.do]();
  for (const [keys, words] of HELP) byId('help').append(make('dt', {}, keys), make('dd', {}, words));
  byId('pick-pair').onchange = event => go(event.target.value, now.site);
  byId('pick-site').onchange = event => go(now.view.pair, event.target.value);
  byId('pick-keys').onchange = event => { now.count = Number(event.target.value); update(); };
  byId('over').onchange = event => {
    now.over = Math.max(0, Math.min(400, Number(event.target.value) || 0));
    event.target.value = now.over;
    update();
  };
  let dark = matchMedia('(prefers-color-scheme: dark)').matches;
  try { dark = JSON.parse(localStorage.getItem('plates-dark')) ?? dark; } catch { /* as above */ }
  setDark(dark);
  now.count = PROOF.keys[0];
  tellProblems = showProblems;
  fillIndex();
  listenForRect();
  window.onhashchange = readLink;
  readLink();
}
LOADED.push('page');
if (PROOF && SCRIPTS.every(name => LOADED.includes(name)) && window.L && window.DecompressionStream) {
  begin();
  byId('unloaded').hidden = true;
} else {
  byId('unloaded').querySelector('.old').hidden = Boolean(window.DecompressionStream);
}
