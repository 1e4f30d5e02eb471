// A pair: its map, its panel and its bar.
'use strict';
// A pair.
function leavePair() {
  if (map) map.remove();
  map = plates = chart = frame = pointer = cross = null;
  now.view = now.rect = null;
  delete document.body.dataset.ready;
}
function showPair(view, site, at, rect) {
  leavePair();
  byId('edition').hidden = true;
  byId('pair').hidden = false;
  now.view = view;
  now.site = site;
  document.title = `${view.pair} ${site}`;
  fillPanel();
  if (!Object.keys(view.plates).length) return;
  makeMap(view);
  if (at.x !== null && at.y !== null && at.z !== null) place([at.y, at.x], native(view) + at.z);
  else fit();
  plates = new Plates({
    tileSize: TILE, minZoom: FARTHEST, maxZoom: native(view) + CLOSEST, noWrap: true,
    bounds: [[0, 0], [view.length, view.width]], updateWhenIdle: false, updateWhenZooming: false, keepBuffer: 2,
  }).addTo(map);
  fillScale();
  fillBar();
  setMeasure(now.measure);
  showProblems();
  Promise.all(Object.values(view.plates).map(loadCounts)).then(() => {
    if (now.view !== view) return;
    setRect(rect && isRect(rect) ? rect : null);
    update();
    document.body.dataset.ready = `${view.pair} ${site}`;
  });
}
// A map in pixels of the plate: with n levels above the native one, 2^n of them are one unit of Leaflet's.
function makeMap(view) {
  const part = 1 / 2 ** native(view), calm = matchMedia('(prefers-reduced-motion: reduce)').matches;
  const crs = L.extend({}, L.CRS.Simple, {transformation: new L.Transformation(part, 0, part, 0)});
  map = L.map('map', {
    crs, minZoom: FARTHEST, maxZoom: native(view) + CLOSEST, zoomControl: false, boxZoom: false,
    attributionControl: false, keyboard: false, fadeAnimation: false, zoomAnimation: !calm,
  });
  cross = make('div', {class: 'cross', 'aria-hidden': true});
  byId('map').append(cross);
  map.on('mousemove', event => { pointer = event.latlng; cross.hidden = true; fillBar(); });
  map.on('mouseout', () => { pointer = null; cross.hidden = false; fillBar(); });
  map.on('move', fillBar);
  map.on('dragend', () => { if (!map.getBounds().intersects([[0, 0], [view.length, view.width]])) fit(); });
  map.on('moveend', () => { fillScale(); fillBar(); writeLink(); });
}
// Zooms are powers of two, but for the whole pair, which fills the window, and for links.
function place(center, zoom) {
  map.options.zoomSnap = 0;
  map.setView(center, zoom, {animate: false});
  map.options.zoomSnap = 1;
}
function fit() {
  const {length, width} = now.view, most = native(now.view), size = map.getSize();
  const below = now.keys ? width / 9 + width / 80 : 0;
  const zoom = Math.log2(Math.min((size.x - 24) / width, (size.y - 24) / (length + below)));
  place([(length + below) / 2, width / 2], Math.max(FARTHEST, Math.min(most + CLOSEST, most + zoom)));
}
function fillPanel() {
  const {view, site} = now, damage = Object.entries(view.damaged);
  const sites = PROOF.views.filter(({pair}) => pair === view.pair).flatMap(view => view.sites).sort();
  fillPick('pick-pair', [...new Set(PROOF.views.map(({pair}) => pair))], view.pair);
  fillPick('pick-site', sites, site);
  fillPick('pick-keys', PROOF.keys, now.count);
  byId('pair-damage').hidden = !damage.length;
  byId('pair-damage').textContent = damage.map(([letter, reason]) =>
    `${PROOF.inks[letter].name} is damaged and isn't shown: ${reason}`).join('; ');
  const rows = LETTERS.filter(letter => held(letter) || view.damaged[letter]);
  byId('inks').tBodies[0].replaceChildren(...rows.map(inkRow));
  byId('over').value = now.over;
  byId('show-changes').disabled = !Object.keys(view.changes || {}).length;
  byId('changes-line').replaceChildren(...changeLegend(view));
  update();
}
function fillPick(id, values, value) {
  byId(id).replaceChildren(...values.map(value => make('option', {value}, value)));
  byId(id).value = value;
}
function changeLegend(view) {
  if (!PROOF.compared) return [];
  if (view.state !== 'changed') return [view.state === 'new' ? 'a new pair' : 'nothing changed'];
  const swatch = colour => make('span', {class: 'swatch', style: `background:${css(colour)}`});
  return [swatch(CAME), 'came', swatch(WENT), 'went'];
}
function inkRow(letter) {
  const {name} = PROOF.inks[letter], damaged = now.view.damaged[letter];
  const title = damaged || `${name} on or off (${letter.toLowerCase()})`;
  const button = make('button', {type: 'button', role: 'switch', id: `switch-${letter}`, title},
    chip(letter), `${name}${damaged ? ' (damaged)' : ''}`);
  button.disabled = Boolean(damaged);
  button.onclick = () => switchInk(letter);
  return make('tr', {id: `ink-${letter}`}, make('th', {scope: 'row'}, button), make('td'), make('td'));
}

// Everything that depends on what is switched on.
function update() {
  if (!now.view) return;
  for (const letter of LETTERS) {
    const button = byId(`switch-${letter}`);
    if (button) button.setAttribute('aria-checked', now.inks.has(letter) && !button.disabled);
  }
  press('separate', now.separate);
  for (const name of ['keys', 'limit', 'changes']) press(`show-${name}`, now[name]);
  if (!map) return;
  markCells();
  fillCounts();
  drawChart();
  repaint();
  fillBar();
  writeLink();
}
const present = () => LETTERS.filter(letter => {
  const button = byId(`switch-${letter}`);
  return button && !button.disabled;
});
function switchInk(letter) {
  if (!present().includes(letter)) return;
  if (now.separate) now.inks = new Set([letter]);
  else if (now.inks.has(letter)) now.inks.delete(letter);
  else now.inks.add(letter);
  tell(PROOF.inks[letter].name + (now.separate ? ' alone, in black' : now.inks.has(letter) ? ' on' : ' off'));
  update();
}
function setMeasure(is) {
  now.measure = is;
  press('measure', is);
  byId('map').classList.toggle('measuring', is);
  if (map) map.dragging[is ? 'disable' : 'enable']();
}
function setDark(is) {
  document.body.classList.toggle('dark', is);
  for (const button of document.querySelectorAll('.dark-switch')) button.setAttribute('aria-pressed', is);
  try { localStorage.setItem('plates-dark', is); } catch { /* a page from a disk may have no storage */ }
}
function step(by) {
  const pairs = [...new Set(PROOF.views.map(({pair}) => pair))];
  go(pairs[(pairs.indexOf(now.view.pair) + by + pairs.length) % pairs.length], now.site);
}
// Another pair or site: inks, layers, and the place where the plates have one size, stay.
function go(pair, site) {
  const ofPair = PROOF.views.filter(view => view.pair === pair);
  const view = ofPair.find(view => view.sites.includes(site)) || ofPair[0], was = now.view;
  const center = map && map.getCenter(), zoom = map && map.getZoom();
  const same = map && was.width === view.width && was.length === view.length;
  const at = same ? {x: center.lng, y: center.lat, z: zoom - native(was)} : {x: null, y: null, z: null};
  if (!now.separate) LETTERS.filter(letter => !was.plates[letter]).forEach(letter => now.inks.add(letter));
  if (view.limit && was.limit !== view.limit) now.over = view.limit + GRAIN;
  showPair(view, view.sites.includes(site) ? site : view.sites[0], at, now.rect);
  writeLink();
}

// The bar: pair, site and zone, the place under the pointer or in the middle, and the page there.
function fillBar() {
  const view = now.view, zone = PROOF.sites[now.site];
  byId('bar-view').textContent = `${view.pair} · ${now.site}` + (zone ? ` · zone ${zone}` : '');
  const at = pointer || map.getCenter(), x = Math.floor(at.lng), y = Math.floor(at.lat);
  if (x < 0 || y < 0 || x >= view.width || y >= view.length) {
    byId('bar-place').textContent = 'outside the plate';
    byId('bar-page').textContent = '';
    return;
  }
  const key = Math.floor(x * now.count / view.width) + 1;
  const place = `${mm(x)}, ${mm(y)} mm · pixel ${x}, ${y}`;
  byId('bar-place').textContent = place + (now.keys ? ` · key ${key}` : '');
  const page = (view.pages[now.site] || []).find(({box: [left, top, width, height]}) =>
    x >= left && x < left + width && y >= top && y < top + height);
  byId('bar-page').textContent = page ? pageText(page, x, y) : 'no page';
}
function pageText({number, name, box: [left, top]}, x, y) {
  return `page ${number}` + (name ? ` (${name}): ${mm(x - left)}, ${mm(y - top)} mm` : '');
}
function fillScale() {
  const zoom = map.getZoom() - native(now.view);
  const times = 2 ** Math.abs(zoom), text = Number.isInteger(zoom) ? times : times.toFixed(1);
  byId('scale').textContent = zoom >= 0 ? `${text}:1` : `1:${text}`;
  byId('map').classList.toggle('enlarged', zoom >= 0);
}
LOADED.push('pair');
