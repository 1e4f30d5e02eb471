// The counts of plates: squares above the limit, ink keys, and rectangles.
'use strict';
// Counts of a rectangle of whole cells, and the cells whose sum of C, M, Y and K is above so many percent.
function cellArea(view, row, column) {
  const side = PROOF.cell;
  return Math.min(side, view.width - column * side) * Math.min(side, view.length - row * side);
}
function dotsIn(key, [left, top, right, bottom]) {
  const data = counts[key], side = PROOF.cell;
  if (!data || !isWhole(key)) return null;
  let sum = 0;
  for (let row = top / side; row < Math.ceil(bottom / side); row++)
    for (let column = left / side; column < Math.ceil(right / side); column++)
      sum += data.cells[row * data.columns + column];
  return sum;
}
function markCells() {
  const view = now.view, letters = shown().filter(letter => LIMITED.includes(letter) && view.plates[letter]);
  const inks = letters.map(letter => counts[view.plates[letter]]);
  view.marked = null;
  byId('over-line').textContent = '';
  if (!inks.length || inks.includes(undefined) || inks.includes(null) || !letters.every(isInkWhole)) return;
  const {rows, columns} = inks[0], cells = new Uint8Array(rows * columns);
  let marked = 0, most = 0;
  for (let row = 0; row < rows; row++) for (let column = 0; column < columns; column++) {
    const at = row * columns + column;
    const sum = 100 * inks.reduce((all, data) => all + data.cells[at], 0) / cellArea(view, row, column);
    most = Math.max(most, sum);
    if (sum > now.over) { cells[at] = 1; marked++; }
  }
  view.marked = {rows, columns, cells};
  const plan = view.limit ? ` The plan's limit is ${view.limit} %.` : '';
  const line = `Sum of ${letters.join(' ')}: ${grouped(marked)} squares of ${PROOF.cell} pixels have more; `;
  if (now.limit) byId('over-line').textContent = `${line}the most is ${most.toFixed(0)} %.${plan}`;
}

// The ink keys below the plate: a bar for each ink that is shown in each key.
function drawChart() {
  if (chart) { chart.remove(); chart = null; }
  const view = now.view, inks = shown().filter(letter => (counts[view.plates[letter]] || {}).keys);
  if (!now.keys || !inks.length) return;
  const {width, length} = view, height = Math.round(width / 9), gap = Math.round(width / 80);
  const svg = shape('svg', {viewBox: `0 0 ${width} ${height}`, role: 'img',
    'aria-label': `Printed area of ${now.count} ink keys, as titles of its bars`});
  svg.append(shape('rect', {x: 0, y: 0, width, height, fill: '#f1f1ee'}));
  drawBars(svg, view, inks, height);
  const bounds = [[length + gap, 0], [length + gap + height, width]];
  chart = L.svgOverlay(svg, bounds, {interactive: true}).addTo(map);
}
function shape(name, attributes, text) {
  const element = document.createElementNS('http://www.w3.org/2000/svg', name);
  for (const [key, value] of Object.entries(attributes)) element.setAttribute(key, value);
  if (text !== undefined) element.textContent = text;
  return element;
}
function drawBars(svg, {width, length, plates}, inks, height) {
  const {count} = now, each = width / count, label = Math.min(height / 7, 0.55 * each);
  const room = height - 1.6 * label, thick = 0.84 * each / inks.length;
  const columns = key => Math.ceil((key + 1) * width / count) - Math.ceil(key * width / count);
  const dotsOf = (letter, key) => counts[plates[letter]].keys[count][key];
  const shareOf = (letter, key) => columns(key) ? dotsOf(letter, key) / (columns(key) * length) : 0;
  const keys = Array.from({length: count}, (_, key) => key);
  const most = Math.max(...inks.flatMap(letter => keys.map(key => shareOf(letter, key))));
  const top = [0.1, 0.25, 0.5, 1].find(part => most <= part);
  for (const part of [0.5, 1])
    svg.append(shape('rect', {x: 0, y: room * (1 - part), width, height: width / 4000, fill: '#c2c2be'}));
  const scale = {x: width / 400, y: height / 8, 'font-size': height / 9, fill: '#777'};
  svg.append(shape('text', scale, `${100 * top} %`));
  for (const key of keys) {
    inks.forEach((letter, number) => {
      const dots = dotsOf(letter, key), share = shareOf(letter, key), tall = room * share / top;
      const bar = shape('rect', {x: key * each + 0.08 * each + number * thick, y: room - tall, width: thick,
        height: tall, fill: css(colourOf(letter)), stroke: '#555', 'stroke-width': width / 9000,
        'data-key': key + 1, 'data-ink': letter, 'data-dots': dots});
      const text = `${grouped(dots)} dots, ${(100 * share).toFixed(1)} %`;
      bar.append(shape('title', {}, `Key ${key + 1}, ${PROOF.inks[letter].name}: ${text}`));
      svg.append(bar);
    });
    const place = {x: (key + 0.5) * each, y: height - 0.45 * label, 'font-size': label};
    svg.append(shape('text', {...place, 'text-anchor': 'middle', fill: '#444'}, key + 1));
  }
}

// The rectangle.
function snapped(a, b) {
  const side = PROOF.cell, {width, length} = now.view;
  const last = most => Math.floor((most - 1) / side);
  const down = (place, most) => Math.max(0, Math.min(Math.floor(place / side), last(most)) * side);
  const up = (place, most) => Math.min(most, Math.max(Math.ceil(place / side) * side, 1));
  const left = down(Math.min(a.lng, b.lng), width), right = up(Math.max(a.lng, b.lng), width);
  const top = down(Math.min(a.lat, b.lat), length), bottom = up(Math.max(a.lat, b.lat), length);
  return right > left && bottom > top ? [left, top, right, bottom] : null;
}
function isRect([left, top, right, bottom, ...more]) {
  const {width, length} = now.view, side = PROOF.cell, ends = (end, most) => end % side === 0 || end === most;
  return !more.length && [left, top, right, bottom].every(Number.isInteger) && left >= 0 && top >= 0 &&
    left < right && top < bottom && right <= width && bottom <= length &&
    left % side === 0 && top % side === 0 && ends(right, width) && ends(bottom, length);
}
function setRect(rect) {
  now.rect = rect;
  if (frame) { frame.remove(); frame = null; }
  if (rect) {
    const [left, top, right, bottom] = rect;
    const style = {color: '#e0007a', weight: 2, fill: false, interactive: false};
    frame = L.rectangle([[top, left], [bottom, right]], style).addTo(map);
  }
  fillCounts();
}
function fillCounts() {
  const view = now.view, rect = now.rect, area = view.width * view.length, inks = shown().filter(letter => view.plates[letter]);
  const inside = rect ? (rect[2] - rect[0]) * (rect[3] - rect[1]) : 0;
  for (const letter of LETTERS) {
    const row = byId(`ink-${letter}`), key = view.plates[letter];
    if (!row || !key) continue;
    const {total} = PROOF.plates[key], dots = rect ? dotsIn(key, rect) : null;
    const [, onPlate, onRect] = row.children;
    onPlate.textContent = isWhole(key) ? percent(total, area) : 'not whole';
    onPlate.title = isWhole(key) ? `${grouped(total)} dots` : '';
    onRect.textContent = dots === null ? '' : percent(dots, inside);
    onRect.dataset.dots = dots === null ? '' : dots;
    onRect.title = dots === null ? '' : `${grouped(dots)} dots`;
  }
  const sum = values => values.every(value => value !== null) ? values.reduce((all, value) => all + value, 0) : null;
  const whole = sum(inks.map(letter => isWhole(view.plates[letter]) ? PROOF.plates[view.plates[letter]].total : null));
  const part = rect ? sum(inks.map(letter => dotsIn(view.plates[letter], rect))) : null;
  byId('sum-of').textContent = `Sum of ${inks.join(' ') || 'no ink'}`;
  byId('sum-plate').textContent = whole === null ? 'not known' : percent(whole, area);
  byId('sum-rect').textContent = !rect ? '' : part === null ? 'not known' : percent(part, inside);
  byId('rect-line').textContent = rect ? rectText(rect) : '';
}
function rectText([left, top, right, bottom]) {
  return `${mm(right - left)} by ${mm(bottom - top)} mm at ${mm(left)}, ${mm(top)} mm; ` +
    `pixels ${left} to ${right} across, ${top} to ${bottom} down`;
}
const mm = pixels => (pixels * 25.4 / now.view.dpi).toFixed(1);

function listenForRect() {
  const box = byId('map');
  let start = null;
  box.onpointerdown = event => {
    if (event.button || !(now.measure || event.shiftKey) || !map) return;
    event.preventDefault();
    start = map.mouseEventToLatLng(event);
    box.setPointerCapture(event.pointerId);
  };
  box.onpointermove = event => {
    if (start) setRect(snapped(start, map.mouseEventToLatLng(event)));
  };
  box.onpointerup = box.onpointercancel = event => {
    if (!start) return;
    setRect(snapped(start, map.mouseEventToLatLng(event)));
    start = null;
    writeLink();
    const sums = shown().filter(letter => byId(`ink-${letter}`)).map(letter =>
      `${PROOF.inks[letter].name} ${byId(`ink-${letter}`).children[2].textContent}`);
    tell(now.rect ? `${rectText(now.rect)}: ${sums.join(', ')}` : '');
  };
}
LOADED.push('counts');
