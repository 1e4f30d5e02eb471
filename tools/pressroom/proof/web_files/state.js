// What is shown, the elements of the page, and small words.
'use strict';
// Zooms: the closest shows eight screen pixels a plate pixel, the farthest a quarter of one in which a tile shows the plate.
const CLOSEST = 3, FARTHEST = -2;
const LIMITED = ['C', 'M', 'Y', 'K'];
const GRAIN = 5, NO_LIMIT = 300;
const byId = id => document.getElementById(id);
const css = colour => `rgb(${colour.join(',')})`;
const percent = (part, whole) => (100 * part / whole).toFixed(1) + ' %';
const grouped = number => number.toLocaleString('en');
// The zoom at which a pixel of the page is one of the plate.
const native = ({width, length}) => Math.max(0, Math.ceil(Math.log2(Math.max(width, length) / 512)));

// What is shown. `view` is the pair as a site prints it; a link holds all the rest.
const now = {
  view: null, site: null, inks: new Set(), separate: false, keys: false, limit: false, changes: false,
  count: 0, over: 0, rect: null, measure: false,
};
let map = null, plates = null, chart = null, frame = null, cross = null, pointer = null;

// Elements.
function make(name, attributes = {}, ...children) {
  const element = document.createElement(name);
  for (const [key, value] of Object.entries(attributes)) {
    if (key === 'class') element.className = value; else element.setAttribute(key, value);
  }
  element.append(...children);
  return element;
}
const chip = ink => make('span', {class: 'chip', style: `background:${css(PROOF.inks[ink].colour)}`});
function tell(text) { byId('told').textContent = text; }
function press(id, is) { byId(id).setAttribute('aria-pressed', is); }
LOADED.push('state');
