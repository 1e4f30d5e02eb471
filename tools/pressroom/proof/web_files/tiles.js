// The layer of a pair's plates: tiles that are drawn from shares of the inks that are shown, at the map's very zoom.
'use strict';
const TILE = 512, SEPARATION = [0, 0, 0];
const CAME = [0, 96, 255], WENT = [255, 60, 0];
const OVER = 'rgba(255, 0, 110, 0.3)', OVER_LINE = '#d0005c', HOLE = '#e6e0d2', HOLE_LINE = '#555';
const held = letter => now.view.plates[letter] || changed(letter);
const shown = () => LETTERS.filter(letter => now.inks.has(letter) && held(letter));
const changed = letter => ((now.view.changes || {})[letter] || {}).dots;
const colourOf = letter => now.separate ? SEPARATION : PROOF.inks[letter].colour;
const formOf = key => ({key, sums: PROOF.plates[key].sums, width: now.view.width, length: now.view.length});
const partOf = key => ({key, sums: PROOF.changes[key], width: now.view.width, length: now.view.length});
// Tiles have up to two pixels for one of the page, as screens of phones do.
const grain = () => Math.max(1, Math.min(2, Math.round(devicePixelRatio || 1)));

// Stripes that mark places of which nothing is known, or whose sum of inks is above the limit.
function stripes(context, line, ground, side) {
  const tile = make('canvas', {width: side, height: side}), pen = tile.getContext('2d');
  pen.fillStyle = ground;
  pen.fillRect(0, 0, side, side);
  pen.strokeStyle = line;
  pen.lineWidth = side / 4;
  for (const shift of [-side, 0, side]) {
    pen.beginPath();
    pen.moveTo(shift - 2, side + 2);
    pen.lineTo(shift + side + 2, -2);
    pen.stroke();
  }
  return context.createPattern(tile, 'repeat');
}

const Plates = L.GridLayer.extend({
  // Leaflet's layers have whole zooms and stretch tiles between them; these are drawn at the zoom itself, or enlarged.
  _setView(center, zoom, noPrune, noUpdate) {
    if (!noUpdate) {
      this._tileZoom = this._clampZoom(zoom);
      if (this._abortLoading) this._abortLoading();
      this._updateLevels();
      this._resetGrid();
      this._update(center);
      if (!noPrune) this._pruneTiles();
      this._noPrune = Boolean(noPrune);
    }
    this._setZoomTransforms(center, zoom);
  },
  _clampZoom(zoom) { return Math.min(zoom, native(now.view)); },
  _retainParent() { return false; },
  _retainChildren() {},
  createTile(coords, done) {
    const times = grain(), tile = make('canvas', {width: TILE * times, height: TILE * times}), view = now.view;
    const step = 2 ** (native(view) - coords.z) / times, side = TILE * times;
    const left = coords.x * side * step, top = coords.y * side * step;
    const within = (most, begin) => Math.min(side, Math.ceil((most - begin) / step - 1e-6));
    Object.assign(tile, {step, left, top, wide: within(view.width, left), tall: within(view.length, top),
      inks: {}, came: {}, went: {}});
    if (tile.wide <= 0 || tile.tall <= 0 || left < 0 || top < 0) {
      setTimeout(() => done(null, tile));
      return tile;
    }
    this.load(tile).then(() => {
      tile.ready = true;
      if (now.view === view) this.paint(tile);
      done(null, tile);
    });
    return tile;
  },
  take(plate, tile, gain) {
    return sharesOf(plate, tile.left, tile.top, tile.step, tile.wide, tile.tall, gain);
  },
  load(tile) {
    const all = Object.entries(now.view.plates).map(async ([letter, key]) => {
      tile.inks[letter] = await this.take(formOf(key), tile);
    });
    return Promise.all(now.changes ? [...all, this.loadChanges(tile)] : all);
  },
  loadChanges(tile) {
    tile.changes = tile.changes || Promise.all(Object.entries(now.view.changes || {}).flatMap(([letter, {key}]) =>
      ['came', 'went'].filter(kind => PROOF.changes[`${key}-${kind}`]).map(async kind => {
        tile[kind][letter] = await this.take(partOf(`${key}-${kind}`), tile);
      })));
    return tile.changes;
  },
  tiles() { return Object.values(this._tiles).map(({el}) => el).filter(tile => tile.ready); },
  repaint() {
    if (!now.changes) return this.tiles().forEach(tile => this.paint(tile));
    const view = now.view;
    return Promise.all(this.tiles().map(tile => this.loadChanges(tile)))
      .then(() => { if (now.view === view) this.tiles().forEach(tile => this.paint(tile)); });
  },
  paint(tile) {
    const {wide, tall} = tile, context = tile.getContext('2d');
    const inks = shown().filter(letter => tile.inks[letter])
      .map(letter => ({letter, colour: colourOf(letter), shares: tile.inks[letter].shares}));
    const image = context.createImageData(wide, tall);
    writePixels(idealLight(inks, wide * tall), image.data);
    if (now.changes) this.paintChanges(tile, image.data);
    context.putImageData(image, 0, 0);
    if (now.limit) this.paintLimit(context, tile);
    this.paintHoles(context, tile);
  },
  // Every pixel with a dot that changed has its colour, however few; the others fade.
  paintChanges(tile, data) {
    for (let at = 0; at < data.length; at++) if (at % 4 < 3) data[at] = 178 + 0.3 * data[at];
    for (const [kind, colour] of [['went', WENT], ['came', CAME]]) for (const letter of shown()) {
      const shares = (tile[kind][letter] || {}).shares || [];
      for (let i = 0; i < shares.length; i++) if (shares[i]) for (const channel of [0, 1, 2])
        data[4 * i + channel] = colour[channel];
    }
  },
  paintHoles(context, tile) {
    const parts = shown().flatMap(letter => [tile.inks[letter], tile.came[letter], tile.went[letter]])
      .flatMap(ink => ink ? ink.holes : []);
    if (!parts.length) return;
    context.fillStyle = stripes(context, HOLE_LINE, HOLE, 12 * grain());
    for (const part of parts) {
      const [left, top, right, bottom] = part.map((place, i) => (place - (i % 2 ? tile.top : tile.left)) / tile.step);
      const from = [Math.max(0, left), Math.max(0, top)];
      context.fillRect(...from, Math.min(tile.wide, right) - from[0], Math.min(tile.tall, bottom) - from[1]);
    }
  },
  paintLimit(context, {left, top, step, wide, tall}) {
    const over = now.view.marked, side = PROOF.cell;
    if (!over) return;
    context.save();
    context.beginPath();
    context.rect(0, 0, wide, tall);
    context.clip();
    const right = Math.min(over.columns, Math.ceil((left + wide * step) / side));
    const bottom = Math.min(over.rows, Math.ceil((top + tall * step) / side));
    context.fillStyle = stripes(context, OVER_LINE, OVER, 8 * grain());
    for (let row = Math.floor(top / side); row < bottom; row++)
      for (let column = Math.floor(left / side); column < right; column++) {
        const x = (column * side - left) / step, y = (row * side - top) / step;
        if (over.cells[row * over.columns + column]) context.fillRect(x, y, side / step, side / step);
      }
    context.restore();
  },
});
function repaint() { return plates && plates.repaint(); }
LOADED.push('tiles');
