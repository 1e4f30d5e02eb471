// The shares of an ink in the pixels of a picture: the mean of the plate's dots in each, exact where the side of a pixel is a
// power of two. They are taken from the plate's bits, or from its shares by 8 by 8 or 16 by 16 pixels.
'use strict';
const BITS_SIDE = 4096, EIGHTH_SIDE = 1024;
const unitOf = step => [16, 8, 4, 2].find(unit => step >= unit) || 1;
const PRINTED = Uint8Array.from({length: 256}, (_, byte) => byte.toString(2).replaceAll('0', '').length);

// A plate's form: its width and length in pixels, its key and the sums of its blocks.
// The shares in [left, right) by [top, bottom), in units of so many pixels, from 0 to 1, and the holes: parts of
// [left, top, right, bottom] whose block didn't arrive.
async function unitsOf(plate, unit, [left, top, right, bottom]) {
  const columns = right - left, values = new Float32Array(columns * (bottom - top)), holes = [];
  const side = unit === 16 ? Infinity : unit === 8 ? EIGHTH_SIDE : BITS_SIDE / unit;
  const name = (x, y) => unit === 16 ? 'whole' : `${unit === 8 ? 'eighth' : 'bits'}-${x}-${y}`;
  const from = place => side === Infinity ? 0 : Math.floor(place / side);
  const asked = [];
  for (let y = from(top); y <= from(bottom - 1); y++) for (let x = from(left); x <= from(right - 1); x++) {
    const begin = [x, y].map(number => number ? number * side : 0);
    const part = [Math.max(left, begin[0]), Math.max(top, begin[1]), Math.min(right, begin[0] + side),
      Math.min(bottom, begin[1] + side)];
    asked.push(loadBlock(plate.key, plate.sums, name(x, y)).then(block => {
      if (block === null) holes.push(part.map(place => place * unit));
      else if (block) (unit < 8 ? fromBits : fromShares)(block, plate, unit, begin, part, values, left, top, columns, side);
    }));
  }
  await Promise.all(asked);
  return {values, holes};
}
function fromShares(block, plate, unit, [x0, y0], [left, top, right, bottom], values, atX, atY, columns, side) {
  const wide = Math.min(side, Math.ceil(plate.width / unit) - x0);
  for (let y = top; y < bottom; y++) for (let x = left, at = (y - atY) * columns - atX; x < right; x++)
    values[at + x] = block[(y - y0) * wide + x - x0] / 255;
}
function fromBits(block, plate, unit, [x0, y0], [left, top, right, bottom], values, atX, atY, columns, side) {
  const wide = Math.ceil(Math.min(side * unit, plate.width - x0 * unit) / 8), mask = (1 << unit) - 1;
  for (let y = top; y < bottom; y++) {
    const last = Math.min((y + 1) * unit, plate.length), high = last - y * unit, at = (y - atY) * columns - atX;
    for (let line = y * unit; line < last; line++) {
      const row = (line - y0 * unit) * wide;
      for (let x = left; x < right; x++) {
        const bit = (x - x0) * unit, byte = block[row + (bit >> 3)];
        if (byte) values[at + x] += unit === 1 ? byte >> 7 - (bit & 7) & 1 : PRINTED[byte >> 8 - unit - (bit & 7) & mask];
      }
    }
    if (unit > 1) for (let x = left; x < right; x++)
      values[at + x] /= high * Math.min(unit, plate.width - x * unit);
  }
}
// Adds the gain of dots, which the share of each 16 by 16 pixels gives: what is bare there is covered in part.
async function addGain(plate, unit, [left, top, right, bottom], values, gain) {
  const block = await loadBlock(plate.key, plate.sums, 'whole'), wide = Math.ceil(plate.width / 16), columns = right - left;
  if (!block) return block === null;
  for (let y = top; y < bottom; y++) {
    const row = (y * unit >> 4) * wide, at = (y - top) * columns - left;
    for (let x = left; x < right; x++)
      values[at + x] += (1 - values[at + x]) * gain[block[row + (x * unit >> 4)]];
  }
  return false;
}
// The ends of pixels along one side, in units from `first`: from place `start`, each `step` wide, `count` of them.
function endsOf(start, step, count, unit, most, first) {
  return Float64Array.from({length: count + 1}, (_, i) => Math.min(most, start + i * step) / unit - first);
}
// The means of values in the boxes that the ends make, as numbers of 0 to FULL.
function meansOf(values, columns, across, down) {
  const wide = across.length - 1, tall = down.length - 1, found = new Uint16Array(wide * tall);
  const ahead = new Float64Array(columns + 1), line = new Float64Array(wide), sums = new Float64Array(wide);
  const rowOf = row => {
    const at = row * columns;
    for (let x = 0; x < columns; x++) ahead[x + 1] = ahead[x] + values[at + x];
    const until = place => {
      const whole = Math.min(columns - 1, place | 0);
      return ahead[whole] + (place - whole) * values[at + whole];
    };
    for (let x = 0, begin = until(across[0]); x < wide; x++) {
      const end = until(across[x + 1]);
      line[x] = end - begin;
      begin = end;
    }
  };
  let had = -1;
  for (let y = 0; y < tall; y++) {
    sums.fill(0);
    for (let row = down[y] | 0; row < down[y + 1]; row++) {
      if (row !== had) rowOf(had = row);
      const part = Math.min(down[y + 1], row + 1) - Math.max(down[y], row);
      for (let x = 0; x < wide; x++) sums[x] += part * line[x];
    }
    for (let x = 0; x < wide; x++)
      found[y * wide + x] = Math.min(FULL, sums[x] / ((across[x + 1] - across[x]) * (down[y + 1] - down[y])) * FULL + 0.5);
  }
  return found;
}
// The shares of a plate in a picture of `wide` by `tall` pixels, each `step` of the plate's, from the plate's pixel (left,
// top), and its holes. With a gain, dots are as large as in print.
async function sharesOf(plate, left, top, step, wide, tall, gain) {
  const unit = unitOf(step), {width, length} = plate;
  const first = [Math.floor(left / unit), Math.floor(top / unit)];
  const part = [...first, Math.ceil(Math.min(width, left + wide * step) / unit), Math.ceil(Math.min(length, top + tall * step) / unit)];
  const {values, holes} = await unitsOf(plate, unit, part);
  if (gain && await addGain(plate, unit, part, values, gain)) holes.push(part.map(place => place * unit));
  const columns = part[2] - part[0];
  const across = endsOf(left, step, wide, unit, width, first[0]), down = endsOf(top, step, tall, unit, length, first[1]);
  return {shares: meansOf(values, columns, across, down), holes};
}
LOADED.push('shares');
