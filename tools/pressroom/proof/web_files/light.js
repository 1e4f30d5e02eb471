// Light and colour. Shares of inks become light, and light becomes the numbers of the screen (sRGB) at the end, so
// an average of dots has the tone of the dots.
'use strict';
const LIGHT = Float64Array.from({length: 256}, (_, number) => {
  const part = number / 255;
  return part <= 0.04045 ? part / 12.92 : ((part + 0.055) / 1.055) ** 2.4;
});
const STEPS = 4095;
const SCREEN = Uint8Array.from({length: STEPS + 1}, (_, step) => {
  const light = step / STEPS;
  return Math.round(255 * (light <= 0.0031308 ? 12.92 * light : 1.055 * light ** (1 / 2.4) - 0.055));
});
const FULL = 65535, PROCESS = 'CMYK';
const lightOf = colour => colour.map(number => LIGHT[number]);

// The light of `size` pixels of ideal inks, each of which takes its share of the light of white paper.
function idealLight(inks, size) {
  const planes = [0, 1, 2].map(() => new Float32Array(size).fill(1));
  for (const {shares, colour} of inks) {
    const light = lightOf(colour);
    for (let channel = 0; channel < 3; channel++) {
      const plane = planes[channel], taken = (1 - light[channel]) / FULL;
      if (taken) for (let i = 0; i < size; i++) plane[i] *= 1 - shares[i] * taken;
    }
  }
  return planes;
}
// The same on a paper and with inks whose solids and overprints are known: Neugebauer's mean of them, with the areas
// of dots that overlap at random. The spot takes its share of the light of what it lies on.
function printedLight(inks, size, {solids}) {
  const process = inks.filter(({letter}) => PROCESS.includes(letter)), others = inks.filter(ink => !process.includes(ink));
  const count = 1 << process.length;
  const lights = Array.from({length: count}, (_, bits) =>
    solids[process.filter((_, number) => bits >> number & 1).map(({letter}) => letter).join('')]);
  const planes = [0, 1, 2].map(() => new Float32Array(size)), [red, green, blue] = planes;
  const parts = new Float64Array(count);
  for (let i = 0; i < size; i++) {
    parts[0] = 1;
    for (let number = 0, had = 1; number < process.length; number++, had *= 2) {
      const share = process[number].shares[i] / FULL;
      for (let at = 0; at < had; at++) {
        parts[had + at] = parts[at] * share;
        parts[at] *= 1 - share;
      }
    }
    let r = 0, g = 0, b = 0;
    for (let at = 0; at < count; at++) {
      const part = parts[at], light = lights[at];
      r += part * light[0];
      g += part * light[1];
      b += part * light[2];
    }
    red[i] = r;
    green[i] = g;
    blue[i] = b;
  }
  const over = idealLight(others, size);
  planes.forEach((plane, channel) => { if (others.length) for (let i = 0; i < size; i++) plane[i] *= over[channel][i]; });
  return planes;
}
// Writes light into the pixels of an image.
function writePixels(planes, data) {
  const [red, green, blue] = planes;
  for (let i = 0, at = 0; i < red.length; i++, at += 4) {
    data[at] = SCREEN[red[i] * STEPS + 0.5 | 0];
    data[at + 1] = SCREEN[green[i] * STEPS + 0.5 | 0];
    data[at + 2] = SCREEN[blue[i] * STEPS + 0.5 | 0];
    data[at + 3] = 255;
  }
}
// How much of what a share leaves bare the gain of dots covers, by shares of 0 to 255. `curve` has the printed areas of
// equal steps of the plate's.
function gainOf(curve) {
  return Float32Array.from({length: 256}, (_, share) => {
    const place = share / 255 * (curve.length - 1), at = Math.min(curve.length - 2, Math.floor(place));
    const printed = curve[at] + (place - at) * (curve[at + 1] - curve[at]);
    return share === 255 ? 0 : Math.max(0, (printed - share / 255) / (1 - share / 255));
  });
}
LOADED.push('light');
