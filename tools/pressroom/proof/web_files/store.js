// The proof's manifest and the blocks of its plates. Each is a script that hands over a text with its sum, since
// a page that is opened from a disk can't fetch files. What doesn't arrive whole is a problem, and never drawn.
'use strict';
const LOADED = [];
let PROOF = null, LETTERS = [];
// The most bytes of unpacked blocks that are kept.
const MOST_KEPT = 1 << 28;
const CRC = Uint32Array.from({length: 256}, (_, byte) => {
  for (let bit = 0; bit < 8; bit++) byte = byte & 1 ? byte >>> 1 ^ 0xEDB88320 : byte >>> 1;
  return byte;
});
function sumOf(bytes) {
  let sum = -1;
  for (let i = 0; i < bytes.length; i++) sum = sum >>> 8 ^ CRC[(sum ^ bytes[i]) & 255];
  return ((sum ^ -1) >>> 0).toString(16).padStart(8, '0');
}
const bytesOf = text => Uint8Array.from(text, letter => letter.charCodeAt(0));
window.proofManifest = (sum, text) => {
  if (sumOf(bytesOf(text)) !== sum) return;
  PROOF = JSON.parse(text);
  LETTERS = Object.keys(PROOF.inks);
};

// The files that didn't arrive whole, by the key of their plate: each with its reason.
const problems = new Map();
let tellProblems = () => {};
function addProblem(key, name, reason) {
  if (!problems.has(key)) problems.set(key, new Map());
  problems.get(key).set(name, reason);
  tellProblems();
}

const arrived = new Map(), kept = new Map();
let keptBytes = 0;
window.proofBlock = (name, text) => arrived.set(name, text);
function loadScript(path) {
  return new Promise(resolve => {
    const script = document.createElement('script');
    script.src = path;
    script.onload = () => resolve(true);
    script.onerror = () => resolve(false);
    document.head.append(script);
    script.dataset.block = path;
  }).finally(() => {
    for (const script of document.head.querySelectorAll('script[data-block]'))
      if (script.dataset.block === path) script.remove();
  });
}
// The packed bytes of a file if its sum is right, otherwise the reason why not.
async function fetchBytes(path, name, sum) {
  const there = await loadScript(path), text = arrived.get(name);
  arrived.delete(name);
  if (!there) return 'is missing';
  if (text === undefined) return 'is cut or of another proof';
  let bytes = null;
  try { bytes = bytesOf(atob(text)); } catch { return 'is damaged'; }
  return sumOf(bytes) === sum ? bytes : 'is damaged or of another proof';
}
async function unpacked(bytes) {
  const stream = new Blob([bytes]).stream().pipeThrough(new DecompressionStream('deflate'));
  return new Uint8Array(await new Response(stream).arrayBuffer());
}
async function fetchBlock(key, name, sum) {
  let found = await fetchBytes(`plates/${key}/${name}.js`, `${key}/${name}`, sum);
  if (typeof found !== 'string') found = await unpacked(found).catch(() => 'is damaged');
  if (typeof found !== 'string') return found;
  addProblem(key, name, found);
  return null;
}
// A block by its name: its bytes, `undefined` where nothing prints, or null if it didn't arrive whole.
function loadBlock(key, sums, name) {
  if (!sums[name]) return Promise.resolve(undefined);
  const full = `${key}/${name}`, held = kept.get(full);
  if (held) {
    kept.delete(full);
    kept.set(full, held);
    return held.bytes;
  }
  const entry = {size: 0, bytes: fetchBlock(key, name, sums[name])};
  kept.set(full, entry);
  entry.bytes.then(bytes => {
    entry.size = bytes ? bytes.length : 0;
    keptBytes += entry.size;
    for (const [old, {size}] of kept) {
      if (keptBytes <= MOST_KEPT) break;
      if (old === full || !size) continue;
      kept.delete(old);
      keptBytes -= size;
    }
  });
  return entry.bytes;
}

// The counts of a plate, once they are loaded: of squares, row by row, and of ink keys.
const counts = {};
async function loadCounts(key) {
  if (counts[key] !== undefined) return;
  const bytes = await loadBlock(key, PROOF.plates[key].sums, 'counts');
  counts[key] = null;
  if (!bytes) return;
  const end = bytes.indexOf(10), head = JSON.parse(new TextDecoder().decode(bytes.subarray(0, end)));
  const cells = new Uint16Array(head.rows * head.columns);
  for (let i = 0; i < cells.length; i++) cells[i] = bytes[end + 1 + 2 * i] | bytes[end + 2 + 2 * i] << 8;
  counts[key] = {...head, cells};
}
const isWhole = key => !problems.has(key);
LOADED.push('store');
