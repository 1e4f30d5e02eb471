// The board is whole without this. This keeps it new without moving what somebody reads or types, and adds keys.
'use strict';
const EVERY = 2000, STALE = 20000, PATIENCE = 8000;
let tag = '', heard = Date.now(), old = false;

const same = (one, other) => one.nodeName === other.nodeName && (one.id || '') === (other.id || '');

// A form stays as it is while somebody is in it or has typed something.
function inUse(form) {
  if (form.contains(document.activeElement)) return true;
  return [...form.querySelectorAll('input:not([type=hidden]), select')].some(field => field.value !== '');
}

// Makes an element what the fresh one is, by the fewest changes: what stays the same keeps its focus and place.
function renew(now, fresh) {
  if (now.isEqualNode(fresh)) return;
  if (now.nodeType !== Node.ELEMENT_NODE) { now.nodeValue = fresh.nodeValue; return; }
  if (now.id === 'newer') return;
  if (now.nodeName === 'FORM' && inUse(now)) {
    const token = now.querySelector('[name=token]'), next = fresh.querySelector('[name=token]');
    if (token && next) token.value = next.value;
    return;
  }
  for (const {name} of [...now.attributes]) if (!fresh.hasAttribute(name) && name !== 'open') now.removeAttribute(name);
  for (const {name, value} of fresh.attributes) if (now.getAttribute(name) !== value) now.setAttribute(name, value);
  const mine = [...now.childNodes], next = [...fresh.childNodes];
  if (mine.length === next.length && mine.every((node, at) => same(node, next[at]))) {
    mine.forEach((node, at) => renew(node, next[at]));
    return;
  }
  const inside = now.contains(document.activeElement) && document.activeElement.closest('[id]');
  const name = inside && inside.id, link = inside && document.activeElement.getAttribute('href');
  const named = new Map(mine.filter(node => node.id).map(node => [node.id, node]));
  now.replaceChildren(...next.map(node => {
    const kept = node.id && named.get(node.id);
    if (!kept || kept.nodeName !== node.nodeName) return document.importNode(node, true);
    renew(kept, node);
    return kept;
  }));
  const again = name && document.getElementById(name);
  if (!again || again.contains(document.activeElement)) return;
  const target = link && [...again.querySelectorAll('a')].find(each => each.getAttribute('href') === link) || again;
  target.focus({preventScroll: true});
}

// What somebody has before him on a pair's page is bound to its forms: what is newer is announced, and not put there.
function isOther(fresh) {
  const work = document.getElementById('work'), next = fresh.getElementById('work');
  return work !== null && next !== null && work.dataset.seen !== next.dataset.seen &&
    work.querySelector('form') !== null;
}

function take(text) {
  const fresh = new DOMParser().parseFromString(text, 'text/html');
  const held = document.activeElement.closest('main [id]') || [...document.querySelectorAll('main [id]:hover')].pop();
  const top = held && held.getBoundingClientRect().top;
  if (isOther(fresh)) {
    old = true;
    document.getElementById('newer').hidden = false;
  }
  if (old) {
    for (const id of ['work', 'facts']) fresh.getElementById(id)?.replaceWith(document.getElementById(id).cloneNode(true));
  }
  for (const part of ['.bar', 'main']) {
    const now = document.querySelector(part), next = fresh.querySelector(part);
    if (now && next) renew(now, next);
  }
  const word = document.getElementById('not-live'), next = fresh.getElementById('not-live');
  if (word) word.remove();
  if (next) document.querySelector('.bar').after(document.importNode(next, true));
  document.body.className = fresh.body.className + (keysOn() ? ' with-keys' : '');
  document.title = fresh.title;
  const after = held && held.id && document.getElementById(held.id);
  if (after) scrollBy(0, after.getBoundingClientRect().top - top);
}

async function update() {
  try {
    const answer = await fetch(location.href, {
      cache: 'no-store', headers: tag ? {'If-None-Match': tag} : {}, signal: AbortSignal.timeout(PATIENCE)});
    if (answer.status !== 304) {
      if (!answer.ok) throw new Error(answer.status);
      take(await answer.text());
      tag = answer.headers.get('ETag') || '';
    }
    const clock = document.getElementById('clock');
    if (clock && answer.headers.get('X-As-Of')) clock.textContent = answer.headers.get('X-As-Of').slice(0, clock.textContent.length);
    if (answer.headers.get('X-Live') === '1') heard = Date.now();
  } catch { /* The age says it. */ }
  document.body.classList.toggle('stale', Date.now() - heard > STALE || document.getElementById('not-live') !== null);
  setTimeout(update, EVERY);
}
setTimeout(update, EVERY);

// Letters do something only while they are switched on, and never while somebody types.
const keys = document.getElementById('keys');
const keysOn = () => keys !== null && keys.checked;
if (keys) {
  const apply = () => document.body.classList.toggle('with-keys', keys.checked);
  try { keys.checked = localStorage.getItem('board-keys') !== 'off'; } catch { /* There is no storage. */ }
  keys.addEventListener('change', () => {
    try { localStorage.setItem('board-keys', keys.checked ? 'on' : 'off'); } catch { /* There is no storage. */ }
    apply();
  });
  apply();
  document.addEventListener('keydown', event => {
    if (!keys.checked || event.ctrlKey || event.altKey || event.metaKey) return;
    if (event.target.matches('select, textarea, input:not([type=checkbox])')) return;
    const target = [...document.querySelectorAll('[data-key]')].find(each => each.dataset.key === event.key.toLowerCase());
    if (!target) return;
    event.preventDefault();
    if (target.nodeName === 'BUTTON') target.focus(); else target.click();
  });
}
