// The index of the edition.
'use strict';
function showIndex() {
  leavePair();
  byId('pair').hidden = true;
  byId('edition').hidden = false;
  document.title = `Edition ${PROOF.edition}`;
}
function fillIndex() {
  const sites = Object.keys(PROOF.sites), pairs = new Set(PROOF.views.map(view => view.pair));
  byId('edition-name').textContent = `Edition ${PROOF.edition}`;
  const plates = Object.keys(PROOF.plates).length, word = sites.length === 1 ? 'site' : 'sites';
  const line = `${pairs.size} pairs, ${plates} distinct plates, ${word} ${sites.join(', ')}`;
  byId('edition-line').textContent = line;
  byId('damaged').hidden = !PROOF.damaged.length;
  const list = byId('damaged').querySelector('ul');
  list.append(...PROOF.damaged.map(({path, reason}) => make('li', {}, make('b', {}, path), `: ${reason}`)));
  byId('cards').append(...PROOF.views.map(card));
  if (PROOF.compared) fillChanged();
}
function fillChanged() {
  byId('changed').hidden = false;
  const list = byId('changed').querySelector('ul');
  list.append(...PROOF.views.filter(view => view.state !== 'same').map(changeLine));
  list.append(...PROOF.gone.map(({pair, site}) => make('li', {}, `${pair} at ${site}: is gone`)));
  if (!list.children.length) list.replaceWith(make('p', {}, 'No dot differs.'));
}
function card(view, number) {
  const site = view.sites[0], inks = Object.keys(view.plates), damaged = Object.keys(view.damaged);
  const pages = (view.pages[site] || []).map(page => page.name || `page ${page.number}`);
  const chips = inks.map(letter => {
    const mark = chip(letter);
    mark.title = PROOF.inks[letter].name;
    return mark;
  });
  const sites = view.sites.map(name => PROOF.sites[name] ? `${name} (zone ${PROOF.sites[name]})` : name);
  const badges = make('div', {class: 'row'});
  if (view.state && view.state !== 'same') badges.append(make('span', {class: 'badge'}, view.state));
  if (damaged.length) badges.append(make('span', {class: 'badge damage'}, `damaged: ${damaged.join(' ')}`));
  const head = make('div', {class: 'head'}, make('b', {}, view.pair), ...chips);
  const about = make('div', {class: 'about'}, head, make('div', {}, pages.join(' | ')),
    make('div', {class: 'small'}, sites.join(', ')));
  if (badges.children.length) about.append(badges);
  const label = `Pair ${view.pair}, pages ${pages.join(' and ')}, inks ${inks.join(' ')}, ` +
    `sites ${sites.join(', ')}`;
  return make('a', {class: 'card', href: linkTo(view, site), 'aria-label': label},
    make('div', {class: 'picture'}, thumb(view, number)), about);
}
function thumb(view, number) {
  if (!view.thumb) return 'no plate';
  const {width, length} = view.thumb, words = `Pair ${view.pair} as ${view.sites.join(', ')} print it`;
  const image = make('img', {alt: words, width, height: length});
  fetchBytes(`thumbs/${number}.js`, `thumbs/${number}`, view.thumb.sum).then(bytes => {
    if (typeof bytes === 'string') image.replaceWith(make('p', {class: 'bad notice'}, `The picture ${bytes}.`));
    else image.src = URL.createObjectURL(new Blob([bytes], {type: 'image/jpeg'}));
  });
  return image;
}
function changeText({dots, fault}) {
  return fault || `${grouped(dots[0])} dots came, ${grouped(dots[1])} went`;
}
function changeLine(view) {
  const href = linkTo(view, view.sites[0], {show: 'changes'});
  const link = make('a', {href}, `${view.pair} at ${view.sites.join(', ')}`);
  const inks = Object.entries(view.changes).filter(([, change]) => change.fault || change.dots.some(Boolean));
  const texts = inks.map(([letter, change]) => `${letter} ${changeText(change)}`);
  return make('li', {}, link, view.state === 'new' ? ': is new' : `: ${texts.join('; ')}`);
}
LOADED.push('index_page');
