// What didn't arrive whole: said above the plates and on the index. An ink that isn't whole has no numbers, and where one
// is missing there are no sums and no limit.
'use strict';
const lettersOf = view => LETTERS.filter(letter => problems.has(view.plates[letter]) ||
  ['came', 'went'].some(kind => problems.has(`${((view.changes || {})[letter] || {}).key}-${kind}`)));
const isInkWhole = letter => !now.view.plates[letter] || isWhole(now.view.plates[letter]);
const namesOf = letters => letters.map(letter => PROOF.inks[letter].name).join(', ');
function showProblems() {
  const files = [...problems].flatMap(([key, names]) => [...names].map(([name, reason]) => `${key}/${name}.js ${reason}`));
  byId('not-whole').hidden = !files.length;
  byId('not-whole').querySelector('ul').replaceChildren(...files.slice(0, 20).map(text => make('li', {}, text)),
    ...files.length > 20 ? [make('li', {}, `and ${files.length - 20} more`)] : []);
  if (!now.view) return;
  const lost = lettersOf(now.view), those = lost.length === 1 ? 'This ink is' : 'These inks are';
  byId('trouble').hidden = !lost.length;
  byId('trouble').textContent = `${namesOf(lost)}: files of this proof are missing or damaged. ${those} hatched or absent ` +
    'below, and sums and limit are switched off. Copy the whole proof again, and reload this page.';
  for (const letter of LETTERS) {
    const row = byId(`ink-${letter}`);
    if (row) row.classList.toggle('lost', lost.includes(letter));
  }
  if (lost.some(letter => LIMITED.includes(letter))) now.limit = false;
  byId('show-limit').disabled = lost.some(letter => LIMITED.includes(letter));
  press('show-limit', now.limit);
  if (map) fillCounts();
}
LOADED.push('trust');
