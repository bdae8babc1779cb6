// Choosing an operation marks what precedes it, overlaps it and follows it, and what has its value.
const NOTHING = by('say').textContent;
const OF_DRAWN = run.length ? '' : ', of what is drawn';
let chosen = null;

const howTo = (one, bar) => {
  if (bar === one) return 'one';
  if (bar.ret < one.call) return 'before';
  return one.ret < bar.call ? 'after' : 'beside';
};

const choose = one => {
  chosen = one;
  const count = {one: 0, before: 0, beside: 0, after: 0};
  const same = all.filter(bar => bar !== one && bar.value && bar.value === one.value);
  for (const bar of all) {
    const how = howTo(one, bar);
    count[how]++;
    if (!bar.g) continue;
    bar.g.dataset.how = how;
    bar.g.toggleAttribute('data-same', same.includes(bar));
  }
  const counts = count.before + ' precede it, ' + count.beside + ' overlap it, ' + count.after + ' follow it';
  const others = same.map(bar => bar.told + (bars.includes(bar) ? '' : ' (left out)'));
  const value = others.length ? ' Of the same value: ' + others.join('; ') + '.' : '';
  by('say').textContent = one.told + ': ' + counts + OF_DRAWN + '.' + value;
};

const chooseNone = () => {
  chosen = null;
  for (const {g} of all) {
    if (!g) continue;
    delete g.dataset.how;
    g.removeAttribute('data-same');
  }
  by('say').textContent = NOTHING;
};

// Makes something a button, for the mouse and for keys.
const asButton = (it, press) => {
  it.setAttribute('tabindex', '0');
  it.setAttribute('role', 'button');
  it.addEventListener('click', press);
  it.addEventListener('keydown', event => {
    if (event.key !== 'Enter' && event.key !== ' ') return;
    event.preventDefault();
    press();
  });
};
const makeButton = bar => {
  bar.g.setAttribute('aria-label', bar.told);
  asButton(bar.g, () => choose(bar));
};
bars.forEach(makeButton);
document.addEventListener('keydown', event => event.key === 'Escape' && chooseNone());

// The numbered operations lead to their bars.
for (const bar of numbered) {
  const line = document.createElement('li'), button = document.createElement('button');
  button.textContent = sentence({...bar, number: 0}, nameOf);
  button.title = sentence(bar, withNumber);
  button.addEventListener('click', () => {
    choose(bar);
    showBar(bar);
  });
  line.append(button);
  by('lines').append(line);
}

// With NO, the others are the surroundings.
by('around').hidden = isYes || all.length === numbered.length;

// What names of values mean, by the first one that is no number.
const named = [...numbered, ...bars].find(bar => bar.value && nameOf(bar.value) !== bar.value);
if (named) {
  const [thread, number] = nameOf(named.value).split(':');
  const what = thread === 'init' ? 'initial value ' + number : 'value ' + number + ' of thread ' + thread;
  const sum = (thread === 'init' ? 64 : thread) + ' * 2^32 + ' + number + ' = ' + named.value;
  by('names').textContent = thread + ':' + number + ' is ' + what + ' (' + sum + '). Tooltips have both.';
  by('names').hidden = false;
}
