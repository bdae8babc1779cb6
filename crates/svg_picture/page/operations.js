// The operations and the initial values of the picture, as the titles of their bars say.
const by = id => document.getElementById(id);
const main = document.querySelector('main');
const svg = main.querySelector('svg');
const LINE_FEED = String.fromCharCode(10);

// Returns the name of a value, as the picture has it: 4:5 is value 5 of thread 4, init:3 an initial value.
// Values of thread 0, and those that no recorder makes, are numbers.
const nameOf = value => {
  const thread = BigInt(value) >> 32n, number = BigInt(value) % (1n << 32n);
  if (thread === 64n) return 'init:' + number;
  return 0n < thread && thread < 64n ? thread + ':' + number : value;
};

// Returns the name with the number that it stands for, if that is another.
const withNumber = value => nameOf(value) === value ? value : nameOf(value) + ' (' + value + ')';

// Returns what the title of a bar says. An initial value was there before all tickets; a pending call
// never returns.
const OPERATION = /^thread ([0-9]+): (enq|deq|not|empty) ?([0-9]*), tickets? ([0-9]+)(?: to ([0-9]+))?/;
const read = title => {
  const number = +(/, number ([0-9]+)$/.exec(title) || [])[1] || 0;
  const initial = /^init ([0-9]+)/.exec(title);
  if (initial) return {number, call: -1, ret: -1, kind: 'init', value: initial[1]};
  const [, thread, kind, value, call, ret] = OPERATION.exec(title);
  return {number, call: +call, ret: ret ? +ret : Infinity, thread, kind, value};
};

// Returns the sentence for an operation, with its value as `write` writes it.
const sentence = (bar, write) => {
  const number = bar.number ? ', number ' + bar.number : '';
  const value = bar.value && write(bar.value);
  if (bar.kind === 'init') {
    return (value.startsWith('init:') ? '' : 'init ') + value + ', in the queue first' + number;
  }
  const what = 'thread ' + bar.thread + ': ' + bar.kind + (value ? ' ' + value : '');
  if (bar.ret === Infinity) return what + ', ticket ' + bar.call + ', never returned' + number;
  return what + ', tickets ' + bar.call + ' to ' + bar.ret + number;
};

// The bars, each with its element. Its title, which is its tooltip, gets its value's name and number.
const bars = [...svg.querySelectorAll('g')].map(g => {
  const title = g.querySelector('title');
  const bar = {g, ...read(title.textContent)};
  title.textContent = sentence(bar, withNumber);
  return {...bar, told: sentence(bar, nameOf)};
});

// The operations of the history that the picture leaves out, each a line of `run`: its tickets, its thread,
// what it did, its value, and `pending` if a completion gave its return. A history that is too long has none.
const lines = by('run').textContent.trim().split(LINE_FEED).filter(line => line);
const run = lines.map(line => {
  const [call, end, thread, kind, ...rest] = line.split(' ');
  const pending = rest[rest.length - 1] === 'pending';
  const value = kind === 'empty' ? '' : rest[0];
  return {call: +call, end: +end, ret: pending ? Infinity : +end, thread, kind, value, number: 0};
});
const calls = new Set(bars.map(bar => bar.call));
const leftOut = run.filter(operation => !calls.has(operation.call));
for (const operation of leftOut) operation.told = sentence(operation, nameOf);
const all = [...bars, ...leftOut];

// Those of the verdict, in its order.
const numbered = bars.filter(bar => bar.number).sort((a, b) => a.number - b.number);
const headline = svg.querySelector('title').textContent;
const isYes = headline.startsWith('YES');
