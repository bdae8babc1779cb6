// What shows the verdict, as text: a history of its operations alone, and the verdict; or a pending text,
// if a call never returned.
const KINDS = {'not there': 'VFresh', 'twice': 'VRepeat', 'of their enqueues': 'VOrd', 'never empty': 'VWit'};

const lineOf = bar => bar.kind === 'init' ? 'init ' + bar.value
  : [bar.call, bar.ret, bar.thread, bar.kind, bar.value].join(' ').trim();

const verdict = () => {
  const kind = Object.keys(KINDS).find(end => headline.endsWith(end));
  return [isYes ? 'YES' : 'NO ' + KINDS[kind], ...numbered.map(lineOf)];
};

// The lines of the events of a bar, each after its ticket.
const eventsOf = bar => {
  const isEnqueue = bar.kind === 'enq' || bar.kind === 'not';
  const call = [bar.call, bar.thread, isEnqueue ? 'call-enq ' + bar.value : 'call-deq'];
  const ret = [bar.ret, bar.thread, bar.kind === 'deq' ? 'ret-deq ' + bar.value : 'ret-' + bar.kind];
  return bar.ret < Infinity ? [call, ret] : [call];
};

const asText = () => {
  const shown = bars.filter(bar => isYes || bar.number);
  const values = shown.filter(bar => bar.kind === 'init').map(bar => bar.value);
  const operations = shown.filter(bar => bar.kind !== 'init');
  const events = operations.flatMap(eventsOf).sort((a, b) => a[0] - b[0]);
  const open = operations.filter(bar => bar.ret === Infinity).length;
  const name = open ? 'fifo-pending ' : 'fifo-history ';
  const head = values.length ? [name + 2, 'initial ' + values.length, ...values] : [name + 1];
  const foot = open ? ['open ' + open, 'end ' + events.length] : ['end ' + events.length, ...verdict()];
  return [...head, ...events.map(event => event.join(' ')), ...foot, ''].join(LINE_FEED);
};

by('text').value = asText();
by('copy').addEventListener('click', () => {
  by('text').select();
  document.execCommand('copy');
});
