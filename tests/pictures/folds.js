// Unfolds what a page leaves out: thread 0 enqueues 4 before everything, and dequeues it at the end.
const bySide = name => (a, b) => a.getAttribute(name) - b.getAttribute(name);
const shownTexts = part => [...part.querySelectorAll('text')].filter(text => text.style.display !== 'none');
const ticketsShown = () => shownTexts(by('tickets')).sort(bySide('y')).map(text => text.textContent).join();
const threadsShown = () => shownTexts(by('heads')).filter(text => text.textContent.startsWith('thread '))
  .sort(bySide('x')).map(text => text.textContent).join();
const barsShown = () => [...svg.querySelectorAll('g')];
const high = () => +svg.getAttribute('viewBox').split(' ')[3];
const rowOf = ticket => +shownTexts(by('tickets')).find(text => text.textContent === ticket).getAttribute('y') - 14;
const edges = words => {
  const frame = barsShown().find(g => g.querySelector('title').textContent.includes(words)).querySelector('rect');
  return [+frame.getAttribute('y'), +frame.getAttribute('y') + +frame.getAttribute('height')].join();
};
const folds = () => shownTexts(by('tickets')).filter(text => text.classList.contains('fold')).sort(bySide('y'));
const FOLDED = '... 2 events ...,2,3,4,5,6,7,... 2 events ...,end';
const before = high();
is('the rows', FOLDED, ticketsShown());
is('the threads', 'thread 1,thread 2', threadsShown());
is('what says how', false, by('open').hidden);
is('that others surround the numbered ones', false, by('around').hidden);

click(folds()[0]);
is('the rows of the first fold', '0,1,2,3,4,5,6,7,... 2 events ...,end', ticketsShown());
is('the lane of its thread', 'thread 0,thread 1,thread 2', threadsShown());
is('its bar', 4, barsShown().length);
is('a row more', before + 20, high());
is('its edges', [rowOf('0') + 3, rowOf('1') + 17].join(), edges('enq 4'));
is('the edges of a bar below', [rowOf('2') + 3, rowOf('3') + 17].join(), edges('enq 7'));
const enqueue = barsShown().find(g => g.querySelector('title').textContent.includes('enq 4'));
const nameOf = thread => shownTexts(by('heads')).find(text => text.textContent === 'thread ' + thread).getAttribute('x');
is('it stands below its thread', nameOf(0), enqueue.querySelector('rect').getAttribute('x'));
is('a lane apart from the next', '76', String(nameOf(1) - nameOf(0)));
is('its tooltip', 'thread 0: enq 4, tickets 0 to 1', enqueue.querySelector('title').textContent);
click(enqueue);
is('what is said of it', 'thread 0: enq 4, tickets 0 to 1: 0 precede it, 0 overlap it, 4 follow it. '
  + 'Of the same value: thread 0: deq 4, tickets 8 to 9 (left out).', by('say').textContent);

key(folds()[0], 'Enter');
is('the rows of both', '0,1,2,3,4,5,6,7,8,9,end', ticketsShown());
is('what has its value', 'deq 4', [...svg.querySelectorAll('[data-same] .label')].map(text => text.textContent).join());
is('what is said of both', 'thread 0: enq 4, tickets 0 to 1: 0 precede it, 0 overlap it, 4 follow it. '
  + 'Of the same value: thread 0: deq 4, tickets 8 to 9.', by('say').textContent);
isReadable('with what was left out');
by('fold').click();
is('the rows as before', FOLDED, ticketsShown());
is('the threads as before', 'thread 1,thread 2', threadsShown());
is('the bars as before', 3, barsShown().length);
is('the height as before', before, high());
by('unfold').click();
is('all rows', '0,1,2,3,4,5,6,7,8,9,end', ticketsShown());
is('all bars', 5, barsShown().length);
looked();
