// Clicks and looks at a page with an initial value init:3, 2^38 + 3, before which 4:5, 4 * 2^32 + 5, was dequeued.
const buttons = [...by('lines').querySelectorAll('button')];
is('the lines', 'init:3, in the queue first; thread 4: enq 4:5, tickets 0 to 1; thread 1: deq 4:5, tickets 2 to 3',
  buttons.map(b => b.textContent).join('; '));
is('the tooltip of a line', 'thread 4: enq 4:5 (17179869189), tickets 0 to 1, number 2', buttons[1].title);
is('the tooltips of bars', 'thread 4: enq 4:5 (17179869189), tickets 0 to 1, number 2; thread 1: deq 4:5 (17179869189), '
  + 'tickets 2 to 3, number 3; init:3 (274877906947), in the queue first, number 1',
  bars.map(g => g.querySelector('title').textContent).join('; '));
is('what names mean', 'init:3 is initial value 3 (64 * 2^32 + 3 = 274877906947). Tooltips have both.', by('names').textContent);
is('that they are explained', false, by('names').hidden);
is('what is copied', REPORT, by('text').value);
buttons[2].click();
is('what has its value', 'enq 4:5', [...svg.querySelectorAll('[data-same] .label')].map(text => text.textContent).join());
is('what precedes it', 'before,before', [how('init:3'), how('enq 4:5')].join());
is('what is said', 'thread 1: deq 4:5, tickets 2 to 3, number 3: 2 precede it, 0 overlap it, 0 follow it. '
  + 'Of the same value: thread 4: enq 4:5, tickets 0 to 1, number 2.', by('say').textContent);
isReadable('with a dequeue');
looked();
