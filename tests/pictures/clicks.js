// Clicks and looks at the page of examples/never-empty.
const buttons = [...by('lines').querySelectorAll('button')];

is('what is shown', false, document.querySelector('aside').hidden);
is('the headline', 'NO: an empty answer while the queue was never empty', by('headline').textContent);
is('the lines', 'thread 1: empty, tickets 2 to 9; thread 0: enq 7, tickets 0 to 1; thread 0: deq 7, tickets 5 to 6; '
  + 'thread 0: enq 9, tickets 3 to 4; thread 0: deq 9, tickets 10 to 11', buttons.map(b => b.textContent).join('; '));
is('what names mean', true, by('names').hidden);
is('that each is numbered', true, by('around').hidden);
is('what is copied', REPORT, by('text').value);
is('what is asked for elsewhere', 0, performance.getEntriesByType('resource').filter(e => !e.name.startsWith('data:')).length);
is('its background', BACKGROUND, getComputedStyle(svg).backgroundColor);

// The verdict stands first, in a narrow window too, and the page needs no scrolling.
for (const part of [main, document.querySelector('aside')]) is('the headline is first', true, box(by('headline')).bottom <= box(part).top);
is('the page is as wide as the window', true, document.documentElement.scrollWidth <= innerWidth);

// The empty answer: 7 was enqueued before it, 9 was dequeued after it, and the others overlap it.
isReadable('with nothing chosen');
buttons[0].click();
is('the chosen one', 'one', how('empty'));
is('what precedes it', 'before', how('enq 7'));
is('what overlaps it', 'beside,beside', [how('enq 9'), how('deq 7')].join());
is('what follows it', 'after', how('deq 9'));
is('what is said', 'thread 1: empty, tickets 2 to 9, number 1: 1 precede it, 2 overlap it, 1 follow it.', by('say').textContent);
is('its value', 0, svg.querySelectorAll('[data-same]').length);
const bar = box(document.activeElement);
is('the chosen one is in sight', true, bar.top < box(main).bottom && bar.bottom > box(by('heads')).bottom && bar.left < box(main).right);

// By keys: the first bar is that of enq 7, which precedes all others.
const first = bars[0];
is('the role of a bar', 'button', first.getAttribute('role'));
key(first, 'Enter');
is('what a key chooses', 'one', first.dataset.how);
is('what follows the first', 'after,after,after,after', ['empty', 'enq 9', 'deq 7', 'deq 9'].map(how).join());
is('what has its value', 'deq 7', [...svg.querySelectorAll('[data-same] .label')].map(text => text.textContent).join());
is('what is said of its value', 'thread 0: enq 7, tickets 0 to 1, number 2: 0 precede it, 0 overlap it, 4 follow it. '
  + 'Of the same value: thread 0: deq 7, tickets 5 to 6, number 3.', by('say').textContent);
key(document, 'Escape');
is('what Escape leaves', undefined, first.dataset.how);
is('of the same value it leaves', 0, svg.querySelectorAll('[data-same]').length);
for (const chosen of bars) {
  click(chosen);
  isReadable('with ' + chosen.querySelector('title').textContent);
}

// Zoom: the picture is 588 pixels wide.
const wide = () => Math.round(box(svg).width);
is('its own width', 588, wide());
by('larger').click();
is('larger', 735, wide());
key(document, '-');
is('smaller', 588, wide());
key(document, 'f');
is('it fits', main.clientWidth, wide());
is('the button says so', 'true', by('fit').getAttribute('aria-pressed'));
by('actual').click();
is('the actual size', 588, wide());
is('the other button says so', 'false', by('fit').getAttribute('aria-pressed'));

// Tickets and names of threads stay in sight, and so does the label of a bar that begins above; here is the fourfold size.
for (let i = 0; i < 9; i++) key(document, '+');
is('the greatest size', 4 * 588, wide());
const empty = barOf('empty');
main.scrollTo(300, main.scrollTop + box(empty).top - box(by('heads')).bottom + 200);
key(document, '+');
is('the tickets stay', box(main).left, box(by('tickets')).left);
is('the names stay', box(main).top, box(by('heads')).top);
is('the panel stays', true, box(by('zoom')).top >= 0 && box(by('zoom')).bottom <= innerHeight);
const label = box(empty.querySelector('text'));
is('the bar begins above', true, box(empty.querySelector('rect')).top < box(by('heads')).bottom);
is('its label is in sight', true, label.top >= box(by('heads')).bottom && label.bottom <= box(empty.querySelector('rect')).bottom);
looked();
