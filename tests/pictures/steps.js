// Unfolds a row of 300 events: a click shows 100 at each end, and the next one what is left.
const fold = () => [...by('tickets').querySelectorAll('.fold')].find(text => text.style.display !== 'none');
const count = () => [svg.querySelectorAll('g').length, by('tickets').querySelectorAll('text').length].join();
is('the row', '... 300 events ...', fold().textContent);
is('bars and rows', '3,8', count());
click(fold());
is('the row after a click', '... 100 events ...', fold().textContent);
is('bars and rows after a click', '103,208', count());
click(fold());
is('the row after two', undefined, fold());
is('bars and rows after two', '153,308', count());
is('what precedes the violation', 150, (click(barOf('enq 7')), svg.querySelectorAll('[data-how=before]').length));
looked();
