// The parts of the picture. Its headline and caption become the head of the page; its legend, the names of
// threads and the tickets become parts of their own, of which the last two stay in sight.
const ROW = 20;
const at = (element, name) => +element.getAttribute(name);
const pieces = [...svg.children];
const page = svg.querySelector('rect.page'), rowsBox = svg.querySelector('rect.rows');
const ticketWord = pieces.find(piece => piece.textContent === 'ticket');
const size = {wide: at(svg, 'width'), high: at(svg, 'height')};
const rowsTop = at(rowsBox, 'y'), namesY = at(ticketWord, 'y'), ticketsWide = at(ticketWord, 'x') + 48;

// Shows this part of a picture, from x and y on, as wide as the style says.
const crop = (picture, x, y, wide, high) => picture.setAttribute('viewBox', [x, y, wide, high].join(' '));
for (const name of ['width', 'height']) svg.removeAttribute(name);
svg.setAttribute('role', 'group');

// Returns a part of the picture, to which pieces move.
const part = (id, moved) => {
  const it = svg.cloneNode(false);
  it.id = id;
  it.append(...moved);
  return it;
};

// The words above the rows: the headline, the caption, and the signs of the legend.
const [head, ...words] = pieces.slice(pieces.indexOf(rowsBox) + 1, pieces.indexOf(ticketWord));
const caption = words.filter(piece => piece.matches('.say'));
const signs = words.filter(piece => !piece.matches('.say'));
const signsTop = at(signs[0], 'y') - 6;
document.title = by('headline').textContent = head.textContent;
by('caption').textContent = caption.map(piece => piece.textContent).join(LINE_FEED);
for (const piece of [head, ...caption]) piece.remove();

// Sets attributes of an element; returns an element of a picture.
const put = (it, attributes) => Object.keys(attributes).forEach(key => it.setAttribute(key, attributes[key]));
const element = (name, attributes, words = '') => {
  const it = document.createElementNS(svg.namespaceURI, name);
  put(it, attributes);
  it.textContent = words;
  return it;
};

// The heads of bands stand above the names of threads. If they are few, they stay in sight with these. Each
// band has its head as its tooltip.
const isText = piece => piece.matches('text') && piece !== ticketWord;
const bandHeads = pieces.filter(piece => piece.matches('text.name') && at(piece, 'y') < namesY);
for (const name of bandHeads) {
  const next = pieces.slice(pieces.indexOf(name) + 1).find(piece => piece.matches('text, g, rect'));
  if (next.matches('rect')) next.append(element('title', {}, name.textContent));
}
const headsTop = namesY - 12 - ROW * bandHeads.length;
const stuckTop = bandHeads.length > 3 ? namesY - 12 : headsTop, stuckHigh = rowsTop - 4 - stuckTop;
const stuck = pieces.filter(piece => isText(piece) && stuckTop <= at(piece, 'y') && at(piece, 'y') <= namesY);
const leads = pieces.filter(piece => piece.matches('.lead')).map(piece => piece.cloneNode(false));
const ticketTexts = pieces.filter(piece => piece.matches('text.dim') && at(piece, 'y') > rowsTop
  && at(piece, 'x') < ticketsWide - 6);

const stage = document.createElement('div');
const ticketRows = rowsBox.cloneNode(false);
const legend = part('legend', signs);
const heads = part('heads', [...leads, ...stuck]);
const corner = part('corner', [ticketWord]);
const tickets = part('tickets', [ticketRows, ...ticketTexts]);
crop(legend, 0, signsTop, 600, headsTop - signsTop);
crop(corner, 0, stuckTop, ticketsWide, stuckHigh);
stage.id = 'stage';
stage.append(svg, tickets, heads, corner);
main.append(legend, stage);
document.querySelector('header').hidden = document.querySelector('aside').hidden = false;

// Gives all parts their places in a picture of this size.
const resize = () => {
  const high = size.high - headsTop;
  crop(svg, 0, headsTop, size.wide, high);
  crop(tickets, 0, headsTop, ticketsWide, high);
  crop(heads, 0, stuckTop, size.wide, stuckHigh);
  for (const narrow of [tickets, corner]) narrow.style.width = 100 * ticketsWide / size.wide + '%';
  for (const low of [heads, corner]) low.style.marginTop = 100 * (stuckTop - headsTop) / size.wide + '%';
};
resize();

// Moves each label and its number down into sight, as far as its bar goes.
const measure = bar => {
  const frame = bar.g.querySelector('rect'), open = bar.g.querySelector('svg');
  bar.end = open ? at(open, 'height') : at(frame, 'y') + at(frame, 'height');
  bar.moved = [...bar.g.children].filter(piece => piece.matches('text, .pill'));
  bar.base = at(bar.moved[0], 'y');
};
const keepLabels = () => {
  const box = svg.getBoundingClientRect();
  const seen = headsTop + (heads.getBoundingClientRect().bottom - box.top) * size.wide / box.width;
  for (const {kind, moved, base, end} of bars) {
    if (kind === 'init') continue;
    const down = Math.max(0, Math.min(seen + 16, end - 6) - base);
    for (const piece of moved) piece.style.transform = down ? 'translateY(' + down + 'px)' : '';
  }
};
bars.forEach(measure);
main.addEventListener('scroll', () => requestAnimationFrame(keepLabels));

// Scrolls to a bar, and gives it the keys.
const showBar = bar => {
  bar.g.scrollIntoView({block: 'center', inline: 'center'});
  bar.g.focus({preventScroll: true});
};
