// Rows like `... 250 events ...` unfold: then they show the operations that the picture leaves out, each with
// a row for its call and one for its return, in the lane of its thread. A click on a row shows 100 more events
// at each of its ends, and the button 1,000 of each row: of more a browser takes seconds.
const STEP = 100, MANY = 1000;
const endText = ticketTexts.find(text => text.textContent === 'end');
const rowCount = (at(endText, 'y') + 6 - rowsTop) / ROW - 1, rowsEnd = rowsTop + ROW * (rowCount + 1);
const columns = (ticketsWide - 12) / 7;
const drawn = [...bars], shape = {...size};
const frame = svg.querySelector('g rect');
const barWide = frame ? at(frame, 'width') : 0, laneWide = barWide + 6;

// The rows of the picture. That of a fold has the events that it stands for, and shows this number of them at
// each of its ends.
const events = run.flatMap(of => [{ticket: of.call, of, end: 'call'}, {ticket: of.end, of, end: 'return'}]);
events.sort((a, b) => a.ticket - b.ticket);
const rows = Array.from({length: rowCount}, () => ({}));
for (const text of ticketTexts) {
  if (text !== endText) rows[Math.floor((at(text, 'y') - rowsTop) / ROW)].text = text;
}
let nextEvent = 0;
for (const row of rows) {
  const words = row.text ? row.text.textContent : '';
  const [, count] = /^[.]{3} ([0-9]+) events? [.]{3}$/.exec(words) || [];
  if (count) Object.assign(row, {count: +count, shown: 0, events: events.slice(nextEvent, nextEvent + +count)});
  nextEvent += /^([0-9]+|pending)$/.test(words) ? 1 : +(count || 0);
}
const folds = rows.filter(row => row.events);

// Gives each row of the picture a place, and each event of a fold: its own, if it is shown, or else one with
// all others that aren't.
const placeRows = () => {
  let place = 0;
  for (const operation of leftOut) operation.places = {};
  for (const row of rows) {
    row.first = place;
    row.hidden = 0;
    if (!row.events) place++;
    for (const [i, event] of (row.events || []).entries()) {
      event.isShown = i < row.shown || row.count - row.shown <= i;
      if (event.isShown || !row.hidden++) place++;
      event.place = place - 1;
      if (!event.isShown) row.folded = event.place;
      event.of.places[event.end] = event;
    }
  }
  return place;
};
const topOf = place => rowsTop + ROW * place;

// The pieces of the picture, each with its heights.
const heights = piece => {
  const from = ['y', 'y1', 'y2'].filter(name => piece.hasAttribute(name)).map(name => [name, at(piece, name)]);
  const isBox = piece.matches('rect, svg');
  return {piece, from, end: isBox ? at(piece, 'y') + at(piece, 'height') : null, top: at(piece, 'y')};
};
const inPicture = pieces.filter(piece => svg.contains(piece) && piece.matches('text, line, rect'));
const inBars = svg.querySelectorAll('g text, g rect, g svg');
const movable = [...inPicture, ...inBars, ticketRows, ...ticketTexts].map(heights);

// Moves them to the places of their rows.
const movePieces = places => {
  const moved = y => {
    const i = Math.min(Math.floor((y - rowsTop) / ROW), rowCount);
    return i < 0 ? y : y + ROW * ((i < rowCount ? rows[i].first : places) - i);
  };
  for (const {piece, from, end, top} of movable) {
    for (const [name, y] of from) piece.setAttribute(name, moved(y));
    if (end !== null) piece.setAttribute('height', moved(end) - moved(top));
  }
  size.high = moved(shape.high);
  return moved(rowsEnd);
};

// The lanes: those of the picture, and of the threads of operations that are shown.
const names = [...svg.children, ...heads.children].filter(it => /^thread [0-9]+$/.test(it.textContent));
const threadOf = name => name.textContent.slice(7);
const laneOf = new Map(names.map(name => [threadOf(name), at(name, 'x') - 3]));
const left = Math.min(...laneOf.values());
const placeLanes = opened => {
  const threads = [...new Set([...laneOf.keys(), ...opened.map(operation => operation.thread)])];
  threads.sort((a, b) => a - b);
  const laneX = thread => left + laneWide * threads.indexOf(thread);
  for (const name of names) name.setAttribute('x', laneX(threadOf(name)) + 3);
  for (const {g, thread} of drawn) {
    if (thread) g.setAttribute('transform', 'translate(' + (laneX(thread) - laneOf.get(thread)) + ' 0)');
  }
  for (const thread of threads.filter(it => !laneOf.has(it))) {
    for (const name of names.filter(it => threadOf(it) === threadOf(names[0]))) {
      const words = 'thread ' + thread, y = at(name, 'y');
      const made = {x: laneX(thread) + 3, y, textLength: 7 * words.length, class: 'name made'};
      name.parentNode.append(element('text', made, words));
    }
  }
  size.wide = Math.max(shape.wide, left + laneWide * threads.length + 18);
  return laneX;
};

// A bar that the picture leaves out. If its call or its return isn't shown, it begins or ends in that fold. If
// it is pending, a window cuts off its lower edge, as in the picture.
const makeBar = operation => {
  const {kind, value, ret} = operation, words = kind + (value && ' ' + nameOf(value));
  const round = kind === 'deq' || kind === 'empty' ? 9 : 0;
  const length = {textLength: Math.min(7 * words.length, barWide - 12), lengthAdjust: 'spacingAndGlyphs'};
  const box = element('rect', {class: kind, rx: round, width: barWide});
  const edges = ret === Infinity ? element('svg', {}) : box;
  if (edges !== box) edges.append(box);
  operation.g = element('g', {class: 'away'});
  operation.g.append(element('title', {}, sentence(operation, withNumber)), edges);
  operation.g.append(element('text', {class: 'label', ...length}, words));
  makeButton(operation);
};
const placeBar = ({g, ret, places}, x, end) => {
  const {call, return: back} = places, open = g.querySelector('svg');
  const y = topOf(call.place) + (call.isShown ? 3 : 12);
  const low = ret === Infinity ? end : topOf(back.place) + (back.isShown ? 17 : 8);
  if (open) put(open, {width: x + laneWide + 3, height: low});
  put(g.querySelector('rect'), {x: x + 3, y, height: low - y + (open ? 20 : 0)});
  put(g.querySelector('text'), {x: x + 9, y: y + 21});
};

// The words of a row in the column of tickets.
const inTickets = (text, place, words) => {
  put(text, {x: 6 + 7 * (columns - words.length), y: topOf(place) + 14, textLength: 7 * words.length});
  text.textContent = words;
};
const placeTickets = () => {
  for (const {text, hidden, folded, events: its} of folds) {
    text.style.display = hidden ? '' : 'none';
    if (hidden) inTickets(text, folded, '... ' + hidden + (hidden === 1 ? ' event ...' : ' events ...'));
    for (const {isShown, of, end, ticket, place} of its) {
      if (!isShown) continue;
      const made = element('text', {class: 'dim made'});
      inTickets(made, place, end === 'return' && of.ret === Infinity ? 'pending' : String(ticket));
      tickets.append(made);
    }
  }
};

// Shows what is unfolded, and nothing else of what the picture leaves out.
const arrange = () => {
  const end = movePieces(placeRows());
  const opened = leftOut.filter(({places}) => Object.values(places).some(event => event.isShown));
  for (const made of document.querySelectorAll('.made')) made.remove();
  for (const {g} of bars.splice(drawn.length)) g.remove();
  const laneX = placeLanes(opened);
  for (const operation of opened) {
    if (!operation.g) makeBar(operation);
    placeBar(operation, laneX(operation.thread), end);
    bars.push(operation);
  }
  svg.append(...opened.map(operation => operation.g));
  placeTickets();
  for (const box of [page, rowsBox, ticketRows]) box.setAttribute('width', size.wide);
  bars.forEach(measure);
  resize();
  setZoom(fits ? main.clientWidth / size.wide : zoom, fits);
  keepLabels();
  if (chosen) choose(chosen);
};
const show = count => {
  for (const row of folds) row.shown = count(row);
  arrange();
};

by('folds').hidden = !folds.length;
by('open').hidden = !run.length;
by('closed').hidden = run.length > 0;
for (const row of run.length ? folds : []) {
  row.text.classList.add('fold');
  asButton(row.text, () => show(it => it === row ? row.shown + STEP : it.shown));
}
by('unfold').addEventListener('click', () => show(row => row.shown + MANY));
by('fold').addEventListener('click', () => show(() => 0));
