// Zoom by buttons and keys, and dragging.
const LEAST = 0.1, MOST = 4;
let zoom = 1, fits = false;

// Draws the picture at this size.
const setZoom = (next, isFit) => {
  zoom = next;
  fits = isFit;
  stage.style.width = size.wide * zoom + 'px';
  by('actual').textContent = Math.round(100 * zoom) + '%';
  by('fit').setAttribute('aria-pressed', fits);
};

// Zooms about the middle of what is in sight.
const zoomTo = (wanted, isFit = false) => {
  const next = Math.min(Math.max(wanted, LEAST), MOST), ratio = next / zoom;
  const middle = {x: main.clientWidth / 2, y: main.clientHeight / 2 - stage.offsetTop};
  const x = (main.scrollLeft + middle.x) * ratio - middle.x;
  const y = (main.scrollTop + middle.y) * ratio - middle.y;
  setZoom(next, isFit);
  main.scrollTo(x, y);
  keepLabels();
};
const ZOOMS = {
  smaller: () => zoomTo(zoom / 1.25),
  actual: () => zoomTo(1),
  larger: () => zoomTo(zoom * 1.25),
  fit: () => zoomTo(main.clientWidth / size.wide, true),
};
const KEYS = {'-': 'smaller', '0': 'actual', '+': 'larger', '=': 'larger', f: 'fit'};
for (const id of Object.keys(ZOOMS)) by(id).addEventListener('click', ZOOMS[id]);
document.addEventListener('keydown', event => {
  const isOther = event.ctrlKey || event.metaKey || event.altKey || event.target === by('text');
  if (KEYS[event.key] && !isOther) ZOOMS[KEYS[event.key]]();
});
addEventListener('resize', () => fits ? ZOOMS.fit() : keepLabels());
setZoom(1, false);
keepLabels();

// The picture follows a mouse that drags it. A drag is no click.
let drag = null, dragged = false;
main.addEventListener('pointerdown', event => {
  dragged = false;
  if (event.pointerType !== 'mouse' || event.button !== 0 || event.target === main) return;
  drag = {x: event.clientX, y: event.clientY, left: main.scrollLeft, top: main.scrollTop};
});
addEventListener('pointermove', event => {
  if (!drag) return;
  const x = event.clientX - drag.x, y = event.clientY - drag.y;
  dragged ||= Math.hypot(x, y) > 4;
  main.classList.toggle('dragged', dragged);
  if (dragged) main.scrollTo(drag.left - x, drag.top - y);
});
addEventListener('pointerup', () => {
  main.classList.remove('dragged');
  drag = null;
});
main.addEventListener('click', event => dragged && event.stopPropagation(), true);
