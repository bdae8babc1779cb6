// What the scripts that look at pages share: `is` notes what is not as it should be, and `looked` writes that into the page's title.
const wrong = [];
const is = (what, wanted, found) => {
  if (wanted !== found) wrong.push(what + ': wanted ' + wanted + ', found ' + found);
};
const looked = () => { document.title = 'clicked: ' + (wrong.join('; ') || 'all as it should be'); };
const by = id => document.getElementById(id);
const main = document.querySelector('main');
const svg = document.querySelector('#stage > svg');
const bars = [...svg.querySelectorAll('g')];
const barOf = words => bars.find(g => g.querySelector('title').textContent.includes(words));
const how = words => barOf(words).dataset.how;
const click = element => element.dispatchEvent(new MouseEvent('click', {bubbles: true}));
const key = (element, name) => element.dispatchEvent(new KeyboardEvent('keydown', {key: name, bubbles: true}));
const box = element => element.getBoundingClientRect();

// The contrast of two colours, as WCAG 2 defines it: of relative luminances, from 1 to 21.
const luminance = colour => {
  const parts = /rgba?\(([0-9.]+), ([0-9.]+), ([0-9.]+)(?:, 1)?\)$/.exec(colour).slice(1).map(part => part / 255);
  const [r, g, b] = parts.map(part => part <= 0.04045 ? part / 12.92 : ((part + 0.055) / 1.055) ** 2.4);
  return 0.2126 * r + 0.7152 * g + 0.0722 * b;
};
const contrast = (one, other) => {
  const [darker, lighter] = [luminance(one), luminance(other)].sort((a, b) => a - b);
  return (lighter + 0.05) / (darker + 0.05);
};

// The colours on which a text stands: that of its bar, its pill or its element; else those of the page and of its tinted rows.
const style = element => getComputedStyle(element);
const PAPERS = [style(svg.querySelector('.page')).fill, style(svg.querySelector('rect.row')).fill];
const under = text => {
  const own = text.matches('.pick') ? [text.previousElementSibling]
    : text.closest('g') ? [text.closest('g').querySelector('rect')] : [];
  if (text.closest('svg')) return own.map(it => style(it).fill).find(fill => fill.startsWith('rgb(')) || PAPERS;
  for (let it = text; it; it = it.parentElement) {
    if (style(it).backgroundColor !== 'rgba(0, 0, 0, 0)') return style(it).backgroundColor;
  }
  return PAPERS;
};
const isReadable = when => {
  const texts = [...document.querySelectorAll('svg text, h1, p, summary, button, span, li, textarea')];
  for (const text of texts) {
    const colour = text.closest('svg') ? style(text).fill : style(text).color;
    for (const paper of [under(text)].flat()) {
      is('a contrast of 4.5, ' + when + ': ' + text.textContent.slice(0, 20), true, contrast(colour, paper) >= 4.5);
    }
  }
};
