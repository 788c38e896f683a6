"""What of a page stands out too little: by the colours that the browser computed, and the formula of WCAG 2.2."""

# Of each text 4.5 to 1, of each shape, frame and field 3 to 1; each as what it is, the ratio, and the two colours.
FAINT = """
const canvas = document.createElement('canvas').getContext('2d', { willReadFrequently: true }), known = new Map();
const rgba = color => {
  if (!known.has(color)) {
    canvas.clearRect(0, 0, 1, 1), canvas.fillStyle = color, canvas.fillRect(0, 0, 1, 1);
    known.set(color, [...canvas.getImageData(0, 0, 1, 1).data]);
  }
  return known.get(color);
};
const light = color => { const [r, g, b] = rgba(color).map(c => (c /= 255) <= 0.03928 ? c / 12.92 : ((c + 0.055) / 1.055) ** 2.4); return 0.2126 * r + 0.7152 * g + 0.0722 * b; };
const ratio = (a, b) => { const [x, y] = [light(a), light(b)].sort((x, y) => y - x); return (x + 0.05) / (y + 0.05); };
const look = e => getComputedStyle(e), isThere = color => color !== 'none' && rgba(color)[3] > 0;
const sheet = document.querySelector('#diagram svg > rect'), inPicture = e => sheet && e.closest('#diagram svg');
const ground = e => { if (inPicture(e)) return look(sheet).fill; for (; e; e = e.parentElement) if (isThere(look(e).backgroundColor)) return look(e).backgroundColor; return '#fff'; };
const faint = [], compare = (what, e, a, b, least) => ratio(a, b) < least && faint.push([what, Number(ratio(a, b).toFixed(2)), a, b, e.outerHTML.slice(0, 120)]);
const inSight = [...document.querySelectorAll('body *')].filter(e => e.getClientRects().length && !['title', 'style'].includes(e.localName));
for (const e of inSight) {
  const style = look(e), isWritten = [...e.childNodes].some(n => n.nodeType === 3 && n.data.trim());
  if (isWritten) compare('text', e, e instanceof SVGElement ? style.fill : style.color, ground(e), 4.5);
  const around = e.localName === 'th' || e.localName === 'td' ? e : e.parentElement;
  if (!inPicture(e))
    for (const side of ['Top', 'Right', 'Bottom', 'Left'])
      if (parseFloat(style[`border${side}Width`]) && style[`border${side}Style`] !== 'none' && ratio(ground(e), ground(around)) < 3)
        compare('frame', e, style[`border${side}Color`], ground(around), 3);
  if (inPicture(e) && e.localName === 'path') compare('line', e, style.stroke, ground(e), 3);
  if (e.closest('.track') && e.localName === 'svg') compare('bar', e, style.backgroundColor, ground(e.parentElement), 3);
  if (e.closest('.track') && e.localName === 'path') compare('post', e, style.stroke, ground(e), 3);
}
// words of a row stand on its shade, and words of a piece on its colour
const ink = sheet && look(document.querySelector('#diagram text')).fill, route = document.getElementById('route');
if (sheet) {
  for (let at = 0; at < 24; at++) {
    const swatch = route.appendChild(document.createElement('span'));
    swatch.className = `swatch shade-${at}`;
    const { backgroundColor: shade } = look(swatch);
    compare('words on a shade', swatch, ink, shade, 4.5), compare('a shade', swatch, shade, look(sheet).fill, 3);
    swatch.remove();
  }
  for (const piece of document.querySelectorAll('#diagram .p path')) compare('words on a piece', piece, ink, look(piece).stroke, 4.5);
}
return faint;
"""

# The ring around what has the focus, and the ground around it.
RING = """
const e = document.activeElement, style = getComputedStyle(e);
const canvas = document.createElement('canvas').getContext('2d');
const light = color => {
  canvas.fillStyle = color, canvas.fillRect(0, 0, 1, 1);
  const [r, g, b] = [...canvas.getImageData(0, 0, 1, 1).data].map(c => (c /= 255) <= 0.03928 ? c / 12.92 : ((c + 0.055) / 1.055) ** 2.4);
  return 0.2126 * r + 0.7152 * g + 0.0722 * b;
};
let ground = e.id === 'skip' ? document.querySelector('header') : e.parentElement;
while (ground && /, 0\\)$/.test(getComputedStyle(ground).backgroundColor)) ground = ground.parentElement;
const [a, b] = [light(style.outlineColor), light(getComputedStyle(ground || document.body).backgroundColor)].sort((x, y) => y - x);
return [style.outlineStyle, parseFloat(style.outlineWidth), (a + 0.05) / (b + 0.05), e.outerHTML.slice(0, 100)];
"""

# What can be pressed and is smaller than 24 pixels, with something else so near that the finger may miss: a circle of 24 pixels around its
# middle meets another one's. Links in a line of words may be as high as the words.
SMALL = """
const middleIn = (e, box) => { const b = e.getBoundingClientRect(), x = b.left + b.width / 2, y = b.top + b.height / 2; return x >= box.left && x <= box.right && y >= box.top && y <= box.bottom; };
const inSight = e => { for (let p = e.parentElement; p; p = p.parentElement) if (getComputedStyle(p).overflowY !== 'visible' && !middleIn(e, p.getBoundingClientRect())) return false; return true; };
const targets = [...document.querySelectorAll('a[href], button, input, select, summary')].filter(e => e.getClientRects().length && !e.closest('p, td > span, #skip') && inSight(e));
const boxes = targets.map(e => e.getBoundingClientRect()), small = b => b.width < 24 || b.height < 24;
const middle = b => [b.left + b.width / 2, b.top + b.height / 2];
const meets = (a, b) => {
  const [x, y] = middle(a), [u, v] = middle(b);
  if (small(b) && Math.hypot(x - u, y - v) < 24) return true;
  return Math.hypot(Math.max(b.left - x, 0, x - b.right), Math.max(b.top - y, 0, y - b.bottom)) < 12;
};
return targets.filter((e, at) => small(boxes[at]) && targets.some((f, other) => other !== at && e.closest('li') !== (f.closest('li') || 0) && meets(boxes[at], boxes[other]))).map(e => e.outerHTML.slice(0, 120));
"""
