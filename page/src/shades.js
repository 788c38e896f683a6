// One shade for each value of a class, as long as the page is open.

const SHADES = 24;
const classShades = new Map();

// The style sheet says the two depths for each scheme: such that words stand out on the shade, and the shade on its ground.
const shade = at => `oklch(var(--depth-${at % 2}) 0.09 ${Math.round(255 + at * 137.5) % 360})`;

export function shadeOf(name, value) {
  const values = classShades.get(name) || classShades.set(name, new Map()).get(name);
  if (!values.has(value)) values.set(value, values.size % SHADES);
  return `shade-${values.get(value)}`;
}

export function makeShades() {
  const sheet = new CSSStyleSheet();
  for (let at = 0; at < SHADES; at++) sheet.insertRule(`#route .shade-${at} { stroke: ${shade(at)}; stroke-opacity: 1; background: ${shade(at)}; }`);
  document.adoptedStyleSheets = [sheet];
}
