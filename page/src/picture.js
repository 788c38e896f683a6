// The picture of a route as the program sends it: shapes and texts in one form of SVG. Whatever else a text has, which might act or
// load something, makes that it is not shown.

import { SVG } from "./parts.js";

const SHAPES = /^(svg|title|style|g|path|rect|text)$/, LOOKS = /^(class|d|fill|height|role|text-anchor|transform|viewBox|width|x|y|data-[a-z]+)$/;
const HARMLESS_STYLE = /^(?!.*url)[-\s\w#.,:;{}()]*$/i;
const LOOK = / ([\w-]+)='([^']*)'/g;

// The element of a text. A tag, with its looks, or words between tags, come one behind the other.
export function pictureOf(text) {
  const part = /<(\/?)([a-z]+)((?: [\w-]+='[^'<>&]*')*)(\/?)>|([^<>&]+)/y;
  let root = null, inside = null;
  while (part.lastIndex < text.length) {
    const [found, closes, name, looks, isEmpty, words] = part.exec(text) || [];
    if (words) addWords(inside, words);
    else if (closes) inside = inside?.localName === name ? inside.parentNode : refusePicture();
    else {
      if (!found || !SHAPES.test(name) || (root && !inside)) refusePicture();
      const made = withLooks(document.createElementNS(SVG, name), looks);
      root ? inside.append(made) : (root = made);
      if (!isEmpty) inside = made;
    }
  }
  return root?.localName === "svg" && !inside ? root : refusePicture();
}

function addWords(inside, words) {
  if (!words.trim()) return;
  if (!inside || (inside.localName === "style" && !HARMLESS_STYLE.test(words))) refusePicture();
  inside.append(words);
}

function withLooks(made, looks) {
  for (const [, name, value] of looks.matchAll(LOOK)) {
    if (name === "xmlns" && value === SVG) continue;
    if (!LOOKS.test(name)) refusePicture();
    made.setAttribute(name, value);
  }
  return made;
}

function refusePicture() {
  throw new Error("The diagram cannot be read.");
}
