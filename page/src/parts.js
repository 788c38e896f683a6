// Parts of the page: elements are made here, and all that comes from elsewhere becomes text.

export const SVG = "http://www.w3.org/2000/svg";
export const SIDES = { L: "left", R: "right", B: "both" };
export const $ = id => document.getElementById(id);

export function make(tag, text = "", settings = {}) {
  return Object.assign(document.createElement(tag), { textContent: text }, settings);
}

export function drawn(tag, settings, text = "") {
  const made = document.createElementNS(SVG, tag);
  for (const [name, value] of Object.entries(settings)) made.setAttribute(name, value);
  made.textContent = text;
  return made;
}

export function linkTo(address, text) {
  return make("a", text, { href: `#${address}` });
}

export function rowOf(cells) {
  const row = make("tr");
  for (const cell of cells) Object.assign(row.insertCell(), { className: typeof cell === "number" ? "number" : "" }).append(cell);
  return row;
}

export function tableOf(heads, rows) {
  const table = make("table"), top = table.createTHead().insertRow();
  for (const head of heads) top.append(make("th", head, { scope: "col" }));
  table.createTBody().append(...rows);
  return table;
}

export function say(id, text, isBad = false) {
  $(id).textContent = isBad ? `Error: ${text}` : text;
  $(id).classList.toggle("bad", isBad);
}

// A field says whether what stands in it is wrong, and where it is told why.
export function blame(field, isWrong, told) {
  field.setAttribute("aria-invalid", isWrong);
  isWrong ? field.setAttribute("aria-describedby", told) : field.removeAttribute("aria-describedby");
}

// Does what may take away the part in which somebody is: then they go on at another.
export function leaving(ids, next, work) {
  const wasThere = ids.some(id => $(id).contains(document.activeElement));
  work();
  if (wasThere) $(next).focus();
}

export const attempt = (id, work) => work().catch(error => say(id, error.message, true));

// Saves a text as a file, by a link that the user follows.
export function offer(link, parts, type) {
  URL.revokeObjectURL(link.href);
  Object.assign(link, { hidden: false, href: URL.createObjectURL(new Blob(parts, { type })) });
}
