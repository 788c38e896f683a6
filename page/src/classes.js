// The classes of a route: on and off, and a legend of their values.

import { $, make } from "./parts.js";
import { known, query } from "./requests.js";
import { counted, metres } from "./numbers.js";
import { shadeOf } from "./shades.js";
import { view } from "./view.js";

const MOST_VALUES = 40;
export const off = new Set();
export const whenSwitched = [];
let classes = [], legendOf;

export async function loadClasses(route) {
  const [lists, { lengths }] = await Promise.all([known("v1/classes"), known("v1/lengths", [["route", route]])]);
  if (legendOf === lengths) return;
  legendOf = lengths;
  classes = lists.classes.map(entry => entry.class);
  $("classes").replaceChildren(...lists.classes.map(({ class: name, kind }) => classItem(name, kind, lengths.filter(entry => entry.class === name))));
  hideClasses();
}

function classItem(name, kind, values) {
  const item = make("div", "", { className: "class" }), label = make("label"), list = make("ul", "", { className: "values" });
  const box = make("input", "", { type: "checkbox", checked: !off.has(name), value: name });
  box.onchange = () => switchClasses([name], box.checked);
  label.append(box, name);
  list.append(...values.slice(0, MOST_VALUES).map(entry => valueItem(name, kind, entry)));
  if (values.length > MOST_VALUES) list.append(make("li", `and ${values.length - MOST_VALUES} more`));
  item.append(label, list);
  return item;
}

function valueItem(name, kind, { value, length }) {
  const item = make("li");
  if (kind !== "point") item.append(make("span", "", { className: `swatch ${shadeOf(name, value)}` }));
  item.append(`${value}: `, kind === "point" ? counted(length, "place") : `${metres(length)} m`);
  return item;
}

function switchClasses(names, on) {
  for (const name of names) on ? off.delete(name) : off.add(name);
  for (const box of $("classes").querySelectorAll("input")) box.checked = !off.has(box.value);
  hideClasses();
  for (const listener of whenSwitched) listener();
}

export const switchAll = on => switchClasses(classes, on);

export function hideClasses() {
  for (const group of $("diagram").querySelectorAll("g[data-class]")) group.style.display = off.has(group.dataset.class) ? "none" : "";
  if (!view.route) return;
  const on = classes.filter(name => !off.has(name)), chosen = on.length < classes.length ? on.map(name => ["class", name]) : [];
  $("plain").href = "v1/diagram" + query([["route", view.route.name], ...rangeOf(view), ...chosen]);
}

// The pairs of a query for the stretch that is drawn: none for a whole route.
export function rangeOf({ route, from, to }) {
  return from === 0 && to === route.length ? [] : [["from", from], ["to", to]];
}
