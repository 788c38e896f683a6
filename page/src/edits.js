// Edits: the records of the log, and their fields in words.

import { SIDES, linkTo, make, rowOf } from "./parts.js";
import { get, firstLines, known } from "./requests.js";
import { METHODS, writeAddress } from "./addresses.js";
import { metres } from "./numbers.js";
import { sentence } from "./words.js";

const MOST_SEARCHED = 100000;
const ENTERED = ["asset", "class", "route", "side", "method", "from", "to", "value", "offset"];
// What each verb does, and the names of its fields.
const VERBS = {
  link: ["makes a link", "link", "length"], class: ["makes a class", "class", "kind"], route: ["makes a route", "route", "pieces", "marks"],
  ref: ["names a place on a route", "referent", "route", "method", "position"], unref: ["removes a referent", "referent"],
  enter: ["enters an asset", ...ENTERED], retire: ["takes an asset away over a stretch", "asset", "route", "method", "from", "to"],
  supersede: ["enters an asset, and retires what lay there of its class", ...ENTERED],
  split: ["divides a route", "route", "chainage", "new route"], renumber: ["gives a route another name", "route", "new route"],
  recalibrate: ["gives a route new marks", "route", "marks"], join: ["appends a second route to a first one", "first", "second"],
  turn: ["reverses a route", "route"], realign: ["replaces a stretch of a route", "route", "from", "to", "pieces", "marks"], close: ["ends a route", "route"],
};
const NAMES_ROUTE = /^(route|new route|first|second)$/, MILLIMETRES = /^(length|chainage)$/;

export const linkToEdit = (edit, text = edit) => linkTo(writeAddress({ edit }), text);
export const linkToAsset = (asset, text = asset) => linkTo(writeAddress({ asset }), text);

// The records of a log: what it has was accepted, and such fields have no quotes.
export function recordsOf(log) {
  return log.split("\n").slice(1).filter(Boolean).map(recordOf);
}

function recordOf(line) {
  const [key, verb, ...fields] = line.split(",");
  return { key, verb, fields };
}

// The log begins with the record that is asked for, and is read no further.
export async function recordAt(edit) {
  const [record] = recordsOf(await known("v1/log", [["from", edit]], firstLines));
  if (!record) throw new Error(`${sentence("NoEdit")}.`);
  return record;
}

// The last edit that passes a test of its key, its verb and its first field. The log is asked from some edit on.
export async function findEdit(edits, passes) {
  const first = Math.max(edits - MOST_SEARCHED + 1, 1);
  const lines = edits ? (await known("v1/log", [["from", first]], get)).split("\n").slice(1) : [];
  for (let at = lines.length - 1; at >= 0; at--)
    if (passes(...lines[at].split(",", 3))) return { edit: first + at, record: recordOf(lines[at]) };
  return { edit: 0, within: first > 1 ? `, of the last ${MOST_SEARCHED}` : "" };
}

export async function routeNames() {
  const { routes } = await known("v1/routes");
  return new Set(routes.map(route => route.name));
}

// The fields of a record on one line; the name of a route that is there leads to it, and an asset to its history.
export function fieldsOf({ verb, fields }, names) {
  const part = make("span");
  fields.forEach((field, at) => field && part.append(linked(VERBS[verb]?.[at + 1], field, names), " "));
  return part;
}

function linked(name, field, names) {
  if (name === "asset") return linkToAsset(field);
  return NAMES_ROUTE.test(name) && names.has(field) ? linkTo(field, field) : field;
}

// A record as a table, in words.
export function recordTable({ key, verb, fields }, names, edit) {
  const table = make("table", "", { className: "record" }), [does, ...heads] = VERBS[verb] || [""];
  const pairs = [["edit", edit && linkToEdit(edit)], ["key", key], ["verb", does ? `${verb}: ${does}` : verb], ...fields.map((field, at) => [heads[at] ?? "", inWords(verb, heads[at], field, names)])];
  table.createTBody().append(...pairs.filter(([, field]) => field).map(pairRow));
  return table;
}

function pairRow([name, field]) {
  const row = rowOf(["", field]);
  row.cells[0].replaceWith(make("th", name, { scope: "row" }));
  return row;
}

function inWords(verb, name, field, names) {
  if (!field) return "";
  if (name === "side") return SIDES[field];
  if (name === "method") return METHODS[field];
  if (name === "offset") return `${field} mm`;
  if (MILLIMETRES.test(name) || (verb === "realign" && /^(from|to)$/.test(name))) return `${metres(Number(field))} m`;
  return linked(name, field, names);
}
