// The rows of the stretch that is drawn: a table to sort and filter, and to save as CSV.

import { $, SIDES, linkTo, make, offer, rowOf, say } from "./parts.js";
import { known } from "./requests.js";
import { counted, metres, short } from "./numbers.js";
import { writeAddress } from "./addresses.js";
import { off, rangeOf, whenSwitched } from "./classes.js";
import { linkToAsset, linkToEdit } from "./edits.js";
import { LongTable, headsOf } from "./sight.js";
import { aroundAsset, view } from "./view.js";

// What a column sorts by, and its head.
const COLUMNS = { class: "Class", value: "Value", side: "Side", from_measure: "From measure", to_measure: "To measure", from: "From, m", to: "To, m", asset: "Asset", offset: "Offset, mm", entry: "Edit" };
const HISTORY = "History";
const SAVED = ["route", "from", "to", "from_measure", "to_measure", "side", "asset", "class", "value", "offset", "entry"];

const sorted = { by: "from", down: false }, listed = {};
let table, rows = [], chosen = [];

const sorterOf = name => {
  const head = make("th", "", { scope: "col" }), button = make("button", COLUMNS[name], { type: "button", className: "plain", value: name });
  button.onclick = () => sortBy(name);
  head.append(button);
  return head;
};

export async function loadRows() {
  const { route, from, to } = view;
  table ||= new LongTable($("rows"), [...Object.keys(COLUMNS).map(sorterOf), ...headsOf([HISTORY])], assetRow);
  const all = await rowsOf(view);
  if (view.route !== route || view.from !== from || view.to !== to) return;
  const name = `${from} ${to}`;
  if (listed.all === all && listed.name === name) return table.show(chosen);
  Object.assign(listed, { all, name });
  rows = all.filter(row => row.from < to && row.to > from);
  listRows();
}

// All rows of a route are asked once; where they are too many for one reply, those of the stretch.
export function rowsOf({ route, from, to }) {
  return known("v1/rows", [["route", route.name]])
    .catch(error => (rangeOf({ route, from, to }).length ? known("v1/rows", [["route", route.name], ["from", from], ["to", to]]) : Promise.reject(error)))
    .then(found => found.rows);
}

// Numbers by their size, texts by their letters; measures are fractions.
function keyOf(row, name) {
  const key = row[name], [n, d = 1] = name.endsWith("measure") ? key.split("/").map(Number) : [Number(key)];
  return Number.isNaN(n) ? key : n / d;
}

function compared(a, b) {
  if (typeof a === typeof b) return a < b ? -1 : Number(a > b);
  return typeof a === "number" ? -1 : 1;
}

function sortBy(name) {
  Object.assign(sorted, { down: sorted.by === name && !sorted.down, by: name });
  listRows();
}

// Each word of the filter stands somewhere in the row.
function matches(row, words) {
  const text = `${row.class} ${row.value} ${row.asset} ${SIDES[row.side]}`.toLowerCase();
  return words.every(word => text.includes(word));
}

export function listRows() {
  const words = $("row-filter").value.toLowerCase().split(/\s+/).filter(Boolean), sign = sorted.down ? -1 : 1;
  const keyed = rows.filter(row => !off.has(row.class) && matches(row, words)).map(row => [keyOf(row, sorted.by), row]);
  chosen = keyed.sort(([a, x], [b, y]) => sign * compared(a, b) || x.from - y.from).map(([, row]) => row);
  for (const button of table.head.querySelectorAll("button")) {
    const way = button.value === sorted.by ? (sorted.down ? "descending" : "ascending") : "none";
    button.parentNode.setAttribute("aria-sort", way);
  }
  table.show(chosen);
  say("rows-said", `${chosen.length} of ${counted(rows.length, "row")} of this stretch.`);
}

function assetRow(row) {
  const { route, address } = view, link = linkTo(writeAddress(aroundAsset(route.name, row.from, row.to, row.asset, route.length)), row.asset);
  if (address.asset === String(row.asset)) link.setAttribute("aria-current", "true");
  const made = rowOf([row.class, row.value, SIDES[row.side], short(row.from_measure), short(row.to_measure), metres(row.from), metres(row.to), link, row.offset, linkToEdit(row.entry), linkToAsset(row.asset, HISTORY)]);
  for (const at of [3, 4, 5, 6, 7, 9]) made.cells[at].className = "number";
  return made;
}

export function saveRows() {
  const lines = chosen.map(row => SAVED.map(name => row[`${name}_decimal`] ?? row[name]).join(","));
  $("csv").download = `${view.route.name}.csv`;
  offer($("csv"), [[SAVED.join(","), ...lines, ""].join("\n")], "text/csv");
}

whenSwitched.push(() => table && listRows());
