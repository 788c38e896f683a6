// The network: each route as a bar with its posts, to one scale; totals, the last edits, the health.

import { $, attempt, drawn, linkTo, make, rowOf, say, tableOf } from "./parts.js";
import { askHealth } from "./health.js";
import { get, known } from "./requests.js";
import { counted, metres } from "./numbers.js";
import { fieldsOf, linkToEdit, recordsOf, routeNames } from "./edits.js";
import { LongTable, headsOf } from "./sight.js";

const LAST_EDITS = 10, LEAST_GAP = 8, LETTER = 9;
const network = { routes: [], longest: 1, posts: new Map(), edits: undefined };
let bars, drawnFor = {};

export async function loadNetwork() {
  bars ||= new LongTable($("routes"), headsOf(["Route", "Length, m", "Posts, to one scale"], ["name", "length", "bar"]), routeRow);
  network.edits = await askHealth();
  await Promise.all([attempt("routes-said", loadRoutes), attempt("totals-said", loadTotals), attempt("edits-said", loadEdits)]);
}

// What was asked before and is unchanged is not drawn again.
function isNew(name, value) {
  const before = drawnFor[name];
  drawnFor[name] = value;
  return before !== value;
}

async function loadRoutes() {
  const lists = await Promise.all(["routes", "marks", "refs"].map(name => known(`v1/${name}`)));
  if (!isNew("routes", lists[0]) && !isNew("refs", lists[2])) return;
  network.routes = lists[0].routes;
  network.longest = network.routes.reduce((most, route) => Math.max(most, route.length), 1);
  network.posts = postsOf(lists[1].marks, lists[2].refs);
  listRoutes();
}

// The posts of each route: its referents, and where it has none its marks.
function postsOf(marks, refs) {
  const posts = new Map();
  for (const { route, chainage, ref } of refs) (posts.get(route) || posts.set(route, []).get(route)).push([chainage, ref]);
  const named = new Set(posts.keys());
  for (const { route, chainage, measure } of marks)
    if (!named.has(route)) (posts.get(route) || posts.set(route, []).get(route)).push([chainage, String(measure)]);
  for (const list of posts.values()) list.sort(([a], [b]) => a - b);
  return posts;
}

export function listRoutes() {
  const part = $("filter").value.trim().toUpperCase(), found = network.routes.filter(route => route.name.includes(part));
  bars.show(found);
  const scale = found.length ? ` The longest has ${metres(network.longest)} m.` : "";
  say("routes-said", `${found.length} of ${counted(network.routes.length, "route")}.${scale}`);
}

function routeRow({ name, length }) {
  const row = rowOf(["", metres(length), barOf(name, length)]), head = make("th", "", { scope: "row" });
  head.append(linkTo(name, name));
  row.cells[0].replaceWith(head);
  row.cells[1].className = "number";
  row.cells[2].className = "bar";
  row.onclick = event => event.target.closest("a") || !getSelection().isCollapsed || (location.hash = name);
  return row;
}

function barOf(name, length) {
  const track = make("div", "", { className: "track" }), posts = network.posts.get(name) || [];
  const share = length / network.longest, whole = bars.width * 0.65, wide = whole * share;
  const bar = drawn("svg", { viewBox: `0 0 ${length} 1`, preserveAspectRatio: "none", "aria-hidden": "true" });
  bar.append(drawn("path", { d: posts.map(([at]) => `M${at} 0v1`).join("") || "M0 0v1", "vector-effect": "non-scaling-stroke" }));
  bar.style.width = `${share * 100}%`;
  track.append(bar);
  let free = 0;
  for (const [at, text] of posts) {
    const place = (at / length) * share, long = text.length * LETTER, left = Math.min((at / length) * wide, whole - long);
    if (left < free) continue;
    const label = make("span", text);
    label.style.left = `min(${place * 100}%, 100% - ${long}px)`;
    track.append(label);
    free = left + long + LEAST_GAP;
  }
  return track;
}

async function loadTotals() {
  const [{ classes }, { totals }] = await Promise.all([known("v1/classes"), known("v1/totals")]);
  if (!isNew("totals", totals)) return;
  const kinds = new Map(classes.map(({ class: name, kind }) => [name, kind]));
  const amount = (kind, mm) => (kind === "point" ? String(mm) : `${metres(mm)} m`);
  const rows = totals.map(total => {
    const kind = kinds.get(total.class);
    return [total.class, kind, ...["present", "entered", "retired", "abandoned"].map(word => amount(kind, total[word]))];
  });
  $("totals").replaceChildren(tableOf(["Class", "Kind", "Present", "Entered", "Retired", "Abandoned"], rows.map(numbersBehind(2))));
  say("totals-said", totals.length ? "Both sides are added; of points they are counted." : "There is no class yet.");
}

const numbersBehind = count => cells => {
  const row = rowOf(cells);
  for (const cell of [...row.cells].slice(count)) cell.className = "number";
  return row;
};

async function loadEdits() {
  if (!network.edits) return say("edits-said", "There is no edit yet."), $("edits").replaceChildren();
  const first = Math.max(network.edits - LAST_EDITS + 1, 1), [log, names] = await Promise.all([known("v1/log", [["from", first]], get), routeNames()]);
  if (!isNew("edits", log)) return;
  const rows = recordsOf(log).map((record, at) => rowOf([linkToEdit(first + at), record.key, record.verb, fieldsOf(record, names)]));
  $("edits").replaceChildren(tableOf(["Edit", "Key", "Verb", "Fields"], rows.reverse()));
  say("edits-said", "");
}

export const firstRoute = () => $("routes").querySelector("tbody a");
