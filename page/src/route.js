// A route: its diagram, the stretch that is asked, and what stands beside it.

import { $, attempt, blame, leaving, say } from "./parts.js";
import { askHealth } from "./health.js";
import { get, known } from "./requests.js";
import { metres } from "./numbers.js";
import { fill, said, textOf, textOfPlace, whyNot } from "./positions.js";
import { putDiagram } from "./diagram.js";
import { hideClasses, loadClasses } from "./classes.js";
import { loadRows, rowsOf } from "./rows.js";
import { askPlace, clearPlace, markAll } from "./place.js";
import { go, view } from "./view.js";

const PARTS = ["view", "asked", "listed"], ENDS = { from: "From", to: "To" }, DRAWN = / data-from='(\d+)' data-to='(\d+)'/;
let shown = 0;

export async function showRoute(address) {
  const isNew = !view.route || view.route.name !== address.route;
  $("route-title").textContent = document.title = `Route ${address.route}`;
  say("route-said", "The diagram is being drawn.");
  if (isNew) leaveRoute();
  const mine = ++shown;
  try {
    if (isNew) await askHealth();
    const drawing = await drawingOf(address);
    if (mine === shown) putRoute(address, drawing, isNew);
  } catch (error) {
    if (mine !== shown) return;
    leaving(PARTS, "route-title", leaveRoute);
    say("route-said", error.message, true);
  }
}

export function leaveRoute() {
  shown++;
  Object.assign(view, { route: null, address: {}, asset: [] });
  clearPlace();
  $("pos").value = "";
  for (const id of PARTS) $(id).hidden = true;
}

// What is drawn for an address: of a stretch that cannot be found the whole route, and why. The rows are asked for meanwhile.
async function drawingOf({ route: name, stretch }) {
  const route = await known(`v1/route/${name}`), picture = pictureFor(route, stretch);
  rowsOf({ route, from: 0, to: route.length }).catch(() => {});
  try {
    return { route, ...(await picture) };
  } catch (refusal) {
    if (!refusal.end) throw refusal;
    return { route, ...(await pictureFor(route)), refusal };
  }
}

// The picture of a stretch, and its chainages. An end that cannot be found is named by the error.
async function pictureFor(route, stretch = {}) {
  const ends = Object.keys(ENDS).filter(end => stretch[end]);
  try {
    const pairs = ends.map(end => [end, textOfPlace(stretch[end], route, end)]), text = await known("v1/diagram", [["route", route.name], ...pairs], get);
    const [, from, to] = DRAWN.exec(text) || [];
    return { text, from: Number(from), to: Number(to) };
  } catch (error) {
    const end = ends.find(name => error.cause?.endsWith(`:${name}`));
    if (end) throw Object.assign(new Error(whyNot(ENDS[end], error, stretch[end], route)), { end });
    throw error.cause === "OffRoute" ? Object.assign(new Error("From must lie before To."), { end: ends.at(-1) }) : error;
  }
}

function putRoute(address, { route, from, to, text, refusal }, isNew) {
  const before = view.address;
  putDiagram(text);
  Object.assign(view, { route, address, from, to });
  for (const id of PARTS) $(id).hidden = false;
  tellStretch(refusal);
  fillEnds(refusal);
  hideClasses();
  markAll();
  attempt("classes-said", () => loadClasses(route.name));
  attempt("rows-said", loadRows);
  attempt("route-said", () => markAsset(address.asset));
  if (address.asset && address.asset !== before.asset) $("diagram").scrollIntoView({ block: "nearest" });
  if (!address.place) clearPlace(), markAll();
  else if (isNew || JSON.stringify(before.place) !== JSON.stringify(address.place)) askPlace(address.place);
}

function tellStretch(refusal) {
  const { route, from, to, address: { stretch } } = view;
  const measures = ["from", "to"].map(end => (!refusal && stretch?.[end]?.method === "abs" ? stretch[end].pos : textOf(route, "abs", view[end])));
  const told = `Measures ${measures[0]} to ${measures[1]}: from ${metres(from)} m to ${metres(to)} m of ${metres(route.length)} m.`;
  say("route-said", refusal ? `The whole route is shown. ${told}` : told);
  tellEnds(refusal);
}

// Beside the fields of the ends it is said which of them is wrong.
function tellEnds(refusal) {
  say("ends-said", refusal ? refusal.message : "", Boolean(refusal));
  for (const end of Object.keys(ENDS)) blame($(end), refusal?.end === end, "ends-said");
}

// The fields say the stretch by the method chosen: as it was asked, where it was asked by this method.
function fillEnds(refusal) {
  const { stretch = {} } = view.address, methods = [refusal?.end, "from", "to"].map(end => stretch[end]?.method);
  $("by").value = methods.find(method => method && (refusal || method !== "chainage")) || $("by").value;
  for (const end of Object.keys(ENDS)) {
    fill($(end), view.route, $("by").value, view[end]);
    if (stretch[end]?.method !== $("by").value) continue;
    $(end).value = stretch[end].pos;
    delete $(end).dataset.chainage;
  }
}

// Another method says the same stretch.
export function changeMethod(select, fields) {
  tellEnds();
  for (const field of fields) {
    const { chainage } = field.dataset, at = chainage === undefined ? view[field.id] ?? view.place[0]?.from : Number(chainage);
    if (at !== undefined) fill(field, view.route, select.value, at);
  }
}

// Finds what was typed before the address is changed.
export async function showTyped() {
  const { route, address } = view, [from, to] = Object.keys(ENDS).map(end => said($(end), $("by").value) || undefined), stretch = { from, to };
  tellEnds();
  try {
    const found = await pictureFor(route, stretch), isWhole = found.from === 0 && found.to === route.length;
    if (view.route === route) await go({ ...address, stretch: isWhole ? undefined : stretch });
  } catch (refusal) {
    if (!refusal.end) throw refusal;
    tellEnds(refusal);
    $(refusal.end).focus();
  }
}

async function markAsset(asset) {
  view.asset = [];
  if (asset) {
    const { route } = view, { rows } = await known("v1/find", [["asset", asset]]);
    if (view.route !== route) return;
    view.asset = rows.filter(row => row.route === route.name).map(({ from, to }) => ({ from, to, text: `asset ${asset}` }));
  }
  markAll();
}
