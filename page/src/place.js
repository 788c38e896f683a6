// What lies at a place, and the other ways to say it.

import { $, SIDES, blame, leaving, linkTo, make, rowOf, say, tableOf } from "./parts.js";
import { known } from "./requests.js";
import { metres, short } from "./numbers.js";
import { METHODS, placeAt, writeAddress } from "./addresses.js";
import { fill, said, whatLies } from "./positions.js";
import { linkToEdit } from "./edits.js";
import { drawMarks, pointNear, seen, shownDiagram, unitsAt, chainageAt } from "./diagram.js";
import { go, view } from "./view.js";

const MOST_REFERENTS = 4;
let asks = 0;

export const markAll = () => drawMarks([...view.asset, ...view.place]);

export function clearPlace() {
  asks++;
  view.place = [];
  leaving(["hits", "ways"], "at-title", () => ($("hits").replaceChildren(), $("ways").replaceChildren()));
  tellPlace("");
}

function tellPlace(text, isBad = false) {
  say("at-said", text, isBad);
  blame($("pos"), isBad, "at-said");
}

// Asks for the place of the address.
export async function askPlace(place) {
  clearPlace();
  const mine = asks, { route } = view;
  tellPlace("The position is being asked.");
  try {
    const found = await whatLies(route, place);
    if (mine === asks) showPlace(found, place);
  } catch (error) {
    if (mine !== asks) return;
    putPlace(place);
    tellPlace(error.message, true);
  }
}

// The field says the place as it was asked.
function putPlace({ method, pos }) {
  $("method").value = method;
  $("pos").value = pos;
  delete $("pos").dataset.chainage;
}

function showPlace(found, place) {
  const { route } = view, way = found.dir === "+" ? "along the link" : "against the link", few = found.hits.length ? "" : " No asset lies there.";
  const measure = short(found.positions.find(position => position.method === "abs").pos);
  tellPlace(`${found.route}: measure ${measure}, chainage ${metres(found.at)} m. Link ${found.link}, mm ${found.mm}; the route runs ${way}.${few}`);
  if (found.hits.length) $("hits").append(tableOf(["Asset", "Class", "Value", "Side", "Offset, mm", "Edit", "Link", "mm"], found.hits.map(hit => hitRow(hit, found))));
  $("ways").append(make("h3", "The same millimetre begins at"), waysOf(found, route));
  place.method === "chainage" ? fill($("pos"), route, $("method").value, found.at) : putPlace(place);
  view.place = [{ from: found.at, to: found.at + 1, text: "asked" }];
  markAll();
}

function hitRow(hit, found) {
  const link = linkTo(writeAddress({ ...view.address, asset: hit.asset }), hit.asset);
  link.title = "Mark this asset";
  return rowOf([link, hit.class, hit.value, SIDES[hit.side] || hit.side, hit.offset, linkToEdit(hit.entry), found.link, found.mm]);
}

// By its measure, by the nearest referents, and by what else there is.
function waysOf({ at, link, mm, positions }, { name }) {
  const list = make("ul", "", { className: "ways" }), distance = ({ pos }) => Number(/\d+$/.exec(pos)[0]);
  const [measures, referents, others] = ["abs", "rel", "int"].map(method => positions.filter(position => position.method === method));
  referents.sort((a, b) => distance(a) - distance(b));
  for (const { method, pos } of [...measures, ...referents.slice(0, MOST_REFERENTS), placeAt(at), ...others]) {
    const item = make("li", `${METHODS[method]}: `), canBeAsked = method !== "abs" || !pos.includes("/");
    item.append(canBeAsked ? linkTo(writeAddress({ route: name, place: { method, pos } }), pos) : `${pos} (${short(pos)})`);
    list.append(item);
  }
  list.append(make("li", `on link ${link}: ${mm} mm`));
  return list;
}

export function askTyped() {
  const place = said($("pos"), $("method").value);
  return place ? go({ ...view.address, place }) : tellPlace("Type a position.", true);
}

export const askChainage = mm => go({ ...view.address, place: placeAt(mm) });

export async function askClick(event) {
  const x = shownDiagram() ? unitsAt(event) : 0;
  if (x < 950 || x > 11050) return;
  const clicked = Math.floor(chainageAt(x)), tick = event.target.closest("g[data-kind=point] .t path"), point = tick && pointNear(tick, x);
  return askChainage((point && (await placeOfPoint(point, clicked))) ?? Math.min(Math.max(clicked, seen.from), seen.to - 1));
}

// A point is one millimetre and hard to hit: a click on its tick means the millimetre of the asset, nearest to the click.
async function placeOfPoint({ asset }, clicked) {
  const { rows } = await known("v1/find", [["asset", asset]]);
  const near = rows.filter(row => row.route === view.route.name).map(row => row.from);
  return near.sort((a, b) => Math.abs(a - clicked) - Math.abs(b - clicked))[0];
}
