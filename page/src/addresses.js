// Addresses: what the page shows, behind the # of its address.
//
// ROUTE, then a stretch as /PLACE..PLACE, then a place as /PLACE or an asset as /asset:NUMBER; each of these or not. A PLACE is
// METHOD:POSITION; where a stretch leaves one out, the end of the route is meant. Or edit/NUMBER, or asset/NUMBER.

import { metres } from "./numbers.js";

export const METHODS = { abs: "measure", rel: "from a referent", int: "proportion", chainage: "chainage, in metres" };
const ROUTE = /^[A-Z0-9][A-Z0-9-]{0,11}$/, PLACE = /^(?:(abs|rel|int|chainage|asset):)?(.*)$/s;

// What an address says: nothing where it is empty, and no route where it cannot be read.
export function readAddress(text) {
  if (text.startsWith("route=")) return readOlder(new URLSearchParams(text));
  const [, kind, number] = /^(edit|asset)\/(\d{1,13})$/.exec(text) || [];
  if (kind) return { [kind]: number };
  const [route, ...parts] = decoded(text).split(/\/(?=(?:abs|rel|int|chainage|asset):|\.\.)/);
  const address = { route: ROUTE.test(route) ? route : undefined };
  for (const part of parts) Object.assign(address, readPart(part));
  return route ? address : null;
}

// A stretch has two dots. In an older address only its start names a method, and its end is said by the same.
function readPart(part) {
  const [[, method = "abs", start], [, endMethod = method, end] = []] = part.split("..").map(text => PLACE.exec(text));
  if (method === "asset") return { asset: start };
  return end === undefined ? { place: { method, pos: start } } : { stretch: { from: readEnd(method, start), to: readEnd(endMethod, end) } };
}

const readEnd = (method, pos) => (pos ? { method, pos } : undefined);

function decoded(text) {
  try {
    return decodeURIComponent(text);
  } catch {
    return text;
  }
}

// Before there were measures in it, an address was route=A38&from=0&to=5000, in millimetres.
function readOlder(pairs) {
  const [from, to] = ["from", "to"].map(name => (/^\d+$/.test(pairs.get(name)) ? metres(Number(pairs.get(name))) : ""));
  return { route: pairs.get("route"), ...((from || to) && { stretch: { from: readEnd("chainage", from), to: readEnd("chainage", to) } }) };
}

export function writeAddress({ route, stretch, place, asset, edit }) {
  if (!route) return edit ? `edit/${edit}` : `asset/${asset}`;
  let text = route;
  if (stretch) text += `/${written(stretch.from)}..${written(stretch.to)}`;
  if (place) text += `/${written(place)}`;
  return asset ? `${text}/asset:${asset}` : text;
}

const written = place => (place ? `${place.method}:${place.pos}` : "");

// A place that is known by its chainage in millimetres, and a stretch.
export const placeAt = mm => ({ method: "chainage", pos: metres(mm) });
export const stretchAt = (from, to) => ({ from: placeAt(from), to: placeAt(to) });
