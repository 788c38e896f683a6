// Find by asset, value, class, key, referent or route.

import { $, SIDES, attempt, linkTo, make, say } from "./parts.js";
import { askHealth } from "./health.js";
import { known } from "./requests.js";
import { counted, metres, short } from "./numbers.js";
import { aroundAsset } from "./view.js";
import { writeAddress } from "./addresses.js";
import { fieldsOf, findEdit, linkToAsset, linkToEdit, routeNames } from "./edits.js";

const MOST_FOUND = 200;
const upper = text => text.toUpperCase();

// What each kind of search finds: a sentence, entries, and what makes the item of an entry.
const KINDS = { asset: findAsset, value: findValue, class: findClass, key: findKey, ref: findRef, route: findRoute };

export function search() {
  const kind = $("kind").value, text = $("wanted").value.trim();
  $("found").hidden = false;
  $("results").replaceChildren();
  say("find-said", "It is being sought.");
  return attempt("find-said", async () => {
    const edits = await askHealth(), { told, found = [], itemOf } = await KINDS[kind](text, edits);
    $("results").replaceChildren(...found.slice(0, MOST_FOUND).map(entry => itemOf(entry)));
    say("find-said", found.length > MOST_FOUND ? `${told} The first ${MOST_FOUND} are shown.` : told);
  });
}

function item(...parts) {
  const made = make("li");
  made.append(...parts);
  return made;
}

function stretchItem({ route, from, to, from_measure: start, to_measure: end, side, asset, class: name, value }, length) {
  const link = linkTo(writeAddress(aroundAsset(route, from, to, asset, length)), `${route}: measures ${short(start)} to ${short(end)}`);
  return item(link, ` (${metres(from)} to ${metres(to)} m), ${SIDES[side]}: ${name} ${value}, `, linkToAsset(asset, `asset ${asset}`));
}

// Rows, each of which leads to its stretch.
async function stretches(told, found) {
  const { routes } = await known("v1/routes"), lengths = new Map(routes.map(route => [route.name, route.length]));
  return { told, found, itemOf: row => stretchItem(row, lengths.get(row.route)) };
}

async function findAsset(text) {
  const { rows } = await known("v1/rows", [["asset", text]]);
  if (rows.length) return stretches(`Asset ${text} holds ${rows.length === 1 ? "one stretch" : `${rows.length} stretches`}.`, rows);
  return { told: `Asset ${text} is known, and lies on no route now.`, found: [text], itemOf: asset => item(linkToAsset(asset, `The history of asset ${asset}`)) };
}

async function findClass(text) {
  const { rows } = await known("v1/rows", [["class", upper(text)]]);
  return stretches(`${upper(text)} has ${counted(rows.length, "row")}.`, rows);
}

async function findValue(text) {
  const { lengths } = await known("v1/lengths"), names = lengths.filter(entry => entry.value === text).map(entry => entry.class);
  const lists = await Promise.all(names.map(name => known("v1/rows", [["class", name]])));
  const rows = lists.flatMap(list => list.rows).filter(row => row.value === text);
  return stretches(rows.length ? `${counted(rows.length, "row")} ${rows.length === 1 ? "has" : "have"} the value ${text}.` : `No row has the value ${text}.`, rows);
}

async function findKey(text, edits) {
  const [{ edit, record, within }, names] = await Promise.all([findEdit(edits, key => key === text), routeNames()]);
  if (!edit) return { told: `No edit has the key ${text}${within}.` };
  return { told: `Key ${text} is edit ${edit}.`, found: [edit], itemOf: () => item(linkToEdit(edit, `Edit ${edit}`), `: ${record.verb} `, fieldsOf(record, names)) };
}

async function findRef(text) {
  const { refs } = await known("v1/refs"), found = refs.filter(entry => entry.ref.includes(upper(text)));
  const link = ({ ref, route }) => linkTo(writeAddress({ route, place: { method: "rel", pos: `${ref}+0` } }), ref);
  const itemOf = entry => item(link(entry), ` on ${entry.route}, at ${metres(entry.chainage)} m`);
  return { told: `${counted(found.length, "referent")} of this name or part of a name.`, found, itemOf };
}

async function findRoute(text) {
  const { routes } = await known("v1/routes"), found = routes.filter(route => route.name.includes(upper(text)));
  return { told: `${counted(found.length, "route")} of this name or part of a name.`, found, itemOf: ({ name, length }) => item(linkTo(name, name), ` ${metres(length)} m`) };
}
