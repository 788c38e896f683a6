// What an edit did, and the history of an asset.

import { $, SIDES, linkTo, rowOf, say, tableOf } from "./parts.js";
import { askHealth } from "./health.js";
import { known } from "./requests.js";
import { counted, metres, short } from "./numbers.js";
import { writeAddress } from "./addresses.js";
import { linkToAsset, linkToEdit, recordAt, recordTable, routeNames } from "./edits.js";
import { LongTable, headsOf } from "./sight.js";
import { aroundAsset } from "./view.js";

const PART = ["Link", "From, mm", "To, mm", "Side of the link"];
const PLACES = ["Route", "Side", "From measure", "To measure", "From, m", "To, m", "Offset, mm"];
let taken, past, turn = 0;

const partOf = ({ link, from, to, side }) => [link, from, to, SIDES[side]];
const takenRow = part => rowOf([part.reason, linkToAsset(part.asset), part.class, part.value, ...partOf(part)]);
const pastRow = part => rowOf([part.event, linkToEdit(part.edit), part.key, part.verb, ...partOf(part)]);

// Takes away what was shown, and answers what shows the next: unless something else was asked meanwhile.
function clear(parts, tables) {
  const mine = ++turn;
  for (const id of parts) $(id).replaceChildren();
  for (const table of tables) table.show([]);
  return (id, asking, showing) => {
    if (mine === turn) say(`${id}-said`, "It is being asked.");
    return asking.then(found => mine === turn && showing(found)).catch(error => mine === turn && say(`${id}-said`, error.message, true));
  };
}

export async function showEdit({ edit }) {
  taken ||= new LongTable($("taken"), headsOf(["Why", "Asset", "Class", "Value", ...PART]), takenRow);
  const shows = clear(["record", "beside"], [taken]);
  $("edit-title").textContent = document.title = `Edit ${edit}`;
  const edits = await askHealth();
  return Promise.all([
    shows("edit", Promise.all([recordAt(edit), routeNames()]), found => showRecord(Number(edit), edits, ...found)),
    shows("taken", known("v1/gone", [["edit", edit]]), ({ gone }) => {
      taken.show(gone);
      say("taken-said", gone.length ? `${counted(gone.length, "part")}.` : "It took nothing away.");
    }),
  ]);
}

function showRecord(edit, edits, record, names) {
  say("edit-said", edits ? `Of ${counted(edits, "edit")}.` : "");
  $("record").replaceChildren(recordTable(record, names));
  if (edit > 1) $("beside").append(linkToEdit(edit - 1, `Edit ${edit - 1}`));
  if (edit < edits) $("beside").append(linkToEdit(edit + 1, `Edit ${edit + 1}`));
}

export async function showAsset({ asset }) {
  past ||= new LongTable($("past"), headsOf(["What", "Edit", "Key", "Verb", ...PART]), pastRow);
  const shows = clear(["lies", "entered"], [past]);
  $("asset-title").textContent = document.title = `Asset ${asset}`;
  await askHealth();
  const rows = known("v1/rows", [["asset", asset]]), events = known("v1/history", [["asset", asset]]);
  return Promise.all([
    shows("asset", Promise.all([rows, known("v1/routes")]), ([found, { routes }]) => showPlaces(found.rows, new Map(routes.map(route => [route.name, route.length])))),
    shows("entered", Promise.all([events.then(found => entryOf(found.history)), routeNames()]), ([found, names]) => showEntry(found, names)),
    shows("past", events, found => showPast(found.history)),
  ]);
}

function showPlaces(rows, lengths) {
  const [row] = rows, holds = rows.length === 1 ? "one stretch" : `${rows.length} stretches`;
  say("asset-said", row ? `${row.class} ${row.value}. It holds ${holds} today.` : "It lies on no route today.");
  if (row) $("lies").replaceChildren(tableOf(PLACES, rows.map(found => heldRow(found, lengths.get(found.route)))));
}

function heldRow({ route, from, to, from_measure: start, to_measure: end, side, asset, offset }, length) {
  const link = linkTo(writeAddress(aroundAsset(route, from, to, asset, length)), route);
  const row = rowOf([link, SIDES[side], short(start), short(end), metres(from), metres(to), offset]);
  for (const cell of [...row.cells].slice(2)) cell.className = "number";
  return row;
}

async function entryOf([first]) {
  return { edit: first.edit, record: await recordAt(first.edit) };
}

function showEntry({ edit, record }, names) {
  say("entered-said", "");
  $("entered").replaceChildren(recordTable(record, names, edit));
}

function showPast(parts) {
  const gone = parts.filter(part => part.event !== "entered").length;
  past.show(parts);
  say("past-said", `${counted(parts.length - gone, "part")} entered, ${gone} taken away since.`);
}
