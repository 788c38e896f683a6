// Sheets that the program writes: what is wanted is said in fields, and the sheet is looked at as any other one.

import { $, attempt, blame, make, offer, say } from "./parts.js";
import { send } from "./requests.js";
import { reason } from "./words.js";
import { lookAt } from "./sheets.js";

// What each kind of sheet is told: fields and their labels. A field with a question mark may be empty.
const DRAFTS = {
  split: { route: "Route", place: "Place", new: "Name of the new route behind it" },
  bypass: { route: "Route", from: "It leaves the old road at", to: "It comes back at", pieces: "New ground, as 2:0:2500000:+", old: "Name for the old road" },
  merge: { route: "Routes, as A1 A2 A3, in their order" },
  retire: { asset: "Number of the asset" },
  replace: { asset: "Number of the asset", number: "Number of the new one", value: "Value of the new one" },
  move: { asset: "Number of the asset", number: "Number of the new one", route: "Route", from: "Place, or where it begins", "to?": "Where it ends, if it is no point" },
  undo: { "since?": "First edit to undo, if not the last alone", "number?": "Number for assets that come back, if there are any" },
};
// Fields whose words have another name in what the program says.
const CALLED = { edit: "since", place: "from" };

const fieldsSaid = () => [...$("drafting").querySelectorAll("input")];

function fieldOf([name, text]) {
  const label = make("label", `${text} `), isOptional = name.endsWith("?");
  label.append(make("input", "", { name: name.replace("?", ""), className: "short", required: !isOptional }));
  return label;
}

export function showFields() {
  $("fields").replaceChildren(...Object.entries(DRAFTS[$("draft").value]).map(fieldOf));
  say("draft-said", "");
}

// What is said: an empty field says nothing, of routes that are joined each is said by itself, and a point has one place.
function pairsOf(kind, fields) {
  const pairs = fields.map(({ name, value }) => [name, value.trim()]).filter(([, value]) => value), isPoint = !pairs.some(([name]) => name === "to");
  if (kind === "merge") return pairs.flatMap(([name, value]) => (name === "route" ? value.split(/\s+/) : [value]).map(word => [name, word]));
  return kind === "move" && isPoint ? pairs.map(([name, value]) => [name === "from" ? "place" : name, value]) : pairs;
}

// The sheet that the program writes. The type is that of sheets: proxies let no other one pass, since any page can send a form.
async function sheetFor(kind, fields) {
  const settings = { method: "POST", headers: { "Content-Type": "text/csv" }, body: new URLSearchParams(pairsOf(kind, fields)) };
  const { status, text } = await send(`v1/draft/${kind}`, settings);
  if (status === 200) return text;
  throw new Error(blamed(reason(status, text), fields));
}

// The program calls fields as its command line does, as in `PLACE is no place` and `give --number N`: here they have their labels, and
// are marked. Elsewhere in a sentence FROM and TO are those of a piece.
function blamed(told, fields) {
  const named = (shown, word) => {
    const name = word.toLowerCase(), field = fields.find(each => each.name === name) || fields.find(each => each.name === CALLED[name]);
    if (!field) return shown;
    blame(field, true, "draft-said");
    return `"${field.labels[0].textContent.trim()}"`;
  };
  const text = /^[A-Z]+ is /.test(told) ? told.replace(/(?<![:\w])([A-Z]+)(?![:\w])/g, named) : told;
  return text.replace(/--(number|key)( N)?/g, named);
}

export function draft() {
  const kind = $("draft").value, fields = fieldsSaid();
  for (const field of fields) blame(field, false);
  $("drafted").hidden = true;
  say("draft-said", "The sheet is being written.");
  return attempt("draft-said", async () => {
    const text = await sheetFor(kind, fields);
    say("draft-said", "The sheet is written, and shown below. Nothing is done before you send it.");
    $("drafted").download = `${kind}.csv`;
    offer($("drafted"), [text], "text/csv");
    $("sheets").open = $("all-or-none").checked = true;
    await lookAt([new File([text], `${kind}.csv`)]);
  });
}
