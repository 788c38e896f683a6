// Sheets: looked at and tried, then sent, in parts where they are long, and the lines of their replies.

import { $, attempt, leaving, make, offer, rowOf, say, tableOf } from "./parts.js";
import { send } from "./requests.js";
import { GO_ON, STATUSES, reason, sentence } from "./words.js";
import { counted, metres } from "./numbers.js";

const MOST_ADVICE = 20, MOST_NAMES = 10;
const MOST_LINES = 500, MOST_BYTES = 1000000, FIRST_RECORDS = 20, MOST_SHOWN = 4000;
const PATHS = {
  "key,verb,a,b,c,d,e,f,g,h,i": ["v1/edits", "an edit sheet"],
  "key,asset,class,route,side,method,from,to,value,offset": ["v1/surveys", "a survey"],
};

// The places behind the records of a sheet: behind its line ends, but for those inside quotes.
function* recordEnds(bytes) {
  let quoted = false, fresh = true;
  for (let at = 0; at < bytes.length; at++) {
    const byte = bytes[at], ends = !quoted && (byte === 10 || (byte === 13 && bytes[at + 1] !== 10));
    if (byte === 34 && (quoted || fresh)) quoted = !quoted, fresh = !quoted;
    else fresh = !quoted && (byte === 44 || byte === 13 || byte === 10);
    if (ends) yield at + 1;
  }
  yield bytes.length;
}

// The bodies in which a sheet is sent, each with the header.
function bodiesOf(bytes) {
  if (bytes.length <= MOST_BYTES) return [bytes];
  let start = null, last = null, head = null;
  const bodies = [], body = () => bodies.push(new Blob([head, bytes.subarray(start, last)]));
  for (const end of recordEnds(bytes)) {
    if (head === null) head = bytes.subarray(0, end), start = end;
    else if (end - start + head.length > MOST_BYTES && last > start) body(), start = last;
    last = end;
  }
  if (last > start) body();
  return bodies;
}

// How many records a sheet has behind its header, and where the first of them end. Empty lines are none.
function recordsIn(bytes) {
  let count = -1, start = 0, shown = 0;
  for (const end of recordEnds(bytes)) {
    if (bytes.subarray(start, end).some(byte => byte !== 10 && byte !== 13)) count++;
    if (count < FIRST_RECORDS) shown = end;
    start = end;
  }
  return { count: Math.max(count, 0), first: new TextDecoder().decode(bytes.subarray(0, Math.min(shown, MOST_SHOWN))) };
}

function kindOf(bytes, name) {
  const first = new TextDecoder().decode(bytes.subarray(0, 200)).split(/[\r\n]/)[0].replace(/["\s]/g, "");
  if (PATHS[first]) return PATHS[first];
  throw new Error(`${name} is no edit sheet and no survey: its first line is not the header of either. Nothing was sent.`);
}

// ---- tried
// What a sheet would be answered and what it would change; undefined where the program does not tell it.
async function trialOf(path, body) {
  const settings = { method: "POST", headers: { "Content-Type": "text/csv" }, body };
  const { status, text } = await send(`${path}/check`, settings).catch(() => ({}));
  return status === 200 || status === 422 ? JSON.parse(text) : undefined;
}

function named(word, names) {
  if (!names.length) return [];
  const more = names.length > MOST_NAMES ? ` and ${names.length - MOST_NAMES} more` : "";
  return [`${word} ${names.slice(0, MOST_NAMES).join(", ")}${more}`];
}

// The lines of a difference in a sentence: how much assets give up and get, and what else is another.
function changesOf(lines) {
  const fields = lines.map(line => line.split(",")), those = (sign, kind) => fields.filter(line => line[0] === sign && line[1] === kind);
  const names = (sign, kind) => [...new Set(those(sign, kind).map(line => line[2]))], both = kind => [...new Set([...names("-", kind), ...names("+", kind)])];
  const lengthOf = line => (line[8] - line[7]) * (line[9] === "B" ? 2 : 1);
  const moved = (sign, word, way) => {
    const count = names(sign, "holds").length, sum = those(sign, "holds").reduce((length, line) => length + lengthOf(line), 0);
    return count ? [`${word} ${metres(sum)} m of sides ${way} ${counted(count, "asset")}`] : [];
  };
  return [
    ...moved("-", "takes", "from"), ...moved("+", "gives", "to"), ...named("enters asset", names("+", "asset")),
    ...named("removes referent", names("-", "ref")), ...named("sets referent", names("+", "ref")), ...named("changes route", both("route")),
    ...named("adds link", names("+", "link")), ...named("adds class", names("+", "class")),
  ].join("; ");
}

// What to do about the records that are refused: a line for each.
function adviceOf({ advice }) {
  if (!advice.length) return [];
  const list = make("ul");
  list.append(...advice.slice(0, MOST_ADVICE).map(line => make("li", line.text ?? line)));
  return [list];
}

function shownTrial(trial) {
  const { fault, replies, difference } = trial, changes = changesOf(difference);
  const count = word => `${replies.filter(line => line.split(",")[1] === word).length} ${word}`, counts = ["done", "again", "refused"].map(count).join(", ");
  const shown = [make("p", `It would be: ${counts}${fault ? `, and then ${sentence(fault)}` : ""}.`, { className: "trial" }), ...adviceOf(trial)];
  shown.push(make("p", changes ? `It ${changes}.` : "It changes nothing of the network or its assets.", { className: "changes" }));
  if (difference.length) {
    const rest = difference.length > MOST_LINES ? `\n${difference.length - MOST_LINES} lines more are not shown here: check --diff prints them.` : "", name = `What changes, in ${counted(difference.length, "line")}`;
    const details = make("details", "", { ariaLabel: name });
    details.append(make("summary", name), make("pre", difference.slice(0, MOST_LINES).join("\n") + rest, { tabIndex: 0 }));
    shown.push(details);
  }
  return shown;
}

// ---- looked at
let ready = [], looks = 0, stopped;

// Looks at files, and forgets what was looked at before.
export async function lookAt(files) {
  const mine = ++looks, sheets = [], shown = [];
  ready = [];
  $("preview").hidden = true;
  $("looked").replaceChildren();
  say("sheet-said", "");
  for (const file of files) {
    const bytes = new Uint8Array(await file.arrayBuffer()), [path, kind] = kindOf(bytes, file.name), { count, first } = recordsIn(bytes);
    const bodies = bodiesOf(bytes), parts = bodies.length > 1 ? `, in ${bodies.length} parts, so not all or nothing` : "";
    sheets.push({ name: file.name, path, bodies, at: 0, resumes: false });
    shown.push(make("p", `${file.name}: ${kind} of ${counted(count, "record")}, ${bytes.length} bytes${parts}. It begins:`), make("pre", first, { tabIndex: 0 }));
    const trial = bodies.length > 1 ? undefined : await trialOf(path, bodies[0]);
    if (trial) shown.push(...shownTrial(trial));
  }
  if (mine !== looks) return;
  ready = sheets;
  $("looked").replaceChildren(...shown);
  $("preview").hidden = !ready.length;
  $("all-or-none").disabled = ready.some(({ bodies }) => bodies.length > 1);
  $("send").focus();
}

export function forget() {
  ready = [];
  $("preview").hidden = true;
  say("sheet-said", "Nothing was sent.");
}

// ---- replies
const counts = {};
let replied = [], notShown = 0;

function startReplies() {
  for (const word of ["done", "again", "refused", "fault"]) counts[word] = 0;
  (replied = []), (notShown = 0), (stopped = undefined);
  $("lines").replaceChildren(tableOf(["Key", "Reply", "Edit, or cause"], []));
  $("replies").hidden = false;
  $("lines").hidden = $("save").hidden = $("resume").hidden = true;
  $("advice").replaceChildren();
  say("counts", "");
}

// Shows the lines of a part that was done, or of a sheet of which nothing was done: what they would have been.
function showReplies(text, isDone = true) {
  replied.push(text);
  const body = $("lines").querySelector("tbody"), rows = [];
  for (const line of text.split("\n")) {
    const [key, word, more] = line.split(",");
    if (!word) continue;
    counts[word]++;
    if (body.rows.length + rows.length < MOST_LINES * (word === "done" || word === "again" ? 1 : 2)) rows.push(replyRow(key, word, more, isDone));
    else notShown++;
  }
  body.append(...rows);
  $("lines").hidden = !body.rows.length;
  const faults = counts.fault ? ", 1 fault" : "", rest = notShown ? ` ${notShown} lines more are not shown here: save them to see all.` : "";
  say("counts", `${isDone ? "" : "Nothing was done. It would have been: "}${counts.done} done, ${counts.again} again, ${counts.refused} refused${faults}.${rest}`);
  offer($("save"), replied, "text/csv");
}

function replyRow(key, word, more, isDone) {
  const wouldBe = word === "done" && !isDone;
  const row = rowOf([key, wouldBe ? "would be done" : word, word === "done" || word === "again" ? `edit ${more}` : sentence(more)]);
  row.className = wouldBe ? "" : word;
  row.cells[1].className = "word";
  return row;
}

// ---- sent
// Sends the parts of a sheet from one on. The program goes on by itself with a part whose reply was lost; of all or nothing it is told
// the same again, and knows what was done.
async function sendParts(sheet, refresh) {
  const { name, bodies, isWhole } = sheet, ending = isWhole ? "Nothing of it was refused." : "Look at the lines: a record that is refused changes nothing.";
  stopped = undefined;
  leaving(["resume"], "file", () => ($("resume").hidden = true));
  try {
    for (; sheet.at < bodies.length; sheet.at++, sheet.resumes = false) {
      say("sheet-said", `${name}: part ${sheet.at + 1} of ${bodies.length} is being sent.`);
      await sendPart(sheet, bodies[sheet.at]);
    }
    say("sheet-said", `${name} was sent to its end, in ${bodies.length === 1 ? "one part" : `${bodies.length} parts`}. ${ending}`);
  } catch (error) {
    if (error.message.endsWith(GO_ON)) (stopped = { ...sheet, resumes: true }), ($("resume").hidden = false);
    throw error;
  } finally {
    await refresh();
  }
}

async function sendPart({ path, isWhole, resumes }, body) {
  const settings = { method: "POST", headers: { "Content-Type": "text/csv" }, body }, way = isWhole ? "?all=1" : resumes ? "?resume=1" : "";
  const { status, text } = await send(path + way, settings).catch(error => { throw new Error(error.message + GO_ON); });
  if (status === 200 || status === 409 || status === 422) showReplies(text, status === 200 || !isWhole);
  if (isWhole && (status === 409 || status === 422)) return tellNothing(path, body, status);
  if (status === 422) throw new Error(`${STATUSES[422]} The last line says why. The records before it are done. Mend the sheet, and send the header and the records behind the last one that was done.`);
  if (status !== 200) throw new Error(reason(status, text) + ([500, 502, 503, 504].includes(status) ? GO_ON : " The sheet was not sent on."));
}

// Nothing was done of a sheet that was to be done wholly: what to do about it.
async function tellNothing(path, body, status) {
  const trial = await trialOf(path, body);
  if (trial) $("advice").replaceChildren(...adviceOf(trial));
  throw new Error(`Nothing was done. ${status === 409 ? "Not all of the sheet would be done: mend what is refused, or send it without all or nothing." : `${STATUSES[422]} The last line says why.`}`);
}

// Sends one sheet after the other, up to the first that cannot be sent to its end.
async function sendEach(named, refresh) {
  for (const [at, sheet] of named.entries()) {
    startReplies();
    await sendParts(sheet, refresh).catch(error => {
      const rest = named.slice(at + 1).map(({ name }) => name).join(", ");
      throw new Error(rest ? `${error.message} Not sent: ${rest}.` : error.message);
    });
  }
}

// One after the other. Who leaves the page before they are sent is asked.
let sheets = Promise.resolve(), waiting = 0;
function enqueue(work) {
  waiting++;
  sheets = sheets.then(() => attempt("sheet-said", work)).then(() => waiting--);
}

export function sendReady(refresh) {
  const isWhole = $("all-or-none").checked && !$("all-or-none").disabled, named = ready.map(sheet => ({ ...sheet, isWhole }));
  enqueue(() => sendEach(named, refresh));
  ready = [];
  $("preview").hidden = true;
  $("sheet-said").scrollIntoView({ block: "nearest" });
}

export const goOn = refresh => enqueue(async () => stopped && sendParts(stopped, refresh));
export const isSending = () => waiting > 0;
