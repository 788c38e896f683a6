// What the hand does, and what is shown for an address.

import { $, attempt, leaving, say } from "./parts.js";
import { askHealth } from "./health.js";
import { listRoutes, loadNetwork, firstRoute } from "./network.js";
import { changeMethod, leaveRoute, showRoute, showTyped } from "./route.js";
import { showAsset, showEdit } from "./history.js";
import { askTyped } from "./place.js";
import { listRows, saveRows } from "./rows.js";
import { switchAll } from "./classes.js";
import { search } from "./search.js";
import { forget, goOn, isSending, lookAt, sendReady } from "./sheets.js";
import { draft, showFields } from "./drafts.js";
import { makeShades } from "./shades.js";
import { showAgain, start } from "./view.js";
import { watch } from "./gestures.js";

let shownBefore;

const SHOWN = { network: showNetwork, route: showRoute, edit: showEdit, asset: showAsset };
const viewOf = address => ["route", "edit", "asset"].find(name => address?.[name]) || "network";

// Who came by a link or a key goes on at the head of what is shown.
function show(address) {
  const name = viewOf(address), now = name === "edit" || name === "asset" ? `${name} ${address[name]}` : name;
  for (const other of Object.keys(SHOWN)) $(other).hidden = other !== name;
  if (shownBefore && shownBefore !== now) $(`${name}-title`).focus({ preventScroll: true }), scrollTo(0, 0);
  shownBefore = now;
  if (name !== "route") leaveRoute();
  return SHOWN[name](address);
}

function showNetwork(address) {
  document.title = "Road inventory";
  say("address-said", address ? "The address names no route." : "", Boolean(address));
  return loadNetwork();
}

async function refresh() {
  await askHealth();
  await showAgain();
}

const submits = (id, work) => ($(id).onsubmit = event => (event.preventDefault(), work()));
submits("filtering", () => firstRoute()?.click());
submits("finding", search);
submits("range", () => attempt("route-said", showTyped));
submits("asking", askTyped);
submits("row-filtering", () => {});
submits("drafting", draft);
$("draft").onchange = showFields;
$("filter").oninput = listRoutes;
$("row-filter").oninput = listRows;
$("csv").onclick = saveRows;
$("by").onchange = () => changeMethod($("by"), [$("from"), $("to")]);
$("method").onchange = () => changeMethod($("method"), [$("pos")]);
for (const id of ["from", "to", "pos"]) $(id).oninput = () => delete $(id).dataset.chainage;
$("all").onclick = () => switchAll(true);
$("none").onclick = () => switchAll(false);
$("close").onclick = () => leaving(["found"], "wanted", () => ($("found").hidden = true));
$("refresh").onclick = refresh;
$("skip").onclick = () => $("main").focus();
$("send").onclick = () => leaving(["preview"], "file", () => sendReady(refresh));
$("forget").onclick = () => leaving(["preview"], "file", forget);
$("resume").onclick = () => goOn(refresh);
$("file").onchange = () => {
  const files = [...$("file").files];
  $("file").value = "";
  attempt("sheet-said", () => lookAt(files));
};
document.ondragover = event => {
  if (!event.dataTransfer.types.includes("Files")) return;
  event.preventDefault();
  document.body.classList.add("over");
};
document.ondragleave = event => event.relatedTarget || document.body.classList.remove("over");
document.ondrop = event => {
  const files = [...event.dataTransfer.files];
  if (!files.length) return;
  event.preventDefault();
  document.body.classList.remove("over");
  $("sheets").open = true;
  attempt("sheet-said", () => lookAt(files));
};
window.onbeforeunload = event => void (isSending() && event.preventDefault());
makeShades();
showFields();
watch();
start(show);
