// Zoom and movement: by buttons, keys, wheel, drag and pinch.

import { $, attempt, say } from "./parts.js";
import { chainageAt, seen, shownDiagram, thingsAt, unitsAt } from "./diagram.js";
import { off } from "./classes.js";
import { metres } from "./numbers.js";
import { textOf } from "./positions.js";
import { askChainage, askClick } from "./place.js";
import { showRange, view, within } from "./view.js";

const PAUSE = 120, LEAST_DRAG = 4;
let wanted = null, timer, drag = null, wasDragged = false, pinch = null;

function zoom(times) {
  const middle = (seen.from + seen.to) / 2, half = ((seen.to - seen.from) * times) / 2;
  return showRange(middle - half, middle + half);
}

const move = times => showRange(seen.from + (seen.to - seen.from) * times, seen.to + (seen.to - seen.from) * times);

// Until the program has drawn it, what is there already is stretched.
function preview(from, to) {
  const svg = shownDiagram(), [start, end] = within(from, to, view.route.length);
  wanted = [start, end];
  const times = (seen.to - seen.from) / (end - start), left = 1000 + ((seen.from - start) * 10000) / (end - start) - times * 1000;
  svg.style.transformOrigin = "0 0";
  svg.style.transform = `translateX(${(left * svg.clientWidth) / 12000}px) scaleX(${times})`;
  $("diagram").classList.add("moving");
}

async function settle() {
  if (!view.route) return;
  const [from, to] = wanted || [seen.from, seen.to];
  wanted = null;
  $("diagram").classList.remove("moving");
  if (from === seen.from && to === seen.to) return void (shownDiagram().style.transform = "");
  await showRange(from, to, true);
}

function settleSoon() {
  clearTimeout(timer);
  timer = setTimeout(settle, PAUSE);
}

// Where a point of the window is in the stretch that is wanted.
const share = event => {
  const box = $("diagram").getBoundingClientRect(), wide = shownDiagram().clientWidth;
  return (((event.clientX - box.left + $("diagram").scrollLeft) / wide) * 12000 - 1000) / 10000;
};

function wheel(event) {
  if (!shownDiagram()) return;
  const [from, to] = wanted || [seen.from, seen.to], span = to - from, sideways = event.shiftKey || Math.abs(event.deltaX) > Math.abs(event.deltaY);
  const by = (sideways ? event.deltaX || event.deltaY : event.deltaY) * (event.deltaMode ? 16 : 1);
  if (!sideways && by > 0 && span === view.route.length) return;
  event.preventDefault();
  const at = from + span * Math.min(Math.max(share(event), 0), 1), times = Math.min(Math.max((event.ctrlKey ? 1.01 : 1.0015) ** by, 0.2), 5);
  sideways ? preview(from + (span * by) / 1000, to + (span * by) / 1000) : preview(at - (at - from) * times, at + (to - at) * times);
  settleSoon();
}

function startDrag(event) {
  wasDragged = false;
  if (event.pointerType === "touch" || event.button || !shownDiagram()?.contains(event.target)) return;
  drag = { x: event.clientX, moved: false, from: seen.from, to: seen.to };
}

function dragOn(event) {
  if (!drag) return look(event);
  const by = event.clientX - drag.x;
  if (!drag.moved && Math.abs(by) < LEAST_DRAG) return;
  if (!drag.moved) $("diagram").setPointerCapture(event.pointerId);
  drag.moved = true;
  const mm = (by * 12000 * (drag.to - drag.from)) / (shownDiagram().clientWidth * 10000);
  preview(drag.from - mm, drag.to - mm);
}

function endDrag() {
  wasDragged = Boolean(drag?.moved);
  drag = null;
  if (wasDragged) settle();
}

const click = event => wasDragged || !shownDiagram()?.contains(event.target) || attempt("at-said", () => askClick(event));

// Two fingers keep the places of the road that they took hold of.
function touch(event) {
  if (event.touches.length !== 2 || !shownDiagram()) return;
  event.preventDefault();
  const shares = [...event.touches].map(share), [from, to] = [seen.from, seen.to];
  pinch ||= shares.map(at => from + at * (to - from));
  const span = (pinch[1] - pinch[0]) / (shares[1] - shares[0] || 0.01);
  if (span > 0) preview(pinch[0] - shares[0] * span, pinch[0] + (1 - shares[0]) * span);
}

function endTouch(event) {
  if (!pinch || event.touches.length === 2) return;
  pinch = null;
  settle();
}

// What lies under the pointer.
function look(event) {
  if (!shownDiagram()?.contains(event.target)) return;
  const x = unitsAt(event), chainage = Math.floor(chainageAt(x));
  if (chainage < 0 || x < 1000 || x > 11000 || chainage > view.route.length) return say("under", "");
  say("under", [`measure ${textOf(view.route, "abs", chainage)}, ${metres(chainage)} m`, ...thingsAt(x, off)].join(" \u00b7 "));
}

function press(event) {
  const button = { ArrowLeft: "back", ArrowRight: "on", "+": "in", "-": "out", Home: "whole" }[event.key];
  if (event.ctrlKey || event.altKey || event.metaKey) return;
  if (button) event.preventDefault(), $(button).click();
  if (event.key === "Enter") askChainage(Math.floor((seen.from + seen.to) / 2));
}

export function watch() {
  const box = $("diagram");
  box.addEventListener("wheel", wheel, { passive: false });
  for (const name of ["touchstart", "touchmove"]) box.addEventListener(name, touch, { passive: false });
  for (const name of ["touchend", "touchcancel"]) box.addEventListener(name, endTouch);
  Object.assign(box, { onpointerdown: startDrag, onpointermove: dragOn, onpointerup: endDrag, onpointercancel: endDrag, onclick: click, onkeydown: press });
  $("in").onclick = () => zoom(0.5);
  $("out").onclick = () => zoom(2);
  $("back").onclick = () => move(-0.5);
  $("on").onclick = () => move(0.5);
  $("whole").onclick = () => showRange(0, view.route.length);
}
