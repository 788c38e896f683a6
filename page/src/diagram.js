// The diagram of a route: shaded by value, marked, and looked at by pointer.

import { $, drawn } from "./parts.js";
import { pictureOf } from "./picture.js";
import { shadeOf } from "./shades.js";

const NEAR = 60, MOST_UNDER = 12, MOST_SINGLE = 1000, WIDE_COUNT = 250, LEAST_PARTED = 60;
// A row, and what tells its line, as the program writes them.
const ROW = /^<path d='(M(\d+) -?\d+(?:h(\d+)|v\d+))'><title>(\d+): ([\w.-]+)<\/title><\/path>$/;
const CLASS = /^<g data-class='(?<class>\w+)' data-kind='(?<kind>\w+)'>$/, SIDE = /^<text x='40' y='\d+'>\w+ (?<side>[LR])<\/text>$/;
// The stretch that is drawn, and where each thing stands in the picture.
export const seen = { from: 0, to: 0, things: [] };

let put;

export const shownDiagram = () => $("diagram").querySelector("svg");
const across = chainage => 1000 + ((chainage - seen.from) * 10000) / (seen.to - seen.from);
export const chainageAt = x => seen.from + ((x - 1000) * (seen.to - seen.from)) / 10000;

export function putDiagram(text) {
  if (text === put && shownDiagram()) return void (shownDiagram().style.transform = "");
  const [shown, things] = shaded(text), svg = pictureOf(shown);
  Object.assign(seen, { from: Number(svg.dataset.from), to: Number(svg.dataset.to), things });
  $("diagram").replaceChildren(svg);
  put = text;
}

// The picture with a shade on each of its rows, and its rows and points: x from and to, the class, the side, the asset and the value.
function shaded(text) {
  const things = [], lines = [], line = {}, isMany = text.split("<title>").length > MOST_SINGLE;
  let run = [];
  for (const part of text.split("\n")) {
    const [row, d, x, wide, asset, value] = ROW.exec(part) || [];
    if (row) {
      run.push({ d, x: Number(x), end: Number(x) + Number(wide || 0), asset, value, ...line });
      continue;
    }
    for (const thing of run) things.push(thing);
    lines.push(...shapesOf(run, isMany), part);
    run = [];
    Object.assign(line, CLASS.exec(part)?.groups, SIDE.exec(part)?.groups);
  }
  return [lines.join("\n"), things];
}

// The shapes of a line of rows. Many are drawn as one for each shade, since a browser is slow with many.
function shapesOf(run, isMany) {
  const isPoints = run[0]?.kind === "point", joined = new Map(), besides = isPoints ? countsOf(run) : cutsOf(run);
  const looks = run.map(({ class: name, value, side }) => (isPoints ? `data-side='${side}'` : `class='${shadeOf(name, value)}'`));
  if (!isMany) return run.map(({ d, asset, value }, at) => `<path ${looks[at]} d='${d}'><title>${asset}: ${value}<\/title><\/path>`).concat(besides);
  run.forEach(({ d }, at) => (joined.get(looks[at]) || joined.set(looks[at], new Set()).get(looks[at])).add(d));
  return [...joined].map(([look, parts]) => `<path ${look} d='${[...parts].join("")}'/>`).concat(besides);
}

// A line parts neighbours of different values, where there is room for it: their shades may be much the same.
function cutsOf(rows) {
  const isWide = ({ x, end }) => end - x >= LEAST_PARTED;
  const cuts = rows.filter((row, at) => at && rows[at - 1].end === row.x && rows[at - 1].value !== row.value && isWide(row) && isWide(rows[at - 1]));
  return cuts.length ? [`<path data-cut='${cuts.length}' d='${cuts.map(({ x }) => `M${x} -65v130`).join("")}'/>`] : [];
}

// Points on one place of the picture show how many they are, where there is room to say it.
function countsOf(points) {
  const counts = new Map(), texts = [];
  for (const { x } of points) counts.set(x, (counts.get(x) || 0) + 1);
  let free = 0;
  for (const [x, count] of counts) {
    if (count === 1 || x < free) continue;
    texts.push(`<text data-count='${count}' x='${x - 20}' y='-25' text-anchor='end'>${count}\u00d7<\/text>`);
    free = x + WIDE_COUNT;
  }
  return texts;
}

// The point whose tick is at a place of the picture, or nearest to it.
export function pointNear(tick, x) {
  const { side } = tick.dataset, { class: name } = tick.closest("g[data-class]").dataset;
  const points = seen.things.filter(thing => thing.class === name && thing.side === side);
  return points.reduce((best, thing) => (best && Math.abs(best.x - x) <= Math.abs(thing.x - x) ? best : thing), undefined);
}

// A frame around a stretch, with a text.
export function drawMarks(marks) {
  const svg = shownDiagram();
  if (!svg) return;
  for (const old of svg.querySelectorAll("[data-mark]")) old.remove();
  const tall = svg.viewBox.baseVal.height;
  for (const { from, to, text } of marks) {
    if (to <= seen.from || from >= seen.to) continue;
    const left = across(Math.max(from, seen.from)), wide = Math.max(across(Math.min(to, seen.to)) - left, 30);
    const group = drawn("g", { "data-mark": text, "pointer-events": "none" });
    group.append(
      drawn("rect", { x: left - 20, y: 20, width: wide + 40, height: tall - 40, "stroke-width": 30, "stroke-dasharray": "90 45" }),
      drawn("text", { x: Math.min(left + 40, 9800), y: 170, "font-size": 150, "stroke-width": 40, "paint-order": "stroke" }, text),
    );
    svg.append(group);
  }
}

// Where a point of the window is in the picture.
export function unitsAt(event) {
  return new DOMPoint(event.clientX, event.clientY).matrixTransform(shownDiagram().getScreenCTM().inverse()).x;
}

// What stands above and below a place of the picture; points count when they are near.
export function thingsAt(x, off) {
  const found = seen.things.filter(thing => !off.has(thing.class) && (thing.kind === "point" ? Math.abs(thing.x - x) <= NEAR : thing.x <= x && x < thing.end));
  const names = found.slice(0, MOST_UNDER).map(({ class: name, side, asset, value }) => `${name} ${side} ${value} (asset ${asset})`);
  return found.length > names.length ? [...names, `and ${found.length - names.length} more`] : names;
}
