// Positions: how places are said to the program and by it, and why one cannot be found.

import { known } from "./requests.js";
import { placeAt, stretchAt } from "./addresses.js";
import { chainageOf, decimal, measureAt, metres, millimetres, nearest, proportionOf } from "./numbers.js";

const LEAST_MEASURES = 200, MOST_NAMED = 12;
const WRITTEN = {
  abs: "a measure, as 3000", rel: "a referent and millimetres from it, as KM2+500", int: "a proportion from 0/1 to 1/1, as 1/3",
  chainage: "metres with at most three decimals, as 12.5",
};

// A place as the program reads it. Measures that it knows are whole: of another one it is told the chainage.
export function textOfPlace({ method, pos }, { marks, length }, end = "") {
  if (method === "abs" && /^\d{1,15}\.\d{0,9}$/.test(pos)) return String(chainageOf(marks, pos, Boolean(end)) ?? refuse("OffRoute", end));
  if (method !== "chainage") return `${method}:${pos}`;
  const mm = millimetres(pos) ?? refuse("Malformed", end);
  return mm > length ? refuse("OffRoute", end) : String(mm);
}

// As the program does, with the end of a stretch that is wrong.
function refuse(name, end) {
  const cause = `${name}:${end}`;
  throw new Error(cause, { cause });
}

// Why a place cannot be found.
export function whyNot(name, error, { method }, { marks, length, refs }) {
  const [cause] = (error.cause || "").split(":"), names = refs.slice(0, MOST_NAMED).map(ref => ref.name).join(", ");
  if (cause === "OffRoute") return `${name} lies off the route, ${method === "abs" ? `whose measures are ${marks[0][1]} to ${marks.at(-1)[1]}` : `which is ${metres(length)} m long`}.`;
  if (cause === "NoRef") return `${name} is said from a referent that is not on the route. ${names ? `It has ${names}` : "It has none"}.`;
  if (cause === "Malformed") return `${name} cannot be read. Write ${WRITTEN[method]}.`;
  return cause === "TooFine" ? `${name} is too fine to be found. Say it by fewer digits.` : error.message;
}

// What lies at a place, and its ways to be said: of the millimetre in which it stands.
export async function whatLies(route, place) {
  try {
    return await known("v1/where", [["route", route.name], ["chainage", textOfPlace(place, route)]]);
  } catch (error) {
    throw new Error(whyNot("The position", error, place, route));
  }
}

// A stretch that is known by its chainages: said by measures, where whole ones are fine enough.
export function stretchBetween({ marks }, from, to) {
  const [low, high] = [from, to].map(at => nearest(measureAt(marks, at)));
  return high - low < LEAST_MEASURES ? stretchAt(from, to) : { from: { method: "abs", pos: String(low) }, to: { method: "abs", pos: String(high) } };
}

// How a method says a chainage. A measure that is not whole is cut to three decimals.
export function textOf({ length, marks, refs }, method, chainage) {
  if (method === "abs") return decimal(measureAt(marks, chainage));
  if (method === "int") return proportionOf(chainage, length);
  if (method === "chainage") return metres(chainage);
  const near = refs.reduce((best, ref) => (best && Math.abs(best.at - chainage) <= Math.abs(ref.at - chainage) ? best : ref), undefined);
  return near ? `${near.name}${near.at <= chainage ? "+" : "-"}${Math.abs(chainage - near.at)}` : "";
}

// A field is filled with how the method chosen says a chainage, and knows that chainage until somebody types.
export function fill(field, route, method, chainage) {
  field.value = textOf(route, method, chainage);
  field.dataset.chainage = chainage;
}

// The place that a field says, if any: what was typed, or the chainage that it was filled with, where its text would lose some of it.
export function said(field, method) {
  const pos = field.value.trim(), { chainage } = field.dataset;
  const isWhole = chainage === undefined || (method === "rel" && pos) || (method === "abs" && !pos.includes("."));
  return isWhole ? pos && { method, pos } : placeAt(Number(chainage));
}
