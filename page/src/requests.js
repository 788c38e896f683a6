// Requests. What was asked is kept until the inventory has another number of edits.

import { LOST, causeOf, reason } from "./words.js";

const MOST_KEPT = 100000000;
const kept = new Map(), lengths = new WeakMap();
let edits;

export const query = pairs => "?" + new URLSearchParams(pairs);

export async function send(path, settings) {
  try {
    const reply = await fetch(path, { cache: "no-store", ...settings });
    return { status: reply.status, text: await reply.text() };
  } catch {
    throw new Error(LOST);
  }
}

// What a question is answered. An error has the cause that the program named.
export async function get(path, pairs = []) {
  const { status, text } = await send(pairs.length ? path + query(pairs) : path);
  if (status !== 200) throw new Error(reason(status, text), { cause: causeOf(text) });
  return text;
}

async function answer(path, pairs) {
  const text = await get(path, pairs), value = JSON.parse(text);
  lengths.set(value, text.length);
  return value;
}

// The first two lines of an answer, which is read no further.
export async function firstLines(path, pairs) {
  const reply = await fetch(path + query(pairs), { cache: "no-store" }).catch(() => { throw new Error(LOST); });
  if (reply.status !== 200) throw new Error(reason(reply.status, await reply.text()));
  const reader = reply.body.pipeThrough(new TextDecoderStream()).getReader(), ends = /^.*\n.*\n/;
  let text = "";
  for (let piece = await reader.read(); !piece.done && !ends.test((text += piece.value)); ) piece = await reader.read();
  reader.cancel();
  return ends.exec(text)?.[0] ?? text;
}

// The same, asked once: what was not asked for longest is forgotten first, and so is what failed.
export function known(path, pairs = [], asking = answer) {
  const name = `${asking.name} ${path}${query(pairs)}`, entry = kept.get(name) || { found: asking(path, pairs), length: 0 };
  kept.delete(name);
  kept.set(name, entry);
  entry.found.then(
    value => (entry.length = lengths.get(value) ?? value.length, forgetOldest()),
    () => kept.get(name) === entry && kept.delete(name),
  );
  return entry.found;
}

function forgetOldest() {
  let length = 0;
  for (const entry of kept.values()) length += entry.length;
  for (const [name, entry] of kept) if (length > MOST_KEPT) kept.delete(name), (length -= entry.length);
}

// The number of edits. Where it is another than before, all that was kept is forgotten.
export async function renew() {
  const health = await answer("health").catch(error => ({ error }));
  if (health.error || health.edits !== edits) kept.clear();
  edits = health.edits;
  if (health.error) throw health.error;
  return edits;
}
