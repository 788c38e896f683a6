// Where the page is: its address says it, and Back goes to what was shown before.

import { readAddress, writeAddress, stretchAt } from "./addresses.js";
import { stretchBetween } from "./positions.js";

const ONE_GESTURE = 1500, LEAST_SPAN = 10;

// The route that is shown, what was asked of it, and the stretch that is drawn.
export const view = { route: null, address: {}, from: 0, to: 0, asset: [], place: [] };
let shows = () => {}, lastGesture = 0;

export function start(showing) {
  shows = showing;
  window.onhashchange = () => shows(readAddress(location.hash.slice(1)));
  return shows(readAddress(location.hash.slice(1)));
}

// Shows the address again, as where something is new.
export function showAgain() {
  view.address = {};
  return shows(readAddress(location.hash.slice(1)));
}

// Steps of one gesture are one step for Back.
export function go(address, isGesture = false) {
  const now = Date.now(), target = `#${writeAddress(address)}`;
  if (isGesture && now - lastGesture < ONE_GESTURE) history.replaceState(null, "", target);
  else if (target !== location.hash) history.pushState(null, "", target);
  lastGesture = isGesture ? now : 0;
  return shows(address);
}

// A stretch within the route, and of some length.
export function within(from, to, length) {
  const span = Math.min(Math.max(Math.round(to - from), LEAST_SPAN), length), start = Math.min(Math.max(Math.round(from), 0), length - span);
  return [start, start + span];
}

export function showRange(from, to, isGesture) {
  const { length } = view.route, [start, end] = within(from, to, length), { route, place, asset } = view.address;
  return go({ route, stretch: end - start === length ? undefined : stretchBetween(view.route, start, end), place, asset }, isGesture);
}

// The address of a stretch of an asset, with some road around it.
export function aroundAsset(route, from, to, asset, length = Infinity) {
  const around = Math.max(Math.round((to - from) / 4), 5000), start = Math.max(from - around, 0), end = Math.min(to + around, length);
  return { route, stretch: start === 0 && end === length ? undefined : stretchAt(start, end), asset };
}
