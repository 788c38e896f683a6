// Millimetres, metres, and fractions that are exact.

export const metres = mm => `${Math.floor(mm / 1000)}.${String(mm % 1000).padStart(3, "0")}`;

// The millimetres of a text of metres, or null.
export function millimetres(text) {
  const parts = /^(\d{1,9})(?:\.(\d{0,3}))?$/.exec(text.trim());
  return parts && Number(parts[1]) * 1000 + Number((parts[2] || "").padEnd(3, "0"));
}

// The chainage at a measure with decimals, or null where no mark is behind it: that of the millimetre in which it stands, or of an
// end of a stretch the nearest one, a half going up, as the program does.
export function chainageOf(marks, measure, isEnd) {
  const [whole, rest] = measure.split("."), n = BigInt(whole + rest), d = 10n ** BigInt(rest.length);
  const behind = Math.max(marks.findIndex(([, high]) => n <= BigInt(high) * d), 1), [[start, low], [end, high]] = [marks[behind - 1], marks[behind]];
  const over = (n - BigInt(low) * d) * BigInt(end - start), span = BigInt(high - low) * d;
  return over < 0n || n > BigInt(high) * d ? null : start + Number(isEnd ? nearest([over, span]) : over / span);
}

// The whole number nearest to a fraction, a half going up.
export const nearest = ([n, d]) => (2n * n + d) / (2n * d);

// The measure at a chainage by the marks of a route, numerator and denominator.
export function measureAt(marks, chainage) {
  const behind = Math.max(marks.findIndex(([at]) => at >= chainage), 1);
  const [[start, low], [end, high]] = [marks[behind - 1], marks[behind]];
  return [BigInt(low) * BigInt(end - start) + BigInt(chainage - start) * BigInt(high - low), BigInt(end - start)];
}

// A fraction to three decimals, the rest cut off, and without decimals where it is whole.
export function decimal([n, d]) {
  const thousandths = (n * 1000n) / d, rest = String(thousandths % 1000n).padStart(3, "0");
  return n % d ? `${thousandths / 1000n}.${rest}` : String(n / d);
}

// The least terms of mm / length.
export function proportionOf(mm, length) {
  let [a, b] = [mm, length];
  while (b) [a, b] = [b, a % b];
  return `${mm / a}/${length / a}`;
}

// A measure that is a fraction, to three decimals.
export function short(measure) {
  const [n, d] = measure.split("/");
  return d ? `\u2248 ${(Number(n) / Number(d)).toFixed(3)}` : n;
}

export const counted = (count, one, more = `${one}s`) => `${count} ${count === 1 ? one : more}`;
