// What the program and the web server say, in plain words.

const CAUSES = {
  AssetKnown: "the number of the asset was used before", BadCsv: "a record has not as many fields as the header",
  BadHeader: "the first line is not the header of this kind of sheet",
  BadMarks: "the marks must rise from the start of the route to its end, and mark % (the first is 0) does not fit",
  BadPiece: "piece % (the first is 0) does not lie within its link", ClassKnown: "there is a class of this name",
  Empty: "nothing lies there, or the stretch has no length", KeyUsed: "edit % has this key, and is another command",
  LinkKnown: "there is a link of this number", Malformed: "% cannot be read, or a number in it is too large or too fine",
  MeasureRange: "the measures would grow too large", NoAsset: "there is no asset of this number", NoClass: "there is no class of this name",
  NoEdit: "there is no edit of this number", NoLink: "there is no link of this number", NoMark: "the route has no mark at this place",
  NoRef: "the referent is not on this route", NoRoute: "there is no route of this name", NotExclusive: "the class is not exclusive",
  NothingLeft: "nothing would be left of the route", OffRoute: "the position is not on the route", Overlap: "asset % of this class lies there",
  RefKnown: "there is a referent of this name", RepeatedKey: "two records have one key, and nothing was done",
  RouteKnown: "there is a route of this name", SameRoute: "the two routes are one", SideB: "a single side is wanted",
  Taken: "ground of piece % (the first is 0) is on a route, or twice on this one", TooFine: "the position is too fine: its denominator is too large",
  TooLong: "the route would be too long", TooMany: "the inventory has as many % as it can have", WrongKind: "the class is of another kind",
};

export const STATUSES = {
  400: "The request could not be read.", 401: "You are not logged in.", 403: "You may not do this.",
  404: "There is nothing at this path: perhaps the program is older than this page.",
  409: "It cannot be done.",
  413: "The sheet is too long, or has a part that cannot be cut. Nothing of this part was done.",
  415: "The web server takes no sheet of this type.", 422: "The sheet could not be read to its end.", 502: "The program does not run.",
  503: "The program has too little memory, or could not write to its disk. If this comes again and again, the disk must be mended and the program started again.",
  504: "The program took too long to reply.",
};

export const LOST = "No reply came: the connection broke, or the web server does not run.";
export const GO_ON = " It is not known how far the sheet was done. Go on with it once the program runs: what was done is passed over, and nothing is done twice.";

// A cause, and behind it what it means.
export function sentence(cause) {
  const [name, argument] = cause.split(":"), known = CAUSES[name];
  return known ? `${cause}: ${known.replace("%", () => argument)}` : cause;
}

// The cause that a body names, where it names one, and the sentence on it, where it has one.
function faultOf(text) {
  try {
    const { error, why } = JSON.parse(text);
    return { error, why };
  } catch {
    return {};
  }
}

export const causeOf = text => faultOf(text).error;

export function reason(status, text) {
  const { error, why } = faultOf(text);
  if (why) return `${why[0].toUpperCase()}${why.slice(1)}${/[.!?]$/.test(why) ? "" : "."}`;
  return error ? `${sentence(error)}.` : `${STATUSES[status] || "The request failed."} (Status ${status}.)`;
}
