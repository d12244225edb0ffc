// The address of the page: what stands behind its `#`, parted by `&`. `SHEET@PATH` is an instance,
// `part:R17`, `net:GND` and each other link of a list is what is chosen or lit, and `compare=12` is
// a comparison with the board as it was after so many edits, of `compare=12..20` of two such boards.

import { refdesIn } from "./instances.js";
import { board, objectOf, shown, shownInstance } from "./state.js";

const LINK = /^(part|pin|net|id|symbol|place|sheet):/;
const COMPARE = /^compare=([0-9]{1,7})(?:\.\.([0-9]{1,7}))?$/;

/** The instance that SHEET@PATH names, or null. */
export function namedInstance(text) {
  const [sheet, ...path] = text.split("@");
  return sheet ? { sheet, path: path.join("@") } : null;
}

/** An escape that no browser can read stays as it is. */
function decoded(text) {
  try {
    return decodeURIComponent(text);
  } catch {
    return text;
  }
}

/**
 * What an address names: an instance or null, links, and the edits after which boards are compared,
 * of which the second is null for now; or null.
 */
export function readAddress(hash) {
  const items = hash.replace(/^#/, "").split("&").map(decoded).filter((it) => it);
  const compared = items.map((it) => COMPARE.exec(it)).find((it) => it);
  const place = items.find((it) => !LINK.test(it) && !COMPARE.test(it));
  return { at: place === undefined ? null : namedInstance(place),
    links: items.filter((it) => LINK.test(it)), compare: compared
      ? { front: Number(compared[1]), to: compared[2] ? Number(compared[2]) : null } : null };
}

/** What the address of the page names now. */
export const addressed = () => readAddress(location.hash);

/** Items as an address; what can be read there stays as it is. */
export function writeAddress(items) {
  const escaped = items.map((it) => encodeURIComponent(it)
    .replace(/%(40|3A|2F|3D|2B|2C)/g, decodeURIComponent));
  return `#${escaped.join("&")}`;
}

/** The link to an object: by its refdes, where it has one. */
function linkTo(object) {
  const refdes = object.letter === "C" && refdesIn(object, shownInstance(), board.symbols);
  return refdes && !refdes.endsWith("?") ? `part:${refdes}` : `id:${shown.at.sheet}:${object.id}`;
}

/** The comparison that is shown, as an item of an address. */
function comparedItem({ front, to }) {
  return `compare=${front}${to === null ? "" : `..${to}`}`;
}

/** What is shown, as an address. */
function shownAddress() {
  const chosen = shown.chosen.size === 1 && objectOf([...shown.chosen][0]);
  return writeAddress([`${shown.at.sheet}@${shown.at.path}`,
    ...(chosen ? [linkTo(chosen)] : []), ...(shown.net ? [`net:${shown.net}`] : []),
    ...(shown.comparison && !shown.comparison.proposal ? [comparedItem(shown.comparison)] : [])]);
}

/** Writes what is shown into the address, as a step of its own or in place of the last one. */
export function keepAddress(isStep = false) {
  if (!shown.at || shown.at.isGuess) return;
  const address = shownAddress();
  if (isStep) history.pushState(null, "", address);
  else if (address !== location.hash) history.replaceState(null, "", address);
}
