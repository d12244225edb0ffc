// Opening instances, and leading to what a list or the address names: `net:GND`, `part:R4`,
// `pin:R4-1`, `id:SHEET:12`, `symbol:SHEET:res.sym`, `place:SHEET:X,Y`, `sheet:SHEET` or
// `at:SHEET@PATH`.

import { keepAddress, namedInstance } from "./address.js";
import { compareWith, endComparison } from "./comparing.js";
import { freshen, showNets } from "./following.js";
import { showList, showTrail } from "./lists.js";
import { drawAll, elementOf, light, showObjects, showPlace } from "./picture.js";
import { board, byId, instanceOf, notice, sheetOf, shown, shownObjects } from "./state.js";

/** Opens an instance. */
export async function open(at, isBack = false) {
  shown.at = { sheet: at.sheet, path: at.path || "" };
  shown.chosen.clear();
  shown.group = null;
  for (const name of ["marks", "findings"]) byId(name).innerHTML = "";
  if (!isBack) keepAddress(true);
  drawAll(true);
  showNets();
  showTrail();
  if (board.stale.has(shown.at.sheet)) await freshen((name) => name === shown.at.sheet);
}

/** Lights a net, or no longer. */
function lightNet(name) {
  setNet(shown.net === name ? null : name);
  light();
  showList();
}

/** The net to be lit; where there is none, the group of what touches. */
export function setNet(net, group = null) {
  shown.net = net || null;
  shown.group = net ? null : group;
  keepAddress();
}

/** Goes to the first of these places that is on the shown sheet, else to the first. */
async function goToPlaces(places) {
  if (!places) return notice("it is on no sheet");
  const isHere = (it) => it.instance.sheet === shown.at.sheet && it.instance.path === shown.at.path;
  const place = places.find(isHere) || places[0];
  if (!isHere(place)) await open(place.instance);
  choose([place.id], false);
  return showObjects([place.id]);
}

/** Chooses objects, in place of those that were chosen or with them. */
export function choose(ids, isMore) {
  if (!isMore) shown.chosen.clear();
  for (const id of ids) {
    if (isMore && shown.chosen.has(id)) shown.chosen.delete(id);
    else shown.chosen.add(id);
  }
  keepAddress();
  light();
  showList();
}

/** Chooses the objects that lie in a box of mils with y down, with those that are chosen. */
export function chooseWithin([x, y, width, height]) {
  const ids = shownObjects().map((it) => it.id).filter((id) => {
    const element = elementOf(id);
    // What is there to be seen alone is not chosen: a frame, or a title block.
    if (!element || element.matches(".fixed, .picture")) return false;
    const box = element.getBBox();
    return box.x >= x && box.y >= y && box.x + box.width <= x + width
      && box.y + box.height <= y + height;
  });
  choose([...new Set([...shown.chosen, ...ids])], false);
  notice(`${shown.chosen.size} objects are chosen`, 3);
}

async function goToId(text) {
  const id = Number(text.slice(text.indexOf(":") + 1));
  if (!sheetOf(id)) await freshen();
  const sheet = sheetOf(id);
  if (!sheet) return notice("it is there no more");
  return goToPlaces([{ instance: instanceOf(sheet), id }]);
}

async function goToSymbol(text) {
  const [sheet, ...basename] = text.split(":");
  await open(instanceOf(sheet));
  showObjects(shownObjects().filter((it) => it.basename === basename.join(":")).map((it) => it.id));
}

/** Goes to a place of a sheet, as SHEET:X,Y with y up. */
async function goToPlace(text) {
  const at = text.lastIndexOf(":");
  const sheet = text.slice(0, at);
  if (!board.counts.has(sheet)) return notice("there is no such sheet");
  if (sheet !== shown.at.sheet) await open(instanceOf(sheet));
  return showPlace(text.slice(at + 1));
}

/** Goes to a printed part or pin; sheets that may have changed are read before. */
async function goToPrinted(kind, name) {
  if (!board.places[kind].has(name)) await freshen();
  return goToPlaces(board.places[kind].get(name));
}

const LINKS = {
  at: (text) => open(namedInstance(text)),
  sheet: (sheet) => (board.counts.has(sheet) ? open(instanceOf(sheet))
    : notice("there is no such sheet")),
  net: lightNet,
  part: (refdes) => goToPrinted("parts", refdes),
  pin: (pin) => goToPrinted("pins", pin),
  id: goToId,
  symbol: goToSymbol,
  place: goToPlace,
};

/** Lights a net, and goes to where it is: on the shown sheet, else at its first pin. */
async function goToNet(name) {
  if (shown.net !== name) lightNet(name);
  if (byId("drawn").querySelector(".lit")) return undefined;
  const net = board.list.nets.find((it) => it.name === name);
  return net ? goToPrinted("pins", net.members[0]) : notice(`there is no net ${name}`);
}

/** Goes to what an address names. */
export async function goToAddress({ at, links, compare }) {
  const isHere = !at || (at.sheet === shown.at.sheet && at.path === shown.at.path);
  if (!isHere && board.counts.has(at.sheet)) await open(at, true);
  for (const link of links) {
    if (link.startsWith("net:")) await goToNet(link.slice("net:".length));
    else await follow(link);
  }
  if (compare === null && shown.comparison) endComparison();
  else if (compare !== null && (shown.comparison?.front !== compare.front
    || shown.comparison.to !== compare.to)) await compareWith(compare.front, compare.to);
}

/** Follows a link of a list. */
export function follow(link) {
  return LINKS[link.slice(0, link.indexOf(":"))]?.(link.slice(link.indexOf(":") + 1));
}
