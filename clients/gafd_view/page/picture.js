// The drawing of the shown sheet, and what is lit, chosen, framed and marked on it.

import { cuesOf, drawCues } from "./cues.js";
import { drawObject, drawSheet } from "./drawing.js";
import { findingLine, findingText, findingsAt } from "./findings.js";
import { newCanvas } from "./canvas.js";
import { placesOf } from "./instances.js";
import { board, byId, fill, shown, shownInstance, shownObjects } from "./state.js";
import { escapeText } from "./texts.js";
import { bringIn, fit } from "./viewport.js";

const MOST_PATCHED = 200;
const FRAME = 60;
const FLAG = 110;
const MOST_FLAGS = 500;
const JOINING = "NUPC";
let [openNow, openEnds] = [[], null];

/** Draws the whole sheet. */
export function drawAll(isFit = false) {
  const drawing = drawSheet(shownObjects(), board.symbols, shown.sizes);
  shown.extent = drawing.box;
  if (isFit) fit();
  byId("drawn").innerHTML = [...drawing.drawn.values()].join("");
  byId("cues").innerHTML = drawing.cues;
  [openNow, openEnds] = [drawing.open, null];
  light();
}

/** Draws what changed alone, where it is little; the order of objects stays. */
export function drawChanges({ changed, added, gone, isNew, hasSymbols }) {
  const count = changed.length + added.length + gone.length;
  if (isNew || hasSymbols || count > MOST_PATCHED) return drawAll(isNew);
  if (!count) return undefined;
  const canvas = newCanvas(board.symbols, shown.sizes);
  for (const object of gone) elementOf(object.id)?.remove();
  for (const [, object] of changed) elementOf(object.id).outerHTML = drawObject(object, canvas);
  byId("drawn").insertAdjacentHTML("beforeend", added.map((it) => drawObject(it, canvas)).join(""));
  if (mayJoin({ changed, added, gone })) {
    const cues = cuesOf(shownObjects(), board.symbols);
    byId("cues").innerHTML = drawCues(cues);
    openNow = cues.open;
  }
  return light();
}

/** Whether changes may join or part wires and pins: not where but attached texts changed. */
function mayJoin({ changed, added, gone }) {
  const joins = (it) => JOINING.includes(it.letter);
  const line = (it) => it.text.slice(0, it.text.indexOf("\n"));
  return [...added, ...gone].some(joins)
    || changed.some(([was, is]) => joins(is) && (is.parts || line(was) !== line(is)));
}

/** The drawing of an object, or null. */
export function elementOf(id) {
  return byId("drawn").querySelector(`[data-id="${id}"]`);
}

export function boxesOf(ids) {
  return ids.map(elementOf).filter((it) => it).map((it) => it.getBBox());
}

/** Lights the wires and pins of the lit net, or of a group without one, and the chosen objects. */
export function light() {
  const { net, group, nets: { netOf, groupOf } } = shown;
  const isLit = (key) => (net ? netOf.get(key) === net : groupOf.get(key) === group);
  // Where nothing is to be lit, only what was has to be looked at.
  const places = net || group !== null ? "[data-key]" : ".lit";
  for (const one of byId("drawn").querySelectorAll(places)) {
    one.classList.toggle("lit", places !== ".lit" && isLit(one.dataset.key));
  }
  for (const one of byId("drawn").querySelectorAll(".chosen")) one.classList.remove("chosen");
  for (const id of shown.chosen) elementOf(id)?.classList.add("chosen");
}

function framePath({ x, y, width, height }) {
  const [wide, high] = [width + 2 * FRAME, height + 2 * FRAME];
  return `M${x - FRAME} ${y - FRAME}h${wide}v${high}h${-wide}z`;
}

/** Frames round boxes, which go after some seconds. */
export function frame(boxes, kind, seconds) {
  const paths = boxes.map((it) => `<path class="${kind}" d="${framePath(it)}"/>`);
  byId("marks").insertAdjacentHTML("beforeend", `<g>${paths.join("")}</g>`);
  const made = byId("marks").lastElementChild;
  setTimeout(() => made.remove(), seconds * 1000);
}

/** Frames of what is dragged, where it would come to stand. */
export function frameDragged(dx, dy) {
  const paths = boxesOf([...shown.chosen])
    .map((it) => `<path d="${framePath({ ...it, x: it.x + dx, y: it.y + dy })}"/>`);
  byId("marks").innerHTML = paths.join("");
}

/** The frame of a box, as x, y, width and height, that is drawn up. */
export function frameArea([x, y, width, height]) {
  byId("marks").innerHTML = `<path class="area" d="M${x} ${y}h${width}v${height}h${-width}z"/>`;
}

/** Brings objects into the middle, and frames them for a while. */
export function showObjects(ids) {
  const boxes = boxesOf(ids);
  if (!boxes.length) return;
  bringIn(boxes);
  frame(boxes, "here", 6);
}

/** Rings round the ends that have come loose since the ends were looked at last. */
export function markLooseEnds() {
  const open = new Map(openNow.map((it) => [it.join(), it]));
  const loose = openEnds ? [...open].filter(([key]) => !openEnds.has(key)).map(([, it]) => it) : [];
  openEnds = open;
  const boxes = loose.map(([x, y]) => ({ x: x - FRAME, y: -y - FRAME, width: 2 * FRAME,
    height: 2 * FRAME }));
  if (boxes.length) frame(boxes, "loose", 8);
}

/** Where a key is on the sheet, y down: of a pin its active end, of a wire its middle. */
function pointsOfKeys() {
  return new Map(shown.nets.groups.flatMap(({ conductors }) => conductors)
    .map((it) => [it.key, [(it.x1 + it.x2) / 2, -(it.y1 + it.y2) / 2]]));
}

/** A place that is written as X,Y with y up, with y down; or null. */
function placeIn(text) {
  if (!text.includes(",")) return null;
  const [x, y] = text.split(",").map(Number);
  return [x, -y];
}

/** The upper left corner of an object's drawing, or null. */
function cornerOf(id) {
  const box = elementOf(id)?.getBBox();
  return box ? [box.x, box.y] : null;
}

/** Brings a place, as X,Y with y up, into the middle, and frames it for a while. */
export function showPlace(text) {
  const [x, y] = placeIn(text);
  const boxes = [{ x: x - FRAME, y: y - FRAME, width: 2 * FRAME, height: 2 * FRAME }];
  bringIn(boxes);
  frame(boxes, "here", 6);
}

/** Marks the parts, pins and places that have a finding, each with its words. */
export function drawFindings() {
  const instance = shownInstance();
  const objects = shownObjects();
  const places = placesOf([instance], new Map([[instance.sheet, objects]]), board.symbols);
  const spots = findingsAt([...board.findings, ...shown.rails], board.list.names,
    { instance, objects, places, groups: shown.nets.groups, symbols: board.symbols });
  const points = pointsOfKeys();
  fill("findings", [...spots].slice(0, MOST_FLAGS).map(([spot, found]) => {
    const point = points.get(spot) || placeIn(spot) || cornerOf(spot);
    return point ? drawFlag(point, found) : "";
  }).join(""));
}

function drawFlag([x, y], found) {
  const open = found.filter((it) => !shown.accepted.has(findingLine(it)));
  const level = open.some((it) => it.level === "error") ? "error"
    : open.length ? "warning" : "accepted";
  const words = escapeText(found.map(findingText).join("\n"));
  const first = escapeText(findingText((open.length ? open : found)[0]));
  return `<g class="finding ${level}" data-finding="${first}"><title>${words}</title>`
    + `<path d="M${x} ${y}l${FLAG / 2} ${-FLAG}h${-FLAG}z"/></g>`;
}
