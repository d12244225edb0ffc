// Sheets as SVG, in the shapes, sizes and places of lepton-schematic's own output. No browser is
// needed. Coordinates are mils with y up in a sheet, and down in SVG: each y is written negated.

import { attributeValue, slotNumbers, sourcesOf, splitAttribute,
  symbolParts } from "./attributes.js";
import { EM, NAME_LOOK, DETACHED, guessedSizes, newCanvas, widenBox } from "./canvas.js";
import { cuesOf, drawCues } from "./cues.js";
import { pinsOf, placedPart } from "./placing.js";
import { drawShape } from "./shapes.js";
import { drawText } from "./texts.js";

/**
 * The drawing of a sheet: the SVG of each object by its id, of the cues, the box around all, and the
 * open ends.
 */
export function drawSheet(objects, symbols, sizes = guessedSizes) {
  const canvas = newCanvas(symbols, sizes);
  const drawn = new Map(objects.map((it) => [it.id, drawObject(it, canvas)]));
  const cues = cuesOf(objects, symbols);
  return { drawn, cues: drawCues(cues), box: canvas.box || [0, 0, 17000, 11000], open: cues.open };
}

/** One object with its texts, as a group that has its id. */
export function drawObject(object, canvas) {
  const inner = object.letter === "C" ? drawComponent(object, canvas) : drawShape(object, canvas);
  const kind = object.letter === "C" ? componentKind(object, canvas.symbols) : "";
  const key = object.letter === "N" ? ` data-key="${object.id}.0"` : "";
  const texts = object.attached.map((it) => drawText(it, canvas)).join("");
  return `<g class="o ${object.letter}${kind}" data-id="${object.id}"${key}>${inner}${texts}</g>`;
}

/** Whether sheets are below it, it is a picture alone, or it is not there to be picked. */
function componentKind(component, symbols) {
  const below = sourcesOf(component, symbols).length ? " below" : "";
  const picture = attributeValue(component, "graphical", symbols) === "1" ? " picture" : "";
  return below + picture + (component.selectable ? "" : " fixed");
}

function drawComponent(component, canvas) {
  const parts = symbolParts(component, canvas.symbols);
  if (!parts) return drawPlaceholder(component, canvas);
  const pins = new Map(pinsOf(component, canvas.symbols).map((it) => [it.pin, it]));
  const hasSlot = slotNumbers(component, canvas.symbols) !== null;
  return parts.map((part) => {
    // Attributes of a library symbol are shown where they are attached to the component.
    const isInherited = part.letter === "T" && !component.parts && splitAttribute(part);
    if (isInherited || (part.letter === "T" && !part.visible)) return "";
    const pin = pins.get(part);
    const texts = part.attached.filter((it) => it.visible)
      .map((it) => placedPart(pin && hasSlot ? slotText(it, pin.number) : it, component));
    const inner = drawShape(placedPart(part, component), canvas)
      + texts.map((it) => drawText(it, canvas)).join("");
    if (!pin || pin.place === null) return inner;
    return `<g class="pin" data-key="${component.id}.${pin.place}">${inner}</g>`;
  }).join("");
}

function slotText(text, number) {
  return (splitAttribute(text) || [])[0] === "pinnumber"
    ? { ...text, content: `pinnumber=${number}` } : text;
}

/** What stands for a component whose symbol is not there. */
function drawPlaceholder({ x, y, basename }, canvas) {
  const right = 180 + NAME_LOOK.size * EM * canvas.sizes(basename).width;
  const lines = [[-30, 30, 30, -30], [-30, -30, 50, 50], [50, 50, 50, 210], [50, 50, right, 50]]
    .map(([a, b, c, d]) => `M${x + a} ${-y - b}L${x + c} ${-y - d}`);
  widenBox(canvas, x - 30, y - 30, x + right, y + 210);
  const name = { letter: "T", x: x + 100, y: y + 100, color: DETACHED, ...NAME_LOOK,
    content: basename };
  return `<path class="k${DETACHED}" stroke-width="10" d="${lines.join("")}"/>`
    + drawText(name, canvas);
}
