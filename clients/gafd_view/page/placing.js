// Pins, and where the parts of a symbol stand on a sheet (docs/RULES.md, "Placing"): mirrored, then
// turned, then shifted. Texts are turned as lepton-schematic does it.

import { slotNumbers, symbolParts, valuesAmong } from "./attributes.js";

const knownPins = new WeakMap();

/** The pins of a component with their places, numbers and labels; bus pins have no place. */
export function pinsOf(component, symbols) {
  const parts = symbolParts(component, symbols) || [];
  const found = knownPins.get(component);
  if (found && found.parts === parts) return found.pins;
  const pins = findPins(component, parts, slotNumbers(component, symbols));
  knownPins.set(component, { parts, pins });
  return pins;
}

function findPins(component, parts, numbers) {
  const own = (pin, name) => valuesAmong(pin.attached, name)[0];
  let place = 0;
  return parts.filter((it) => it.letter === "P").map((pin) => {
    const seq = /^[0-9]{1,4}$/.test(own(pin, "pinseq") || "") ? Number(own(pin, "pinseq")) : 0;
    const number = (numbers && numbers[seq - 1]) || own(pin, "pinnumber");
    const isWord = number && !/[\s\x00-\x1f]/.test(number);
    const [x, y] = component.parts ? activeEnd(pin) : placedPoint(component, ...activeEnd(pin));
    const label = own(pin, "pinlabel");
    return { pin, place: pin.type ? null : place++, number: isWord ? number : "?", label, x, y };
  });
}

/** The end of a pin to which wires go. */
export function activeEnd(pin) {
  return pin.whichend ? [pin.x2, pin.y2] : [pin.x1, pin.y1];
}

/** A point of a library symbol as it stands on the sheet. */
export function placedPoint(component, x, y) {
  const [sin, cos] = [[0, 1], [1, 0], [0, -1], [-1, 0]][component.angle / 90];
  const at = component.mirror ? -x : x;
  return [component.x + at * cos - y * sin, component.y + at * sin + y * cos];
}

/** A part of a component's symbol as it stands on the sheet, where embedded ones stand already. */
export function placedPart(part, component) {
  if (component.parts) return part;
  const it = { ...part };
  if (it.letter === "H") {
    const [[x0, y0], [x1, y1], [x2, y2]] = [[0, 0], [1, 0], [0, 1]]
      .map(([x, y]) => placedPoint(component, x, y));
    it.matrix = [x1 - x0, y1 - y0, x2 - x0, y2 - y0, x0, y0];
  } else if ("x1" in it) {
    [it.x1, it.y1] = placedPoint(component, part.x1, part.y1);
    [it.x2, it.y2] = placedPoint(component, part.x2, part.y2);
  } else if ("wide" in it) {
    const [x1, y1] = placedPoint(component, part.x, part.y);
    const [x2, y2] = placedPoint(component, part.x + part.wide, part.y + part.high);
    Object.assign(it, { x: Math.min(x1, x2), y: Math.min(y1, y2) });
    Object.assign(it, { wide: Math.abs(x1 - x2), high: Math.abs(y1 - y2) });
    if ("angle" in it) it.angle = (part.angle + component.angle) % 360;
  } else {
    [it.x, it.y] = placedPoint(component, part.x, part.y);
    if (it.letter === "A" && component.mirror) {
      Object.assign(it, { start: 180 - part.start, sweep: -part.sweep });
    }
    if (it.letter === "A") it.start += component.angle;
    if (it.letter === "T") {
      if (component.mirror) it.align = mirroredAlign(part);
      it.angle = (part.angle + component.angle) % 360;
    }
  }
  return it;
}

/** Left and right change places; of a text that stands upright, lower and upper do. */
function mirroredAlign(text) {
  if (text.angle % 180 === 0) return [6, 7, 8, 3, 4, 5, 0, 1, 2][text.align];
  return [2, 1, 0, 5, 4, 3, 8, 7, 6][text.align];
}

/** The point by which an object is turned, and to which the page goes. */
export function anchorOf(object) {
  if ("x1" in object) return [object.x1, object.y1];
  if ("x" in object) return [object.x, object.y];
  const numbers = object.content.match(/-?[0-9]+/g) || [0, 0];
  return [Number(numbers[0]), Number(numbers[1])];
}
