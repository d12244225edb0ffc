// Dots where wires meet, and squares at open ends.

import { BUS_DOT, DOT, JUNCTION, NET_END, OPEN_END, circlePath } from "./canvas.js";
import { activeEnd, pinsOf } from "./placing.js";
import { Ends, endsOf } from "./touching.js";

/** Wires, buses and pins with the ends at which they may be joined. */
function cuePieces(objects, symbols) {
  const pieces = [];
  const addPin = (pin, x, y) => {
    pieces.push({ letter: "P", isBus: pin.type === 1, x1: x, y1: y, x2: x, y2: y });
  };
  for (const object of objects) {
    if (object.letter === "N" || object.letter === "U") {
      pieces.push({ ...object, isBus: object.letter === "U" });
    } else if (object.letter === "P") {
      addPin(object, ...activeEnd(object));
    } else if (object.letter === "C") {
      for (const { pin, x, y } of pinsOf(object, symbols)) addPin(pin, x, y);
    }
  }
  return pieces;
}

/** What an end is: a junction, an open end, or neither. */
function endKind(piece, x, y, ends) {
  const others = ends.at(x, y).filter((it) => it !== piece && it.isBus === piece.isBus);
  const across = ends.across(x, y)
    .filter((it) => it !== piece && (it.isBus === piece.isBus || piece.letter === "N"));
  const isBus = [piece, ...across].some((it) => it.isBus);
  if (across.length || (piece.letter === "N" && others.length > 1)) {
    return { isJunction: true, isBus };
  }
  return { isOpen: !others.length && piece.letter !== "U" };
}

/**
 * The junctions of a sheet as x, y and whether it is a bus's, and its open ends as x and y; y up.
 */
export function cuesOf(objects, symbols) {
  const pieces = cuePieces(objects, symbols);
  const ends = new Ends(pieces);
  const [junctions, open] = [new Map(), new Map()];
  for (const piece of pieces) {
    for (const [x, y] of endsOf(piece)) {
      const { isJunction, isOpen, isBus } = endKind(piece, x, y, ends);
      if (isJunction) junctions.set(`${x},${y}`, [x, y, isBus]);
      else if (isOpen) open.set(`${x},${y}`, [x, y]);
    }
  }
  return { junctions: [...junctions.values()], open: [...open.values()] };
}

/** The junctions and the open ends of a sheet as two paths. */
export function drawCues({ junctions, open }) {
  const dots = junctions.map(([x, y, isBus]) => {
    const radius = isBus ? BUS_DOT : DOT;
    return `M${x} ${-y}m${-radius} 0${circlePath(radius)}`;
  });
  const squares = open.map(([x, y]) =>
    `M${x - OPEN_END / 2} ${-y - OPEN_END / 2}h${OPEN_END}v${OPEN_END}h${-OPEN_END}z`);
  return `<path class="cue k${NET_END}" d="${squares.join("")}"/>`
    + `<path class="cue k${JUNCTION}" d="${dots.join("")}"/>`;
}
