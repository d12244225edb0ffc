// Wires that follow the parts that are moved. What is drawn upright or level stays so: a wire that
// would slant goes on by a second one.

import { endsOf } from "./touching.js";
import { pinsOf } from "./placing.js";

const NET_COLOUR = 4;

const key = (x, y) => `${x},${y}`;

/** The places of the pins of components, by whether these are moved. */
function pinPlaces(objects, moved, symbols) {
  const places = { true: new Map(), false: new Set() };
  for (const object of objects.filter((it) => it.letter === "C")) {
    for (const { place, x, y } of pinsOf(object, symbols)) {
      if (place === null) continue;
      if (moved.has(object.id)) places.true.set(key(x, y), [x, y]);
      else places.false.add(key(x, y));
    }
  }
  return [places.true, places.false];
}

/** Whether a wire goes on to both sides of a point. */
function passes({ x1, y1, x2, y2 }, [x, y]) {
  if (x1 === x2) return x === x1 && Math.min(y1, y2) < y && y < Math.max(y1, y2);
  return y1 === y2 && y === y1 && Math.min(x1, x2) < x && x < Math.max(x1, x2);
}

/** A wire as its text, with the colour and the block of attributes of another one. */
function wireText([x1, y1], [x2, y2], like = null) {
  const block = like ? like.text.slice(like.text.indexOf("\n") + 1) : "";
  return `N ${x1} ${y1} ${x2} ${y2} ${like ? like.color : NET_COLOUR}\n${block}`;
}

/** New wires from a point to where it goes: by a corner, where it goes across and up. */
function wiresBetween([x, y], [toX, toY]) {
  const points = [[x, y], [toX, y], [toX, toY]]
    .filter(([a, b], at, all) => !at || a !== all[at - 1][0] || b !== all[at - 1][1]);
  return points.slice(1).map((it, at) => wireText(points[at], it));
}

/** A wire of which one end goes: itself and, where it would slant, a new one to where it went. */
function stretched(wire, fixed, end, [toX, toY]) {
  const isLevel = wire.y1 === wire.y2 && wire.x1 !== wire.x2;
  const isUpright = wire.x1 === wire.x2 && wire.y1 !== wire.y2;
  if (isLevel && toY !== end[1]) {
    if (fixed[0] === toX) return [[fixed, [toX, toY]]];
    return [[fixed, [toX, end[1]]], [[toX, end[1]], [toX, toY]]];
  }
  if (isUpright && toX !== end[0]) {
    if (fixed[1] === toY) return [[fixed, [toX, toY]]];
    return [[fixed, [end[0], toY]], [[end[0], toY], [toX, toY]]];
  }
  return [[fixed, [toX, toY]]];
}

/**
 * What follows objects that are moved by so much: wires that go as they are, by their ids; wires that
 * are stretched, by id and text; those of which nothing is left; and the texts of new wires. A wire follows by an end that is on a
 * pin of a moved part. Where a pin of another part or the middle of another wire is there too, that
 * stays joined by a new wire.
 */
export function followers(objects, ids, [dx, dy], symbols) {
  const moved = new Set(ids);
  const [going, staying] = pinPlaces(objects, moved, symbols);
  const wires = objects.filter((it) => it.letter === "N" && !moved.has(it.id));
  const found = { moved: [], stretched: [], gone: [], added: [] };
  const isHeld = (at) => staying.has(key(...at)) || wires.some((it) => passes(it, at));
  const held = new Map([...going].filter(([, at]) => isHeld(at)));
  for (const at of held.values()) {
    found.added.push(...wiresBetween(at, [at[0] + dx, at[1] + dy]));
  }
  for (const wire of wires) {
    const ends = endsOf(wire);
    const goes = ends.map((it) => going.has(key(...it)) && !held.has(key(...it)));
    if (goes.every((it) => it)) {
      found.moved.push(wire.id);
    } else if (goes.some((it) => it)) {
      const [end, fixed] = goes[0] ? ends : [...ends].reverse();
      const to = [end[0] + dx, end[1] + dy];
      const [first, ...more] = stretched(wire, fixed, end, to);
      if (key(...first[0]) === key(...first[1])) found.gone.push(wire.id);
      else found.stretched.push([wire.id, wireText(first[0], first[1], wire)]);
      found.added.push(...more.map(([from, until]) => wireText(from, until)));
    }
  }
  return found;
}
