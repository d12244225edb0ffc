// What touches on a sheet: for the dots and the open ends that are drawn, and for the groups of
// wires and pins that are nets (docs/RULES.md, "Touching").

import { pinsOf } from "./placing.js";

/** Pieces that lie on one line, as spans along it. */
class Line {
  constructor() {
    this.spans = [];
    this.isSorted = false;
  }

  put(from, to, piece) {
    this.spans.push({ from: Math.min(from, to), to: Math.max(from, to), reach: 0, piece });
  }

  /** By where they begin, each with how far it and those before it reach. */
  sort() {
    this.spans.sort((one, other) => one.from - other.from);
    let reach = -Infinity;
    for (const one of this.spans) {
      reach = Math.max(reach, one.to);
      one.reach = reach;
    }
    this.isSorted = true;
  }

  /** The pieces that go on to both sides of a place. */
  across(at) {
    if (!this.isSorted) this.sort();
    let [low, high] = [0, this.spans.length];
    while (low < high) {
      const middle = (low + high) >> 1;
      if (this.spans[middle].from < at) low = middle + 1;
      else high = middle;
    }
    const found = [];
    for (let place = low - 1; place >= 0 && this.spans[place].reach > at; place--) {
      if (this.spans[place].to > at) found.push(this.spans[place].piece);
    }
    return found;
  }
}

const NONE = [];

/** Pieces by their ends, and the upright and level ones by the line on which they lie. */
export class Ends {
  constructor(pieces) {
    this.ends = new Map();
    this.level = new Map();
    this.upright = new Map();
    for (const piece of pieces) {
      for (const [x, y] of endsOf(piece)) found(this.ends, `${x},${y}`, () => []).push(piece);
      const { x1, y1, x2, y2 } = piece;
      if (x1 === x2 && y1 !== y2) found(this.upright, x1, () => new Line()).put(y1, y2, piece);
      if (y1 === y2 && x1 !== x2) found(this.level, y1, () => new Line()).put(x1, x2, piece);
    }
  }

  /** The pieces with an end at a point. */
  at(x, y) {
    return this.ends.get(`${x},${y}`) || NONE;
  }

  /** The level and upright pieces that go on to both sides of a point. */
  across(x, y) {
    const level = this.level.get(y)?.across(x) || NONE;
    const upright = this.upright.get(x)?.across(y) || NONE;
    return upright.length ? [...level, ...upright] : level;
  }
}

/** What a map has under a key; where it has nothing, what is made for it. */
function found(map, key, make) {
  if (!map.has(key)) map.set(key, make());
  return map.get(key);
}

export function endsOf(piece) {
  const isPoint = piece.x1 === piece.x2 && piece.y1 === piece.y2;
  return isPoint ? [[piece.x1, piece.y1]] : [[piece.x1, piece.y1], [piece.x2, piece.y2]];
}

/** What joins, of the objects of one sheet: wires, and pins as points at their active ends. */
export function conductorsOf(objects, symbols) {
  const found = [];
  for (const object of objects) {
    if (object.letter === "N") {
      const { x1, y1, x2, y2 } = object;
      found.push({ key: `${object.id}.0`, object, pin: null, x1, y1, x2, y2 });
    } else if (object.letter === "C") {
      for (const pin of pinsOf(object, symbols).filter((it) => it.place !== null)) {
        const { x, y } = pin;
        found.push({ key: `${object.id}.${pin.place}`, object, pin, x1: x, y1: y, x2: x, y2: y });
      }
    }
  }
  return found;
}

/** Lists of conductors that a chain of touching ones joins. */
export function touchingGroups(conductors) {
  const above = new Map(conductors.map((it) => [it, it]));
  const top = (it) => {
    while (above.get(it) !== it) {
      above.set(it, above.get(above.get(it)));
      it = above.get(it);
    }
    return it;
  };
  const ends = new Ends(conductors);
  for (const one of conductors) {
    for (const [x, y] of endsOf(one)) {
      for (const other of [...ends.at(x, y), ...ends.across(x, y)]) above.set(top(one), top(other));
    }
  }
  const groups = new Map();
  for (const one of conductors) {
    if (!groups.has(top(one))) groups.set(top(one), []);
    groups.get(top(one)).push(one);
  }
  return [...groups.values()];
}
