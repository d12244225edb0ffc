// What all drawing of one sheet shares: its symbols, the sizes of the font, and the box around all.

export const LEAST_WIDTH = 5;
export const NET_WIDTH = 10;
export const BUS_WIDTH = 30;
export const OPEN_END = 60;
export const [DOT, BUS_DOT] = [25, 35];
// A size of 10 is letters of 13 points; a point is 1000/72 mils.
export const EM = (1.3 * 1000) / 72;
export const [GRAPHIC, NET_END, DETACHED, JUNCTION] = [3, 2, 8, 21];
// The name of what is not there.
export const NAME_LOOK = { size: 6, visible: 1, show: 0, angle: 0, align: 0 };

/** The sizes of Arial as shares of an em, for where no browser measures: widths are guessed. */
export function guessedSizes(line) {
  return { width: 0.55 * line.length, ascent: 0.905, descent: 0.212 };
}

/** Widens the box of a canvas to hold points, y up. */
export function widenBox(canvas, ...numbers) {
  for (let at = 0; at < numbers.length; at += 2) {
    const [x, y] = [numbers[at], numbers[at + 1]];
    const [x1, y1, x2, y2] = canvas.box || [x, y, x, y];
    canvas.box = [Math.min(x1, x), Math.min(y1, y), Math.max(x2, x), Math.max(y2, y)];
  }
}

/** The class of an object's colour; an index that no map has is drawn as graphic. */
export function colourClass(object) {
  return `k${object.color >= 0 && object.color < 24 ? object.color : GRAPHIC}`;
}

/** An empty canvas. `sizes` tells width, ascent and descent of a line as shares of an em. */
export function newCanvas(symbols, sizes = guessedSizes) {
  return { symbols, sizes, box: null };
}

/** A circle as path data, from its leftmost point. */
export function circlePath(radius) {
  return `a${radius} ${radius} 0 1 0 ${2 * radius} 0a${radius} ${radius} 0 1 0 ${-2 * radius} 0z`;
}
