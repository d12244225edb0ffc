// Texts as SVG: what they show, and where their lines stand.

import { splitAttribute } from "./attributes.js";
import { EM, colourClass, widenBox } from "./canvas.js";

const LONGEST_UNBROKEN = 20;

/** What a text shows: of an attribute its name, its value, or both. */
function shownText(text) {
  const attribute = text.show ? splitAttribute(text) : null;
  return attribute ? attribute[2 - text.show] : text.content;
}

/** A text as it stands in markup. */
export function escapeText(text) {
  return text.replace(/[&<>"]/g, (it) => ({ "&": "&amp;", "<": "&lt;", ">": "&gt;",
    '"': "&quot;" })[it])
    .replace(/[\x00-\x08\x0b-\x1f]/g, "");
}

/** A name in a list as markup: a short one does not break. */
export function unbroken(name) {
  const text = escapeText(name);
  return name.length > LONGEST_UNBROKEN ? text : `<span class="name">${text}</span>`;
}

/**
 * Lines with `\_` as the bounds of an overline, which may go on in the next; else `\` is left out.
 */
function overlined(lines) {
  let isOver = false;
  return lines.map((line) => line.split(/(\\.?)/u).map((piece) => {
    if (piece === "\\_") isOver = !isOver;
    const shown = escapeText(piece.startsWith("\\") ? unescaped(piece) : piece);
    return isOver && shown ? `<tspan class="over">${shown}</tspan>` : shown;
  }).join(""));
}

/** A line without its backslashes, as it is measured. */
function unescaped(line) {
  return line.replace(/\\(.?)/gu, (_, next) => (next === "_" ? "" : next));
}

/**
 * A line with blanks in place of tabs, of which the stops are eight blanks apart, and one ahead.
 */
function expandTabs(line, sizes) {
  return line.split("\t").reduce((before, piece) => {
    const blanks = sizes(unescaped(before)).width / sizes(" ").width;
    const stop = 8 * Math.ceil((blanks + 1) / 8);
    return before + " ".repeat(Math.round(stop - blanks)) + piece;
  });
}

/**
 * Where the first base line and the left edge of a text stand, y up, before it is turned. Lower is
 * the last base line, upper the ascent of the first, and middle is half of the lines' height.
 */
function layText(lines, em, align, sizes) {
  const measured = lines.map((it) => sizes(unescaped(it)));
  const [ascent, descent] = [em * measured[0].ascent, em * measured[0].descent];
  const step = ascent + descent;
  const width = em * Math.max(...measured.map((it) => it.width));
  const below = step * (lines.length - 1);
  const y = [below, (step + below) / 2 - ascent, -ascent][align % 3];
  return { x: [0, -width / 2, -width][Math.floor(align / 3)], y, width, step, below };
}

/** A text as it is shown; nothing of one that is hidden. */
export function drawText(text, canvas) {
  if (!text.visible) return "";
  const lines = shownText(text).split("\n").map((it) => expandTabs(it, canvas.sizes));
  const em = text.size * EM;
  // A text at 180 degrees is not drawn head down, but from the corner across; lower is then the
  // descent below the last base line.
  const isOver = text.angle === 180;
  const align = isOver ? 8 - text.align : text.align;
  const laid = layText(lines, em, align, canvas.sizes);
  if (isOver && align % 3 === 0) laid.y += em * canvas.sizes("").descent;
  const turn = isOver ? 0 : text.angle;
  widenBoxByText(text, laid, turn, em, canvas);
  const isLine = lines.length === 1;
  const anchor = isLine ? ["", ' text-anchor="middle"',
    ' text-anchor="end"'][Math.floor(align / 3)] : "";
  const inner = overlined(lines).map((line, place) => (isLine ? line
    : `<tspan x="${laid.x.toFixed(1)}" y="${(place * laid.step - laid.y).toFixed(1)}">${line}</tspan>`)).join("");
  return `<text class="${colourClass(text)}" font-size="${em.toFixed(2)}" transform="translate(${text.x} ${-text.y})`
    + `${turn ? ` rotate(${-turn})` : ""}" y="${isLine ? (-laid.y).toFixed(1) : 0}"${anchor}>${inner}</text>`;
}

function widenBoxByText(text, laid, turn, em, canvas) {
  const [sin, cos] = [[0, 1], [1, 0], [0, -1], [-1, 0]][turn / 90];
  for (const [x, y] of [[laid.x, laid.y + em * 0.8],
    [laid.x + laid.width, laid.y - laid.below - em * 0.2]]) {
    widenBox(canvas, text.x + x * cos - y * sin, text.y + x * sin + y * cos);
  }
}
