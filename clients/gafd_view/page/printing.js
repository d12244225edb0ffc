// The print page: all sheets of the board, each on a page of its own, in the order of their
// instances. `document.body.dataset.sheets` is their number, as soon as all are drawn.

import { drawSheet } from "./drawing.js";
import { fontSizes } from "./font.js";
import { board, byId } from "./state.js";
import { escapeText } from "./texts.js";

/** The sheets in the order of their first instances, each with the paths of all; then the others. */
function sheetsInOrder() {
  const paths = new Map();
  for (const { sheet, path } of board.instances) {
    paths.set(sheet, [...(paths.get(sheet) || []), path]);
  }
  for (const name of board.names) if (!paths.has(name)) paths.set(name, []);
  return [...paths].map(([name, found]) => ({ name, paths: found.filter((it) => it) }));
}

function pageOf({ name, paths }, title, sizes) {
  const objects = board.sheets.get(name) || [];
  const { drawn, cues, box: [x1, y1, x2, y2] } = drawSheet(objects, board.symbols, sizes);
  const edge = 0.01 * Math.max(x2 - x1, y2 - y1, 1000);
  const box = [x1 - edge, -y2 - edge, x2 - x1 + 2 * edge, y2 - y1 + 2 * edge];
  const below = paths.length ? ` (${paths.join(", ")})` : "";
  return `<section class="page"><h2><span>${escapeText(name + below)}</span>`
    + `<span>${escapeText(title)}</span></h2><svg class="sheet" viewBox="${box.join(" ")}">`
    + `${[...drawn.values()].join("")}${cues}</svg></section>`;
}

async function printBoard() {
  const front = await board.look();
  await board.readAbout();
  await board.readStale(() => {});
  board.arrange();
  const sizes = fontSizes(getComputedStyle(byId("font")).fontFamily);
  const [sheets, { kind, name }] = [sheetsInOrder(), board.about];
  const state = kind === "folder" ? name : `${name}, ${front} edits`;
  const title = (at) => `${state}, ${at + 1} of ${sheets.length}`;
  byId("pages").innerHTML = sheets.map((it, at) => pageOf(it, title(at), sizes)).join("");
  byId("status").textContent = `${sheets.length} sheets; print them, or save them as PDF`;
  document.body.dataset.sheets = sheets.length;
}

printBoard().catch((error) => {
  byId("status").textContent = error.message;
  document.body.dataset.fault = error.message;
});
