// What the page shows, which its parts share.

import { Board } from "./board.js";
import { Entries } from "./entries.js";

export const byId = (id) => document.getElementById(id);
export const board = new Board();
export const entries = new Entries();

/**
 * Where the page is: an instance, a window on it in mils with y down, and what is lit or chosen
 * there.
 */
export const shown = {
  at: null,
  box: [0, -11000, 17000, 11000],
  extent: [0, 0, 17000, 11000],
  net: null,
  group: null,
  nets: { netOf: new Map(), groupOf: new Map(), groups: [], disagreements: [] },
  chosen: new Set(),
  tab: "nets",
  sizes: null,
  rails: [],
  /** The findings that are accepted by their lines, each with who did so, when and why. */
  accepted: new Map(),
  comparison: null,
  /** Whether the findings of a rule are unfolded, of each that somebody folded or unfolded. */
  unfolded: new Map(),
};

/** An instance of a sheet that no other leads to. */
function alone(sheet, path) {
  return { sheet, path, above: null, parent: null };
}

/** The instance that is shown; a sheet that the board does not reach stands alone. */
export function shownInstance() {
  const { sheet, path } = shown.at;
  return board.instances.find((it) => it.sheet === sheet && it.path === path) || alone(sheet, path);
}

/** An instance of a sheet: the shown one, if it is of it. */
export function instanceOf(sheet) {
  if (shown.at && shown.at.sheet === sheet) return shownInstance();
  return board.instances.find((it) => it.sheet === sheet) || alone(sheet, "");
}

/** The objects of the shown sheet. */
export function shownObjects() {
  return (shown.at && board.sheets.get(shown.at.sheet)) || [];
}

export function objectOf(id) {
  return shownObjects().find((it) => it.id === id);
}

/** The sheet on which an object stands, or undefined. */
export function sheetOf(id) {
  return [...board.sheets].find(([, objects]) => objects.some((it) => it.id === id))?.[0];
}

const filled = new WeakMap();

/** Gives an element contents, unless these are what it was given last, and has still. */
export function fill(name, markup) {
  const element = byId(name);
  const [last, first] = filled.get(element) || [];
  // What was typed into a field goes with it.
  if (last === markup && first === element.firstChild && !/<(input|textarea)/.test(markup)) return;
  element.innerHTML = markup;
  filled.set(element, [markup, element.firstChild]);
}

export const isEditing = () => document.body.classList.contains("editing");

let noticeEnds = 0;

/** Tells the person something for some seconds. */
export function notice(text, seconds = 8) {
  byId("notice").textContent = text;
  byId("notice").hidden = false;
  clearTimeout(noticeEnds);
  noticeEnds = setTimeout(() => { byId("notice").hidden = true; }, seconds * 1000);
}
