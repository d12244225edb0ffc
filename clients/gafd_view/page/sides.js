// A board at one moment, as far as two are compared: some sheets with their symbols, the net list
// and the check, all of them the program's own.

import { readSheetBy, symbolNames } from "./board.js";
import { changesOf } from "./changes.js";
import { findingLine, readFindings } from "./findings.js";
import { readNetList } from "./nets.js";
import { readObjects } from "./objects.js";
import { forEachAtOnce } from "./server.js";
import { board } from "./state.js";
import { escapeText } from "./texts.js";

/** Of a board: those of these sheets that it has, with their symbols, and its reports. */
export async function readSide(ask, names) {
  const side = { sheets: new Map(), symbols: new Map(), texts: new Map() };
  const [list, drc] = await Promise.all([ask("netlist/list"), ask("drc"),
    forEachAtOnce(names, async (name) => {
      const { objects } = await readSheetBy(ask, name);
      if (objects) side.sheets.set(name, objects);
    })]);
  await forEachAtOnce(symbolNames([...side.sheets.values()].flat()), async (name) => {
    const { status, text } = await ask(`symbols/${encodeURIComponent(name)}`);
    if (status !== 200) return;
    side.symbols.set(name, readObjects(text));
    side.texts.set(name, text);
  });
  side.list = readNetList(list.status === 200 ? list.text : "parts 0\nnets 0\n");
  side.findings = drc.status === 200 ? readFindings(drc.text) : [];
  return side;
}

/** The board as it is, with all sheets that are read. */
export function boardNow() {
  const { sheets, symbols, symbolTexts, list, findings } = board;
  return { sheets, symbols, texts: symbolTexts, list, findings };
}

/** What changed of a sheet: objects, and components that stand still of which the symbol did. */
export function sheetChanges(before, after, name) {
  const [old, objects] = [before, after].map((it) => it.sheets.get(name) || []);
  const changes = changesOf(old, objects);
  const now = new Map(objects.map((it) => [it.id, it]));
  const told = new Set(changes.changed.map(([was]) => was.id));
  const textOf = (side, symbol) => side.texts.get(symbol) ?? null;
  const isOther = ({ letter, parts, basename }) => letter === "C" && !parts
    && textOf(before, basename) !== textOf(after, basename);
  const placed = old.filter((it) => isOther(it) && now.has(it.id) && !told.has(it.id))
    .map((it) => [it, now.get(it.id)]);
  return { ...changes, placed };
}

/** The findings that came, and those that went, as rows. */
export function findingRows(before, after) {
  const [had, has] = [before, after].map((it) => it.findings.map(findingLine));
  const only = (one, other, sign, kind) => one.filter((it) => !other.includes(it))
    .map((it) => `<tr class="${kind}"><td>${sign}</td><td>${escapeText(it)}</td></tr>`);
  return [...only(has, had, "+", "added"), ...only(had, has, "-", "gone")].join("");
}
