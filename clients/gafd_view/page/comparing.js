// Two moments of the history beside each other, or one and now: on all sheets what was added, is gone
// and changed, in three colours; and what the net lists and the checks differ in.

import { keepAddress } from "./address.js";
import { newCanvas } from "./canvas.js";
import { netListChanges } from "./changes.js";
import { drawObject } from "./drawing.js";
import { showList } from "./lists.js";
import { elementOf } from "./picture.js";
import { askPast, askView } from "./server.js";
import { boardNow, findingRows, readSide, sheetChanges } from "./sides.js";
import { board, byId, instanceOf, notice, shown } from "./state.js";
import { escapeText, unbroken } from "./texts.js";
import { changeWords, label } from "./words.js";

const STEP = 1;

/** The sheets that may differ between a front and any later one, the shown one among them. */
async function sheetsSince(front) {
  const told = await askView(`changed?from=${front}`);
  if (!told?.sheets) return board.names;
  const names = ({ letter, basename }) => letter === "C" && told.symbols.includes(basename);
  const placed = told.symbols.length
    ? [...board.sheets].filter(([, objects]) => objects.some(names)).map(([name]) => name) : [];
  return [...new Set([shown.at.sheet, ...told.sheets, ...placed])];
}

const momentWords = (front) => (front === null ? "now" : `after ${front} edits`);

/** Compares the board as it was after so many edits with what it was after others, or is now. */
export async function compareWith(one, other = null) {
  const [front, to] = other === null || one <= other ? [one, other] : [other, one];
  notice(`reading the board as it was after ${front} edits`, 20);
  try {
    const names = await sheetsSince(front);
    const [before, after] = await Promise.all([readSide(askPast(front), names),
      to === null ? null : readSide(askPast(to), names)]);
    if (shown.comparison) endComparison();
    shown.comparison = { front, to, names, before, after };
    keepAddress();
    showComparison();
    notice(`added, gone and changed from edit ${front} to ${to ?? "now"}; Escape ends it`, 6);
  } catch (error) {
    notice(`the board ${momentWords(front)} and ${momentWords(to)} cannot be compared: `
      + error.message);
  }
}

/** Takes the marks of a comparison from the sheet. */
function clearMarks() {
  byId("past").innerHTML = "";
  for (const name of ["is-added", "is-changed"]) {
    for (const one of byId("drawn").querySelectorAll(`.${name}`)) one.classList.remove(name);
  }
  document.body.classList.remove("comparing", "two-past");
}

/** Ends the comparison. */
export function endComparison() {
  shown.comparison = null;
  keepAddress();
  clearMarks();
  showList();
}

/** Draws an object of a board that is not the one now. */
function drawPast(object, canvas, kind) {
  return `<g class="${kind}">${drawObject({ ...object, id: `past${object.id}` }, canvas)}</g>`;
}

/** What is gone and what was, as the earlier board has it; by what it is, as the later one does. */
export function pastObjects({ changed, placed, gone }, canvas) {
  return [...gone.map((it) => drawPast(it, canvas, "is-gone")),
    ...[...changed, ...placed].map(([was]) => drawPast(was, canvas, "was"))].join("");
}

/** A sheet as a later board has it that is not the one now, whole. */
export function laterObjects(objects, { added, changed, placed }, canvas) {
  const kinds = new Map([...added.map((it) => [it.id, "is-added"]),
    ...[...changed, ...placed].map(([, is]) => [is.id, "is-changed"])]);
  return objects.map((it) => drawPast(it, canvas, kinds.get(it.id) || "same")).join("");
}

/** Shows the comparison on the shown sheet. A proposal is looked at on one sheet alone. */
export function showComparison() {
  const { comparison } = shown;
  if (!comparison) return undefined;
  const { sheet } = shown.at;
  if (comparison.proposal) return comparison.sheet === sheet ? undefined : endComparison();
  clearMarks();
  const { before } = comparison;
  const after = comparison.after || boardNow();
  // Of a sheet that nobody changed since, what is drawn is what was.
  const isTold = comparison.names.includes(sheet);
  const changes = isTold ? sheetChanges(before, after, sheet)
    : { added: [], changed: [], placed: [], gone: [] };
  const past = pastObjects(changes, newCanvas(before.symbols, shown.sizes));
  document.body.classList.add("comparing");
  if (comparison.after && isTold) {
    document.body.classList.add("two-past");
    byId("past").innerHTML = past + laterObjects(after.sheets.get(sheet) || [], changes,
      newCanvas(after.symbols, shown.sizes));
  } else {
    byId("past").innerHTML = past;
    for (const object of changes.added) elementOf(object.id)?.classList.add("is-added");
    for (const [, object] of [...changes.changed, ...changes.placed]) {
      elementOf(object.id)?.classList.add("is-changed");
    }
  }
  return listChanges(comparison, after, changes);
}

/** A row of what changed. */
export function row(kind, words, link = "") {
  const leads = link ? ` data-link="${escapeText(link)}" tabindex="0" role="link"` : "";
  return `<tr class="${kind}"${leads}><td>${kind}</td><td>${escapeText(words)}</td></tr>`;
}

/** The changes of the net list, each with its sign; a net or a part that is there leads to itself. */
export function netLines({ changed, gone, added }) {
  const signed = [["~", changed], ["<", gone], [">", added]]
    .flatMap(([sign, lines]) => lines.map((it) => [sign, it]));
  return signed.map(([sign, [kind, name, rest]]) => {
    const isThere = sign !== "<" && name !== "*";
    const leads = isThere ? ` data-link="${escapeText(`${kind}:${name}`)}" tabindex="0" role="link"`
      : "";
    return `<tr${leads}><td>${escapeText(sign)}</td><td>${kind} ${escapeText(name)} `
      + `<small>${rest.split(" ").map(unbroken).join(" ")}</small></td></tr>`;
  });
}

/** The changes of one sheet as rows, of which each leads to its object, where that is there now. */
export function sheetRows(sheet, { added, changed, placed, gone }) {
  const at = instanceOf(sheet);
  const now = new Set((board.sheets.get(sheet) || []).map((it) => it.id));
  const linkTo = ({ id }) => (now.has(id) ? `id:${sheet}:${id}` : "");
  return [
    ...added.map((it) => row("added", label(it, at), linkTo(it))),
    ...changed.map(([was, is]) => row("changed", changeWords(was, is, at), linkTo(is))),
    ...placed.map(([, is]) => row("changed", `${label(is, at)}: its symbol ${is.basename}`,
      linkTo(is))),
    ...gone.map((it) => row("gone", label(it, at), linkTo(it))),
  ].join("");
}

/** How the nets, parts and findings of two boards differ. */
export function reportTables(before, after) {
  const nothing = "<tr><td>nothing changed</td></tr>";
  return "<p>parts and nets of the board</p>"
    + `<table class="netdiff">${netLines(netListChanges(before.list, after.list)).join("") || nothing}</table>`
    + `<p>check of the board</p><table>${findingRows(before, after) || nothing}</table>`;
}

/** A line for each sheet that changed, with how much. */
function overview({ names, before }, after) {
  const lines = names.map((name) => [name, sheetChanges(before, after, name)])
    .map(([name, { added, changed, placed, gone }]) =>
      [name, added.length, changed.length + placed.length, gone.length])
    .filter(([, ...counts]) => counts.some((it) => it))
    .map(([name, added, changed, gone]) => `<tr data-link="sheet:${escapeText(name)}" tabindex="0" `
      + `role="link"${name === shown.at.sheet ? ' class="on"' : ""}><td>${escapeText(name)}</td>`
      + `<td>${added} added, ${changed} changed, ${gone} gone</td></tr>`);
  return `<table>${lines.join("") || "<tr><td>no sheet changed</td></tr>"}</table>`;
}

/** The fields by which two moments are chosen; an empty second one is now. */
export function momentFields(front = "", to = null) {
  return '<form class="moments"><label>from edit <input name="front" type="number" min="0" required '
    + `value="${front}"></label> <label>to <input name="to" type="number" min="0" `
    + `placeholder="now" value="${to ?? ""}"></label> <button>compare</button></form>`;
}

/** The changes of the shown sheet and of the others, and of the reports, in place of other lists. */
function listChanges(comparison, after, changes) {
  const { front, to, before } = comparison;
  const { sheet } = shown.at;
  const until = to === null ? "" : ` to edit ${to}`;
  const scrolled = byId("list").scrollTop;
  byId("list").innerHTML = `<p><b>${escapeText(sheet)}</b> since edit ${front}${until} `
    + '<button id="end-comparison">end</button></p>'
    + momentFields(front, to)
    + `<p><button data-compare="${Math.max(0, front - STEP)}">one earlier</button> `
    + `<button data-compare="${front + STEP}">one later</button></p>`
    + `<table>${sheetRows(sheet, changes) || "<tr><td>nothing changed on it</td></tr>"}</table>`
    + `<p>sheets of the board</p>${overview(comparison, after)}`
    + reportTables(before, after);
  byId("list").scrollTop = scrolled;
}
