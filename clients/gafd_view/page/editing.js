// Light edits: each is one entry, on what is shown. Nothing is drawn before the server has it.

import { redrawShown, refresh } from "./following.js";
import { anchorOf } from "./placing.js";
import { followers } from "./rubber.js";
import { board, byId, entries, notice, objectOf, shown, shownObjects } from "./state.js";
import { lastDeed, ownStand } from "./undoing.js";
import { faultWords } from "./words.js";

const GRID = 100;

export const onGrid = (number) => Math.round(number / GRID) * GRID;

/** The name of the session, which is asked for where there is none yet. */
function session() {
  const name = byId("session").value.trim();
  if (/^(?!\.)[A-Za-z0-9_+.-]{1,100}$/.test(name)) return name;
  notice("write your name beside `as` first: letters, digits and . _ + -");
  byId("session").focus();
  return null;
}

let isSending = false;

/**
 * Sends edits that are one deed, one after the other, and shows what the server then has. Whether all
 * were done is told; where one is refused those before it are taken back.
 */
async function send(edits, ids, base) {
  const name = session();
  if (!name) return false;
  // A second deed would stand on what was seen before the first one, and be refused as stale.
  if (isSending) return notice("one moment: your last edit is not answered yet") || false;
  isSending = true;
  document.body.classList.add("sending");
  const answer = await sendEach(name, edits, base);
  isSending = false;
  document.body.classList.remove("sending");
  if (!answer.fault) await redrawShown().catch(() => {});
  await refresh();
  if (answer.fault) notice(faultWords(answer, ids), 15);
  return !answer.fault;
}

/** The last answer to edits that are sent, or the first fault, before which all is taken back. */
async function sendEach(name, edits, base) {
  const group = Symbol("one deed");
  const sendOne = (edit, stands) => entries.send(name, edit, stands, group)
    .catch(() => ({ fault: "NoServer" }));
  const done = [];
  let answer = {};
  for (const edit of edits) {
    // What is added behind one's own edits stands on these.
    const stands = edit.kind === "add_object" && done.length ? done.at(-1) + 1 : base;
    answer = await sendOne(edit, stands);
    if (answer.fault) break;
    done.push(answer.serial);
  }
  if (answer.fault) {
    for (const serial of done.reverse()) await sendOne({ kind: "undo", serial }, serial + 1);
  }
  return answer;
}

/** The chosen objects that are there, in order. */
export function chosenIds() {
  return [...shown.chosen].filter((it) => objectOf(it)).sort((a, b) => a - b);
}

/** The front at which the shown sheet stood: the base of what is done to it. */
export function shownFront() {
  return board.fronts.get(shown.at.sheet);
}

const isFollowed = () => byId("follow").classList.contains("on");

/** Moves what is chosen, and where that is wished the wires of its parts with it. */
export async function move(dx, dy, base = shownFront()) {
  const ids = chosenIds();
  if (!ids.length || !(dx || dy)) return;
  const edits = isFollowed() ? movesWithWires(ids, dx, dy) : [{ kind: "move", ids, dx, dy }];
  const count = edits.length;
  if (await send(edits, ids, base) && count > 1) {
    notice(`moved with its wires, in ${count} edits; undo takes all of them back`, 4);
  }
}

function movesWithWires(ids, dx, dy) {
  const { moved, stretched, gone, added } = followers(shownObjects(), ids, [dx, dy], board.symbols);
  const all = [...ids, ...moved].sort((one, other) => one - other);
  return [{ kind: "move", ids: all, dx, dy },
    ...stretched.map(([id, text]) => ({ kind: "replace", id, text })),
    ...(gone.length ? [{ kind: "delete", ids: gone }] : []),
    ...added.map((text) => ({ kind: "add_object", sheet: shown.at.sheet, text }))];
}

/** A quarter counterclockwise, or the mirror image, about the first one's point. */
export function turn(quarter, mirror) {
  const ids = chosenIds();
  if (!ids.length) return null;
  const [x, y] = anchorOf(objectOf(ids[0])).map(onGrid);
  return send([{ kind: "turn", ids, x, y, quarter, mirror }], ids, shownFront());
}

export function remove() {
  const ids = chosenIds();
  return ids.length ? send([{ kind: "delete", ids }], ids, shownFront()) : null;
}

export function setAttribute(id, name, value, base) {
  return send([{ kind: "set_attr", id, name, value }], [id], base);
}

export function dropAttribute(id, name) {
  return send([{ kind: "drop_attr", id, name }], [id], shownFront());
}

/** Draws an object, which is given as its lines. */
export function addObject(text) {
  return send([{ kind: "add_object", sheet: shown.at.sheet, text }], [], shownFront());
}

/** Writes another content into a text. */
export function replaceText(object, content, base) {
  const fields = object.text.split("\n")[0].split(" ");
  fields[fields.length - 1] = String(content.split("\n").length);
  const text = `${fields.join(" ")}\n${content}\n`;
  return send([{ kind: "replace", id: object.id, text }], [object.id], base);
}

export function renumber() {
  return send([{ kind: "renumber" }], [], shownFront());
}

/** One's own rows: those of a page that was loaded anew the history tells. */
function ownRows() {
  const name = byId("session").value.trim();
  const told = board.history.filter((it) => it.session === name);
  const rows = new Map([...told, ...entries.own].map((it) => [it.serial, it]));
  return [...rows.values()].sort((one, other) => one.serial - other.serial);
}

/** Takes back one's own last deed that stands: its edits, the last one first. */
export function undo() {
  return takeBack("standing", "there is nothing of yours to take back");
}

/** Does again what one took back last, unless something else was edited since. */
export function redo() {
  return takeBack("undone", "there is nothing of yours to do again");
}

function takeBack(kind, none) {
  const rows = ownRows();
  const serials = lastDeed(rows, ownStand(rows)[kind]);
  if (!serials.length) return notice(none);
  return send(serials.map((serial) => ({ kind: "undo", serial })), [], shownFront());
}
