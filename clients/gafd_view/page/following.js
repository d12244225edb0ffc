// Following the server: what changed is read, drawn, and told with who did it.

import { showComparison } from "./comparing.js";
import { addRails, railsThatMeet } from "./findings.js";
import { showList, showTrail } from "./lists.js";
import { netsIn } from "./nets.js";
import { addressed } from "./address.js";
import { goToAddress, open } from "./navigation.js";
import { boxesOf, drawAll, drawChanges, drawFindings, frame, light,
  markLooseEnds } from "./picture.js";
import { symbolNames } from "./board.js";
import { Away } from "./server.js";
import { board, byId, instanceOf, notice, shown, shownInstance,
  shownObjects } from "./state.js";
import { escapeText } from "./texts.js";
import { changeWords, label } from "./words.js";

const EVERY = 2000;
const MOST_LOGGED = 200;
const MOST_WAITED_FOR = 20;
const RAILS_AT_ONCE = 10;
const FRAMED = 6;
const LONGEST_FRAME = 3000;

const pause = (milliseconds) => new Promise((resolve) => setTimeout(resolve, milliseconds));

const called = addressed();
let reading = null;
let isAskedAgain = false;

/** Takes what changed, if anything did. One reading runs at a time, and one more after it. */
export function refresh() {
  isAskedAgain = true;
  reading ||= readUntilDone().finally(() => { reading = null; });
  return reading;
}

async function readUntilDone() {
  while (isAskedAgain) {
    isAskedAgain = false;
    try {
      await readBoard();
      showState("");
    } catch (error) {
      showState("away");
      if (error instanceof Away) continue;
      notice(`the page did not understand what it read: ${error.message}`);
    }
    if (isAskedAgain) await pause(200);
  }
}

// What was read and drawn, and is told with the next reading.
const untold = [];

/** Reads and draws the shown sheet at once, as after one's own edit. */
export async function redrawShown() {
  const { sheet } = shown.at;
  board.stale.add(sheet);
  await board.readStale((name, changes) => {
    untold.push([name, changes]);
    if (name === shown.at.sheet && board.sheets.has(name)) drawChanges(changes);
  }, (name) => name === sheet);
}

let awaySince = null;

function showState(state) {
  awaySince = state === "away" ? awaySince || new Date() : null;
  byId("status").className = state;
  const count = board.about.kind === "folder" ? `${board.name || board.about.name}`
    : `${board.front} edits`;
  byId("status").textContent = awaySince
    ? `the server is away since ${awaySince.toLocaleTimeString()}` : count;
}

/** Reads what changed since the last reading: the shown sheet first, and all else behind it. */
async function readBoard() {
  const front = await board.look();
  if (front === board.front) return readRest();
  if (front < board.front) return location.reload();
  const since = board.front;
  const told = untold.splice(0);
  const isFirst = !shown.at;
  if (isFirst) shown.at = firstSheet();
  const takes = (name, changes) => {
    told.push([name, changes]);
    if (shown.at && name === shown.at.sheet && board.sheets.has(name)) drawChanges(changes);
  };
  const isKnown = await board.markChanged();
  await board.readStale(takes, (name) => name === shown.at?.sheet);
  if (isFirst && shown.at) await firstFrame();
  await board.readAbout();
  const [isOfFront] = await Promise.all([
    board.readLists(front),
    board.readHistory(front),
    readSymbolsAnew(),
    // Where nobody tells what changed, a sheet that is not shown is read when it is asked for.
    board.readStale(takes, (name) => !shown.at || shown.at.isGuess
      || (isKnown && board.sheets.has(name))),
  ]);
  if (isOfFront) board.front = front;
  else isAskedAgain = true;
  board.arrange();
  if (!shown.at || !board.sheets.has(shown.at.sheet)) leaveLostSheet();
  else if (shown.at.isGuess) leaveGuess();
  if (!shown.at) return undefined;
  for (const [name, changes] of told) tell(name, changes, since);
  showNets();
  showTrail();
  isRestRead = false;
  readRest();
  if (isFirst) followAddress();
}

/** Goes to what the page's address named when it was called, which may be on any sheet. */
async function followAddress() {
  const { parts, pins } = board.places;
  const isKnown = (link) => [parts, pins].some((it) => it.has(link.slice(link.indexOf(":") + 1)));
  if (!called.links.every(isKnown)) await restReading;
  await goToAddress({ ...called, at: null });
}

let isRestRead = false;
let restReading = null;

/**
 * Reads the sheets that were never read, and looks for rails on all; others are not kept waiting.
 */
function readRest() {
  if (isRestRead || !shown.at) return;
  isRestRead = true;
  const isUnread = (name) => !board.sheets.has(name);
  restReading ||= freshen(isUnread).then(findRails)
    .catch(() => { isRestRead = false; })
    .finally(() => { restReading = null; });
}

/** Waits until the first picture is seen, which is noted for measurements. */
async function firstFrame() {
  const framed = new Promise((resolve) => {
    requestAnimationFrame(() => setTimeout(resolve));
  });
  // A page in the background has no frames.
  await Promise.race([framed, pause(LONGEST_FRAME)]);
  performance.mark("pictured");
}

/** Reads the symbols again that changed; where nobody tells which, those of the shown sheet. */
async function readSymbolsAnew() {
  if (board.front < 0) return;
  const isOther = await board.readSymbols(board.changedSymbols || symbolNames(shownObjects()));
  if (isOther && shown.at) drawAll();
}

/**
 * The sheet that the address names, or the first. Of a few that is a guess, until all are read and
 * it is known which one is on top.
 */
function firstSheet() {
  const { at } = called;
  if (at && board.counts.has(at.sheet)) return at;
  const { size } = board.counts;
  return size ? { sheet: board.names[0], path: "", isGuess: size > 1 && size <= MOST_WAITED_FOR }
    : null;
}

/** Goes to the sheet on top, where another one was shown until all were read. */
function leaveGuess() {
  const [top] = board.instances;
  const { sheet, path } = shown.at;
  shown.at.isGuess = false;
  if (top && (top.sheet !== sheet || top.path !== path)) open(top, true);
}

function leaveLostSheet() {
  shown.at = board.instances[0] || (board.counts.size ? instanceOf(board.names[0]) : null);
  if (shown.at) return open(shown.at, true);
  const shownNames = ["drawn", "cues", "marks", "findings", "sheets", "trail"];
  for (const name of shownNames) byId(name).innerHTML = "";
  return showList();
}

/** Reads the sheets that may have changed since they were read, or some of them. */
export async function freshen(isAsked) {
  const takes = (name, changes) => {
    if (name === shown.at.sheet && board.sheets.has(name)) drawChanges(changes);
  };
  if (!(await board.readStale(takes, isAsked))) return;
  board.arrange();
  showNets();
  showTrail();
}

/** Finds the nets of the shown instance, and shows what follows from them. */
export function showNets() {
  shown.nets = netsIn(shownInstance(), shownObjects(), board.symbols, board.list);
  // A sheet that is newer than the net list tells nothing against it.
  if (board.fronts.get(shown.at.sheet) !== board.listFront) shown.nets.disagreements = [];
  light();
  drawFindings();
  showComparison();
  showList();
}

let railsFront = null;

/** Finds the rails that meet on any sheet, some instances at once so that the page stays quick. */
async function findRails() {
  const front = board.listFront;
  railsFront = front;
  const rails = new Map();
  for (const [place, instance] of board.instances.entries()) {
    if (place % RAILS_AT_ONCE === RAILS_AT_ONCE - 1) await pause(0);
    if (railsFront !== front) return;
    const { groups } = instance === shownInstance() ? shown.nets
      : netsIn(instance, board.sheets.get(instance.sheet) || [], board.symbols, board.list);
    addRails(rails, groups, board.symbols);
  }
  const met = railsThatMeet(rails);
  if (JSON.stringify(met) === JSON.stringify(shown.rails)) return;
  shown.rails = met;
  if (shown.at) drawFindings();
  showList();
}

/** Shows for some seconds what changed of a sheet since a front, and writes down who did it. */
function tell(name, { changed, added, gone, isNew }, since) {
  if (isNew) {
    if (name === shown.at.sheet) markLooseEnds();
    return;
  }
  const at = instanceOf(name);
  for (const [was, is] of changed) log(is.id, name, changeWords(was, is, at), since);
  for (const object of added) log(object.id, name, `${label(object, at)} came on ${name}`, since);
  for (const object of gone) log(object.id, name, `${label(object, at)} went from ${name}`, since);
  if (name !== shown.at.sheet) return;
  // A frame of its own: a mark on the objects themselves would draw the whole sheet anew.
  frame(boxesOf([...changed.map(([, is]) => is), ...added].map((it) => it.id)), "changed", FRAMED);
  markLooseEnds();
}

/** A line of what happened, with who did it where the history tells. */
function log(id, sheet, words, since) {
  const author = authorOf(id, sheet, board.history.filter((it) => it.serial >= since));
  const line = `<small>${new Date().toLocaleTimeString()}</small> ${escapeText(author + words)}`;
  byId("log").insertAdjacentHTML("afterbegin", `<div>${line}</div>`);
  while (byId("log").children.length > MOST_LOGGED) byId("log").lastElementChild.remove();
}

/** Who last named an object, or else who alone drew on its sheet. */
function authorOf(id, sheet, rows) {
  const row = rows.findLast(({ edit }) => edit.id === id || (edit.ids || []).includes(id));
  const drew = new Set(rows.filter((it) => it.edit.sheet === sheet).map((it) => it.session));
  return row ? `${row.session}: ` : drew.size === 1 ? `${[...drew][0]}: ` : "";
}

/** Follows the server from now on. */
export async function followServer() {
  await refresh();
  setTimeout(followServer, EVERY);
}
