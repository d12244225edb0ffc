// The keys. All that the mouse does can be done by them.

import * as editing from "./editing.js";
import { showTab } from "./lists.js";
import { endComparison } from "./comparing.js";
import { enter } from "./mouse.js";
import { choose, chooseWithin, open, setNet } from "./navigation.js";
import { showObjects } from "./picture.js";
import { byId, isEditing, shown, shownInstance, shownObjects } from "./state.js";
import { takeTool, toolClicked, toolStepped } from "./tools.js";
import { fit, panBy, zoom } from "./viewport.js";

const TABS = ["nets", "findings", "parts", "object", "history", "reviews"];
const GRID = 100;

const KEYS = {
  f: fit,
  "+": () => zoom(0.8),
  "-": () => zoom(1.25),
  ArrowLeft: () => panBy(-0.1, 0),
  ArrowRight: () => panBy(0.1, 0),
  ArrowUp: () => panBy(0, -0.1),
  ArrowDown: () => panBy(0, 0.1),
  n: () => chooseNext(1),
  p: () => chooseNext(-1),
  a: () => chooseWithin(shown.box),
  Enter: () => chosenOne() !== null && enter(chosenOne()),
  Escape: () => (shown.comparison ? endComparison() : chooseNothing()),
  Backspace: () => shownInstance().parent && open(shownInstance().parent),
  "/": () => byId("search").focus(),
  "?": () => byId("help").showModal(),
};

const EDIT_KEYS = {
  r: () => editing.turn(1, false),
  m: () => editing.turn(0, true),
  w: () => takeTool("wire"),
  c: () => takeTool("component"),
  t: () => takeTool("text"),
  Delete: editing.remove,
};

const CTRL_KEYS = { z: editing.undo, y: editing.redo, Z: editing.redo };

const MOVES = {
  ArrowLeft: [-GRID, 0], ArrowRight: [GRID, 0], ArrowUp: [0, GRID], ArrowDown: [0, -GRID],
};

function chooseNothing() {
  setNet(null);
  choose([], false);
}

function chooseAll() {
  choose(shownObjects().map((it) => it.id), false);
}

function chosenOne() {
  return shown.chosen.size === 1 ? [...shown.chosen][0] : null;
}

/** Goes from one object to the next, in the order of the sheet. */
function chooseNext(step) {
  const ids = shownObjects().map((it) => it.id);
  if (!ids.length) return;
  const at = ids.indexOf(chosenOne());
  const id = ids[at < 0 ? 0 : (at + step + ids.length) % ids.length];
  choose([id], false);
  showObjects([id]);
}

/** The keys of a tool that is taken up; whether it was one. */
function pressedForTool({ key }) {
  if (key === "Escape") takeTool(null);
  else if (key === "Enter" || key === " ") toolClicked();
  else if (MOVES[key]) toolStepped(MOVES[key][0], -MOVES[key][1]);
  else return false;
  return true;
}

/** What a key does on the sheet, or undefined. */
function actionOf(event) {
  if (isEditing() && event.shiftKey && MOVES[event.key] && shown.chosen.size) {
    return () => editing.move(...MOVES[event.key]);
  }
  if (event.ctrlKey) return event.key === "a" ? chooseAll : isEditing() && CTRL_KEYS[event.key];
  if (/^[1-6]$/.test(event.key)) return () => showTab(TABS[event.key - 1]);
  return (isEditing() && EDIT_KEYS[event.key]) || KEYS[event.key];
}

function pressed(event) {
  const { target } = event;
  if (/INPUT|SELECT|TEXTAREA|DIALOG/.test(target.tagName) || event.altKey || event.metaKey
    || !shown.at) return;
  const isOwn = /BUTTON|SUMMARY|^A$/.test(target.tagName) && !target.dataset.link;
  if (event.key === "Enter" && (isOwn || target.closest("[data-link], [data-compare], [data-proposal]"))) {
    if (!isOwn) target.click();
    return;
  }
  if (event.key === " " && isOwn) return;
  const does = shown.tool && !event.ctrlKey ? () => pressedForTool(event) : actionOf(event);
  if (!does) return;
  event.preventDefault();
  does(event);
}

/** Listens to the keys. */
export function listenToKeys() {
  document.addEventListener("keydown", pressed);
  byId("help").addEventListener("click", () => byId("help").close());
}
