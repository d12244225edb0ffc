// The mouse, and fingers: the window, the choice, and what is dragged.

import * as editing from "./editing.js";
import { showList, showTab } from "./lists.js";
import { choose, chooseWithin, open, setNet } from "./navigation.js";
import { frameArea, frameDragged, light } from "./picture.js";
import { board, byId, isEditing, notice, shown, shownInstance } from "./state.js";
import { pan, placeOf, zoom } from "./viewport.js";
import { toolClicked, toolMoved } from "./tools.js";

// A wire is hardly more than a pixel wide.
const NEAR = [0, 1, 2, 3, 4].flatMap((it) => [[it, 0], [-it, 0], [0, it], [0, -it]]);
const FAR = 4;

/** The wire or pin, and the object, at the mouse or a little beside it. */
function pick({ clientX, clientY }) {
  const seen = NEAR.flatMap(([dx, dy]) => document.elementsFromPoint(clientX + dx, clientY + dy))
    .filter((it) => byId("drawn").contains(it) && !it.closest(".fixed"));
  const keyed = seen.map((it) => it.closest("[data-key]")).find((it) => it);
  const objects = seen.map((it) => it.closest("[data-id]")).filter((it) => it);
  const object = keyed || objects.find((it) => !it.classList.contains("picture")) || objects[0];
  const element = object && object.closest("[data-id]");
  return { key: keyed && keyed.dataset.key, id: element ? Number(element.dataset.id) : null };
}

let drag = null;
const fingers = new Map();

function pressed(event) {
  byId("sheet").focus({ preventScroll: true });
  fingers.set(event.pointerId, event);
  if (fingers.size > 1) {
    drag = null;
    return;
  }
  const isMiddle = event.button === 1;
  if (event.button > 1) return;
  if (isMiddle) event.preventDefault();
  const picked = pick(event);
  const isMove = isEditing() && !shown.tool && !isMiddle && picked.id !== null;
  if (isMove && !shown.chosen.has(picked.id)) choose([picked.id], event.shiftKey);
  // While nothing is edited, a text is there to be marked and copied.
  const isText = !isEditing() && !isMiddle && event.pointerType === "mouse"
    && event.target.closest("text");
  const base = shown.at && editing.shownFront();
  const isArea = event.shiftKey && !isMove && !isText && !isMiddle && !shown.tool;
  drag = { x: event.clientX, y: event.clientY, from: placeOf(event), isMove, isText, isArea, base };
  // No text is marked by what draws up a rectangle.
  document.body.classList.toggle("framing", isArea);
  if (!isText) byId("sheet").setPointerCapture(event.pointerId);
}

/** Two fingers: the sheet stays below them. */
function pinched(event) {
  const [one, other] = [...fingers.values()];
  const before = Math.hypot(one.clientX - other.clientX, one.clientY - other.clientY);
  fingers.set(event.pointerId, event);
  const [first, second] = [...fingers.values()];
  const now = Math.hypot(first.clientX - second.clientX, first.clientY - second.clientY);
  const clientX = (first.clientX + second.clientX) / 2;
  const clientY = (first.clientY + second.clientY) / 2;
  if (before && now) zoom(before / now, placeOf({ clientX, clientY }));
}

function dragged(event) {
  if (fingers.size > 1 && fingers.has(event.pointerId)) return pinched(event);
  if (shown.tool) toolMoved(placeOf(event));
  if (!drag) return undefined;
  drag.isFar ||= Math.hypot(event.clientX - drag.x, event.clientY - drag.y) > FAR;
  if (drag.isText || !drag.isFar) return undefined;
  const [x, y] = placeOf(event);
  if (drag.isArea) {
    drag.area = boxBetween(drag.from, [x, y]);
    return frameArea(drag.area);
  }
  if (!drag.isMove) return pan(drag.from[0] - x, drag.from[1] - y);
  drag.by = [editing.onGrid(x - drag.from[0]), editing.onGrid(y - drag.from[1])];
  return frameDragged(...drag.by);
}

/** The box between two corners. */
function boxBetween([x1, y1], [x2, y2]) {
  return [Math.min(x1, x2), Math.min(y1, y2), Math.abs(x1 - x2), Math.abs(y1 - y2)];
}

async function released(event) {
  fingers.delete(event.pointerId);
  const done = drag;
  drag = null;
  if (!done) return;
  if (!done.isFar) {
    clicked(event);
    return;
  }
  document.body.classList.remove("framing");
  if (done.area) {
    byId("marks").innerHTML = "";
    chooseWithin(done.area);
  }
  if (!done.isMove) return;
  await editing.move(done.by[0], -done.by[1], done.base);
  byId("marks").innerHTML = "";
}

function clicked(event) {
  if (shown.tool) return toolClicked(placeOf(event));
  const { key, id } = pick(event);
  if (id === null) {
    setNet(null);
    return choose([], false);
  }
  if (!event.shiftKey || !isEditing()) choose([id], event.shiftKey);
  return key ? showNetOf(key) : undefined;
}

/** Lights the net of a wire or pin, and tells its name. */
function showNetOf(key) {
  const net = shown.nets.netOf.get(key);
  setNet(net, shown.nets.groupOf.get(key));
  light();
  showList();
  notice(net ? `net ${net}` : "no net: no part's pin is on it, or one that stands in several nets",
    3);
}

function doubleClicked(event) {
  const { id } = pick(event);
  if (id !== null && !shown.tool) enter(id);
}

/** Opens the sheet below a component, or shows the values of an object. */
export function enter(id) {
  const below = board.instances.find((it) => it.parent === shownInstance() && it.above.id === id);
  if (below) return open(below);
  choose([id], false);
  showTab("object");
  if (!isEditing()) return undefined;
  const field = byId("list").querySelector('[data-attribute="value"]')
    || byId("list").querySelector("input, textarea");
  return field?.select();
}

function turnedWheel(event) {
  event.preventDefault();
  zoom(Math.exp(event.deltaY * (event.deltaMode ? 0.05 : 0.0015)), placeOf(event));
}

/** Listens to the mouse and to fingers on the sheet. */
export function listenToMouse() {
  const sheet = byId("sheet");
  sheet.addEventListener("pointerdown", pressed);
  sheet.addEventListener("pointermove", dragged);
  sheet.addEventListener("pointerup", released);
  sheet.addEventListener("pointercancel", (event) => {
    fingers.delete(event.pointerId);
    drag = null;
  });
  sheet.addEventListener("dblclick", doubleClicked);
  // Around a sheet that is shrunk for the moment too.
  byId("window").addEventListener("wheel", turnedWheel, { passive: false });
}
