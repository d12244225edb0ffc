// The window on the sheet.

import { EM } from "./canvas.js";
import { byId, shown, shownObjects } from "./state.js";

const [NARROWEST, WIDEST] = [200, 2e6];
const READABLE = 9000;
// On a sheet of so many objects letters that are less than four pixels high are not drawn.
const MANY = 1000;
const LEAST_LETTER = 4;
const LETTER = 10 * EM;
// On one of so many a window glides.
const SOME = 200;
// So long after its last step a window that glides is drawn anew, and so much wider or narrower than
// what is drawn it may become until then.
const SETTLED = 150;
const MOST_GLIDE = 4;
let hair = 1;
let [drawnBox, settling] = [null, 0];

/** How many mils a pixel of the window on the sheet is. */
function pixelSize([, , wide, high]) {
  const { clientWidth, clientHeight } = byId("window");
  return Math.max(wide / (clientWidth || 1), high / (clientHeight || 1));
}

/**
 * Shows the sheet through a window that glides. A sheet of many objects takes long to draw: what is
 * drawn is moved and stretched meanwhile, and drawn anew where the window stands still.
 */
function glideBox() {
  const by = drawnBox ? drawnBox[2] / shown.box[2] : 0;
  if (shownObjects().length <= SOME || by > MOST_GLIDE || by < 1 / MOST_GLIDE) return showBox();
  stretch();
  clearTimeout(settling);
  settling = setTimeout(showBox, SETTLED);
  return undefined;
}

/** Moves and stretches what is drawn. */
function stretch() {
  const { clientWidth, clientHeight } = byId("window");
  const middleOf = ([x, y, wide, high]) => [x + wide / 2, y + high / 2];
  const [pixel, [x, y], [toX, toY]] = [pixelSize(shown.box), middleOf(drawnBox), middleOf(shown.box)];
  const by = pixelSize(drawnBox) / pixel;
  const [dx, dy] = [(x - toX) / pixel, (y - toY) / pixel];
  const { style } = byId("sheet");
  style.willChange = "transform";
  style.transformOrigin = `${clientWidth / 2}px ${clientHeight / 2}px`;
  style.transform = `translate(${dx}px, ${dy}px) scale(${by})`;
}

/** Shows the sheet through the window. */
export function showBox() {
  clearTimeout(settling);
  // Before the window moves, since what is laid out has to be laid out anew behind it.
  const pixel = pixelSize(shown.box);
  drawnBox = shown.box;
  for (const name of ["will-change", "transform", "transform-origin"]) {
    byId("sheet").style.removeProperty(name);
  }
  byId("sheet").setAttribute("viewBox", shown.box.map((it) => it.toFixed(1)).join(" "));
  const isFar = LETTER < LEAST_LETTER * pixel && shownObjects().length > MANY;
  byId("sheet").classList.toggle("far", isFar);
  // No line is thinner than a pixel; a new width for all lines is set only where it shows.
  if (Math.abs(Math.log(pixel / hair)) < 0.15) return;
  hair = pixel;
  byId("sheet").style.setProperty("--hair", `${hair.toFixed(1)}px`);
}

/** Shows the whole sheet. */
export function fit() {
  const [x1, y1, x2, y2] = shown.extent;
  const edge = 0.02 * Math.max(x2 - x1, y2 - y1, 1000);
  shown.box = [x1 - edge, -y2 - edge, x2 - x1 + 2 * edge, y2 - y1 + 2 * edge];
  showBox();
}

/** The place of the mouse in the sheet, in mils with y down. */
export function placeOf({ clientX, clientY }) {
  const { x, y, width, height } = byId("window").getBoundingClientRect();
  const [pixel, [left, top]] = [pixelSize(shown.box), middle()];
  return [left + pixel * (clientX - x - width / 2), top + pixel * (clientY - y - height / 2)];
}

/** The middle of the window. */
export function middle() {
  return [shown.box[0] + shown.box[2] / 2, shown.box[1] + shown.box[3] / 2];
}

/** Widens the window, or narrows it, about a point. */
export function zoom(by, [x, y] = middle()) {
  const [left, top, width, height] = shown.box;
  if (width * by < NARROWEST || width * by > WIDEST) return;
  shown.box = [x + (left - x) * by, y + (top - y) * by, width * by, height * by];
  glideBox();
}

/** Moves the window. */
export function pan(dx, dy) {
  shown.box = [shown.box[0] + dx, shown.box[1] + dy, shown.box[2], shown.box[3]];
  glideBox();
}

/** Moves the window by shares of its size. */
export function panBy(across, down) {
  pan(across * shown.box[2], down * shown.box[3]);
}

/** Brings boxes into the middle, near enough to be read. */
export function bringIn(boxes) {
  const [x1, y1] = ["x", "y"].map((it) => Math.min(...boxes.map((box) => box[it])));
  const x2 = Math.max(...boxes.map((it) => it.x + it.width));
  const y2 = Math.max(...boxes.map((it) => it.y + it.height));
  const width = Math.max(Math.min(shown.box[2], READABLE), (x2 - x1) * 1.5);
  const height = width * (shown.box[3] / shown.box[2]);
  shown.box = [(x1 + x2 - width) / 2, (y1 + y2 - height) / 2, width, height];
  showBox();
}

/** Moves the window as little as brings a point well inside it. */
export function keepInside([x, y]) {
  const [left, top, width, height] = shown.box;
  const beyond = (at, from, size) => Math.min(0, at - from - size / 10)
    + Math.max(0, at - from - 0.9 * size);
  const [dx, dy] = [beyond(x, left, width), beyond(y, top, height)];
  if (dx || dy) pan(dx, dy);
}
