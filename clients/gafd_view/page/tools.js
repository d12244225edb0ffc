// Drawing by the mouse or the keys: a wire from point to point, a component by its symbol's name, a
// text.

import { splitAttribute } from "./attributes.js";
import { drawObject } from "./drawing.js";
import { addObject, onGrid } from "./editing.js";
import { newCanvas } from "./canvas.js";
import { readObjects } from "./objects.js";
import { placedPoint } from "./placing.js";
import { board, byId, notice, shown, shownObjects } from "./state.js";
import { conductorsOf } from "./touching.js";
import { keepInside, middle } from "./viewport.js";

const NET_COLOUR = 4;
const [TEXT_COLOUR, TEXT_SIZE] = [9, 10];
const ATTRIBUTE_COLOUR = 5;
const NEAR = 80;
const HINTS = {
  wire: "a wire: click where it begins, and where it ends (or arrows and Enter; Escape ends)",
  component: "a component: click where it is to stand (or arrows and Enter; Escape ends)",
  text: "a text: click where it is to stand (or arrows and Enter; Escape ends)",
};

/** Takes up a tool: `wire`, `component` or `text`; nothing is put down by null. */
export function takeTool(kind) {
  shown.tool = kind ? { kind, from: null, at: middle().map(onGrid) } : null;
  document.body.classList.toggle("drawing", kind !== null);
  for (const one of ["wire", "component", "text"]) byId(`draw-${one}`).classList.toggle("on",
    one === kind);
  for (const one of ["component", "text"]) byId(`${one}-field`).hidden = one !== kind;
  if (kind) notice(HINTS[kind], 6);
  if (kind === "component") offerSymbols();
  const field = kind === "component" || kind === "text" ? byId(`${kind}-name`) : byId("sheet");
  field.focus();
  showTool();
}

/** The symbols of the board, as far as its sheets and its history name them. */
function offerSymbols() {
  const added = board.history.map((it) => it.edit).filter((it) => it.kind === "add_symbol")
    .map((it) => it.name);
  const names = [...new Set([...board.symbols.keys(), ...added])].sort();
  byId("symbols").replaceChildren(...names.map((it) => new Option(it, it)));
}

/** A point on the grid, or the end of a pin or wire that is near; y down. */
function snapped([x, y]) {
  const ends = conductorsOf(shownObjects(), board.symbols)
    .flatMap((it) => [[it.x1, -it.y1], [it.x2, -it.y2]]);
  const near = ends.find(([a, b]) => Math.hypot(a - x, b - y) < NEAR);
  return near || [onGrid(x), onGrid(y)];
}

export function toolMoved(point) {
  shown.tool.at = snapped(point);
  showTool();
}

/** Moves the place of the tool by the keys, in steps of the grid. */
export function toolStepped(dx, dy) {
  const [x, y] = shown.tool.at;
  shown.tool.at = [onGrid(x) + dx, onGrid(y) + dy];
  keepInside(shown.tool.at);
  showTool();
}

export function toolClicked(point) {
  if (point) toolMoved(point);
  return DRAWS[shown.tool.kind](shown.tool);
}

const DRAWS = {
  wire: (tool) => {
    if (!tool.from) {
      tool.from = tool.at;
      return showTool();
    }
    const [[x1, y1], [x2, y2]] = [tool.from, tool.at];
    if (x1 === x2 && y1 === y2) return undefined;
    tool.from = null;
    return draws(`N ${x1} ${-y1} ${x2} ${-y2} ${NET_COLOUR}\n`);
  },
  component: ({ at: [x, y] }) => {
    const name = byId("component-name").value.trim();
    if (!board.symbols.has(name)) return notice(name
      ? `the board has no symbol ${name} that is read` : "which symbol?");
    return draws(componentLines(name, x, -y));
  },
  text: ({ at: [x, y] }) => {
    const content = byId("text-name").value;
    if (!content.trim()) return notice("write the text first");
    const count = content.split("\n").length;
    return draws(`T ${x} ${-y} ${TEXT_COLOUR} ${TEXT_SIZE} 1 0 0 0 ${count}\n${content}\n`);
  },
};

async function draws(text) {
  await addObject(text);
  showTool();
}

/** A component with its symbol's shown attributes attached, as lepton-schematic places one. */
function componentLines(name, x, y) {
  const component = { letter: "C", x, y, angle: 0, mirror: 0 };
  const texts = board.symbols.get(name).filter((it) => it.letter === "T" && splitAttribute(it)
    && (it.visible || splitAttribute(it)[0] === "refdes"));
  const attached = texts.map((it) => {
    const [left, lower] = placedPoint(component, it.x, it.y);
    const { size, visible, show, angle, align, lines, content } = it;
    const look = [ATTRIBUTE_COLOUR, size, visible, show, angle, align, lines].join(" ");
    return `T ${left} ${lower} ${look}\n${content}\n`;
  });
  const block = attached.length ? `{\n${attached.join("")}}\n` : "";
  return `C ${x} ${y} 1 0 0 ${name}\n${block}`;
}

/** Shows where the tool is, and what it would draw. */
function showTool() {
  const { tool } = shown;
  if (!tool) {
    byId("tool").innerHTML = "";
    return;
  }
  const [x, y] = tool.at;
  const cross = `<path d="M${x - 100} ${y}h200M${x} ${y - 100}v200"/>`;
  const line = tool.from ? `<path d="M${tool.from.join(" ")}L${x} ${y}"/>` : "";
  byId("tool").innerHTML = cross + line + ghost(tool);
}

function ghost({ kind, at: [x, y] }) {
  const name = byId("component-name").value.trim();
  if (kind !== "component" || !board.symbols.has(name)) return "";
  const [object] = readObjects(`v 20130925 2\n${componentLines(name, x, -y)}`);
  return drawObject({ ...object, id: -1 }, newCanvas(board.symbols, shown.sizes));
}

/** Listens to the buttons of the tools. */
export function listenToTools() {
  for (const kind of ["wire", "component", "text"]) {
    byId(`draw-${kind}`).addEventListener("click",
      () => takeTool(shown.tool?.kind === kind ? null : kind));
  }
  byId("component-name").addEventListener("input", showTool);
  for (const name of ["component-name", "text-name"]) {
    byId(name).addEventListener("keydown", (event) => {
      if (event.key === "Escape") takeTool(null);
      if (event.key !== "Enter" || event.shiftKey) return;
      event.preventDefault();
      byId("sheet").focus();
    });
  }
}
