// Lines, boxes, circles, arcs, paths and pictures as SVG.

import { BUS_WIDTH, GRAPHIC, LEAST_WIDTH, NAME_LOOK, NET_WIDTH, circlePath, colourClass, widenBox }
  from "./canvas.js";
import { drawText } from "./texts.js";

/** The look of a line: its width, ends and dashes. */
function strokeLook(object) {
  const width = Math.max(object.width, LEAST_WIDTH);
  const [length, gap] = [Math.max(object.length, 0), Math.max(object.space, LEAST_WIDTH)];
  const dot = `${gap - width / 2} ${width} ${gap - width / 2}`;
  const looks = [
    ["butt", "bevel"], ["square", "miter"], ["round", "round"],
  ][object.cap] || ["butt", "bevel"];
  const dashes = ["", `0 ${gap}`, `${length} ${gap}`, `${length} ${dot}`,
    `${length} ${dot} ${width} ${gap - width / 2}`][object.dash] || "";
  const ends = object.dash === 1 ? "round" : dashes ? "butt" : looks[0];
  return ` stroke-width="${width}" stroke-linecap="${ends}" stroke-linejoin="${looks[1]}"`
    + (dashes ? ` stroke-dasharray="${dashes}"` : "");
}

/** What fills a closed shape: nothing, its colour, or hatches of one or two directions. */
function fillLook(object) {
  if (object.fill === 1) return ["", ' fill="currentColor"'];
  const sides = [[object.angle1, object.pitch1]];
  if (object.fill === 2) sides.push([object.angle2, object.pitch2]);
  if (object.fill !== 2 && object.fill !== 3) return ["", ""];
  const width = Math.max(object.fillWidth, LEAST_WIDTH);
  // Equal hatches share one name, and whichever stands first in the page is taken.
  const named = sides.filter((it) => it[1] > 0)
    .map(([angle, pitch]) => [`hatch_${colourClass(object)}_${width}_${angle}_${pitch}`, angle,
      pitch]);
  const made = named.map(([name, angle, pitch]) =>
    `<pattern id="${name}" patternUnits="userSpaceOnUse" width="${pitch}" height="${pitch}"`
    + ` patternTransform="rotate(${-angle})"><path class="${colourClass(object)}" stroke-width="${width}"`
    + ` d="M0 ${pitch / 2}H${pitch}"/></pattern>`);
  return [made.join(""), named.map(([name]) => ` fill="url(#${name})"`)];
}

/** A closed shape: once for each direction of its hatches, and then its outline. */
function drawClosed(object, path, matrix = "") {
  const [patterns, fills] = fillLook(object);
  const one = (fill,
    look) => `<path class="${colourClass(object)}"${fill}${look}${matrix} d="${path}"/>`;
  if (!Array.isArray(fills)) return one(fills, strokeLook(object));
  return patterns + fills.map((it) => one(it, ' stroke="none"')).join("")
    + one("", strokeLook(object));
}

function drawLine(object, canvas, look) {
  widenBox(canvas, object.x1, object.y1, object.x2, object.y2);
  return `<path class="${colourClass(object)}"${look} d="M${object.x1} ${-object.y1}L${object.x2} ${-object.y2}"/>`;
}

const wireLook = (width) => ` stroke-width="${width}" stroke-linecap="square"`;
const SHAPES = {
  L: (it, canvas) => drawLine(it, canvas, strokeLook(it)),
  N: (it, canvas) => drawLine(it, canvas, wireLook(NET_WIDTH)),
  U: (it, canvas) => drawLine(it, canvas, wireLook(BUS_WIDTH)),
  P: (it, canvas) => drawLine(it, canvas, wireLook(it.type ? BUS_WIDTH : NET_WIDTH)),
  B: (it, canvas) => {
    widenBox(canvas, it.x, it.y, it.x + it.wide, it.y + it.high);
    return drawClosed(it, `M${it.x} ${-it.y}h${it.wide}v${-it.high}h${-it.wide}z`);
  },
  V: (it, canvas) => {
    widenBox(canvas, it.x - it.radius, it.y - it.radius, it.x + it.radius, it.y + it.radius);
    return drawClosed(it, `M${it.x - it.radius} ${-it.y}` + circlePath(it.radius));
  },
  A: drawArc,
  H: drawPath,
  G: drawPicture,
  T: drawText,
};

/** One object without its attached texts. */
export function drawShape(object, canvas) {
  return SHAPES[object.letter](object, canvas);
}

function drawArc(object, canvas) {
  const { x, y, radius, start, sweep } = object;
  const turned = Math.abs(sweep) >= 360;
  const at = (angle) => {
    const [cos, sin] = [Math.cos((angle * Math.PI) / 180), Math.sin((angle * Math.PI) / 180)];
    return [x + radius * cos, y + radius * sin];
  };
  const steps = Math.max(1, Math.ceil(Math.abs(turned ? 360 : sweep) / 90));
  let path = "";
  for (let step = 0; step <= steps; step++) {
    const [px, py] = at(start + (sweep * step) / steps);
    widenBox(canvas, px, py);
    const put = `${+px.toFixed(2)} ${+(-py).toFixed(2)}`;
    path += step ? `A${radius} ${radius} 0 0 ${sweep > 0 ? 0 : 1} ${put}` : `M${put}`;
  }
  return turned
    ? `<path class="${colourClass(object)}"${strokeLook(object)} d="M${x - radius} ${-y}${circlePath(radius)}"/>`
    : `<path class="${colourClass(object)}"${strokeLook(object)} d="${path}"/>`;
}

/** Path data is SVG's own; a matrix brings it to its place, with y down. */
function drawPath(object, canvas) {
  const [a, b, c, d, e, f] = object.matrix || [1, 0, 0, 1, 0, 0];
  const numbers = (object.content.match(/-?[0-9]+/g) || []).map(Number);
  for (let at = 0; !/[a-z]/.test(object.content.replace(/z/g, "")) && at
    + 1 < numbers.length; at += 2) {
    const [x, y] = [numbers[at], numbers[at + 1]];
    widenBox(canvas, a * x + c * y + e, b * x + d * y + f);
  }
  const data = object.content.replace(/[^-0-9a-zA-Z., \n]/g, "").replace(/\n/g, " ");
  return drawClosed(object, data, ` transform="matrix(${a} ${-b} ${c} ${-d} ${e} ${-f})"`);
}

/** A picture as a frame, with the picture in it where the sheet has its data. */
function drawPicture(object, canvas) {
  const { x, y, wide, high, angle, mirrored, data } = object;
  widenBox(canvas, x, y, x + wide, y + high);
  const kind = [["iVBOR", "png"], ["/9j/", "jpeg"], ["R0lGOD", "gif"]]
    .find(([begins]) => (data || "").startsWith(begins));
  const frame = `<path class="k${GRAPHIC}" stroke-width="10" d="M${x} ${-y}h${wide}v${-high}h${-wide}z"/>`;
  if (!kind || !/^[A-Za-z0-9+/=]*$/.test(data)) {
    const name = { letter: "T", x: x + 50, y: y + 50, color: GRAPHIC, ...NAME_LOOK,
      content: object.content };
    return frame + drawText(name, canvas);
  }
  const [w, h] = angle % 180 ? [high, wide] : [wide, high];
  return `<image x="${-w / 2}" y="${-h / 2}" width="${w}" height="${h}" preserveAspectRatio="none"`
    + ` href="data:image/${kind[1]};base64,${data}" transform="translate(${x + wide / 2} ${-y - high / 2})`
    + ` rotate(${-angle})${mirrored ? " scale(-1 1)" : ""}"/>`;
}
