// A sheet as an SVG file of its own, with its colours in it.

import { drawSheet } from "./drawing.js";
import { byId, board, shown, shownObjects } from "./state.js";

const MILS_IN_MM = 1000 / 25.4;
const LOOK = `svg { stroke: currentColor; fill: none; font-family: Arial, "Liberation Sans", Helvetica, sans-serif }
text { fill: currentColor; stroke: none; white-space: pre }
.over { text-decoration: overline }
.cue { fill: currentColor; stroke: none }`;

/** The SVG file of a drawing, as large as the sheet is, on a light ground. */
export function svgFile({ drawn, cues, box: [x1, y1, x2, y2] }, colours) {
  const [wide, high] = [x2 - x1, y2 - y1];
  const size = [wide, high].map((it) => `${(it / MILS_IN_MM).toFixed(2)}mm`);
  return '<?xml version="1.0" encoding="UTF-8"?>\n<svg xmlns="http://www.w3.org/2000/svg" '
    + `width="${size[0]}" height="${size[1]}" viewBox="${x1} ${-y2} ${wide} ${high}">\n`
    + `<style>\n${LOOK}\n${colours.join("\n")}\n</style>\n${[...drawn.values()].join("\n")}\n${cues}\n</svg>\n`;
}

/** The light colours of the page's own style, a rule each. */
async function lightColours() {
  const reply = await fetch("colours.css");
  return (await reply.text()).match(/^\.k\d+ \{[^}]*\}/gm);
}

/** Hands the shown sheet to the browser as a file. */
export async function saveSvg() {
  const drawing = drawSheet(shownObjects(), board.symbols, shown.sizes);
  const text = svgFile(drawing, await lightColours());
  const link = document.createElement("a");
  link.href = URL.createObjectURL(new Blob([text], { type: "image/svg+xml" }));
  link.download = shown.at.sheet.replace(/(\.sch)?$/, ".svg");
  byId("notice").before(link);
  link.click();
  link.remove();
  setTimeout(() => URL.revokeObjectURL(link.href), 1000);
}
