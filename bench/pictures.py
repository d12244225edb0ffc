#!/usr/bin/env python3
"""Compares the pictures of gafd_view with those that `lepton-cli export` makes of the same sheets.

  pictures.py [--most SHEETS] [--keep FOLDER] [FOLDER]...

The sheets are those below the FOLDERs: of lepton-eda's own examples and of this repository, where
none is named. Both pictures have one font, Liberation Sans, and are shown by one Chromium at one
scale. Ink that has no ink of the other picture within two pixels is counted, both ways; so are the
sides of the boxes round all ink. --keep leaves both pictures of each sheet in a folder.

It wants lepton-eda, fonts-liberation, chromium, chromium-driver and python3-selenium; GAFD names
the program. A sheet takes some seconds. Nothing claims that the two agree: it shows how near they
are.
"""
import argparse
import base64
import pathlib
import re
import subprocess
import sys
import tempfile
import threading
from http.server import BaseHTTPRequestHandler, ThreadingHTTPServer

sys.dont_write_bytecode = True
TOP = pathlib.Path(__file__).resolve().parent.parent
VIEW = TOP / "clients" / "gafd_view"
sys.path[:0] = [str(VIEW / "tests"), str(VIEW)]

import page_files
from board_files import NAME, BoardFiles
from browsers import browser, missing
from gafd_program import program

FOLDERS = ["/usr/share/doc/lepton-eda/examples", str(TOP / "examples")]
LIBRARIES = ["/usr/share/lepton-eda/sym", str(TOP / "examples")]
FONT = "Liberation Sans"
WIDEST, HIGHEST, GREATEST_SCALE = 1300, 1000, 3.0
HELPERS = """<!doctype html><meta charset="utf-8">
<link rel="stylesheet" href="/colours.css"><link rel="stylesheet" href="/style.css">
<style>html, body { margin: 0; background: #fff; overflow: hidden; display: block }
.sheet, .lepton { display: block } @page { margin: 0 }</style>
<body><script type="module">
import { drawSheet } from "/drawing.js";
import { fontSizes } from "/font.js";
import { readObjects } from "/objects.js";
window.drawOurs = (sheet, symbols, box, width, height) => {
  const objects = readObjects(sheet);
  objects.forEach((it, id) => { it.id = id; });
  const read = new Map(Object.entries(symbols).map(([name, text]) => [name, readObjects(text)]));
  const { drawn, cues } = drawSheet(objects, read, fontSizes("'Liberation Sans'"));
  document.body.innerHTML = `<svg class="sheet" viewBox="${box.join(" ")}" width="${width}" height="${height}">`
    + `${[...drawn.values()].join("")}${cues}</svg>`;
  document.querySelector("svg").style.fontFamily = "'Liberation Sans'";
  return objects.length;
};
window.drawLepton = (svg, width, height) => {
  document.body.innerHTML = svg.slice(svg.indexOf("<svg"));
  const shown = document.querySelector("svg");
  shown.setAttribute("width", width);
  shown.setAttribute("height", height);
  shown.classList.add("lepton");
};
async function inkOf(picture) {
  const image = new Image();
  image.src = `data:image/png;base64,${picture}`;
  await image.decode();
  const canvas = new OffscreenCanvas(image.width, image.height).getContext("2d");
  canvas.drawImage(image, 0, 0);
  const { data } = canvas.getImageData(0, 0, image.width, image.height);
  const ink = new Uint8Array(image.width * image.height);
  for (let at = 0; at < ink.length; at++) {
    ink[at] = Math.min(data[4 * at], data[4 * at + 1], data[4 * at + 2]) < 215 ? 1 : 0;
  }
  return { ink, width: image.width, height: image.height };
}
function alone(one, other) {
  let [count, all] = [0, 0];
  const box = [Infinity, Infinity, -1, -1];
  for (let y = 0; y < one.height; y++) for (let x = 0; x < one.width; x++) {
    if (!one.ink[y * one.width + x]) continue;
    all++;
    box.splice(0, 4, Math.min(box[0], x), Math.min(box[1], y), Math.max(box[2], x),
               Math.max(box[3], y));
    let near = 0;
    for (let dy = -2; dy <= 2 && !near; dy++) for (let dx = -2; dx <= 2 && !near; dx++) {
      const [a, b] = [x + dx, y + dy];
      if (a >= 0 && b >= 0 && a < other.width && b < other.height) near = other.ink[b * other.width
                                                                                    + a];
    }
    if (!near) count++;
  }
  return { share: count / Math.max(all, 1), box };
}
window.compare = async (ours, theirs) => {
  const [one, other] = [await inkOf(ours), await inkOf(theirs)];
  const [extra, missing] = [alone(one, other), alone(other, one)];
  return { extra: extra.share, missing: missing.share,
    box: Math.max(...extra.box.map((it, place) => Math.abs(it - missing.box[place]))) };
};
window.isReady = true;
</script>"""


class Files(BaseHTTPRequestHandler):
    """The files of the page, and the page that compares."""

    def do_GET(self):
        found = (HELPERS.encode(),
                 "text/html") if self.path == "/" else page_files.read(self.path[1:])
        self.send_response(200 if found else 404)
        self.send_header("Content-Type", found[1] if found else "text/plain")
        self.end_headers()
        self.wfile.write(found[0] if found else b"")

    def log_message(self, *_):
        pass


def exported(sheet, files):
    """What lepton-cli makes of a canonical sheet and its symbols, or None."""
    with tempfile.TemporaryDirectory() as room:
        folder = pathlib.Path(room)
        for name in [sheet, *files.symbols]:
            (folder / name).write_text(files.files[name].text)
        (folder / "gafrc").write_text('(reset-component-library)\n(component-library ".")\n')
        words = ["lepton-cli", "export", "-c", "-F", FONT, "-o", "out.svg", sheet]
        try:
            subprocess.run(words, cwd=folder, capture_output=True, timeout=120, check=False)
            return (folder / "out.svg").read_text()
        except (OSError, subprocess.TimeoutExpired):
            return None


def picture(driver, width, height):
    clip = {"x": 0, "y": 0, "width": width, "height": height, "scale": 1}
    words = {"format": "png", "clip": clip, "captureBeyondViewport": True}
    return driver.execute_cdp_cmd("Page.captureScreenshot", words)["data"]


def compared(driver, sheet, files, keep):
    """How far both pictures of a sheet are from each other; None where lepton makes none."""
    svg = exported(sheet, files)
    matrix = svg and re.search(r"matrix\(([-0-9.]+),0,0,-?[-0-9.]+,([-0-9.]+),([-0-9.]+)\)", svg)
    if not matrix:
        return None
    factor, left, top = map(float, matrix.groups())
    wide, high = map(float, re.search(r'viewBox="0 0 ([0-9.]+) ([0-9.]+)"', svg).groups())
    scale = min(WIDEST / wide, HIGHEST / high, GREATEST_SCALE)
    width, height = round(wide * scale), round(high * scale)
    box = [-left / factor, -top / factor, wide / factor, high / factor]
    symbols = {it: files.files[it].text for it in files.symbols}
    count = driver.execute_script("return drawOurs(...arguments)", files.files[sheet].text, symbols,
                                  box,
                                  width, height)
    ours = picture(driver, width, height)
    driver.execute_script("drawLepton(...arguments)", svg, width, height)
    theirs = picture(driver, width, height)
    for name, one in (("ours", ours), ("lepton", theirs)) if keep else ():
        pathlib.Path(keep, f"{sheet}.{name}.png").write_bytes(base64.b64decode(one))
    return {"objects": count, **driver.execute_script("return compare(...arguments)", ours, theirs)}


def sheets_below(folders):
    paths = [it for one in folders for it in sorted(pathlib.Path(one).rglob("*.sch"))]
    return [it for it in paths if NAME.fullmatch(it.name)]


def report(rows):
    print(f"{len(rows)} sheets, {sum(it['objects'] for it in rows)} objects")
    for most in (0.001, 0.0035, 0.01, 1):
        count = sum(max(it["extra"], it["missing"]) <= most for it in rows)
        print(f"{count} with at most {100 * most:g} % of the ink without counterpart, both ways")
    print(f"{sum(it['box'] <= 1 for it in rows)} whose boxes round all ink agree within a pixel")


def main():
    parser = argparse.ArgumentParser(description=__doc__.split("\n")[0])
    parser.add_argument("--most", type=int, default=10_000, metavar="SHEETS")
    parser.add_argument("--keep", metavar="FOLDER")
    parser.add_argument("folders", nargs="*", default=FOLDERS)
    asked = parser.parse_args()
    if missing() or program() is None:
        sys.exit(f"{missing() or 'gafd'} is missing")
    web = ThreadingHTTPServer(("127.0.0.1", 0), Files)
    threading.Thread(target=web.serve_forever, daemon=True).start()
    driver = browser()
    driver.get(f"http://127.0.0.1:{web.server_port}/")
    rows = []
    for path in sheets_below(asked.folders)[:asked.most]:
        files = BoardFiles(path.parent, [path.name], LIBRARIES, program())
        files.look()
        row = compared(driver, path.name, files, asked.keep)
        files.close()
        if row is None:
            print(f"{path}: not read, or lepton makes no picture")
            continue
        rows.append(row)
        print(f"{path.name}: {row['objects']} objects, extra {100 * row['extra']:.2f} %, missing "
              f"{100 * row['missing']:.2f} %, boxes within {row['box']}", flush=True)
    report(rows)


if __name__ == "__main__":
    main()
