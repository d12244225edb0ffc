// What is drawn, without a browser: `node test_drawing.mjs`. The numbers are those of the
// pictures that lepton-cli export makes of the same lines.

import assert from "node:assert/strict";
import { readFileSync } from "node:fs";
import nodeTest from "node:test";
import { readAddress, writeAddress } from "../page/address.js";
import { changesOf, netListChanges } from "../page/changes.js";
import { cuesOf } from "../page/cues.js";
import { drawSheet } from "../page/drawing.js";
import { addRails, findingsAt, linkOf, railsThatMeet, readFindings } from "../page/findings.js";
import { instancesOf, placesOf } from "../page/instances.js";
import { globalNames, netsIn, readNetList } from "../page/nets.js";
import { readObjects, readSheetObjects } from "../page/objects.js";
import { RULES } from "../page/rules.js";
import { svgFile } from "../page/saving.js";
import { followers } from "../page/rubber.js";
import { lastDeed, ownStand } from "../page/undoing.js";

let [passed, failed] = [0, 0];
process.on("exit", () => console.log(`${passed} passed, ${failed} failed`));

/** A test that is counted. */
function test(name, body) {
  nodeTest(name, async () => {
    failed++;
    await body();
    failed--;
    passed++;
  });
}

const HEAD = "v 20130925 2\n";
const SYMBOL = `${HEAD}P 0 400 300 400 1 0 0
{
T 100 450 5 8 1 1 0 0 1
pinnumber=1
T 100 450 5 8 0 1 0 0 1
pinseq=1
T 350 400 9 8 1 1 0 1 1
pinlabel=IN
}
P 1300 200 1000 200 1 0 0
{
T 1100 250 5 8 1 1 0 0 1
pinnumber=2
T 1100 250 5 8 0 1 0 0 1
pinseq=2
}
B 300 0 700 600 3 0 0 0 -1 -1 0 -1 -1 -1 -1 -1
T 300 700 8 10 1 1 0 0 1
refdes=U?
T 300 -300 9 10 1 0 0 0 1
plain
T 300 -500 8 10 0 0 0 0 1
slotdef=2:5,6
`;
const SYMBOLS = new Map([["own.sym", readObjects(SYMBOL)]]);

function sheetOf(lines) {
  const objects = readObjects(HEAD + lines);
  objects.forEach((it, id) => { it.id = id; });
  return objects;
}

function draw(lines) {
  const { drawn, cues, box } = drawSheet(sheetOf(lines), SYMBOLS);
  return { svg: [...drawn.values()].join(""), cues, box };
}

test("lines have a least width, ends and dashes", () => {
  assert.match(draw("L 0 0 100 50 3 0 0 0 -1 -1\n").svg,
    /<path class="k3" stroke-width="5" stroke-linecap="butt" stroke-linejoin="bevel" d="M0 0L100 -50"\/>/);
  assert.match(draw("L 0 0 100 0 3 50 1 1 -1 100\n").svg,
    /stroke-width="50" stroke-linecap="round" stroke-linejoin="miter" stroke-dasharray="0 100"/);
  assert.match(draw("L 0 0 100 0 3 10 2 3 200 75\n").svg, /stroke-dasharray="200 70 10 70"/);
});

test("shapes stand where they are", () => {
  assert.match(draw("B 100 200 300 400 3 10 0 0 -1 -1 1 -1 -1 -1 -1 -1\n").svg,
    /fill="currentColor".* d="M100 -200h300v-400h-300z"/);
  assert.match(draw("V 0 0 300 3 10 0 0 -1 -1 0 -1 -1 -1 -1 -1\n").svg,
    /d="M-300 0a300 300 0 1 0 600 0/);
  assert.match(draw("A 3500 7000 300 0 90 3 10 0 0 -1 -1\n").svg,
    /d="M3800 -7000A300 300 0 0 0 3500 -7300"/);
  assert.match(draw("A 3500 7000 300 0 -90 3 10 0 0 -1 -1\n").svg,
    /d="M3800 -7000A300 300 0 0 1 3500 -6700"/);
  assert.match(draw("H 3 10 0 0 -1 -1 0 -1 -1 -1 -1 -1 2\nM 0,0\nL 100,50\n").svg,
    /transform="matrix\(1 0 0 -1 0 0\)" d="M 0,0 L 100,50"/);
  assert.match(draw("B 0 0 900 500 3 10 0 0 -1 -1 2 5 45 100 135 90\n").svg,
    /<pattern id="hatch_k3_5_45_100"/);
  assert.deepEqual(draw("N 0 0 100 0 4\nB 50 50 100 100 3 0 0 0 -1 -1 0 -1 -1 -1 -1 -1\n").box,
    [0, 0, 150, 150]);
});

test("texts stand by their nine alignments", () => {
  const place = (align, lines = 1) => {
    const svg = draw(`T 1000 2000 9 10 1 0 0 ${align} ${lines}\n${"Hxg\n".repeat(lines)}`).svg;
    return Number(/ y="([-0-9.]+)"(?: text-anchor="\w+")?>Hxg/.exec(svg)[1]);
  };
  assert.equal(place(0), 0);
  assert.equal(place(1), 62.6);
  assert.equal(place(2), 163.4);
  assert.equal(place(0, 3), -403.4);
  assert.equal(place(1, 3), -139.1);
  assert.match(draw("T 0 0 9 10 1 0 0 7 1\nx\n").svg, /text-anchor="end"/);
  assert.match(draw("T 5 7 9 10 1 0 90 0 1\nx\n").svg,
    /transform="translate\(5 -7\) rotate\(-90\)"/);
  // At 180 degrees it stands upright, at the corner across.
  assert.match(draw("T 5 7 9 10 1 0 180 0 1\nx\n").svg,
    /translate\(5 -7\)" y="163.4" text-anchor="end"/);
  assert.match(draw("T 5 7 9 10 1 0 180 2 1\nx\n").svg,
    /translate\(5 -7\)" y="-38.3" text-anchor="end"/);
});

test("texts show what they are told to, and no markup", () => {
  const shown = (flags, content) => />([^<]*(?:<tspan.*<\/tspan>[^<]*)?)<\/text>/
    .exec(draw(`T 0 0 9 10 ${flags} 0 0 1\n${content}\n`).svg)?.[1];
  assert.equal(shown("1 0", "value=10k"), "value=10k");
  assert.equal(shown("1 1", "value=10k"), "10k");
  assert.equal(shown("1 2", "value=10k"), "value");
  assert.equal(shown("1 1", "plain"), "plain");
  assert.equal(shown("0 0", "value=10k"), undefined);
  assert.equal(shown("1 0", "<b>&"), "&lt;b&gt;&amp;");
  assert.equal(shown("1 0", "\\_RESET\\_ in"), '<tspan class="over">RESET</tspan> in');
});

test("a component shows its symbol, its slot's numbers, and its own attributes alone", () => {
  const { svg } = draw("C 1000 1000 1 0 0 own.sym\n{\nT 0 0 5 10 1 1 0 0 1\nrefdes=U1\n"
    + "T 0 0 5 10 0 1 0 0 1\nslot=2\n}\n");
  assert.match(svg,
    new RegExp('data-key="0.0"><path class="k1" stroke-width="10" stroke-linecap="square"'
    + ' d="M1000 -1400L1300 -1400"'));
  assert.match(svg, />5<\/text>.*>IN<\/text>.*>6<\/text>.*>plain<\/text>.*>U1<\/text>/);
  assert.doesNotMatch(svg, /U\?|slotdef/);
  assert.match(draw("C 0 0 1 0 0 none.sym\n").svg, /k8.*>none.sym<\/text>/);
  assert.match(draw("C 0 0 1 0 0 EMBEDDEDe.sym\n[\nT 5 5 8 10 1 1 0 0 1\nrefdes=E?\n]\n").svg,
    />E\?<\/text>/);
});

test("a mirrored and turned component takes its texts along", () => {
  const { svg } = draw("C 17000 1000 1 90 1 own.sym\n");
  assert.match(svg, /d="M16600 -1000L16600 -700"/);
  assert.match(svg,
    /transform="translate\(16600 -650\) rotate\(-90\)" y="[0-9.]+" text-anchor="end">IN/);
  const upright = new Map([["own.sym", readObjects(`${HEAD}T 0 0 9 10 1 0 90 0 1\nx\n`)]]);
  const mirrored = drawSheet(sheetOf("C 0 0 1 0 1 own.sym\n"), upright).drawn.get(0);
  assert.match(mirrored, /rotate\(-90\)" y="163.4">x/);
});

test("dots stand where wires meet, and squares at open ends", () => {
  const cues = (lines) => {
    const paths = draw(lines).cues.split('d="').slice(1).map((it) => it.split('"')[0]);
    return paths.map((it) => [...it.matchAll(/M(-?\d+) (-?\d+)/g)]
      .map((at) => `${at[1]},${-at[2]}`));
  };
  const cross = cues("N 0 0 200 0 4\nN 100 0 100 200 4\nN 0 100 200 100 4\n");
  assert.deepEqual(cross, [["-30,30", "170,30", "70,230", "-30,130", "170,130"], ["100,0"]]);
  assert.deepEqual(cues("N 0 0 100 0 4\nN 100 0 100 100 4\n")[1], []);
  assert.deepEqual(cues("N 0 0 100 0 4\nN 100 0 100 100 4\nN 100 0 200 50 4\n")[1], ["100,0"]);
  assert.deepEqual(cues("N 0 0 200 200 4\nN 100 100 100 0 4\n")[1], []);
  assert.deepEqual(cues("N 0 0 200 200 4\nN 0 100 -100 100 4\n")[1], []);
  assert.deepEqual(cues("N 0 0 200 0 4\nU 100 0 100 200 10 1\n")[1], []);
  assert.deepEqual(cues("P 0 0 300 0 1 0 1\n")[0], ["270,30"]);
  assert.deepEqual(cues("N 0 0 200 0 4\nP 100 0 100 300 1 0 0\n")[1], ["100,0"]);
  assert.deepEqual(cues("U 0 0 200 0 10 1\nU 100 0 100 300 10 1\n")[1], ["100,0"]);
  assert.deepEqual(cues("U 0 0 0 300 10 1\nN 0 100 200 100 4\n"), [["170,130"], ["0,100"]]);
  assert.deepEqual(cues("P 0 0 300 0 1 0 0\nN 300 0 600 0 4\n")[0], ["-30,30", "270,30", "570,30"]);
});

const attached = (
  ...texts) => `{\n${texts.map((it) => `T 0 0 5 10 1 1 0 0 1\n${it}\n`).join("")}}\n`;
const pin = (x, y, number,
  label) => `P ${x} 0 ${y} 0 1 0 0\n${attached(`pinnumber=${number}`, `pinlabel=${label}`)}`;
const part = (x, name,
  symbol = "two") => `C ${x} 0 1 0 0 ${symbol}.sym\n${attached(`refdes=${name}`)}`;
const wire = (x1, x2, name) => `N ${x1} 0 ${x2} 0 4\n${name ? attached(`netname=${name}`) : ""}`;
const PARTS = new Map([
  ["two.sym", readObjects(HEAD + pin(0, 100, 1, "a") + pin(300, 200, 2, "b"))],
  ["box.sym", readObjects(`${HEAD}T 0 0 8 10 0 0 0 0 1\nsource=low.sch\n${pin(0, 100, 1, "IN")}`)],
]);

function board(sheets, nets) {
  const read = new Map(Object.entries(sheets).map(([name, lines]) => [name, sheetOf(lines)]));
  const list = readNetList(`parts 0\nnets 0\n${nets.join("\n")}\n`);
  const instances = instancesOf(read, PARTS);
  const netsAt = (place) => netsIn(instances[place], read.get(instances[place].sheet), PARTS, list);
  return { instances, netsAt, places: placesOf(instances, read, PARTS) };
}

test("wires and pins have the net of the list, in each instance its own", () => {
  const low = part(0, "R1") + part(600, "R2") + wire(300, 600, "X") + wire(5000, 6000, "X")
    + wire(9000, 9500);
  const { instances, netsAt, places } = board(
    { "low.sch": low, "top.sch": part(0, "LEFT", "box") + part(9, "RIGHT", "box") },
    ["LEFT/X\tLEFT/R1-2 LEFT/R2-1", "RIGHT/X\tRIGHT/R1-2", "q\tRIGHT/R2-1", "a\tLEFT/R1-1",
      "b\tLEFT/R2-2",
      "c\tRIGHT/R1-1"],
  );
  assert.deepEqual(instances.map((it) => `${it.sheet}@${it.path}`),
    ["top.sch@", "low.sch@LEFT", "low.sch@RIGHT"]);
  const [left, right] = [netsAt(1), netsAt(2)];
  assert.deepEqual(left.disagreements, []);
  assert.deepEqual(["2.0", "0.1", "3.0", "0.0", "4.0"].map((it) => left.netOf.get(it)),
    ["LEFT/X", "LEFT/X", "LEFT/X", "a", null]);
  assert.equal(right.netOf.get("2.0"), null);
  assert.equal(right.groupOf.get("2.0"), right.groupOf.get("0.1"));
  assert.deepEqual(right.disagreements,
    ["RIGHT/R1-2 RIGHT/R2-1 touch, and are in several nets: RIGHT/X q",
    "RIGHT/R2-2 is in no net of the list"]);
  assert.equal(places.pins.get("RIGHT/R2-1")[0].id, 1);
});

test("a wire without pins has the net of one with its name, by the path of its instance", () => {
  const low = part(0, "R1") + wire(300, 600, "X") + wire(5000, 6000, "X") + wire(7000, 8000, "Z");
  const { netsAt } = board({ "low.sch": low, "top.sch": part(0, "U", "box") },
    ["X\tJ1-1", "Z\tJ1-2", "Y\tU/R1-2", "w\tU/R1-1"]);
  assert.deepEqual(["1.0", "2.0", "3.0"].map((it) => netsAt(1).netOf.get(it)), ["Y", "Y", null]);
});

test("a port is no part, and a loop ends", () => {
  const low = part(0, "IN") + part(0, "SELF", "box") + part(600, "R1");
  const { instances, netsAt } = board({ "low.sch": low, "top.sch": part(0, "U", "box") },
    ["a\tU/R1-1", "b\tU/R1-2"]);
  assert.deepEqual(instances.map((it) => it.path), ["", "U"]);
  assert.deepEqual(netsAt(1).disagreements, []);
});

test("findings have a level, a name and words", () => {
  assert.deepEqual(readFindings("findings 1\nerror Conflict n out out\nerrors 1 warnings 0\n"),
    [{ level: "error", name: "Conflict", words: ["n", "out", "out"] }]);
});

const rail = (x, name) => `C ${x} 0 1 0 0 ${name}.sym\n`;
const RAILS = new Map([
  ...PARTS,
  ...["GND", "+5V"].map((name) => [`${name}.sym`,
    readObjects(`${HEAD}T 0 0 8 10 0 0 0 0 1\nnet=${name}:1\n${pin(0, 100, 1, "1")}`)]),
]);

test("rails that meet are found, on one sheet and over several", () => {
  const list = readNetList("parts 0\nnets 0\n+5V\tR1-1\nGND\tR1-2\n");
  const instance = { sheet: "a.sch", path: "", above: null, parent: null };
  const rails = (lines) => {
    const { groups } = netsIn(instance, sheetOf(lines), RAILS, list);
    return railsThatMeet(addRails(new Map(), groups, RAILS))
      .map(({ name, words }) => [name, ...words]);
  };
  const apart = part(0, "R1") + rail(0, "+5V") + rail(300, "GND");
  assert.deepEqual(rails(apart), []);
  assert.deepEqual(rails(`${apart}${wire(600, 900)}${rail(600, "GND")}${rail(900, "+5V")}`),
    [["RailsMeet", "GND", "+5V", "GND"]]);
  const met = "+5V\tR1-1 R1-2";
  const joined = netsIn(instance, sheetOf(apart + wire(0, 300)), RAILS,
    readNetList(`parts 0\nnets 0\n${met}\n`));
  assert.deepEqual(railsThatMeet(addRails(new Map(), joined.groups, RAILS)),
    [{ level: "error", name: "RailsMeet", words: ["+5V", "+5V", "GND"] }]);
});

test("an attached `net` takes its numbers from the inherited ones", () => {
  const [component] = sheetOf(`C 0 0 1 0 0 GND.sym\n${attached("net=VEE:1,2")}`);
  assert.deepEqual(globalNames(component, "1", RAILS), ["VEE"]);
  assert.deepEqual(globalNames(component, "2", RAILS), ["VEE"]);
  assert.deepEqual(globalNames(component, "3", RAILS), []);
});

test("findings stand at parts, pins, wires, ids and symbols", () => {
  const objects = sheetOf(part(0, "R1") + wire(300, 600, "X") + rail(900, "none"));
  const instance = { sheet: "a.sch", path: "", above: null, parent: null };
  const list = readNetList("parts 1\nR1\t-\t-\t-\nnets 2\nX\tR1-2\nunconnected_pin-1\tR1-1\n");
  const { groups } = netsIn(instance, objects, RAILS, list);
  const places = placesOf([instance], new Map([["a.sch", objects]]), RAILS);
  const findings = readFindings(
    "findings 6\nerror Unnumbered R1\nerror UnconnectedPin R1-1\nwarning OnePin X\n"
    + "error NoRefdes a.sch 2\nerror NoRefdes b.sch 1\nerror MissingSymbol a.sch none.sym\n");
  const found = findingsAt(findings, list.names,
    { instance, objects, places, groups, symbols: RAILS });
  assert.deepEqual([...found].map(([spot, all]) => [spot, all.map((it) => it.name).join()]), [
    ["0", "Unnumbered"], ["0.0", "UnconnectedPin"], ["0.1", "OnePin"],
      ["2", "NoRefdes,MissingSymbol"],
  ]);
});

test("what changed is told by ids, and of net lists without the numbers of unnamed nets", () => {
  const [before, now] = [sheetOf("N 0 0 1 0 4\nN 0 0 2 0 4\n"),
    sheetOf("N 0 0 1 0 4\nN 0 0 3 0 4\nN 0 0 4 0 4\n")];
  const { changed, added, gone } = changesOf(before, now);
  assert.deepEqual([changed.map(([was, is]) => [was.x2, is.x2]), added.map((it) => it.id), gone],
    [[[2, 3]], [2], []]);
  const lists = ["A\tR1-1\nunnamed_net1\tR1-2 R2-1\n", "unnamed_net7\tR1-2 R2-1\nB\tR1-1\n"]
    .map((it) => readNetList(`parts 1\nR1\t-\t1k\t-\nnets 2\n${it}`));
  assert.deepEqual(netListChanges(...lists),
    { changed: [], gone: [["net", "A", "R1-1"]], added: [["net", "B", "R1-1"]] });
  assert.deepEqual(netListChanges(lists[0], lists[0]), { changed: [], gone: [], added: [] });
});

test("a net of a drawn name that both lists have is told with the pins that came and went", () => {
  const list = (nets) => readNetList(`parts 1\nR1\t-\t1k\t-\nnets 3\n${nets}`);
  const [old, now] = ["GND\tC8-1 R1-2 R2-1\nA\tR3-1\nunnamed_net1\tR4-1 R4-2\n",
    "GND\tC21-1 R1-2 R2-1 S1/C3-1\nA\tR3-1\nunnamed_net1\tR4-1\n"].map(list);
  assert.deepEqual(netListChanges(old, now), {
    changed: [["net", "GND", "+C21-1 +S1/C3-1 -C8-1"]],
    gone: [["net", "*", "R4-1 R4-2"]], added: [["net", "*", "R4-1"]],
  });
});

test("open ends are those of wires and pins that nothing touches", () => {
  const { open } = cuesOf(sheetOf(part(0, "R1") + wire(300, 600)), PARTS);
  assert.deepEqual(open, [[0, 0], [600, 0]]);
});

test("an address names an instance, links and a comparison, and is written as it is read", () => {
  const none = { at: null, links: [], compare: null };
  const cases = [
    ["", none],
    ["#a.sch@", { ...none, at: { sheet: "a.sch", path: "" } }],
    ["#a.sch%40U1%2FX", { ...none, at: { sheet: "a.sch", path: "U1/X" } }],
    ["#part:R17", { ...none, links: ["part:R17"] }],
    ["#a.sch@U1&net:A%26B&compare=12",
      { at: { sheet: "a.sch", path: "U1" }, links: ["net:A&B"],
        compare: { front: 12, to: null } }],
    ["#compare=12..20", { ...none, compare: { front: 12, to: 20 } }],
    ["#net:%", { ...none, links: ["net:%"] }],
  ];
  for (const [hash, wanted] of cases) assert.deepEqual(readAddress(hash), wanted, hash);
  const items = ["a.sch@U1/X", "net:A&B +5V", "compare=12"];
  assert.equal(writeAddress(items), "#a.sch@U1/X&net:A%26B%20+5V&compare=12");
  assert.deepEqual(readAddress(writeAddress(items)),
    { at: { sheet: "a.sch", path: "U1/X" }, links: ["net:A&B +5V"],
      compare: { front: 12, to: null } });
});

test("what was taken back can be done again, until something else is edited", () => {
  const edit = (serial) => ({ serial, edit: { kind: "move" } });
  const undo = (serial, of) => ({ serial, edit: { kind: "undo", serial: of } });
  const cases = [
    [[edit(1), edit(2)], [1, 2], []],
    [[edit(1), edit(2), undo(3, 2)], [1], [3]],
    [[edit(1), edit(2), undo(3, 2), undo(4, 1)], [], [3, 4]],
    [[edit(1), edit(2), undo(3, 2), undo(4, 3)], [1, 4], []],
    [[edit(1), undo(3, 1), undo(4, 3), undo(5, 4)], [], [5]],
    [[edit(1), undo(3, 1), edit(4)], [4], []],
    // Its edit was made before what is known.
    [[undo(3, 1)], [], [3]],
  ];
  for (const [rows, standing, undone] of cases) {
    assert.deepEqual(ownStand(rows), { standing, undone }, JSON.stringify(rows));
  }
});

test("what was done at once is taken back at once, the last of it first", () => {
  const [one, other] = [Symbol("one"), Symbol("other")];
  const rows = [[1, one], [2, one], [3], [4, other], [6, other]]
    .map(([serial, group]) => ({ serial, group }));
  for (const [serials, last] of [[[1, 2, 3, 4, 6], [6, 4]], [[1, 2, 3, 4], [4]], [[1, 2, 3], [3]],
    [[1, 2], [2, 1]], [[1], [1]], [[], []], [[8], [8]]]) {
    assert.deepEqual(lastDeed(rows, serials), last, JSON.stringify(serials));
  }
});

test("wires follow the parts that are moved", () => {
  const upright = (x, y1, y2) => `N ${x} ${y1} ${x} ${y2} 4\n`;
  // Of `two` the pins end at 0 and 300 beside its place.
  const cases = [
    ["level, along it", wire(300, 900), [100, 0], { stretched: [[1, "N 900 0 400 0 4\n"]] }],
    ["level, across", wire(300, 900, "A"), [100, 200], {
      stretched: [[1, `N 900 0 400 0 4\n${attached("netname=A")}`]],
      added: ["N 400 0 400 200 4\n"] }],
    ["level, across at once", wire(300, 900), [0, 200], {
      stretched: [[1, "N 900 0 300 0 4\n"]], added: ["N 300 0 300 200 4\n"] }],
    ["level, to its end and up", wire(300, 900), [600, 200], {
      stretched: [[1, "N 900 0 900 200 4\n"]] }],
    ["upright", upright(0, 0, 500), [100, 200], {
      stretched: [[1, "N 0 500 0 200 4\n"]], added: ["N 0 200 100 200 4\n"] }],
    ["to its end", wire(300, 900), [600, 0], { gone: [1] }],
    ["slanting", "N 300 0 900 100 4\n", [0, 200], { stretched: [[1, "N 900 100 300 200 4\n"]] }],
    ["between its own pins", wire(0, 300), [100, 200], { moved: [1] }],
    ["another's pin at its own", part(300, "R2"), [100, 200], {
      added: ["N 300 0 400 0 4\n", "N 400 0 400 200 4\n"] }],
    ["on the middle of a wire", upright(300, -200, 200), [0, 400], {
      added: ["N 300 0 300 400 4\n"] }],
    ["a wire elsewhere", wire(400, 900), [100, 0], {}],
  ];
  for (const [name, others, by, wanted] of cases) {
    const found = followers(sheetOf(part(0, "R1") + others), [0], by, PARTS);
    assert.deepEqual(found, { moved: [], stretched: [], gone: [], added: [], ...wanted }, name);
  }
});

test("objects that nobody changed are the same ones, and nets are told of those that changed", () => {
  const [first, last] = [part(0, "R1") + wire(300, 900), part(900, "R2")];
  const objects = sheetOf(first + last);
  const list = readNetList("parts 0\nnets 0\nA\tR1-2 R2-1\n");
  const instance = { sheet: "again.sch", path: "", above: null, parent: null };
  const again = (text) => readSheetObjects(HEAD + text, [0, 1, 2],
    new Map(objects.map((it) => [it.id, it])));
  const changes = [
    [first + last, 3], [first + part(900, "R3"), 2], [first + part(800, "R2"), 2],
    [part(0, "R1") + wire(300, 900, "B") + last, 2],
    [`${part(0, "R1")}N 300 0 900 0 5\n${last}`, 2],
    [`${part(0, "R1")}U 300 0 900 0 4 0\n${last}`, 2],
  ];
  for (const [text, same] of changes) {
    netsIn(instance, objects, PARTS, list);
    const now = again(text);
    assert.equal(now.filter((it, place) => it === objects[place]).length, same, text);
    const fresh = sheetOf(text);
    assert.deepEqual(now.map((it) => it.text), fresh.map((it) => it.text));
    const other = { ...instance, sheet: `fresh ${text}` };
    const plain = ({ groups, netOf }) => [groups.map((it) => [it.net, it.names,
      it.conductors.map(({ key, object }) => [key, object.text])]), [...netOf]];
    assert.deepEqual(plain(netsIn(instance, now, PARTS, list)),
      plain(netsIn(other, fresh, PARTS, list)), text);
  }
});

test("a finding with a place leads there", () => {
  const finding = { level: "warning", name: "LooseEnd", words: ["a.sch", "-100,4200"] };
  assert.equal(linkOf(finding, new Set()), "place:a.sch:-100,4200");
  const instance = { sheet: "a.sch", path: "", above: null, parent: null };
  const shown = { instance, objects: [], places: { parts: new Map(), pins: new Map() }, groups: [],
    symbols: PARTS };
  assert.deepEqual([...findingsAt([finding], new Set(), shown)], [["-100,4200", [finding]]]);
  assert.equal(linkOf({ name: "SameText", words: ["a", "1,2"] }, new Set()), "part:a");
});

test("findings are told in the words of the manual", () => {
  const manual = readFileSync(new URL("../../../docs/MANUAL.md", import.meta.url), "utf8");
  for (const [name, words] of Object.entries(RULES)) {
    if (name === "RailsMeet") continue;
    const [, told] = new RegExp(`^\\| \`${name}\` \\| ([^|]+) \\|`, "m").exec(manual);
    assert.equal(words, told.replaceAll("`", ""), name);
  }
});

test("a sheet is an SVG file of its own size, with its colours", () => {
  const drawing = drawSheet(sheetOf("N 0 0 1000 500 4\n"), SYMBOLS);
  const text = svgFile(drawing, [".k4 { color: #0000ee }"]);
  assert.match(text, /width="25.40mm" height="12.70mm" viewBox="0 -500 1000 500"/);
  assert.match(text, /\.k4 \{ color: #0000ee \}\n<\/style>/);
  assert.match(text, /<g class="o N" data-id="0"/);
});

test("nets and busses have a contrast of 4.5 at least on both grounds", () => {
  const css = readFileSync(new URL("../page/colours.css", import.meta.url), "utf8");
  const light = (hex) => [1, 3, 5].map((at) => Number.parseInt(hex.slice(at, at + 2), 16) / 255)
    .map((it) => (it <= 0.03928 ? it / 12.92 : ((it + 0.055) / 1.055) ** 2.4))
    .reduce((sum, it, at) => sum + it * [0.2126, 0.7152, 0.0722][at], 0);
  for (const ground of ["", "\\.dark "]) {
    const rule = (index) => {
      const [, own, dark] = new RegExp(`^\\.k${index} \\{ color: (#\\w+) \\} \\.dark \\.k${index} `
        + "\\{ color: (#\\w+) \\}", "m").exec(css);
      return light(ground ? dark : own);
    };
    for (const index of [4, 10]) {
      const [low, high] = [rule(0), rule(index)].sort((one, other) => one - other);
      assert.ok((high + 0.05) / (low + 0.05) >= 4.5, `k${index} on ${ground || "the light ground"}`);
    }
  }
});
