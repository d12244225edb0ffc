// The board as the server has it. Nothing here is guessed: what is kept is what was answered, with
// the front at which it stood (docs/SERVER.md).

import { changesOf } from "./changes.js";
import { readFindings } from "./findings.js";
import { instancesOf, placesOf } from "./instances.js";
import { readNetList } from "./nets.js";
import { readObjects, readSheetObjects } from "./objects.js";
import { Away, askBoard, askHistory, askView, forEachAtOnce } from "./server.js";

const TRIES = 20;
const MOST_HISTORY = 200;

/** A sheet that the server has, but cannot show: a file that is refused. */
export class Refused extends Error {}

/**
 * The objects of a sheet with their ids, text and ids of one moment; null where it is not there. Of
 * those that it had, the ones that nobody changed stay.
 */
export async function readSheetBy(ask, name, had = []) {
  for (let tries = 0; tries < TRIES; tries++) {
    const [text, ids] = await Promise.all([ask(`sheets/${name}`), ask(`objects/${name}`)]);
    if (text.front !== ids.front) continue;
    if (text.status === 422) throw new Refused(JSON.parse(text.text).line);
    if (text.status !== 200) return { objects: null, front: text.front };
    const numbers = ids.text.split("\n").filter((it) => it).map((it) => Number(it.split(" ")[0]));
    const known = new Map(had.map((it) => [it.id, it]));
    return { objects: readSheetObjects(text.text, numbers, known), front: text.front };
  }
  throw new Away(`${name} changes faster than it can be read`);
}

/** The names of the library symbols that objects name. */
export function symbolNames(objects) {
  return [...new Set(objects.filter((it) => it.letter === "C" && !it.parts)
    .map((it) => it.basename))];
}

export class Board {
  constructor() {
    this.front = -1;
    /** The number of objects of each sheet, by its name. */
    this.counts = new Map();
    this.sheets = new Map();
    this.fronts = new Map();
    this.refusals = new Map();
    /** The sheets that may have changed since they were read. */
    this.stale = new Set();
    this.symbols = new Map();
    this.symbolTexts = new Map();
    this.symbolReadings = new Map();
    this.list = readNetList("parts 0\nnets 0\n");
    this.findings = [];
    this.listFront = -1;
    this.listFault = null;
    this.instances = [];
    this.history = [];
    this.about = { kind: "server", name: "", edits: true, history: true, past: false };
    this.knownPlaces = null;
  }

  get names() {
    return [...this.counts.keys()];
  }

  /** Where each printed refdes and pin stands on the sheets that are read. */
  get places() {
    this.knownPlaces ||= placesOf(this.instances, this.sheets, this.symbols);
    return this.knownPlaces;
  }

  /** Reads, once, what is looked at and what can be asked. */
  readAbout() {
    this.aboutReading ||= askView("about").then((told) => { this.about = told || this.about; })
      .catch((error) => {
        this.aboutReading = null;
        throw error;
      });
    return this.aboutReading;
  }

  /**
   * The length of the history. The sheets that came, or whose number of objects changed, are stale.
   */
  async look() {
    const { front, text } = await askBoard("sheets");
    const counts = new Map(text.split("\n").filter((it) => it).map((it) => it.split(" ")));
    for (const [name, count] of counts) if (this.counts.get(name) !== count) this.stale.add(name);
    this.counts = counts;
    for (const name of this.sheets.keys()) if (!counts.has(name)) this.dropSheet(name);
    return front;
  }

  /**
   * Marks the sheets as stale that changed since the front, and forgets such symbols; whether it is
   * known which these are. Where nobody tells, each sheet may have changed.
   */
  async markChanged() {
    const told = this.front < 0 ? null : await askView(`changed?from=${this.front}`);
    for (const name of told?.sheets || this.names) if (this.counts.has(name)) this.stale.add(name);
    this.changedSymbols = told ? told.symbols.filter((it) => this.symbolTexts.has(it)) : null;
    return Boolean(told?.sheets);
  }

  dropSheet(name) {
    const gone = this.sheets.get(name) || [];
    for (const one of [this.sheets, this.fronts, this.stale, this.refusals]) one.delete(name);
    return { changed: [], added: [], gone };
  }

  /** Reads a sheet and the symbols that are not known yet. What changed of it is told. */
  async readSheet(name) {
    this.stale.delete(name);
    let read;
    try {
      read = await readSheetBy(askBoard, name, this.sheets.get(name));
    } catch (error) {
      this.stale.add(name);
      if (!(error instanceof Refused)) throw error;
      this.stale.delete(name);
      return this.refuse(name, error.message);
    }
    if (!read.objects) return this.dropSheet(name);
    const hasSymbols = await this.readSymbols(symbolNames(read.objects)
      .filter((it) => !this.symbolTexts.get(it)));
    const before = this.sheets.get(name);
    this.sheets.set(name, read.objects);
    this.fronts.set(name, read.front);
    this.refusals.delete(name);
    return { ...changesOf(before || [], read.objects), isNew: !before, hasSymbols };
  }

  /** A file that is refused is shown as it was before, with the line that tells why. */
  refuse(name, line) {
    this.refusals.set(name, line);
    if (!this.sheets.has(name)) this.sheets.set(name, []);
    return { changed: [], added: [], gone: [], isNew: this.sheets.get(name).length === 0,
      hasSymbols: false };
  }

  /** Reads library symbols; whether one of them is another than before. */
  async readSymbols(names) {
    let isOther = false;
    await forEachAtOnce(names, async (name) => {
      // Sheets that are read at once ask for a symbol once.
      if (!this.symbolReadings.has(name)) {
        this.symbolReadings.set(name,
          this.readSymbol(name).finally(() => this.symbolReadings.delete(name)));
      }
      isOther = (await this.symbolReadings.get(name)) || isOther;
    });
    return isOther;
  }

  async readSymbol(name) {
    const { status, text } = await askBoard(`symbols/${encodeURIComponent(name)}`);
    const now = status === 200 ? text : null;
    const before = this.symbolTexts.get(name) ?? null;
    this.symbolTexts.set(name, now);
    if (now === before) return false;
    if (now === null) this.symbols.delete(name);
    else this.symbols.set(name, readObjects(now));
    return true;
  }

  /** Reads the sheets that are stale, and were asked for; the changes of each are told. */
  async readStale(onChanges, isAsked = () => true) {
    const names = [...this.stale].filter((it) => this.counts.has(it) && isAsked(it));
    await forEachAtOnce(names, async (name) => onChanges(name, await this.readSheet(name)));
    return names.length > 0;
  }

  /** Takes the sheets that are read as a whole: their instances. */
  arrange() {
    this.instances = instancesOf(this.sheets, this.symbols);
    this.knownPlaces = null;
  }

  /**
   * Reads the net list and the check; false where others edited meanwhile, so that they are of no
   * one moment and have to be read again.
   */
  async readLists(front) {
    const [list, findings] = await Promise.all([askBoard(`netlist/list?min=${front}`),
      askBoard(`drc?min=${front}`)]);
    if (list.front !== front || findings.front !== front) return false;
    this.listFault = null;
    if (list.status !== 200 || findings.status !== 200) {
      const { fault, line } = JSON.parse(list.status === 200 ? findings.text : list.text);
      this.listFault = line || fault;
    }
    this.listFront = front;
    if (list.status === 200) this.list = readNetList(list.text);
    if (findings.status === 200) this.findings = readFindings(findings.text);
    return true;
  }

  /** Reads the rows of the history that came; of a long one, at first the last of them. */
  async readHistory(front) {
    if (!this.about.history) return;
    const last = this.history[this.history.length - 1];
    const rows = await askHistory(last ? last.serial + 1 : Math.max(0, front - MOST_HISTORY));
    this.about.history = rows !== null;
    this.history.push(...(rows || []));
  }

  row(serial) {
    return this.history.find((it) => it.serial === serial);
  }
}
