// Objects, edits, changes and faults in the words of a colleague.

import { attributeValue } from "./attributes.js";
import { refdesIn } from "./instances.js";
import { board, instanceOf, shownInstance } from "./state.js";

const KINDS = { L: "a line", G: "a picture", B: "a box", V: "a circle", A: "an arc", N: "a wire",
  U: "a bus",
  P: "a pin", H: "a path", T: "a text", C: "a component" };

const FAULTS = {
  NoServer: "the server is away; whether your edit was done shows when it is back",
  NotYours: "that was another's edit; only who made it takes it back",
  UndoneAlready: "it was taken back already",
  NoObject: "it is gone: somebody deleted it meanwhile",
  NotOnKind: "paths do not move, and boxes, circles, arcs and embedded components do not turn",
  OutOfRange: "it would leave the sheet's range",
  NoAttribute: "it has no such attribute",
  NoSymbol: "the board has no such symbol",
  BaseAhead: "the server's history is shorter than it was; load the page anew",
  NumberGap: "another program edits under your name; take another one",
  HistoryFull: "the history is full",
  KeeperFault: "the server could not write to its disk; nothing was changed",
  Look: "this page is for looking alone",
  NotThisPage: "edits are taken from this page alone",
};

/** What a person would call an object, in the shown instance or another. */
export function label(object, instance = shownInstance()) {
  if (object.letter === "C") {
    return refdesIn(object, instance, board.symbols) || object.basename.replace(/^EMBEDDED/, "");
  }
  if (object.letter === "T") return `the text "${object.content.split("\n")[0].slice(0, 30)}"`;
  const name = object.letter === "N" && attributeValue(object, "netname", board.symbols);
  return name ? `the wire ${name}` : KINDS[object.letter];
}

/** The objects with these ids on any sheet that is read. */
export function labels(ids) {
  const named = [];
  for (const [name, objects] of board.sheets) {
    const found = objects.filter((it) => ids.includes(it.id));
    named.push(...found.map((it) => label(it, instanceOf(name))));
  }
  return named.length > 4 ? `${named.slice(0, 3).join(", ")} and ${named.length - 3} more` : named
    .join(", ");
}

/** What an edit did. */
export function editWords({ kind, ids, id, name, value, sheet, serial }) {
  const what = labels(ids || (id === undefined ? [] : [id])) || (ids || [id]).join(" ");
  return {
    add_sheet: `added the sheet ${name}`, add_symbol: `added the symbol ${name}`,
    replace_symbol: `changed the symbol ${name}`, add_object: `drew on ${sheet}`,
    replace: `changed ${what}`, delete: `deleted ${what}`, move: `moved ${what}`,
      turn: `turned ${what}`,
    set_attr: `set ${name}=${value} of ${what}`, drop_attr: `took ${name} from ${what}`,
    renumber: "numbered", undo: `took back the edit ${serial}`,
  }[kind] || kind;
}

/** What two readings of an object differ in. */
export function changeWords(was, is, instance) {
  const texts = (it) => it.attached.map((one) => one.content);
  const gone = texts(was).filter((it) => !texts(is).includes(it));
  const come = texts(is).filter((it) => !texts(was).includes(it));
  const what = come.length || gone.length
    ? `: ${gone.join(", ")} → ${come.join(", ") || "nothing"}` : "";
  return `${label(is, instance)} ${what ? "changed" : "moved or changed"}${what}`;
}

/** Which of these objects an edit changed, as far as the history tells. */
function objectsOf(serial, ids) {
  const { id, ids: all = [] } = board.row(serial)?.edit || {};
  const named = ids.filter((it) => it === id || all.includes(it));
  if (named.length) return labels(named);
  return ids.length > 1 ? `one of ${labels(ids)}` : labels(ids) || "it";
}

/** Why an edit was refused. */
export function faultWords(answer, ids) {
  const session = (serial) => board.row(serial)?.session || "somebody";
  if (answer.fault === "Stale") {
    const serial = answer.newer - 1;
    return `${session(serial)} changed ${objectsOf(serial, ids)} meanwhile (edit ${serial}). `
      + "This is how it is now; do it again if you still mean it.";
  }
  if (answer.fault === "UndoBlocked") {
    return `${session(answer.by)} changed the same thing since (edit ${answer.by}), `
      + "so it cannot be taken back.";
  }
  if (answer.fault === "BadText") {
    return "that is no attribute and no text: an attribute has a name and a value, "
      + "without blanks beside the =";
  }
  return FAULTS[answer.fault] || answer.fault;
}
