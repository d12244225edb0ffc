// Sheets and symbols as texts (docs/FORMATS.md, "Sheets and symbols"). What comes here is
// canonical, so that nothing is refused.

const STROKE = "width cap dash length space";
const FILL = "fill fillWidth angle1 pitch1 angle2 pitch2";
const FIELDS = Object.fromEntries(Object.entries({
  L: `x1 y1 x2 y2 color ${STROKE}`,
  G: "x y wide high angle mirrored embedded",
  B: `x y wide high color ${STROKE} ${FILL}`,
  V: `x y radius color ${STROKE} ${FILL}`,
  A: `x y radius start sweep color ${STROKE}`,
  T: "x y color size visible show angle align lines",
  N: "x1 y1 x2 y2 color",
  U: "x1 y1 x2 y2 color ripper",
  P: "x1 y1 x2 y2 color type whichend",
  H: `color ${STROKE} ${FILL} lines`,
  C: "x y selectable angle mirror basename",
}).map(([letter, names]) => [letter, names.split(" ")]));

/** The objects of a sheet or a symbol, each with its own text as `text`. */
export function readObjects(text) {
  const reader = readerOf(text);
  const objects = [];
  while (reader.at < text.length) objects.push(readObject(reader));
  return objects;
}

/**
 * The objects of a sheet by their ids, in order. One that is known, by its id, and has the text that
 * it had is the same object, with all that is kept of it.
 */
export function readSheetObjects(text, ids, known) {
  const reader = readerOf(text);
  return ids.map((id) => {
    const last = known.get(id);
    if (last && isNext(last, reader)) {
      reader.at += last.text.length;
      return last;
    }
    return Object.assign(known.size ? readAlone(reader) : readObject(reader), { id });
  });
}

/** What reads a text behind its first line. */
function readerOf(text) {
  return { text, at: text.indexOf("\n") + 1 };
}

/** Whether an object stands next, without a block of attributes more. */
function isNext(object, { text, at }) {
  return text.startsWith(object.text, at) && text[at + object.text.length] !== "{";
}

/** Reads an object of a copy of its text, so that the text around it is not kept with it. */
function readAlone(reader) {
  const { text } = readObject(reader);
  return readObject({ text: ` ${text}`.slice(1), at: 0 });
}

function readObject(reader) {
  const start = reader.at;
  const words = takeLine(reader).split(" ");
  const object = { letter: words[0], attached: [], parts: null };
  FIELDS[object.letter].forEach((name, place) => {
    object[name] = name === "basename" ? words.slice(place + 1).join(" ")
      : Number(words[place + 1]);
  });
  if (object.letter === "T" || object.letter === "H") {
    object.content = Array.from({ length: object.lines }, () => takeLine(reader)).join("\n");
  } else if (object.letter === "G") {
    object.content = takeLine(reader);
    object.data = "";
    if (object.embedded) for (let line; (line = takeLine(reader)) !== ".";) object.data += line;
  } else if (object.letter === "C" && object.basename.startsWith("EMBEDDED")) {
    object.parts = readBlock(reader, "[", "]");
  }
  if (lineAt(reader) === "{") object.attached = readBlock(reader, "{", "}");
  object.text = `${reader.text.slice(start, reader.at - 1)}\n`;
  return object;
}

/** The line at which a reader stands. */
function lineAt({ text, at }) {
  const end = text.indexOf("\n", at);
  return text.slice(at, end < 0 ? text.length : end);
}

function takeLine(reader) {
  if (reader.at >= reader.text.length) throw new Error("the text ends inside an object");
  const line = lineAt(reader);
  reader.at += line.length + 1;
  return line;
}

function readBlock(reader, opens, closes) {
  const found = [];
  if (takeLine(reader) !== opens) throw new Error(`no ${opens}`);
  while (lineAt(reader) !== closes) found.push(readObject(reader));
  takeLine(reader);
  return found;
}
