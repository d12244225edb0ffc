// The net list as it is printed, and the net of each wire and pin of a sheet (docs/RULES.md,
// "Nets", "Names of nets"). The page finds what touches, and takes the name from a pin that the
// list has.

import { attributeValue, attributeValues, attributesAmong, isDirective,
  symbolParts } from "./attributes.js";
import { isListed, pathBelow, printed, refdesIn } from "./instances.js";
import { conductorsOf, touchingGroups } from "./touching.js";

/** The list text: packages and nets, the nets' names, and for each printed pin its nets. */
export function readNetList(text) {
  const lines = text.split("\n");
  const count = Number(lines[0].slice("parts ".length));
  const parts = lines.slice(1, count + 1).map((it) => {
    const [refdes, device, value, footprint] = it.split("\t");
    return { refdes, device, value, footprint };
  });
  const nets = lines.slice(count + 2).filter((it) => it).map((it) => {
    const [name, members] = it.split("\t");
    return { name, members: members.split(" ") };
  });
  const netsOf = new Map();
  for (const { name, members } of nets) {
    for (const member of members) netsOf.set(member, [...(netsOf.get(member) || []), name]);
  }
  return { parts, nets, netsOf, names: new Set(nets.map((it) => it.name)) };
}

/**
 * The global names that `net` gives to a pin number of a component (docs/RULES.md, "Values of
 * `net`").
 */
export function globalNames(component, number, symbols) {
  if (isDirective(component, symbols)) return [];
  const cut = (texts) => attributesAmong(texts).filter(([name]) => name === "net")
    .map(([, value]) => {
    const at = value.indexOf(":");
    return [value.slice(0, at), at > 0 ? value.slice(at + 1).split(",").map((it) => it.trim())
      : []];
  });
  const attached = cut(component.attached).filter(([, numbers]) => numbers.includes(number));
  // An attached value takes its numbers from the inherited ones.
  const found = attached.length ? attached
    : cut(symbolParts(component, symbols) || []).filter(([, numbers]) => numbers.includes(number));
  return found.map(([name]) => printed(name));
}

/** The names that a wire or a pin brings: netnames, and global names. */
function namesAt({ object, pin }, instance, symbols) {
  if (pin) return globalNames(object, pin.number, symbols);
  return attributeValues(object, "netname", symbols)
    .map((it) => printed(pathBelow(instance.path, it)));
}

/** Whether an object's pins are drawn to be wired: not those of a picture. */
function isWired(object, symbols) {
  return object.letter !== "C" || attributeValue(object, "graphical", symbols) !== "1"
    || isDirective(object, symbols);
}

/** What touches on each sheet, as it was found last: its objects, their symbols, and the groups. */
const lastGroups = new Map();

/** The groups of what touches on a sheet, without the pins of pictures. */
function groupsOn(sheet, objects, symbols) {
  const parts = objects.map((it) => (it.letter === "C" ? symbolParts(it, symbols) : null));
  const last = lastGroups.get(sheet);
  const groups = (last && groupsAgain(last, objects, parts, symbols))
    || touchingGroups(conductorsOf(objects.filter((it) => isWired(it, symbols)), symbols));
  lastGroups.set(sheet, { objects, parts, groups });
  return groups;
}

/**
 * The groups that were found last, with the objects that changed where they stand; null where
 * another one came, went, or moved.
 */
function groupsAgain(last, objects, parts, symbols) {
  if (last.objects.length !== objects.length) return null;
  const changed = new Map();
  for (const [place, object] of objects.entries()) {
    if (last.parts[place] !== parts[place]) return null;
    if (last.objects[place] === object) continue;
    if (!standsStill(last.objects[place], object, symbols)) return null;
    for (const it of conductorsOf([object], symbols)) changed.set(it.key, it);
  }
  for (const it of changed.size ? last.groups.flat() : []) {
    if (changed.has(it.key)) Object.assign(it, changed.get(it.key));
  }
  return last.groups;
}

/**
 * Whether an object is where it was, and wired as it was: its attached texts alone changed, or it is
 * one that joins nothing.
 */
function standsStill(was, is, symbols) {
  if (![was, is].some(({ letter }) => letter === "N" || letter === "C")) return true;
  const line = ({ text }) => text.slice(0, text.indexOf("\n"));
  return was.id === is.id && line(was) === line(is) && !is.parts
    && isWired(was, symbols) === isWired(is, symbols);
}

/** The net of one group by its listed pins; `candidates` are the nets that all of these have. */
function netByPins(pins, list, disagreements) {
  const unlisted = pins.filter((it) => !list.netsOf.has(it));
  disagreements.push(...unlisted.map((it) => `${it} is in no net of the list`));
  // A pair of refdes and number may stand in several nets; what all pins have in common counts.
  const known = pins.map((it) => list.netsOf.get(it)).filter((it) => it);
  const candidates = known.length
    ? known.reduce((one, other) => one.filter((it) => other.includes(it))) : [];
  if (known.length && !candidates.length) {
    disagreements.push(
      `${pins.join(" ")} touch, and are in several nets: ${known.flat().join(" ")}`);
  }
  return { isKnown: known.length > 0, net: candidates.length === 1 ? candidates[0] : null };
}

/**
 * Of an instance: the net of each wire and pin by its key, or null; of each the key of one of its
 * group; its groups with their nets and names; and where drawing and net list disagree, in words.
 * A group without a listed pin has the net of another one with its name.
 */
export function netsIn(instance, objects, symbols, list) {
  const disagreements = [];
  const listed = new Map(objects.filter((it) => it.letter === "C")
    .map((it) => [it, isListed(it, instance, symbols) ? refdesIn(it, instance, symbols) : null]));
  const groups = groupsOn(instance.sheet, objects, symbols).map((conductors) => {
    const pins = conductors.filter((it) => it.pin && listed.get(it.object) !== null)
      .map((it) => `${listed.get(it.object)}-${printed(it.pin.number)}`);
    const { isKnown, net } = netByPins(pins, list, disagreements);
    const names = conductors.flatMap((it) => namesAt(it, instance, symbols));
    const named = isKnown ? net : names.find((it) => list.names.has(it)) || null;
    return { conductors, names, isKnown, net: named };
  });
  nameByOthers(groups);
  const [netOf, groupOf] = [new Map(), new Map()];
  for (const { conductors, net } of groups) {
    for (const { key } of conductors) netOf.set(key, net);
    for (const { key } of conductors) groupOf.set(key, conductors[0].key);
  }
  return { netOf, groupOf, groups, disagreements };
}

/** Gives the groups that have no listed pin the net of another one with a name in common. */
function nameByOthers(groups) {
  const byName = new Map();
  for (const { net, names } of groups) if (net) for (const name of names) byName.set(name, net);
  for (const group of groups.filter((it) => !it.net && !it.isKnown)) {
    group.net = group.names.map((it) => byName.get(it)).find((it) => it) || null;
  }
}
