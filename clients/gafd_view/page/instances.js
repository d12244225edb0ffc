// The instances of the sheets, and where a printed refdes or pin stands (docs/RULES.md,
// "Instances", "Ports", "Packages").

import { attributeValue, isDirective, sourcesOf } from "./attributes.js";
import { pinsOf } from "./placing.js";

const MOST_INSTANCES = 4096;
const MOST_DEPTH = 16;

/** A name as it prints. */
export const printed = (text) => text.replace(/[ \t\r\n]/g, "_");

/** The components of each sheet that lead to sheets which are there, with the names of these. */
function sourcesBelow(sheets, symbols) {
  return new Map([...sheets].map(([name, objects]) => [name, objects
    .flatMap((it) => sourcesOf(it, symbols).map((source) => ({ component: it, source })))
    .filter((it) => sheets.has(it.source))]));
}

/** The names of the sheets on the way down to an instance. */
function sheetsAbove(instance) {
  const names = [];
  for (let it = instance; it; it = it.parent) names.push(it.sheet);
  return names;
}

/** The instances of the sheets, each with its path, the component above it, and its parent. */
export function instancesOf(sheets, symbols) {
  const below = sourcesBelow(sheets, symbols);
  const named = new Set([...below.values()].flat().map((it) => it.source));
  const found = [];
  const enter = (sheet, path, above, parent) => {
    const instance = { sheet, path, above, parent };
    if (found.push(instance) >= MOST_INSTANCES) return;
    const names = sheetsAbove(instance);
    for (const { component, source } of below.get(sheet)) {
      const refdes = attributeValue(component, "refdes", symbols);
      if (refdes === undefined || names.includes(source) || names.length > MOST_DEPTH) continue;
      if (found.length >= MOST_INSTANCES) return;
      enter(source, pathBelow(path, refdes), component, instance);
    }
  };
  for (const name of [...sheets.keys()].sort()) if (!named.has(name)) enter(name, "", null, null);
  return found;
}

/** A name as it stands in an instance. */
export function pathBelow(path, name) {
  return path ? `${path}/${name}` : name;
}

/** The refdes of a component as it prints in an instance, or null. */
export function refdesIn(component, instance, symbols) {
  const refdes = attributeValue(component, "refdes", symbols);
  if (refdes === undefined || refdes.includes("\n")) return null;
  return printed(pathBelow(instance.path, refdes));
}

/** Whether the net list has the component's pins: it is no sheet, no port and no picture. */
export function isListed(component, instance, symbols) {
  if (attributeValue(component, "graphical", symbols) === "1"
    || isDirective(component, symbols)) return false;
  if (sourcesOf(component, symbols).length) return false;
  const refdes = attributeValue(component, "refdes", symbols);
  if (refdes === undefined || refdes.includes("\n")) return false;
  const ports = instance.above ? pinsOf(instance.above, symbols).map((it) => it.label) : [];
  return !ports.includes(refdes);
}

/**
 * Where each printed refdes and each printed pin stands: lists of instance, id and place of the
 * pin.
 */
export function placesOf(instances, sheets, symbols) {
  const [parts, pins] = [new Map(), new Map()];
  const add = (map, name, place) => (map.has(name) ? map.get(name).push(place)
    : map.set(name, [place]));
  for (const instance of instances) {
    for (const object of sheets.get(instance.sheet)) {
      const refdes = object.letter === "C" ? refdesIn(object, instance, symbols) : null;
      if (refdes === null) continue;
      add(parts, refdes, { instance, id: object.id, pin: null });
      for (const { number, place } of pinsOf(object, symbols)) {
        add(pins, `${refdes}-${printed(number)}`, { instance, id: object.id, pin: place });
      }
    }
  }
  return { parts, pins };
}
