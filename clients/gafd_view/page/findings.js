// The report of the check (docs/FORMATS.md, "Report"), where its findings stand, and the page's
// own: rails that meet.

import { globalNames } from "./nets.js";

/** The report of the check: findings with level, name and words. */
export function readFindings(text) {
  return text.split("\n").slice(1).filter((it) => /^(error|warning) /.test(it)).map((it) => {
    const [level, name, ...words] = it.split(" ");
    return { level, name, words };
  });
}

const OF_NETS = ["Conflict", "OnePin", "NotDriven", "NoConnection", "RailsMeet"];
const OF_PINS = ["UnknownPintype", "UnconnectedPin", "PinOnTwoNets"];

const PLACE = /^-?[0-9]+,-?[0-9]+$/;

/**
 * Where a finding leads to: `net:GND`, `pin:R4-1`, `part:R4`, `id:SHEET:ID`, `symbol:..`,
 * `sheet:..`, or `place:SHEET:X,Y`, y up, where its words begin with a sheet and a place.
 */
export function linkOf({ name, words }, netNames) {
  if (name !== "SameText" && PLACE.test(words[1])) return `place:${words[0]}:${words[1]}`;
  if (name === "NoRefdes" || name === "BadNet") return `id:${words[0]}:${words[1]}`;
  if (name === "MissingSymbol") return `symbol:${words[0]}:${words.slice(1).join(" ")}`;
  if (name === "MissingSource" || name === "Unreached") return `sheet:${words[0]}`;
  if (OF_NETS.includes(name)) return `net:${words[0]}`;
  if (OF_PINS.includes(name)) return `pin:${words[0]}`;
  if (name === "SameText" && netNames.has(words[0])) return `net:${words[0]}`;
  return `part:${words[0]}`;
}

/** A finding in the words of its line. */
export function findingText({ name, words }) {
  return `${name} ${words.join(" ")}`;
}

/** A finding as the line of its report. */
export function findingLine(finding) {
  return `${finding.level} ${findingText(finding)}`;
}

/**
 * The key of the first pin, or else wire, of each group of a net; of rails that meet, of each such
 * pin.
 */
function keysOfNet(net, byNet, finding, symbols) {
  const conductors = byNet.get(net) || [];
  if (finding.name === "RailsMeet") {
    return conductors.flat().filter((it) => it.pin
      && globalNames(it.object, it.pin.number, symbols).length)
      .map((it) => it.key);
  }
  return conductors.slice(0, 1).map((it) => (it.find((one) => one.pin) || it[0]).key);
}

/** The places of a printed part or pin that are on an instance, as spots. */
function spotsOfPlaces(places, instance) {
  return (places || []).filter((it) => it.instance === instance)
    .map((it) => (it.pin === null ? `${it.id}` : `${it.id}.${it.pin}`));
}

/** The spots of a finding on what is shown. */
function spotsOf(finding, link, { instance, objects, places, byNet, symbols }) {
  const [kind, rest] = [link.slice(0, link.indexOf(":")), link.slice(link.indexOf(":") + 1)];
  if (kind === "part") return spotsOfPlaces(places.parts.get(rest), instance);
  if (kind === "pin") return spotsOfPlaces(places.pins.get(rest), instance);
  if (kind === "net") return keysOfNet(rest, byNet, finding, symbols);
  const [sheet, name] = [rest.slice(0, rest.indexOf(":")), rest.slice(rest.indexOf(":") + 1)];
  if (sheet !== instance.sheet) return [];
  if (kind === "id" || kind === "place") return [name];
  return objects.filter((it) => it.letter === "C" && it.basename === name).map((it) => `${it.id}`);
}

/**
 * The findings of what is shown by their spots: `ID` for an object, `ID.PLACE` for a pin or a wire,
 * `X,Y` for a place.
 */
export function findingsAt(findings, netNames, shown) {
  const [found, byNet] = [new Map(), new Map()];
  for (const { net, conductors } of shown.groups) {
    if (byNet.has(net)) byNet.get(net).push(conductors);
    else byNet.set(net, [conductors]);
  }
  for (const finding of findings) {
    for (const spot of spotsOf(finding, linkOf(finding, netNames), { ...shown, byNet })) {
      found.set(spot, [...(found.get(spot) || []), finding]);
    }
  }
  return found;
}

/** Adds to each net the global names that the pins of an instance's groups bring to it. */
export function addRails(rails, groups, symbols) {
  for (const { conductors, net } of groups.filter((it) => it.net)) {
    const names = conductors.filter((it) => it.pin)
      .flatMap(({ object, pin }) => globalNames(object, pin.number, symbols));
    if (names.length) rails.set(net, new Set([...(rails.get(net) || []), ...names]));
  }
  return rails;
}

/**
 * Nets on which two global names and more meet, as findings. The report of the check has none such.
 */
export function railsThatMeet(rails) {
  return [...rails].filter(([, names]) => names.size > 1)
    .map(([net, names]) => ({ level: "error", name: "RailsMeet",
      words: [net, ...[...names].sort()] }));
}
