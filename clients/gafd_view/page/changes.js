// What changed from one reading of a sheet, or of a net list, to another.

const UNNAMED = /^(unnamed_net|unconnected_pin-)[0-9]+$/;

/** The objects that were added and that are gone; of the changed ones, what was and what is. */
export function changesOf(before, objects) {
  const old = new Map(before.map((it) => [it.id, it]));
  const now = new Set(objects.map((it) => it.id));
  const added = objects.filter((it) => !old.has(it.id));
  const changed = objects.map((it) => [old.get(it.id), it])
    .filter(([was, is]) => was && was.text !== is.text);
  return { changed, added, gone: before.filter((it) => !now.has(it.id)) };
}

/** The lines of a net list, with the numbers of unnamed nets and unconnected pins masked. */
function maskedLines({ parts, nets }) {
  return [
    ...parts.map((it) => ["part", it.refdes, [it.device, it.value, it.footprint].join(" ")]),
    ...nets.map((it) => ["net", it.name.replace(UNNAMED, "*"), it.members.join(" ")]),
  ];
}

/** The pins that a net has now and had not, and those that it had and has not, each with a sign. */
function pinChanges(before, after) {
  const [had, has] = [before, after].map((it) => new Set(it.split(" ")));
  const only = (one, other, sign) => [...one].filter((it) => !other.has(it)).map((it) => sign + it);
  return [...only(has, had, "+"), ...only(had, has, "-")].join(" ");
}

/** The nets of a drawn name among lines, by their names. */
function namedNets(lines) {
  return new Map(lines.filter(([kind, name]) => kind === "net" && name !== "*")
    .map(([, name, members]) => [name, members]));
}

/**
 * What two net lists differ in, as contrib/gafd-netdiff tells it: the nets of a drawn name that both
 * have, with the pins that came and went; the other lines that the old one alone has, and those that
 * the new one alone has.
 */
export function netListChanges(old, now) {
  const keyed = (list) => new Map(maskedLines(list).map((it) => [it.join("\t"), it]));
  const [before, after] = [keyed(old), keyed(now)];
  const only = (one, other) => [...one].filter(([key]) => !other.has(key))
    .map(([, line]) => line).sort();
  const [gone, added] = [only(before, after), only(after, before)];
  const [had, has] = [gone, added].map(namedNets);
  const inBoth = ([kind, name]) => kind === "net" && had.has(name) && has.has(name);
  const changed = added.filter(inBoth)
    .map(([kind, name, members]) => [kind, name, pinChanges(had.get(name), members)]);
  return { changed, gone: gone.filter((it) => !inBoth(it)), added: added.filter((it) => !inBoth(it)) };
}
