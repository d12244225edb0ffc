// What of one's own edits can be taken back, and what of that can be done again. An undo is an entry,
// and can be undone (docs/RULES.md, "Verdicts").

/**
 * Of one's own rows, each with its serial and edit, in order: the serials of the edits that stand,
 * and of the undos that can be undone. A new edit leaves none of these.
 */
export function ownStand(rows) {
  let [standing, undone] = [[], []];
  const without = (list, serial) => list.filter((it) => it !== serial);
  for (const { serial, edit } of rows) {
    if (edit.kind !== "undo") {
      [standing, undone] = [[...standing, serial], []];
    } else if (undone.includes(edit.serial)) {
      [standing, undone] = [[...standing, serial], without(undone, edit.serial)];
    } else {
      [standing, undone] = [without(standing, edit.serial), [...undone, serial]];
    }
  }
  return { standing, undone };
}

/**
 * Of serials in order the last one, and those before it that were made with it, the last first. Rows
 * have a group where they were made by this page.
 */
export function lastDeed(rows, serials) {
  const groups = new Map(rows.map((it) => [it.serial, it.group]));
  const group = groups.get(serials.at(-1));
  if (group === undefined) return serials.slice(-1);
  const before = serials.findLastIndex((it) => groups.get(it) !== group);
  return serials.slice(before + 1).reverse();
}
