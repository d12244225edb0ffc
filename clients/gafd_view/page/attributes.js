// What the attributes of an object say (docs/RULES.md, "Attributes" to "Slots").

/** The name and the value of a text of attribute form, or null. */
export function splitAttribute(text) {
  const at = text.content.indexOf("=");
  const [name, value] = [text.content.slice(0, at), text.content.slice(at + 1)];
  const isOne = at > 0 && value !== "" && !name.endsWith(" ") && !value.startsWith(" ");
  return isOne ? [name, value] : null;
}

const knownAttributes = new WeakMap();

/** The names and values of the attributes among some texts. */
export function attributesAmong(texts) {
  if (!knownAttributes.has(texts)) {
    knownAttributes.set(texts, texts.filter((it) => it.letter === "T").map(splitAttribute)
      .filter((it) => it));
  }
  return knownAttributes.get(texts);
}

/** The values of one attribute among some texts. */
export function valuesAmong(texts, name) {
  return attributesAmong(texts).filter((it) => it[0] === name).map((it) => it[1]);
}

/** The parts of a component's symbol; null where it has none. Symbols are kept by name. */
export function symbolParts(component, symbols) {
  return component.parts || symbols.get(component.basename) || null;
}

/** All values of an object's attribute: the attached ones or, where none is, the inherited. */
export function attributeValues(object, name, symbols) {
  const attached = valuesAmong(object.attached, name);
  if (attached.length || object.letter !== "C") return attached;
  return valuesAmong(symbolParts(object, symbols) || [], name);
}

/** The first value of an object's attribute, or undefined. */
export function attributeValue(object, name, symbols) {
  return attributeValues(object, name, symbols)[0];
}

/** Whether a component says that its net is left open on purpose. */
export function isDirective(component, symbols) {
  return attributeValue(component, "device", symbols) === "DRC_Directive"
    && attributeValue(component, "value", symbols) === "NoConnection";
}

/** The sheets below a component; a graphical component and a directive have none. */
export function sourcesOf(object, symbols) {
  if (object.letter !== "C" || attributeValue(object, "graphical", symbols) === "1") return [];
  return isDirective(object, symbols) ? []
    : [...new Set(attributeValues(object, "source", symbols))];
}

/** The numbers that a component's slot gives to its pins, by `pinseq` from 1; null without. */
export function slotNumbers(component, symbols) {
  const small = (value) => (/^[0-9]{1,4}$/.test(value || "") ? Number(value) : 0);
  const slot = small(attributeValue(component, "slot", symbols));
  const most = small(attributeValue(component, "numslots", symbols));
  if (!slot || (most && slot > most)) return null;
  const found = attributeValues(component, "slotdef", symbols)
    .find((it) => it.includes(":") && small(it.split(":")[0]) === slot);
  if (!found) return null;
  const numbers = found.slice(found.indexOf(":") + 1).split(",")
    .map((it) => it.replace(/^ +| +$/g, ""));
  return numbers.every((it) => it !== "" && !/[\s\x00-\x1f]/.test(it)) ? numbers : null;
}
