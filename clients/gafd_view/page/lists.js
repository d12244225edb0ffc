// The lists beside the sheet: nets, findings, parts, the chosen object, and the history; and the
// trail down to the shown instance.

import { attributesAmong, symbolParts } from "./attributes.js";
import { momentFields } from "./comparing.js";
import { findingLine, findingText, linkOf } from "./findings.js";
import { printed } from "./instances.js";
import { pinsOf } from "./placing.js";
import { openReviews, reviewTable } from "./proposals.js";
import { RULES } from "./rules.js";
import { board, byId, fill, objectOf, shown, shownInstance, shownObjects } from "./state.js";
import { escapeText, unbroken } from "./texts.js";
import { editWords, label } from "./words.js";

const MOST_ROWS = 500;
const MOST_MEMBERS = 30;
const MOST_UNFOLDED = 5;

function table(list, row) {
  const more = list.length > MOST_ROWS
    ? `<p><small>and ${list.length - MOST_ROWS} more</small></p>` : "";
  return `<table>${list.slice(0, MOST_ROWS).map(row).join("")}</table>${more}`;
}

/** A row that leads to something. */
function row(link, cells, kind = "") {
  const columns = cells.map((it) => `<td>${it}</td>`).join("");
  const leads = link ? ` data-link="${escapeText(link)}" tabindex="0" role="link"` : "";
  return `<tr class="${kind}"${leads}>${columns}</tr>`;
}

function anchor(link, text) {
  return `<a data-link="${escapeText(link)}" tabindex="0" role="link">${unbroken(text)}</a>`;
}

function netRow({ name, members }) {
  const some = members.length > MOST_MEMBERS && name !== shown.net ? members.slice(0, MOST_MEMBERS)
    : members;
  const more = some.length < members.length ? ` and ${members.length - some.length} more` : "";
  const pins = some.map((it) => anchor(`pin:${it}`, it)).join(" ") + more;
  return row(`net:${name}`, [escapeText(name), `<small>${pins}</small>`], name === shown.net ? "on"
    : "");
}

function partRow({ refdes, device, value, footprint }) {
  const more = [device, footprint].filter((it) => it !== "-").map(escapeText).join("<br>");
  const cells = [refdes, value === "-" ? "" : value].map(escapeText);
  return row(`part:${refdes}`, [...cells, `<small>${more}</small>`]);
}

function findingRow(finding) {
  const isTold = findingText(finding) === shown.finding;
  const line = findingLine(finding);
  const accepted = shown.accepted.get(line);
  const button = `<button class="accept" data-accept="${escapeText(line)}" title="${accepted
    ? "it is open again" : "it is meant"}">${accepted ? "open again" : "accept"}</button>`;
  const why = accepted ? `<br><small>${escapeText(accepted.reason)}`
    + `${accepted.who ? ` (${unbroken(accepted.who)})` : ""}</small>` : "";
  return row(linkOf(finding, board.list.names),
    [finding.name, `${escapeText(finding.words.join(" "))} ${button}${why}`],
    `${accepted ? "accepted" : finding.level}${isTold ? " on" : ""}`);
}

/** The findings of the page and of the check. */
const allFindings = () => [...shown.rails, ...board.findings];

/** How many of some findings are open, and how many accepted, in words. */
function countWords(found) {
  const accepted = found.filter((it) => shown.accepted.has(findingLine(it))).length;
  return `${found.length - accepted}${accepted ? ` and ${accepted} accepted` : ""}`;
}

/** The findings of the check, those of the page, and where drawing and net list disagree. */
function findingTable() {
  const odd = [...board.refusals.values()];
  if (board.listFault) odd.push(`no net list and no check: ${board.listFault}`);
  else if (shown.nets.disagreements.length) {
    odd.push("the drawing and the net list disagree:", ...shown.nets.disagreements);
  }
  const told = odd.length ? `<div class="odd">${odd.map(escapeText).join("<br>")}</div>` : "";
  const byRule = new Map();
  for (const it of allFindings()) {
    byRule.set(it.name, [...(byRule.get(it.name) || []), it]);
  }
  return told + [...byRule].map(([name, found]) => foldedRule(name, found)).join("");
}

function acceptedLast(found) {
  const isAccepted = (it) => shown.accepted.has(findingLine(it));
  return [...found.filter((it) => !isAccepted(it)), ...found.filter(isAccepted)];
}

/** The findings of one rule, folded where they are many and none of them is what is looked at. */
function foldedRule(name, found) {
  const isTold = found.some((it) => findingText(it) === shown.finding);
  const isOpen = isTold || (shown.unfolded.get(name) ?? found.length <= MOST_UNFOLDED);
  const sentence = RULES[name] ? ` <small>${escapeText(RULES[name])}</small>` : "";
  return `<details data-rule="${escapeText(name)}"${isOpen ? " open" : ""}><summary>`
    + `<b>${escapeText(name)}</b> ${countWords(found)}${sentence}</summary>`
    + `${table(acceptedLast(found), findingRow)}</details>`;
}

/** The chosen object with its attributes, of which the attached ones can be changed. */
function objectTable() {
  const object = shown.chosen.size === 1 && objectOf([...shown.chosen][0]);
  const { size } = shown.chosen;
  if (!object) return `<p>${size ? `${size} objects` : "nothing is chosen"}</p>`;
  const own = attributesAmong(object.attached);
  const inherited = attributesAmong((object.letter === "C" && symbolParts(object, board.symbols))
    || [])
    .filter(([name]) => !own.some((it) => it[0] === name));
  const rows = object.letter === "T" ? textField(object)
    : own.map((it) => attributeField(object, it)).join("") + newField(object);
  const given = inherited.map(([name, text]) => `<tr><td><small>${escapeText(name)}</small></td>`
    + `<td><small>${escapeText(text)}</small></td></tr>`);
  return `<p><b>${escapeText(label(object))}</b> <small>${object.letter} ${object.id} `
    + `${escapeText(object.basename || "")}</small></p>`
    + `<table>${rows}${given.join("")}</table>${pinTable(object)}`;
}

function attributeField({ id }, [name, value]) {
  const [shownName, shownValue] = [escapeText(name), escapeText(value)];
  return `<tr><td>${shownName}</td><td><input data-of="${id}" data-attribute="${shownName}" `
    + `aria-label="${shownName}" value="${shownValue}"> `
    + `<button class="only-edit drop" data-of="${id}" `
    + `data-drop="${shownName}" title="take ${shownName} away">×</button></td></tr>`;
}

function newField({ id }) {
  return `<tr class="only-edit"><td>new</td><td><input data-of="${id}" data-attribute="" `
    + 'aria-label="a new attribute" placeholder="name=value"></td></tr>';
}

function textField({ id, content }) {
  return '<tr><td colspan="2">'
    + `<textarea data-of="${id}" data-text="" aria-label="the text" rows="4">`
    + `\n${escapeText(content)}</textarea></td></tr>`;
}

function pinTable(object) {
  if (object.letter !== "C") return netLine(shown.nets.netOf.get(`${object.id}.0`));
  return table(pinsOf(object, board.symbols).filter((it) => it.place !== null), (pin) => {
    const net = shown.nets.netOf.get(`${object.id}.${pin.place}`);
    const cells = [pin.number, pin.label || "", net || "-"].map(escapeText);
    return row(net ? `net:${net}` : "", cells);
  });
}

function netLine(net) {
  return net ? `<p>net ${anchor(`net:${net}`, net)}</p>` : "";
}

function historyRow({ serial, session, time, edit }) {
  const digits = { month: "2-digit", day: "2-digit", hour: "2-digit", minute: "2-digit",
    hour12: false };
  const first = (edit.ids || [edit.id])[0];
  const compare = board.about.past ? ` <a data-compare="${serial}" tabindex="0" role="link" `
    + 'title="show what changed since before this edit">compare</a>' : "";
  return row(first === undefined ? "" : `id::${first}`,
    [serial, unbroken(session), escapeText(editWords(edit)),
    `<small>${new Date(time).toLocaleString([], digits)}${compare}</small>`]);
}

function historyTable() {
  if (!board.about.history) return "<p><small>there is no history here</small></p>";
  return (board.about.past ? momentFields() : "") + table([...board.history].reverse(), historyRow);
}

/** All that has the words of the search in it. */
function found(asked) {
  const has = (...texts) => texts.some((it) => it && it.toLowerCase().includes(asked));
  const texts = shownObjects().filter((it) => it.letter === "T" && has(it.content))
    .map((it) => row(`id:${shown.at.sheet}:${it.id}`,
      ["text", escapeText(it.content.slice(0, 80))]));
  const parts = board.list.parts
    .filter((it) => has(it.refdes, it.value, it.device, it.footprint));
  const nets = board.list.nets.filter((it) => has(it.name) || it.members.some((one) => has(one)));
  return table(parts, partRow) + table(nets, netRow)
    + `<table>${texts.slice(0, MOST_ROWS).join("")}</table>`;
}

const TABS = {
  nets: () => table(board.list.nets, netRow),
  findings: findingTable,
  parts: () => table(board.list.parts, partRow),
  object: objectTable,
  history: historyTable,
  reviews: reviewTable,
};

function isTypedIn() {
  const active = document.activeElement;
  return byId("list").contains(active) && /INPUT|TEXTAREA/.test(active.tagName);
}

/** Shows the list of the tab, or what the search found. What is typed there stays. */
export function showList() {
  showTabs();
  if (isTypedIn() || shown.comparison) return;
  const asked = byId("search").value.trim().toLowerCase();
  const scrolled = byId("list").scrollTop;
  const focused = byId("list").contains(document.activeElement)
    && document.activeElement.dataset.link;
  fill("list", asked ? found(asked) : TABS[shown.tab]());
  byId("list").scrollTop = scrolled;
  // Who goes through a list by keyboard stays at the row.
  if (focused) byId("list").querySelector(`[data-link="${CSS.escape(focused)}"]`)?.focus();
}

function showTabs() {
  const { nets, parts } = board.list;
  const findings = countWords(allFindings());
  const counts = { nets: nets.length, findings, parts: parts.length,
    reviews: openReviews() };
  const isSearch = byId("search").value.trim() !== "";
  for (const tab of byId("tabs").children) {
    const name = tab.dataset.tab;
    const words = name === "findings" ? "check" : name;
    tab.textContent = counts[name] === undefined ? words : `${words} ${counts[name]}`;
    const isOn = name === shown.tab && !isSearch && !shown.comparison;
    tab.classList.toggle("on", isOn);
    tab.setAttribute("aria-selected", isOn);
    // One of the tabs is reached by Tab, and the others from there by the arrows.
    tab.tabIndex = name === shown.tab ? 0 : -1;
    tab.id ||= `tab-${name}`;
    tab.setAttribute("aria-controls", "list");
    if (isOn) byId("list").setAttribute("aria-labelledby", tab.id);
  }
  if (isSearch || shown.comparison) byId("list").removeAttribute("aria-labelledby");
}

/** Shows the tab beside the one with the focus, or the first or the last one. */
export function stepTab(key) {
  const tabs = [...byId("tabs").children].filter((it) => !it.hidden);
  const at = tabs.indexOf(document.activeElement);
  const places = { ArrowRight: (at + 1) % tabs.length, ArrowLeft: (at + tabs.length - 1) % tabs.length,
    Home: 0, End: tabs.length - 1 };
  if (at < 0 || places[key] === undefined) return false;
  showTab(tabs[places[key]].dataset.tab);
  tabs[places[key]].focus();
  return true;
}

/** Shows a tab, in place of a search. */
export function showTab(tab) {
  shown.tab = tab;
  byId("search").value = "";
  showList();
}

/** Shows the instances to choose from, and the trail down to this one. */
export function showTrail() {
  const options = board.instances
    .map((it) => [it.path ? `${it.path} (${it.sheet})` : it.sheet, it]);
  const reached = new Set(board.instances.map((it) => it.sheet));
  const unreached = board.names.filter((it) => !reached.has(it));
  options.push(...unreached.map((it) => [it, { sheet: it, path: "" }]));
  const isHere = (it) => it.sheet === shown.at.sheet && it.path === shown.at.path;
  fill("sheets", options
    .map(([text, it]) => `<option value="${escapeText(`${it.sheet}@${it.path}`)}"`
    + `${isHere(it) ? " selected" : ""}>${escapeText(text)}</option>`).join(""));
  const trail = [];
  for (let it = shownInstance(); it; it = it.parent) trail.unshift(it);
  const name = (it) => (it.path ? printed(it.path.split("/").pop()) : it.sheet);
  fill("trail", trail.map((it) => anchor(`at:${it.sheet}@${it.path}`, name(it))).join(" / "));
  document.title = `${shown.at.path || shown.at.sheet} - gafd`;
}
