// Proposals and notes, which lie beside the board; and the board with a proposal beside the board
// without it, as the program makes both.

import { takeAccepted } from "./accepting.js";
import { newCanvas } from "./canvas.js";
import { endComparison, laterObjects, pastObjects, reportTables, sheetRows } from "./comparing.js";
import { showList } from "./lists.js";
import { open } from "./navigation.js";
import { askBoard, askPast, askProposed, askView } from "./server.js";
import { readSide, sheetChanges } from "./sides.js";
import { board, byId, instanceOf, notice, shown } from "./state.js";
import { escapeText, unbroken } from "./texts.js";

const EVERY = 4000;
const WAITING = ["open", "stale", "being accepted"];

let reviews = { proposals: [], notes: [], accepted: [] };

/** How many proposals wait for somebody, and notes are open. */
export function openReviews() {
  return reviews.proposals.filter((it) => WAITING.includes(it.state)).length + reviews.notes.length;
}

function lines(text) {
  return escapeText(text).split("\n").join("<br>");
}

function proposalRow({ name, state, who, message = "", files = [], against, end }) {
  const look = board.about.past && state !== "damaged"
    ? ` <a data-proposal="${escapeText(name)}" tabindex="0" role="link" `
    + 'title="show the board with it beside the board without it">look</a>' : "";
  const by = end ? `${end.state} by ${unbroken(end.who)}, proposed by ${unbroken(who)}`
    : `${state}${who ? ` by ${unbroken(who)}` : ""}`;
  const more = [lines(message), escapeText(files.join(" ")), lines(against.join("\n"))]
    .filter((it) => it).join("<br>");
  return `<tr class="proposal ${escapeText(state)}"><td>${escapeText(name)}</td><td>${by}${look}<br>`
    + `<small>${more}</small></td></tr>`;
}

function noteRow({ number, at, who, time, text }) {
  const when = new Date(time).toLocaleDateString();
  return `<tr data-link="${escapeText(at)}" tabindex="0" role="link"><td>${number}</td>`
    + `<td>${escapeText(at)}<br>${lines(text)}<br><small>${unbroken(who)}, ${when}</small></td></tr>`;
}

/** The proposals, those that wait first, and the notes that are open. */
export function reviewTable() {
  const [waiting, ended] = [true, false]
    .map((is) => reviews.proposals.filter((it) => WAITING.includes(it.state) === is));
  const rows = [...waiting, ...ended].map(proposalRow).join("");
  return `<p><b>proposals</b></p><table>${rows || "<tr><td>none</td></tr>"}</table><p><b>notes</b></p>`
    + `<table>${reviews.notes.map(noteRow).join("") || "<tr><td>none is open</td></tr>"}</table>`;
}

/** Looks at a proposal on one of the sheets that it changes. */
async function lookAt(name, asked = null) {
  const { files } = reviews.proposals.find((it) => it.name === name);
  const here = asked || (files.includes(shown.at.sheet) ? shown.at.sheet
    : files.find((it) => board.counts.has(it)));
  if (here && here !== shown.at.sheet) await open(instanceOf(here));
  const { sheet } = shown.at;
  notice(`putting ${name} to a copy of the history`, 60);
  try {
    const told = await askView(`proposed/${encodeURIComponent(name)}`);
    if (!told) throw new Error("the page has no store, or no program");
    if (told.front === null) throw new Error(told.against.join(" "));
    const before = told.front === board.front ? askBoard : askPast(told.front);
    const sides = await Promise.all([readSide(before, [sheet]),
      readSide(askProposed(name, told.now), [sheet])]);
    if (shown.at.sheet !== sheet) return;
    if (shown.comparison) endComparison();
    shown.comparison = { proposal: name, sheet };
    showProposal(name, sheet, told, ...sides);
    notice(`added, gone and changed by ${name}; Escape ends it`, 6);
  } catch (error) {
    notice(`the board with ${name} cannot be shown: ${error.message}`);
  }
}

function showProposal(name, sheet, told, before, after) {
  const changes = sheetChanges(before, after, sheet);
  const [old, now] = [before, after].map((it) => newCanvas(it.symbols, shown.sizes));
  const { added, changed, placed } = changes;
  const later = [...added, ...[...changed, ...placed].map(([, is]) => is)];
  byId("past").innerHTML = pastObjects(changes, old) + laterObjects(later, changes, now);
  document.body.classList.add("comparing");
  byId("list").innerHTML = headOf(name, sheet, told)
    + `<table>${sheetRows(sheet, changes) || "<tr><td>nothing changes on it</td></tr>"}</table>`
    + reportTables(before, after);
}

/** Who proposed what, on which sheets, and what stands against it. */
function headOf(name, sheet, { against, front, now }) {
  const { who, state, message, files } = reviews.proposals.find((it) => it.name === name);
  const sheets = files.map((it) => (it !== sheet && board.counts.has(it)
    ? `<a data-proposal="${escapeText(name)}" data-sheet="${escapeText(it)}" tabindex="0" `
    + `role="link">${escapeText(it)}</a>` : escapeText(it)));
  const why = against.length ? `<div class="odd">${lines(against.join("\n"))}</div>` : "";
  const meant = front === now ? "" : `<p>as it was meant, on the board after ${front} edits</p>`;
  return `<p><b>${escapeText(name)}</b> ${escapeText(state)}, by ${unbroken(who)} `
    + `<button id="end-comparison">end</button></p><p>${lines(message)}</p>${why}${meant}`
    + `<p>changes ${sheets.join(", ")}</p><p><b>${escapeText(sheet)}</b></p>`;
}

/** Reads what came, and shows it. */
async function readReviews() {
  const told = await askView("reviews");
  if (!told || JSON.stringify(told) === JSON.stringify(reviews)) return;
  reviews = told;
  takeAccepted(reviews.accepted);
}

/** Follows the reviews of the board from now on, and listens to who looks at one. */
export function followReviews() {
  byId("tabs").querySelector('[data-tab="reviews"]').hidden = false;
  document.addEventListener("click", ({ target }) => {
    const asked = target.closest("[data-proposal]")?.dataset;
    if (asked) lookAt(asked.proposal, asked.sheet);
  });
  const follow = async () => {
    await readReviews().catch(() => {});
    setTimeout(follow, EVERY);
  };
  follow();
}
