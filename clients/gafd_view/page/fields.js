// Buttons and fields: what is pressed and written in the head of the page and in its lists.

import { compareWith, endComparison } from "./comparing.js";
import { acceptOrNot } from "./accepting.js";
import * as editing from "./editing.js";
import { showList, showTab, stepTab } from "./lists.js";
import { addressed } from "./address.js";
import { follow, goToAddress } from "./navigation.js";
import { board, byId, entries, notice, objectOf, shown } from "./state.js";
import { saveSvg } from "./saving.js";
import { fit } from "./viewport.js";
import { takeTool } from "./tools.js";

let baseOfField = -1;

/** A value that was written beside an attribute, a new attribute as name=value, or another text. */
async function fieldChanged(field) {
  const object = objectOf(Number(field.dataset.of));
  const { value } = field;
  field.blur();
  if (object && field.dataset.text !== undefined) {
    if (value.trim()) await editing.replaceText(object, value, baseOfField);
  } else if (object) {
    const at = value.indexOf("=");
    const [name, text] = field.dataset.attribute ? [field.dataset.attribute, value]
      : [value.slice(0, at), value.slice(at + 1)];
    // A field that is emptied is no wish to drop the attribute.
    if (name && text) await editing.setAttribute(object.id, name, text, baseOfField);
  }
  showList();
}

/** Copies the address of what is shown; where a browser does not let it, the address is told. */
async function copyLink() {
  try {
    await navigator.clipboard.writeText(location.href);
    notice(`copied: ${location.href}`);
  } catch {
    notice(`the link: ${location.href}`, 30);
  }
}

/** The whole sheet, on a light ground. */
function toPaper() {
  fit();
  document.body.classList.remove("dark");
}

/** Takes ground and session as the browser remembers them. */
export function recall() {
  const isDark = localStorage.getItem("dark")
    ?? String(matchMedia("(prefers-color-scheme: dark)").matches);
  document.body.classList.toggle("dark", isDark === "true");
  byId("session").value = localStorage.getItem("session") || "";
}

function pressedSomething({ target }) {
  const fold = target.closest("summary")?.parentElement;
  // The browser folds it, or unfolds it, behind this.
  if (fold?.dataset.rule) return shown.unfolded.set(fold.dataset.rule, !fold.open);
  const accept = target.closest("[data-accept]")?.dataset.accept;
  if (accept !== undefined) return acceptOrNot(accept);
  const link = target.closest("[data-compare], [data-link]");
  if (link?.dataset.compare !== undefined) {
    return compareWith(Number(link.dataset.compare), shown.comparison?.to ?? null);
  }
  if (target.id === "end-comparison") return endComparison();
  if (link) return follow(link.dataset.link);
  const { drop, of } = target.dataset;
  if (drop) return editing.dropAttribute(Number(of), drop);
  const finding = target.closest("[data-finding]")?.dataset.finding;
  if (finding === undefined) return undefined;
  shown.finding = finding;
  showTab("findings");
  return byId("list").querySelector(".on")?.scrollIntoView({ block: "nearest" });
}

function toggleEditing() {
  const isOn = document.body.classList.toggle("editing");
  byId("edit").classList.toggle("on", isOn);
  if (!isOn && shown.tool) takeTool(null);
}

function listenToLists() {
  document.addEventListener("click", pressedSomething);
  byId("tabs").addEventListener("click", ({ target }) => {
    if (!target.dataset.tab) return;
    if (shown.comparison) endComparison();
    showTab(target.dataset.tab);
  });
  byId("tabs").addEventListener("keydown", (event) => {
    if (!stepTab(event.key)) return;
    event.preventDefault();
    event.stopPropagation();
  });
  byId("search").addEventListener("input", () => {
    if (shown.comparison) endComparison();
    showList();
  });
  byId("search").addEventListener("keydown", (event) => {
    if (event.key === "Enter") byId("list").querySelector("[data-link]")?.click();
    if (event.key !== "Escape") return;
    byId("search").value = "";
    byId("sheet").focus();
    showList();
  });
  byId("list").addEventListener("focusin", () => { baseOfField = editing.shownFront(); });
  byId("list").addEventListener("change", ({ target }) => board.about.edits && target.dataset.of
    && document.body.classList.contains("editing") && fieldChanged(target));
  byId("list").addEventListener("submit", (event) => {
    event.preventDefault();
    const { front, to } = event.target.elements;
    compareWith(Number(front.value), to.value === "" ? null : Number(to.value));
  });
}

/** Listens to buttons and fields. */
export function listenToFields() {
  listenToLists();
  byId("sheets").addEventListener("change", ({ target }) => follow(`at:${target.value}`));
  byId("session").addEventListener("change", ({ target }) => {
    localStorage.setItem("session", target.value);
    entries.begin();
  });
  byId("fit").addEventListener("click", fit);
  byId("print").addEventListener("click", () => print());
  byId("svg").addEventListener("click", saveSvg);
  byId("link").addEventListener("click", copyLink);
  byId("keys").addEventListener("click", () => byId("help").showModal());
  byId("undo").addEventListener("click", editing.undo);
  byId("redo").addEventListener("click", editing.redo);
  byId("follow").addEventListener("click", ({ target }) => {
    target.setAttribute("aria-pressed", target.classList.toggle("on"));
  });
  byId("renumber").addEventListener("click", editing.renumber);
  byId("edit").addEventListener("click", toggleEditing);
  byId("dark").addEventListener("click", () => {
    localStorage.setItem("dark", document.body.classList.toggle("dark"));
  });
  window.addEventListener("popstate", () => shown.at && goToAddress(addressed()));
  window.addEventListener("beforeprint", toPaper);
  window.addEventListener("afterprint", recall);
}
