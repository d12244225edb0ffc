// Findings that are meant: which they are, and who accepts one with what reason. They lie beside the
// board, as notes do.

import { showList } from "./lists.js";
import { drawFindings } from "./picture.js";
import { request } from "./server.js";
import { board, byId, notice, shown } from "./state.js";

/** Takes the accepted findings as gafd_view tells them. */
export function takeAccepted(list) {
  shown.accepted = new Map(list.map((it) => [it.finding, it]));
  if (shown.at) drawFindings();
  showList();
}

/** Sends that a finding is accepted for a reason, or by null no longer. */
async function send(finding, who, reason) {
  const headers = { "Content-Type": "application/json" };
  const body = JSON.stringify({ finding, who, reason });
  try {
    const { status, text } = await request("accepted", { method: "POST", body, headers });
    if (status !== 200) throw new Error(JSON.parse(text).fault);
    takeAccepted(JSON.parse(text));
  } catch (error) {
    notice(`it is not known whether the finding is ${reason === null ? "open" : "accepted"}: `
      + error.message);
  }
}

/** Asks for a name and a reason, by which a finding is accepted; one that is so is open again. */
export function acceptOrNot(finding) {
  const name = byId("session").value.trim();
  if (shown.accepted.has(finding)) return send(finding, name || "somebody", null);
  byId("accepting-finding").textContent = finding;
  byId("accepting-who").value = name;
  byId("accepting-reason").value = "";
  byId("accepting").showModal();
  return byId("accepting-reason").focus();
}

function closed() {
  if (byId("accepting").returnValue !== "accept") return;
  byId("accepting").returnValue = "";
  const [who, reason] = ["who", "reason"].map((it) => byId(`accepting-${it}`).value.trim());
  if (reason) send(byId("accepting-finding").textContent, who, reason.replace(/\s+/g, " "));
}

/** Listens to who accepts, where that can be done. */
export function listenToAccepting() {
  document.body.classList.toggle("accepts", Boolean(board.about.accepts));
  byId("accepting").addEventListener("close", closed);
}
