// Edits as entries (docs/FORMATS.md, "Entries as JSON"): each is sent once, under its session's
// number.

import { request } from "./server.js";

const GREATEST = 4294967295;
const TRIES = 6;

const pause = (seconds) => new Promise((resolve) => setTimeout(resolve, seconds * 1000));

/** The edits of one session. */
export class Entries {
  constructor() {
    this.begin();
  }

  /** The next number is not known yet; one that is far too great is answered with the last. */
  begin() {
    this.number = GREATEST;
    /** The rows that were made here. */
    this.own = [];
  }

  /**
   * Sends an edit that stands on what was seen at `base`. The answer, or the fault, is told. Edits of
   * one group are taken back together.
   */
  async send(session, edit, base, group) {
    for (let tries = 0; tries < TRIES; tries++) {
      const body = JSON.stringify({ session, number: this.number, base, edit });
      const answer = await this.sendUntilAnswered(body);
      if (answer.fault === "NumberGap") this.number = answer.last + 1;
      else if (answer.fault === "NumberReused") this.number = GREATEST;
      else return this.noted(edit, answer, group);
    }
    return { fault: "NumberGap" };
  }

  noted(edit, answer, group) {
    if (answer.fault) return answer;
    this.number++;
    this.own.push({ serial: answer.serial, edit, group });
    return answer;
  }

  /** The same entry may be sent again: it is done once. */
  async sendUntilAnswered(body) {
    const headers = { "Content-Type": "application/json" };
    for (let tries = 1; ; tries++) {
      try {
        return JSON.parse((await request("board/edits", { method: "POST", body, headers })).text);
      } catch (error) {
        if (tries === TRIES) throw error;
        await pause(tries);
      }
    }
  }
}
