// What goes over the wire: the routes of the server below board/ (docs/SERVER.md), and those of
// gafd_view.

const PATIENCE = 20000;
const AWAY = [500, 502, 503, 504];

/** The server gave no answer. */
export class Away extends Error {}

/** The answer to a request: its status, its front, and its text. */
export async function request(path, options) {
  try {
    const reply = await fetch(path, { cache: "no-store", signal: AbortSignal.timeout(PATIENCE),
      ...options });
    const text = await reply.text();
    if (AWAY.includes(reply.status)) throw new Away(`status ${reply.status}`);
    return { status: reply.status, front: Number(reply.headers.get("Front") ?? -1), text };
  } catch (error) {
    throw error instanceof Away ? error : new Away(error.message);
  }
}

/** A report of the board as it is. */
export const askBoard = (path) => request(`board/${path}`);

/** A report of the board as it was after so many edits. */
export const askPast = (front) => (path) => request(`at/${front}/${path}`);

/** A report of the board with a proposal that was put to it after so many edits. */
export const askProposed = (name, front) => (path) => request(`proposed/${name}@${front}/${path}`);

/** What a route of gafd_view tells, or null where there is none, as behind a plain web server. */
export async function askView(path) {
  const { status, text } = await request(path);
  return status === 200 ? JSON.parse(text) : null;
}

/** The rows of the history from a serial on, or null where there is no history. */
export async function askHistory(serial) {
  const { status, text } = await request(`history?from=${serial}`);
  return status === 200 ? text.split("\n").filter((it) => it).map((it) => JSON.parse(it)) : null;
}

/** Does a thing for each of a list, a few at once. */
export async function forEachAtOnce(list, work, most = 4) {
  const left = [...list];
  const worker = async () => {
    while (left.length) await work(left.shift());
  };
  await Promise.all(Array.from({ length: most }, worker));
}
