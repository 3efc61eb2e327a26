// What trac-walk is asked, and how it answers.
import { Refused } from "./engine.js";
import { NotUnderstood } from "./replies.js";

// So many steps and bytes of records it keeps where only a place is asked, and so many bytes show a place, more or
// less.
export const MEASURED = { journal: 65536, keep: 1 << 24 };
export const SCREEN = 1200;

// How far it comes, as trac-walk shows that. (Of a long line the end is cut.)
export const REACHED = /^step +(\d+), back to \d+; (\d+) bytes? of input not read, (?:(\d+) b)?/gm;

// What trac-walk is told first of a run whose input has ended: else it waits where that goes on. It says where it
// stands.
/** @param {boolean} [isClosed] */
export function endOfInput(isClosed) {
  return isClosed ? ["e"] : [];
}

// What trac-walk says to some lines.
/** @param {Asked} engine @param {Uint8Array} tape @param {string[]} lines @param {Words} [more] */
export async function walked(engine, tape, lines, room = 1 << 16, more = {}) {
  const { bytes } = taken(await engine.ask("walk", tape, { commands: lines.join("\n") + "\n", ...more }, room));
  return new TextDecoder("latin1").decode(bytes);
}

// An answer, unless the input was not taken.
/** @param {Answer} answer */
export function taken(answer) {
  if (answer.status === 4) throw new Refused("the input is too long");
  return answer;
}

// The number of the step where it stands after all that.
/** @param {string} text */
export function stepSaid(text) {
  const last = text.trimEnd().split("\n").pop() ?? "";
  const found = /^(?:here: )?(\d+)  /.exec(last);
  if (!found) throw new NotUnderstood(last.slice(0, 80));
  return Number(found[1]);
}
