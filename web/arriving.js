// A move of trac-walk: where it arrives, and the states there, so that the run is not done anew for these.
import { NotUnderstood, Replies, State } from "./replies.js";
import { WINDOW, windowOf } from "./story.js";
import { endOfInput, stepSaid } from "./asking.js";

// What shows the state where a move arrives, and its neighbours.
const LOOKS = ["p all", "b", "p all", "s", "p all", "s", "p all"];

// What is said where the processor keeps no more steps.
const FORGOTTEN = /^steps before \d+ are forgotten/m;

/**
 * What a move came to: what is said of it, the step where it arrives, the states there, if they were wanted and came
 * whole, and whether the processor kept all steps on the way.
 * @typedef {{ said: string, step: number, window: States | null, isAllKept: boolean }} Arrived
 */

/**
 * A move from a step.
 * @param {Engine} engine
 * @param {Run} run
 * @param {number} from
 * @param {string} line
 * @param {boolean} isWanted
 * @returns {Promise<Arrived>}
 */
export async function movedTo(engine, { tape, isClosed }, from, line, isWanted) {
  const ended = endOfInput(isClosed);
  const lines = [...ended, `g ${from}`, line, ...(isWanted ? LOOKS : [])];
  const { bytes } = await engine.ask("walk", tape, { commands: `${lines.join("\n")}\n`, most: WINDOW }, 1 << 18);
  const replies = new Replies(bytes);
  const end = replies.text.indexOf("\nactive [");
  const text = end < 0 ? replies.text : replies.text.slice(0, end);
  const told = text.trimEnd().split("\n").filter((one) => !FORGOTTEN.test(one));
  const said = told.slice(1 + ended.length, -1).join(" ");
  const step = stepSaid(text);
  return { said, step, window: end < 0 ? null : arrived(replies, step), isAllKept: !FORGOTTEN.test(text) };
}

// The states at a step and beside it, in a dialogue that shows each after the line of its step.
/** @param {Replies} replies @param {number} step */
function arrived(replies, step) {
  // (what was read and printed before the first step that is kept is not said)
  if (FORGOTTEN.test(replies.text)) return null;
  const before = { position: 0, printed: 0 }, found = new Map();
  try {
    for (let from = 0, at = 0; (at = replies.text.indexOf("\nactive [", from) + 1) > 0; from = replies.at) {
      const number = stepSaid(replies.text.slice(from, at));
      replies.at = at;
      found.set(number, new State(replies.state(), before));
    }
  } catch (fault) {
    if (!(fault instanceof NotUnderstood)) throw fault;
  }
  const first = found.has(step - 1) ? step - 1 : step;
  const states = [];
  for (let number = first; found.has(number); number++) states.push(found.get(number));
  return states.length ? windowOf(first, states) : null;
}
