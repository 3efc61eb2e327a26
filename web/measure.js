// A run to where it waits, ends, or has taken as many steps as it may.
import { Refused } from "./engine.js";
import { NotUnderstood, Replies, State } from "./replies.js";
import { Story, windowOf } from "./story.js";
import { standOf } from "./moves.js";
import { endOfInput, MEASURED, REACHED, SCREEN, taken, walked } from "./asking.js";

// So many it may take by itself.
export const BUDGET = 2000000;

// So many steps are between two landmarks; fewer where a way over so many takes too much memory, or prints too much.
const STRIDES = [65536, 4096, 256, 16];
// So many landmarks are asked for at most.
const MOST_LANDMARKS = 20000;

// With so much output landmarks stand nearer to each other, for a way to a state has what was printed since the last.
const MUCH_OUTPUT = 1 << 20;
const NEAR_LANDMARKS = 64;
// So much of it is shown.
const MOST_OUTPUT = 1 << 26;

/**
 * How far a run comes, and why no farther; where a way leads there, with what there is.
 * @typedef {object} Ended
 * @property {number} end
 * @property {string | null} why
 * @property {Landmark[]} landmarks
 * @property {number} read
 * @property {number} printed
 * @property {States} window
 */

/**
 * The same where no way comes to the end, or where its states are not wanted, since they are large.
 * @typedef {{ end: number, why: string | null, window: null }} Lacking
 * @typedef {Omit<Ended, "window"> & { window: null, isLarge: true }} Large
 */

/**
 * What a run comes to: how many steps it takes, why no more, the last states, what was printed, if it is not too much,
 * and landmarks on the way: how much was read and printed until then. A brief one has no large states, and does not say
 * why a run that has these takes no more steps.
 * @param {Asked} engine
 * @param {Uint8Array} tape
 * @param {boolean} isClosed
 * @param {number} budget
 * @returns {Promise<Came>}
 */
export async function measure(engine, tape, isClosed, budget, isBrief = false, mostOutput = MOST_OUTPUT) {
  const ended = await measured(engine, tape, isClosed, budget, isBrief);
  if (ended.printed > mostOutput) throw new Refused("the output is too long");
  if (!ended.window) {
    return { ...ended, stand: "large", meta: "", isOfByte: false, output: await outputOf(engine, tape, ended) };
  }
  const { states } = ended.window, state = states[states.length - 1];
  const isRefused = ended.why === "TooLong" || ended.why === "Memory";
  let stand = isRefused ? "refused" : standOf(state);
  if (stand === "refused" && ended.end >= budget) stand = "spent";
  // (trac-walk, which keeps steps, takes more memory than the debugger)
  else ended.why ??= "Memory";
  // (whether one byte is read, and no text)
  const isOfByte = /^rc$/i.test(state.parts.calls.at(-1)?.texts[0] ?? "");
  return { ...ended, stand, meta: state.parts.meta, isOfByte, output: await outputOf(engine, tape, ended) };
}

/**
 * The same without what follows from that. If no way comes to the end, what it stops before is the end.
 * @param {Asked} engine
 * @param {Uint8Array} tape
 * @param {boolean} isClosed
 * @param {number} budget
 * @param {boolean} isBrief
 * @returns {Promise<Ended | Large>}
 */
async function measured(engine, tape, isClosed, budget, isBrief) {
  /** @type {{ end: number, why: string | null, stride: number }} */
  let tried = { end: budget, why: null, stride: STRIDES[0] };
  let most = budget;
  for (const stride of STRIDES) {
    if (stride < STRIDES[0] && most / stride > MOST_LANDMARKS) break;
    const marks = await landmarksOf(engine, tape, isClosed, most, stride);
    most = marks[marks.length - 1].step;
    const run = await endOf(engine, tape, marks, isBrief);
    if (run.window || "isLarge" in run) return run;
    tried = { end: run.end, why: run.why, stride };
  }
  const marks = await landmarksOf(engine, tape, isClosed, tried.end, tried.stride);
  const run = await endOf(engine, tape, marks, isBrief);
  if (!run.window && !("isLarge" in run)) throw new Refused("no memory");
  return { ...run, why: tried.why };
}

// How far it comes, and how much is read and printed there, each time that it has taken so many steps; of much output
// more often.
/**
 * @param {Asked} engine
 * @param {Uint8Array} tape
 * @param {boolean} isClosed
 * @param {number} most
 * @param {number} stride
 * @returns {Promise<Landmark[]>}
 */
async function landmarksOf(engine, tape, isClosed, most, stride) {
  const turns = Math.floor(most / stride), rest = most - turns * stride;
  const moves = [...Array(turns).fill(stride), ...(rest ? [rest] : [])].flatMap((steps) => [`s ${steps}`, "p"]);
  const text = await walked(engine, tape, [...endOfInput(isClosed), ...moves], (turns + 2) * SCREEN, MEASURED);
  let mark = { step: -1, position: 0, printed: 0 };
  const marks = [];
  for (const [, step, unread, printed] of text.matchAll(REACHED)) {
    if (Number(step) === mark.step) continue;
    const position = tape.length - Number(unread);
    // (only a large number is cut)
    mark = { step: Number(step), position, printed: Number(printed ?? Math.max(mark.printed, 1)) };
    marks.push(mark);
  }
  if (marks.length === 0) throw new NotUnderstood(text.slice(0, 80));
  if (mark.printed > MOST_OUTPUT) throw new Refused("the output is too long");
  const near = Math.ceil(mark.step / NEAR_LANDMARKS);
  return mark.printed > MUCH_OUTPUT && near < stride ? landmarksOf(engine, tape, isClosed, mark.step, near) : marks;
}

/**
 * The end of a run with its last states, if the way there over these landmarks comes to it; else how far that comes,
 * and why no farther.
 * @param {Asked} engine
 * @param {Uint8Array} tape
 * @param {Landmark[]} marks
 * @param {boolean} isBrief
 * @returns {Promise<Ended | Large | Lacking>}
 */
async function endOf(engine, tape, marks, isBrief) {
  const landmarks = marks.slice(0, -1), { step: end, position: read, printed } = marks[landmarks.length];
  const first = Math.max(end - 1, 0);
  const way = new Story(engine, tape, landmarks).way(first);
  const commands = `${way.commands.join("")}p\n${"s 1\np\n".repeat(end - first)}s 1\n`;
  const room = way.room + 2 * (printed - way.last.printed) + (1 << 18);
  const words = isBrief ? { commands, most: room } : { commands };
  const { status, bytes } = taken(await engine.ask("debug", tape, words, room));
  if (isBrief && status !== 0) return { end, why: null, landmarks, read, printed, window: null, isLarge: true };
  const replies = new Replies(bytes);
  const { step, before, why: stopped } = Story.went(replies, way);
  if (stopped) return { end: step, why: stopped, window: null };
  const states = [new State(replies.state(), before)];
  if (first < end) {
    const { why } = replies.moved("forward");
    if (why) return { end: first, why, window: null };
    states.push(new State(replies.state(), before));
  }
  const { why } = replies.moved("forward");
  replies.end();
  return { end, why, landmarks, read, printed, window: windowOf(first, states) };
}

// All that a run prints.
/** @param {Asked} engine @param {Uint8Array} tape @param {Pick<Ended, "end" | "printed">} ended */
async function outputOf(engine, tape, { end, printed }) {
  if (printed === 0) return new Uint8Array(0);
  const wanted = { budget: Math.max(end, 1), most: MOST_OUTPUT + 1 };
  const { bytes } = await engine.ask("run", tape, wanted, printed);
  if (bytes.length > MOST_OUTPUT) throw new Refused("the output is too long");
  return bytes;
}
