// What is drawn over the slider: where something is printed, where the idle program reads on, and how many calls are
// begun.
import { Replies } from "./replies.js";
import { IDLE_TEXTS } from "./stretch.js";
import { nameSaid } from "./calls.js";
import { endOfInput, SCREEN, walked } from "./asking.js";

// So many calls of ps are looked for.
const MOST_PRINTS = 200000;

// Of runs with so many steps at most, and for so many texts of the input, it is looked for where the idle program reads
// on.
export const MOST_IDLE_STEPS = 1000000;
const MOST_IDLES = 5000;

// So much output is looked at for where it was printed.
const MOST_LOOKED = 4 << 20;

// The steps that printed something, and what: where ps is performed, the idle program's too, and those that print a
// form. Of much output, the calls of ps.
/** @param {Engine} engine @param {Uint8Array} tape @param {Calls} calls @param {Run} run */
export async function printsOf(engine, tape, calls, { end, output }) {
  const names = calls.texts.map(nameSaid);
  const listed = calls.steps.map((step, index) => ({ step, words: calls.texts[index] }));
  /** @param {(name: string) => boolean} wanted */
  const said = (wanted) => listed.filter((_, index) => wanted(names[index]));
  if (output.length > MOST_LOOKED) return said((name) => name === "ps" || name === "pf");
  const own = names.filter((name) => name === "ps").length;
  const most = Math.min(own + tape.reduce((sum, byte) => sum + (byte === 39 ? 1 : 0), 2), MOST_PRINTS);
  const { bytes } = await engine.ask("debug", tape, { commands: `u ps ${end}\ns 1\nc\n`.repeat(most) }, 1 << 20);
  const replies = new Replies(bytes);
  const prints = said((name) => name === "pf");
  let step = 0;
  for (let left = most; left > 0; left--) {
    const until = replies.moved("until");
    const forward = replies.moved("forward");
    const text = replies.committed();
    step += until.done + forward.done;
    if (step > end || until.why || forward.why) break;
    if (text !== "") prints.push({ step: step - 1, words: `prints ${text}` });
  }
  return prints;
}

// The steps by which the idle program reads on: before each `rs` that is none of the program's own. Of a long run,
// none.
/** @param {Engine} engine @param {Uint8Array} tape @param {Calls} calls @param {Run} run */
export async function idlesOf(engine, tape, calls, { end, stand }) {
  if (end > MOST_IDLE_STEPS || calls.from > 0) return [];
  const own = new Set(calls.steps);
  const reads = calls.texts.filter((text) => nameSaid(text) === "rs").length;
  const count = Math.min(tape.reduce((sum, byte) => sum + (byte === 39 ? 1 : 0), reads + 2), MOST_IDLES);
  const { bytes } = await engine.ask("debug", tape, { commands: `u rs ${Math.max(end, 1)}\n`.repeat(count) }, 1 << 16);
  const replies = new Replies(bytes);
  const spans = [];
  for (let step = 0, left = count; left > 0; left--) {
    const { done, why } = replies.moved("until");
    step += done;
    // (where the run stands, the program's own one waits too, and is not listed)
    if (why || step > end || (step === end && stand !== "done")) break;
    if (!own.has(step)) spans.push({ from: Math.max(step - IDLE_TEXTS.length, 0), to: Math.min(step + 1, end) });
  }
  return spans;
}

// At so many steps it is looked how many calls are begun.
const MOST_DEPTHS = 1500;

// How many calls are begun at steps that are equally far apart, the first one and the last one too, as trac-walk shows
// it.
/** @param {Engine} engine @param {Uint8Array} tape @param {Run} run @param {boolean} isClosed */
export async function depthsOf(engine, tape, { end }, isClosed) {
  const stride = Math.max(Math.ceil(end / MOST_DEPTHS), 1);
  const turns = Math.floor(end / stride), rest = end - turns * stride;
  const moves = [...Array(turns).fill(stride), ...(rest ? [rest] : [])].flatMap((steps) => [`s ${steps}`, "p"]);
  const text = await walked(engine, tape, [...endOfInput(isClosed), "p", ...moves], (turns + 2) * SCREEN);
  /** @type {number[]} */
  const depths = [];
  let depth = 0;
  for (const line of text.split("\n")) {
    const more = /^begun {3}\.\. (\d+) more \.\.$/.exec(line);
    if (more) depth += Number(more[1]);
    else if (line.startsWith("begun   ")) depth++;
    else if (line.startsWith("text    ")) [depths[depths.length], depth] = [depth, 0];
  }
  return { stride, depths };
}
