// The calls of a run, as trac-walk lists them.
import { endOfInput } from "./asking.js";

// So many calls are listed, the last of the run.
const MOST_CALLS = 100000;
// So long is a list of calls at most, in bytes.
const MOST_LIST = 1 << 25;
const CALL_LINE = /^(\d+) {2}((?: {2})*)(##?\(.*)$/;

/**
 * The calls of a run: for each its step, how many are begun around it, its text, and the call that it was an argument
 * of.
 * @typedef {object} Calls
 * @property {number[]} steps
 * @property {number[]} depths
 * @property {string[]} texts
 * @property {ArrayLike<number>} parents
 * @property {number} from the first step whose calls are listed
 * @property {number} to where the list ends
 * @property {boolean} [isClosed] whether the input has ended
 * @property {{ stride: number, depths: number[] }} [begun] how many calls are begun, every so many steps
 * @property {{ step: number, words: string }[]} [prints]
 * @property {{ from: number, to: number }[]} [idles] where the idle program reads on
 */

/** @type {Calls} */
export const NO_CALLS = { steps: [], depths: [], texts: [], parents: [], from: 0, to: 0 };

// The calls of a run. Where they are too long together, they are cut.
/**
 * @param {Asked} engine
 * @param {Uint8Array} tape
 * @param {number} end
 * @param {boolean} [isClosed]
 * @returns {Promise<Calls>}
 */
export async function callsOf(engine, tape, end, isClosed) {
  for (const list of [`t ${MOST_CALLS} all`, `t ${MOST_CALLS}`]) {
    const commands = `${[...endOfInput(isClosed), `s ${end}`, list].join("\n")}\n`;
    const { status, bytes } = await engine.ask("walk", tape, { commands, most: MOST_LIST }, 1 << 22);
    if (status === 0) return { ...callsSaid(new TextDecoder("latin1").decode(bytes), end), isClosed };
  }
  return { ...callsSaid("", end), isClosed };
}

// The calls that trac-walk lists, before the step where it stands.
/** @param {string} text @param {number} end */
function callsSaid(text, end) {
  /** @type {Calls} */
  const calls = { ...NO_CALLS, steps: [], depths: [], texts: [], to: end };
  for (const line of text.split("\n")) {
    const found = CALL_LINE.exec(line);
    if (!found || Number(found[1]) >= end) continue;
    calls.steps.push(Number(found[1]));
    calls.depths.push(found[2].length / 2);
    calls.texts.push(found[3]);
  }
  calls.parents = parentsOf(calls.depths);
  // the first step whose calls are listed
  const forgotten = [...text.matchAll(/^steps before (\d+) are forgotten/gm)].pop();
  calls.from = calls.steps.length === MOST_CALLS ? calls.steps[0] : Number(forgotten?.[1] ?? 0);
  return calls;
}

// For each call the one that it was an argument of, or -1. It is performed later, and fewer calls are begun then.
/** @param {number[]} depths */
function parentsOf(depths) {
  const parents = new Int32Array(depths.length).fill(-1);
  /** @type {number[]} */
  const open = [];
  depths.forEach((depth, index) => {
    for (let last = open.at(-1); last !== undefined && depths[last] > depth; last = open.at(-1)) {
      parents[last] = index;
      open.pop();
    }
    open.push(index);
  });
  return parents;
}

// The name of a call as it is listed, in small letters.
/** @param {string} text */
export function nameSaid(text) {
  return /^##?\(([A-Za-z]{2})[,)]/.exec(text)?.[1].toLowerCase() ?? "";
}

// How many calls each call is within.
/** @param {ArrayLike<number>} parents */
export function levelsOf(parents) {
  const levels = new Int32Array(parents.length);
  for (let index = parents.length - 1; index >= 0; index--) {
    if (parents[index] >= 0) levels[index] = levels[parents[index]] + 1;
  }
  return levels;
}
