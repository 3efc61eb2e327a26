// Whether a program solves an exercise of the course: it is run on each given input, and judged as trac-course does.
import { joined } from "./bytes.js";
import { Refused } from "./engine.js";

/**
 * What it may take: steps, bytes that it prints, and seconds; and the words for why a run does not do, and for where
 * its output begins to differ (python/trac_tools/judging.py).
 * @typedef {{ steps: number, bytes: number, seconds: number, why: Record<string, string>, where: string }} Rules
 */

// The status of a run that prints too much.
const LONG = 9;

// What a program prints that is all of this input, and what is wrong with its end, if that is.
/** @param {Engine} engine @param {Uint8Array} tape @param {Rules} rules */
async function tried(engine, tape, { steps, bytes: most, seconds, why }) {
  let isLate = false;
  const timer = setTimeout(() => {
    isLate = true;
    engine.stop();
  }, seconds * 1000);
  try {
    const { status, bytes } = await engine.ask("run", tape, { budget: steps, most }, most);
    const words = why[status === LONG ? "long" : status] ?? `it ended with status ${status}`;
    return { printed: bytes, fault: status === 0 ? null : words };
  } catch (fault) {
    const isKnown = isLate || (fault instanceof Refused && fault.why === "no memory");
    if (!isKnown) throw fault;
    return { printed: new Uint8Array(0), fault: why[isLate ? "late" : 5] };
  } finally {
    clearTimeout(timer);
  }
}

// Bytes without the line ends at their end.
/** @param {Uint8Array} bytes */
function withoutEnds(bytes) {
  let length = bytes.length;
  while (length > 0 && bytes[length - 1] === 10) length--;
  return bytes.subarray(0, length);
}

/** @param {Uint8Array} one @param {Uint8Array} other */
export function isEqual(one, other) {
  return one === other || (one.length === other.length && one.every((byte, at) => byte === other[at]));
}

// Where two texts begin to differ.
/** @param {Uint8Array} printed @param {Uint8Array} wanted @param {string} words */
function difference(printed, wanted, words) {
  const [one, other] = [printed, wanted].map((bytes) => [...new TextDecoder().decode(withoutEnds(bytes))]);
  let at = 0;
  while (at < one.length && one[at] === other[at]) at++;
  const front = one.slice(0, at);
  const line = front.filter((sign) => sign === "\n").length + 1;
  return words.replace("LINE", String(line)).replace("COLUMN", String(at - front.lastIndexOf("\n")));
}

// The input after a program: its last line is ended, else the input would go on in it.
/** @param {Uint8Array} program @param {string} given */
export function inputAfter(program, given) {
  return joined([program[program.length - 1] === 10 ? "" : "\n", given].map((text) => new TextEncoder().encode(text)));
}

/**
 * A run that fails: its number, what it prints, why that is not right, and where it begins to differ, if that can be
 * said.
 * @typedef {{ at: number, printed: Uint8Array, why: string, where: string | null }} Failure
 */

// The first run that fails, if one does.
/** @param {Engine} engine @param {Uint8Array} program @param {[string, string][]} runs @param {Rules} rules */
export async function judged(engine, program, runs, rules) {
  for (const [at, [given, out]] of runs.entries()) {
    const wanted = new TextEncoder().encode(out);
    const { printed, fault } = await tried(engine, joined([program, inputAfter(program, given)]), rules);
    if (fault) return { at, printed, why: fault, where: null };
    if (isEqual(withoutEnds(printed), withoutEnds(wanted))) continue;
    const where = printed.length && wanted.length ? difference(printed, wanted, rules.where) : null;
    return { at, printed, why: rules.why.other, where };
  }
  return null;
}
