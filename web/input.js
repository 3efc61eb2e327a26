// The input of a run: after the program stand lines, each with the step where the cursor was when it was given.
import { grouped, joined } from "./bytes.js";

// All input: the program, and what was given. (A copy of it alone would be of no use.)
/** @param {Pick<Wanted, "program" | "inputs">} wanted */
export function tapeOf({ program, inputs }) {
  return inputs.length ? joined([program, ...inputs.map(({ bytes }) => bytes)]) : program;
}

// The lines of which something is read, where so many bytes of all lines are.
/** @param {Line[]} inputs @param {number} read */
export function linesBegun(inputs, read) {
  const begun = [];
  let from = 0;
  for (const { step, bytes } of inputs) {
    if (from >= read) break;
    // (what a link or the course gives at once may be several lines)
    const end = bytes.indexOf(10, read - from - 1);
    begun.push({ step, bytes: end < 0 ? bytes : bytes.subarray(0, end + 1) });
    from += bytes.length;
  }
  return begun;
}

// How many lines have something in them.
/** @param {Line[]} inputs */
export function countOfLines(inputs) {
  /** @param {number} byte @param {number} at @param {Uint8Array} bytes */
  const isEnd = (byte, at, bytes) => byte !== 10 && (at + 1 === bytes.length || bytes[at + 1] === 10);
  return inputs.reduce((sum, { bytes }) => sum + bytes.filter(isEnd).length, 0);
}

// What came after a step: so many lines, and perhaps the end of input. Nothing if neither did.
/** @param {number} lines @param {boolean} isClosed @param {number} step */
export function laterSaid(lines, isClosed, step) {
  const parts = lines > 0 ? [lines === 1 ? "one line of input" : `${grouped(lines)} lines of input`] : [];
  if (isClosed) parts.push("the end of input");
  const said = parts.join(" and ");
  return said && `${said[0].toUpperCase()}${said.slice(1)} came after step ${grouped(step)}.`;
}
