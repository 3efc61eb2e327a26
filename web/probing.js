// How far a run has come that takes long: for more and more steps, each time with the state and all output. A short
// program is run so beside its run; a long one has no memory for two, so it is run in turns.
import { grouped } from "./bytes.js";
import { addCells } from "./cells.js";
import { measure } from "./measure.js";
import { startOfSign } from "./output.js";
import { byId } from "./elements.js";

// What was printed is shown so many milliseconds after a run has begun, or later.
export const WATCHED = 150;
// So many steps are tried first, each time so many times as many. A run that goes on further than one before begins
// where that ended.
const FIRST_PROBE = 128;
const MORE_PROBED = 2;
// A program with more bytes and its input is long. What prints more than so many bytes is not run twice at once.
const LONG = 1 << 18;
const MOST_PRINTED = 1 << 24;
// So much output is shown meanwhile.
const SHOWN_SO_FAR = 4096;

/** @param {Begin} wanted */
export function isLong({ tape }) {
  return tape.length > LONG;
}

// Tells what the run of a short program has come to after some steps, as long as that is wanted and there are more. It
// has only memory that the run leaves: it ends once it, or the run, is to be done alone.
/**
 * @param {Asked} engine
 * @param {Begin} wanted
 * @param {() => boolean} isWanted
 * @param {(came: Came) => void} come
 */
export async function probe(engine, { tape, isClosed, budget, from = 0 }, isWanted, come) {
  /** @type {Asked} */
  const spare = { ask: (call, input, more, room) => engine.ask(call, input, { ...more, isSpare: true }, room) };
  for (let more = FIRST_PROBE; isWanted() && from + more < budget; more *= MORE_PROBED) {
    const came = await measure(spare, tape, isClosed, from + more, true, MOST_PRINTED);
    if (!isWanted() || came.end < from + more) return;
    come(came);
  }
}

// Runs a long program, and tells what it has come to after each turn, as long as that is wanted.
/**
 * @param {Asked} engine
 * @param {Begin} wanted
 * @param {() => boolean} isWanted
 * @param {(came: Came) => void} come
 */
export async function measureInTurns(engine, { tape, isClosed, budget, from = 0 }, isWanted, come) {
  let steps = from ? Math.ceil(from * 1.5) : FIRST_PROBE;
  for (let first = 0; steps < budget;) {
    const began = performance.now();
    const came = await measure(engine, tape, isClosed, steps, true);
    if (came.end < steps) {
      if (came.stand !== "large") return came;
      break;
    }
    if (isWanted()) come(came);
    const took = performance.now() - began;
    first ||= took;
    steps *= timesAfter(took - first);
  }
  return measure(engine, tape, isClosed, Math.min(steps, budget));
}

// How many times as many steps the next turn takes, if one took so many milliseconds more than the first: much of that
// is for the program alone.
/** @param {number} longer */
function timesAfter(longer) {
  return longer < 250 ? 16 : longer < 1000 ? 4 : 2;
}

// Shows the end of what was printed so far. None of it can be followed yet.
/** @param {View} view @param {Uint8Array} bytes */
export function showSoFar(view, bytes) {
  view.outputKey = null;
  byId("welcome").hidden = true;
  const first = startOfSign(bytes, Math.max(bytes.length - SHOWN_SO_FAR, 0));
  const place = byId("output");
  delete place.dataset.place;
  place.replaceChildren();
  addCells(place, bytes.subarray(first), first, true);
  place.scrollTop = place.scrollHeight;
  byId("output-note").textContent = bytes.length ? `${grouped(bytes.length)} bytes so far` : "nothing printed yet";
}
