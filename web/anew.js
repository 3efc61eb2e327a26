// Moves that the processor ends where it keeps no more steps, and that go on from there, without a limit but time.
import { lengthOf } from "./bytes.js";
import { callsOf } from "./calls.js";
import { movedTo } from "./arriving.js";
import { ruleOf } from "./moves.js";
import { IDLE_TEXTS } from "./stretch.js";

/** @typedef {import("./arriving.js").Arrived} Arrived */

// Where the processor keeps no more steps, or looks no farther: from there the same is looked for again.
const ENDED = /not met since the first step that is kept, step (\d+)|m goes to step (\d+), where the search ended/;
// So many states are looked at first, and each time so many times as many more.
const FIRST_LOOK = 16;
const MORE_LOOKS = 4;

/**
 * A move of trac-walk, without a limit but time: back to a call, forward to one, to where the innermost begun call
 * began, or back over the call that gave what stands here.
 * @param {Engine} engine
 * @param {Run} run
 * @param {number} from
 * @param {string} line
 * @param {boolean} isWanted whether the states there are wanted
 * @returns {Promise<Arrived>}
 */
export async function movedAnew(engine, run, from, line, isWanted) {
  const first = await movedTo(engine, run, from, line, isWanted);
  let moved = first, at = from;
  if (line === "O") return soughtBegin(engine, run, from, first, isWanted);
  // (of states that are large no more are fetched than are shown)
  if (line === "N" && !first.isAllKept && run.story.isSmall) return soughtOver(engine, run, from, first, isWanted);
  while ("ru".includes(line)) {
    const next = endOfSearch(moved.said);
    // (at the start, or where nothing is gained, it ends)
    if (next === null || next === 0 || next === at || next >= run.end) break;
    at = next;
    moved = await movedTo(engine, run, at, line, isWanted);
  }
  return isMet(moved) ? moved : { ...first, said: moved.said };
}

/** @param {string} said */
function endOfSearch(said) {
  const found = ENDED.exec(said);
  return found && Number(found[1] ?? found[2]);
}

/** @param {Arrived} moved */
function isMet({ said }) {
  return !ENDED.test(said) && !said.startsWith("not met");
}

/**
 * The state at a step.
 * @param {Run} run
 * @param {number} step
 */
async function stateAt(run, step) {
  const states = await run.story.at([step]);
  return /** @type {State} */ (states.get(step));
}

/**
 * Goes back to where the innermost begun call began: where the steps end that are kept, more calls may be begun, each
 * of which is left first.
 * @param {Engine} engine
 * @param {Run} run
 * @param {number} from
 * @param {Arrived} first what a first move came to
 * @param {boolean} isWanted
 * @returns {Promise<Arrived>}
 */
async function soughtBegin(engine, run, from, first, isWanted) {
  const depthAt = async (/** @type {number} */ step) => (await stateAt(run, step)).parts.calls.length;
  const depth = endOfSearch(first.said) ? await depthAt(from) : 0;
  let moved = first, at = from;
  for (let next = endOfSearch(moved.said); ; next = endOfSearch(moved.said)) {
    if (next === 0 || next === at) return { ...first, said: moved.said };
    at = next ?? moved.step;
    if (next === null && (at === from || depth === 0 || await depthAt(at) < depth)) return moved;
    moved = await movedTo(engine, run, at, "O", isWanted);
    if (next === null && moved.step === at && endOfSearch(moved.said) === null) return first;
  }
}

/**
 * Where the innermost call began that is begun at a step; nothing if none is.
 * @param {Engine} engine
 * @param {Run} run
 * @param {number} step
 */
export async function beginOf(engine, run, step) {
  const moved = await movedAnew(engine, run, step, "O", false);
  return moved.step < step ? moved.step : null;
}

/**
 * Goes back over the call that gave what stands here, where it may have begun before the first step that is kept. After
 * its `)` as much was left to scan as is here, and since then no less; of several, it is the earliest.
 * @param {Engine} engine
 * @param {Run} run
 * @param {number} from
 * @param {Arrived} first what a first move came to
 * @param {boolean} isWanted
 * @returns {Promise<Arrived>}
 */
async function soughtOver(engine, run, from, first, isWanted) {
  const { parts: { calls, active } } = await stateAt(run, from);
  // (around a text that a stray `)` has ended, calls are set in otherwise)
  if (calls.length === 0) return overLast(engine, run, from, first, isWanted);
  if (calls[0].texts[0] !== "ps") return first;
  const around = await beginOf(engine, run, from);
  if (around === null) return first;
  // (the idle program's own calls are not listed: of its `#(ps,#(rs))` the value of `rs` ends before the last sign)
  const performed = calls.length === 1 && active === ")" ? around + IDLE_TEXTS.length - 1
    : await earliestOf(engine, run, { around, depth: calls.length, rest: lengthOf(active) }, from);
  if (performed === null) return first.step < from ? first : { ...first, said: "the value of no call ends here" };
  return movedAnew(engine, run, performed, "O", isWanted);
}

/**
 * The same where no call is begun: over the call that was just performed, if one was.
 * @param {Engine} engine
 * @param {Run} run
 * @param {number} from
 * @param {Arrived} first
 * @param {boolean} isWanted
 */
async function overLast(engine, run, from, first, isWanted) {
  const before = from > 0 ? await stateAt(run, from - 1) : null;
  return before && ruleOf(before) === "p" ? movedAnew(engine, run, from - 1, "O", isWanted) : first;
}

/**
 * The step of the earliest call whose value ends there, or nothing: of those performed with so many begun around them,
 * after these began, and before a step.
 * @param {Engine} engine
 * @param {Run} run
 * @param {{ around: number, depth: number, rest: number }} sought
 * @param {number} before
 */
async function earliestOf(engine, run, { around, depth, rest }, before) {
  let found = null;
  for (let to = before; to > around;) {
    const calls = await callsOf(engine, run.tape, to, run.isClosed);
    // (they are set in by how many calls of the program's own are begun around them)
    const steps = calls.steps.filter((step, index) => calls.depths[index] === depth - 1 && step >= around);
    for (let count = FIRST_LOOK; steps.length; count *= MORE_LOOKS) {
      const some = steps.splice(-Math.min(count, run.story.roomFor(1))).reverse();
      const states = await run.story.at(some);
      for (const step of some) {
        const left = lengthOf(states.get(step)?.active ?? "") - 1;
        if (left < rest) return found;
        if (left === rest) found = step;
      }
    }
    if (calls.from === 0 || calls.from >= to) return found;
    to = calls.from;
  }
  return found;
}
