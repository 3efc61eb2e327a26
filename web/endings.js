// How a run ended, in words, and what can be done about it.
import { grouped, plainOf } from "./bytes.js";

/**
 * How a run ended: its words, whether it is a good end, what the step after it would be, and what can be done: words of
 * a button and what that does.
 * @typedef {{ words: string, isGood: boolean, next: string, mend?: { words: string, does: () => void } }} Ending
 */

/** @type {Record<string, { words: string, isGood?: boolean, next: string }>} */
const STANDS = {
  done: { words: "all of the program is run", isGood: true, next: "nothing: the program is done" },
  waits: { words: "the program waits for input", next: "the program reads on once there is input" },
  halts: { words: "the program halts", isGood: true, next: "nothing: the program has halted" },
  ended: { words: "the input has ended", isGood: true, next: "nothing: the input has ended" },
  refused: {
    words: "a limit is passed: a form may grow with each call, or a text lack its '",
    next: "no step: a limit is passed",
  },
  Memory: { words: "memory was refused: a form may grow with each call", next: "no step: memory was refused" },
  spent: { words: "it was stopped there, and could go on", next: "more, if it goes on" },
  stopped: { words: "it was stopped there, and could go on", next: "more, if it goes on" },
};

// What a run came to.
/** @param {Run} run */
function kindOfEnd({ stand, why, isClosed }) {
  if (isClosed && (stand === "waits" || stand === "done")) return "ended";
  return stand === "refused" && why === "Memory" ? "Memory" : stand;
}

/** @param {Page} page @returns {Ending} */
export function endingOf(page) {
  const { shownRun: run } = page;
  const kind = kindOfEnd(run);
  const count = `${grouped(run.end)} ${run.end === 1 ? "step" : "steps"}`;
  if ((kind === "done" || kind === "waits") && run.hasText(run.read)) return unended(page, kind, count);
  const { words, isGood = false, next } = STANDS[kind];
  /** @type {Ending} */
  const ending = { words: isGood ? `Done after ${count}: ${words}.` : `After ${count}: ${words}.`, isGood, next };
  if (kind === "spent" || kind === "stopped") ending.mend = { words: "go on", does: () => page.runs.goOn() };
  if (kind === "done" && !page.runs.wantsInput) {
    ending.mend = { words: "type more of it", does: () => page.runs.typeMore() };
  }
  return ending;
}

// The same where a text stands there that is not read, since it has no end.
/** @param {Page} page @param {string} kind @param {string} count @returns {Ending} */
function unended(page, kind, count) {
  const { shownRun: run } = page;
  const meta = plainOf(run.meta, 8);
  const lacks = `has no ${meta} at its end`;
  const words = kind === "done" ? `Not all is run: the last text of the program ${lacks}. Until there it took ${count}.`
    : `After ${count} the program waits for more: what it is to read ${lacks}.`;
  const isProgram = run.inputs.length === 0 && !page.isStale && !page.editor.fixed;
  const end = /^[!-~]$/.test(run.meta) ? run.meta : "";
  const does = isProgram ? () => {
    page.editor.write(end);
    page.runs.start();
  } : () => page.runs.feedEnd(end);
  return {
    words, isGood: false, next: `what is left, once there is a ${meta} at its end`,
    mend: end ? { words: `put a ${meta} there, and run`, does } : undefined,
  };
}

// Whether a line of input gets a ' at its end: where it is read up to that, and has none.
/** @param {Run} run @param {string} line */
export function needsEnd({ meta, isOfByte }, line) {
  return meta === "'" && !isOfByte && !line.includes("'");
}
