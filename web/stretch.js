// Steps that are shown as one: a run of plain bytes that was passed as a token, and those by which the idle program
// reads on. These are explained once, and folded after that.
import { grouped } from "./bytes.js";
import { IDLE_WORDS, movedWords, RULES } from "./words.js";
import { moveFrom, plainRun, ruleOf } from "./moves.js";

// What is not scanned yet at each step of the idle program, from where it is loaded to where its `rs` is performed.
export const IDLE_TEXTS = ["#(ps,#(rs))", "ps,#(rs))", "s,#(rs))", ",#(rs))", "#(rs))", "rs))", "s))", "))"];

/**
 * Steps by which the idle program reads on: from where it is loaded to where they end; and whether they are the first
 * of a run.
 * @typedef {{ from: number, to: number, isFirst: boolean }} Idle
 */

/**
 * What led to a state: from which step, and what was done from there; and what comes next: to which step.
 * @typedef {{ from: number, before: State, move: Move }} Last
 * @typedef {{ to: number, move: Move }} Next
 */

// How many steps of the idle program are done in a state, or -1 where it is not that which goes on.
/** @param {State} state */
function idlePlace(state) {
  const place = IDLE_TEXTS.indexOf(state.active);
  if (place < 0) return -1;
  const { base, calls } = state.parts;
  const scanned = base + calls.map((call) => (call.neutral ? "##(" : "#(") + call.texts.join(",")).join("");
  return scanned + state.active === IDLE_TEXTS[0] ? place : -1;
}

// The steps by which the idle program reads on, of which the step after these is one: where it is loaded, and where
// they end. At the start it is there already. (The program's own `#(rs)` looks the same, but nothing was loaded before
// it.)
/** @param {Page} page @param {number} step @returns {Idle | null} */
function idleSpan(page, step) {
  const { story, end } = page.shownRun;
  const state = story.kept(step);
  if (!state) return null;
  const from = state.active === "" ? step : step - idlePlace(state) - 1;
  if (from === step && state.active !== "") return null;
  const loaded = story.kept(from);
  if (from < -1 || (loaded && loaded.active !== "")) return null;
  return { from, to: Math.min(from + 1 + IDLE_TEXTS.length, end), isFirst: from < 0 };
}

// The same where these steps are taken as one: unless each of them is asked for.
/** @param {Page} page @param {number} step */
export function foldedSpan(page, step) {
  const idle = page.cursor.showsIdle ? null : idleSpan(page, step);
  return idle && { ...idle, from: Math.max(idle.from, 0) };
}

// How many steps there are from a state to where its token ends: a run of plain bytes is one, and so is what the idle
// program does.
/** @param {Page} page @param {State} state @param {number} step */
export function tokenLength(page, state, step) {
  const idle = foldedSpan(page, step);
  if (idle) return idle.to - step;
  return ruleOf(state) === "x" ? plainRun(state.active) : 1;
}

// So many milliseconds the beginning of a token is looked for.
const PATIENCE = 400;

// The step where the token begins that ends at a step; of a long run of plain bytes, where it is looked for no longer.
/** @param {Page} page @param {number} step */
export async function tokenStart(page, step) {
  const { story, end } = page.shownRun;
  const began = performance.now();
  /** @param {number} one */
  const rule = async (one) => ruleOf(story.kept(one) ?? (await story.around(one, end)).at);
  let at = Math.max(step - 1, 0);
  await rule(at);
  const idle = foldedSpan(page, at);
  if (idle) return idle.from;
  while (at > 0 && performance.now() - began < PATIENCE) {
    if (await rule(at) !== "x" || await rule(at - 1) !== "x") break;
    at--;
  }
  return at;
}

// The same where all that is to be looked at is there; else the step before.
/** @param {Page} page @param {number} step */
function keptTokenStart(page, step) {
  const { story } = page.shownRun;
  let at = step - 1, state = story.kept(at);
  if (!state || ruleOf(state) !== "x") return at;
  for (; at > 0; at--) {
    state = story.kept(at - 1);
    if (!state) return step - 1;
    if (ruleOf(state) !== "x") return at;
  }
  return at;
}

// A run of plain bytes as one move.
/** @param {Move} move @param {string} text @returns {Move} */
function runMove(move, text) {
  return { ...move, taken: text, moved: text, words: [movedWords(text), " goes to the current text, a byte a step"] };
}

// What led to the state where the cursor is: from which step, by what move, and in which words, if not in those of its
// rule.
/** @param {Page} page @param {Around} states @returns {Last | null} */
export function lastOf(page, { before, at }) {
  if (!before) return null;
  const { cursor: { step, passed }, shownRun: { story } } = page;
  const move = moveFrom(before, at);
  const idle = idleSpan(page, step - 1);
  const folded = foldedSpan(page, step - 1);
  const whole = folded && step === folded.to ? folded : null;
  if (idle && (whole || !idle.isFirst)) {
    return { from: whole ? whole.from : step - 1, before, move: { ...move, words: idleWords(page, move, idle) } };
  }
  if (passed && move.rule === "x") {
    const from = passed.to === step ? passed.from : keptTokenStart(page, step);
    const start = story.kept(from);
    if (from < step - 1 && start && ruleOf(start) === "x") {
      return { from, before: start, move: runMove(move, bytesInFront(start.active, step - from)) };
    }
  }
  return { from: step - 1, before, move };
}

// What the next step does; after a move by tokens, the next token.
/** @param {Page} page @param {Around} states @returns {Next | null} */
export function nextOf(page, { at, after }) {
  if (!after) return null;
  const { step } = page.cursor;
  const move = moveFrom(at, after);
  const idle = foldedSpan(page, step);
  if (idle?.from === step) return { to: idle.to, move: { ...move, words: ["the idle program reads on"] } };
  const length = page.cursor.passed && move.rule === "x" ? Math.min(plainRun(at.active), page.shownRun.end - step) : 1;
  return { to: step + length, move: length > 1 ? runMove(move, bytesInFront(at.active, length)) : move };
}

// So many bytes at the front of a text that has only plain ones there.
/** @param {string} text @param {number} count */
function bytesInFront(text, count) {
  return text.includes("\\") ? bytesAsSaid(text, count) : text.slice(0, count);
}

/** @param {string} text @param {number} count */
function bytesAsSaid(text, count) {
  let end = 0;
  for (let left = count; left > 0; left--) end += text[end] === "\\" ? 4 : 1;
  return text.slice(0, end);
}

// The words of a step by which the idle program reads on. It is explained the first time that they are shown.
/** @param {Page} page @param {Move} move @param {Idle} idle @returns {Word[]} */
function idleWords(page, move, idle) {
  const { cursor: { step, showsIdle }, view, shownRun: { end } } = page;
  if (step < idle.to || showsIdle) return ["the idle program reads on: ", ...RULES[move.rule](move)];
  // (at the end of a run there is nothing to explain: the program is done; at the start it is explained before)
  if (step < end && !idle.isFirst) view.idleTold ??= step;
  /** @type {Word[]} */
  const explained = view.idleTold === step && step < end ? [". ", ...IDLE_WORDS] : [];
  if (!move.call) return ["the idle program waits to read on", ...explained];
  const more = explained.length ? explained : [", which is scanned next"];
  return ["the idle program reads on: its ", ["rs"], " gives ", [move.value, "value"], ...more];
}

// What steps are called in a sentence.
/** @param {number} from @param {number} to */
export function stepsSaid(from, to) {
  return to - from === 1 ? `step ${grouped(from)}` : `steps ${grouped(from)} to ${grouped(to - 1)}`;
}
