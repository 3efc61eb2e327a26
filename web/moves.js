// What a step does, told from the states before and after it.
import { lengthOf } from "./bytes.js";
import { currentOf, formIn } from "./parts.js";
import { isReader } from "./branch.js";

// The rule of the next step of a state, as a letter: words.js has the words of each.
/** @param {Pick<State, "active" | "isWithin">} state */
export function ruleOf(state) {
  const active = state.active;
  if (!active) return "i";
  if (active[0] === "(") return matchOf(active) > 0 ? "(" : "u";
  if (/^\\x0[da9]/.test(active)) return "w";
  if (active[0] === ",") return state.isWithin ? "," : ";";
  if (active[0] === "#") return active.startsWith("##(") ? "n" : active.startsWith("#(") ? "a" : "#";
  if (active[0] === ")") return state.isWithin ? "p" : ")";
  return "x";
}

// Where the parenthesis that matches the first sign stands, or 0.
/** @param {string} text */
function matchOf(text) {
  const signs = /[()]/g;
  let depth = 0;
  for (let found = signs.exec(text); found; found = signs.exec(text)) {
    depth += found[0] === "(" ? 1 : -1;
    if (depth === 0) return found.index;
  }
  return 0;
}

// How many bytes stand in front that are only moved, one a step.
/** @param {string} active */
export function plainRun(active) {
  const end = active.search(/[(),#]|\\x0[da9]/);
  return lengthOf(end < 0 ? active : active.slice(0, end));
}

/**
 * A step: its rule, what it took, moved and put, what it printed, and the call that it performed, with its value.
 * @typedef {object} Move
 * @property {string} rule
 * @property {string} taken
 * @property {string} put
 * @property {string} moved
 * @property {string} printed
 * @property {Begun | null} call
 * @property {string} grown what was put at the end of the scanned text
 * @property {string} value
 * @property {boolean} scanned whether the value is scanned
 * @property {boolean} isLast whether the call is the idle program's
 * @property {string} [form] the form that a call reads, if the call left it as it was
 * @property {{ call: Begun, index: number }} [ended]
 * @property {Word[]} [words]
 */

/**
 * The step from a state to the next.
 * @param {State} before
 * @param {State} after
 * @returns {Move}
 */
export function moveFrom(before, after) {
  const rule = ruleOf(before);
  const active = before.active;
  /** @type {Move} */
  const move = {
    rule, taken: "", put: "", moved: "", printed: "", call: null, grown: "", value: "", scanned: false, isLast: false,
  };
  if (rule === "i") move.put = after.active;
  if (rule === "(") {
    move.taken = active.slice(0, matchOf(active) + 1);
    move.moved = move.taken.slice(1, -1);
  }
  if (rule === "u") [move.taken, move.moved] = [active, active.slice(1)];
  if (rule === "w") move.taken = active.slice(0, 4);
  if (rule === "," || rule === ";" || rule === ")") move.taken = active[0];
  if (rule === ",") move.ended = endedBy(before.parts.calls);
  if (rule === "a" || rule === "n") move.taken = rule === "a" ? "#(" : "##(";
  if (rule === "#") move.taken = move.moved = "#";
  if (rule === "x") move.taken = move.moved = active[0] === "\\" ? active.slice(0, 4) : active[0];
  if (rule === "p") performed(move, before, after);
  return move;
}

// The argument that is gathered.
/** @param {Begun[]} calls */
function endedBy(calls) {
  const call = calls[calls.length - 1];
  return { call, index: call.texts.length - 1 };
}

// The call that a step performs, with its value: before the active text, or at the end of the current text.
/** @param {Move} move @param {State} before @param {State} after */
function performed(move, before, after) {
  const [old, now] = [before.parts, after.parts];
  move.taken = ")";
  // (the last sign that is not scanned yet is always the idle program's)
  move.isLast = old.active === ")";
  const call = old.calls[old.calls.length - 1];
  move.call = call;
  move.put = now.active.slice(0, now.active.length - (old.active.length - 1));
  move.scanned = move.put !== "" || !call.neutral;
  const outer = currentOf({ base: old.base, calls: old.calls.slice(0, -1) });
  move.grown = move.scanned ? "" : currentOf(now).slice(outer.length);
  move.value = move.scanned ? move.put : move.grown;
  move.printed = now.output.slice(old.output.length);
  if (isReader(call)) move.form = formLeft(call, before, after);
}

// The text of the form that a call names, if the call left it as it was.
/** @param {Called} call @param {State} before @param {State} after */
function formLeft({ texts }, before, after) {
  const [was, is] = [before, after].map((state) => formIn(state, texts[1] ?? ""));
  return was === is ? was : undefined;
}

// Why the debugger takes no step from a state: it waits for input, or halts, or something was refused.
/** @param {State} state */
export function standOf(state) {
  const { calls, active } = state.parts;
  const name = ruleOf(state) === "p" ? calls[calls.length - 1].texts[0].toLowerCase() : "";
  if (name === "hl") return "halts";
  if (name !== "rs" && name !== "rc") return "refused";
  const isIdle = calls.length === 2 && name === "rs" && active === "))" && calls[0].texts.join() === "ps,";
  return isIdle ? "done" : "waits";
}
