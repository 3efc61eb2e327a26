// Where a byte stood earlier: at a step before which the processor keeps none, so that it is followed on from there. A
// call that passed it on had it from an argument or a form; scanning moved it. Where that is not certain, nothing is
// said.
import { bytesOf, lengthOf } from "./bytes.js";
import { beginOf } from "./anew.js";
import { moveFrom } from "./moves.js";

/**
 * A place of a state: its kind, as the module numbers them, its numbers, and the name of its form.
 * @typedef {{ kind: number, numbers: number[], name: Uint8Array }} Spot
 */

export const KINDS = { output: 0, active: 1, base: 2, argument: 3, form: 4, held: 5 };
const NO_NAME = new Uint8Array(0);
const POINTER = "<^>";
// Calls whose value is of a form.
const OF_FORMS = new Set(["cl", "cs", "cc", "cn", "in"]);
// So many states are looked at at once, and out of so many calls it is looked how far they go back.
const PROBES = 15;
const MOST_BEGUN = 40;

/** @type {(byte: number) => Spot} */
const inActive = (byte) => ({ kind: KINDS.active, numbers: [byte], name: NO_NAME });

/** @param {State} state */
const activeLength = (state) => lengthOf(state.active);

/**
 * Where a byte was before a call that passed it on: in an argument, or in a form. `spot` is where it is after that.
 * @param {State} before
 * @param {State} after
 * @param {Spot} spot
 * @returns {Spot | null}
 */
export function sourceOf(before, after, spot) {
  const move = moveFrom(before, after);
  if (!move.call) return null;
  const { texts } = move.call;
  /** @type {(place: number, byte: number) => Spot} */
  const inArgument = (place, byte) => {
    const numbers = [before.parts.calls.length - 1, place, byte];
    return { kind: KINDS.argument, numbers, name: NO_NAME };
  };
  const name = texts[0].toLowerCase();
  if (spot.kind === KINDS.output) {
    const isIt = name === "ps" && move.printed === texts[1];
    return isIt ? inArgument(1, spot.numbers[0] - before.parts.printed) : null;
  }
  if (spot.kind === KINDS.form) {
    const form = formOf(after, spot.name);
    return name === "ds" && form && form.text === POINTER + texts[2] ? inArgument(2, spot.numbers[0]) : null;
  }
  const byte = byteOfValue(move, after, spot);
  if (byte === null) return null;
  if (OF_FORMS.has(name) && (name === "cl" || move.form === undefined)) {
    return placesOf(before, move, inArgument)?.[byte] ?? null;
  }
  const places = texts.map((text, place) => (place > 0 && text === move.value ? place : 0)).filter((place) => place);
  const branch = name === "eq" ? places.filter((place) => place === (texts[1] === texts[2] ? 3 : 4)) : places;
  return branch.length === 1 ? inArgument(branch[0], byte) : null;
}

/**
 * Which byte of the value of a call stands at a place after it.
 * @param {Move} move
 * @param {State} after
 * @param {Spot} spot
 */
function byteOfValue(move, after, { kind, numbers }) {
  const length = lengthOf(move.value);
  const { base, calls } = after.parts;
  const [function_, argument, at] = numbers;
  const text = kind === KINDS.base ? base : calls[function_]?.texts[argument] ?? "";
  const start = kind === KINDS.active ? 0 : lengthOf(text) - length;
  const byte = (kind === KINDS.argument ? at : numbers[0]) - start;
  return byte >= 0 && byte < length ? byte : null;
}

/**
 * A form of this name.
 * @param {State} state
 * @param {Uint8Array} name
 */
function formOf(state, name) {
  return state.parts.forms.find((form) => String(bytesOf(form.name)) === String(name));
}

/**
 * The items of a form as they are shown: bytes, as they stand there, and gaps by their numbers; and how many stand
 * before its pointer.
 * @param {string} text
 */
function itemsOf(text) {
  /** @type {{ byte?: string, gap?: number }[]} */
  const items = [];
  let pointer = 0;
  for (const [part, gap] of text.matchAll(/<\^>|<(\d+)>|\\x..|./gs)) {
    if (part === POINTER) pointer = items.length;
    else items.push(gap ? { gap: Number(gap) } : { byte: part });
  }
  return { items, pointer };
}

/**
 * Where each byte of a value was that is of a form: in the form, or in an argument for a gap. Nothing where the value
 * is another than these give: the form may have text that looks like a gap.
 * @param {State} before
 * @param {Move} move
 * @param {(place: number, byte: number) => Spot} inArgument
 * @returns {Spot[] | null}
 */
function placesOf(before, move, inArgument) {
  const { texts } = /** @type {Begun} */ (move.call);
  const name = bytesOf(texts[1] ?? "");
  const form = formOf(before, name);
  if (!form) return null;
  const { items, pointer } = itemsOf(form.text);
  const isWhole = texts[0].toLowerCase() === "cl";
  /** @type {Spot[]} */
  const places = [];
  let said = "";
  for (let at = pointer; at < items.length && (isWhole || said.length < move.value.length); at++) {
    const { byte, gap } = items[at];
    const text = byte ?? (isWhole ? texts[1 + Number(gap)] ?? "" : "");
    said += text;
    for (let index = 0; index < lengthOf(text); index++) {
      places.push(byte === undefined ? inArgument(1 + Number(gap), index) : { kind: KINDS.form, numbers: [at], name });
    }
  }
  return said === move.value ? places : null;
}

/**
 * Where a byte was at an earlier step, or as early as that is certain, if no call passed it on since then.
 * @param {Engine} engine
 * @param {Run} run
 * @param {number} early
 * @param {number} step
 * @param {Spot} spot
 * @returns {Promise<{ step: number, spot: Spot } | null>}
 */
export async function stoodAt(engine, run, early, step, spot) {
  const states = await run.story.at([early, step]);
  const [was, is] = [early, step].map((one) => /** @type {State} */ (states.get(one)));
  if (spot.kind === KINDS.output) return { step: early, spot };
  if (spot.kind === KINDS.form) return inForm(run, early, step, spot);
  if (spot.kind === KINDS.active) return stillToScan(was, early, activeLength(is) - spot.numbers[0]);
  return spot.kind === KINDS.argument ? gathered(engine, run, early, step, spot) : null;
}

/**
 * The same of a form: since when it is as it is at a step, but for its pointer; or where the byte was before that. (It
 * is the same form all the time, so only `ss` has changed it, after which it is never again as it was.)
 * @param {Run} run
 * @param {number} early
 * @param {number} step
 * @param {Spot} spot
 */
async function inForm(run, early, step, spot) {
  /** @param {State | undefined} state */
  const textIn = (state) => state && formOf(state, spot.name)?.text.replace(POINTER, "");
  const states = await run.story.at([early, step]);
  const now = textIn(states.get(step));
  if (textIn(states.get(early)) === now) return { step: early, spot };
  const { from, to } = await firstWith(run, early, step, (state) => textIn(state) === now);
  if (to < step) return { step: to, spot };
  const around = await run.story.at([from, to]);
  const [before, after] = [from, to].map((one) => /** @type {State} */ (around.get(one)));
  const item = itemBefore(before, after, spot);
  return item === null ? null : { step: from, spot: { ...spot, numbers: [item] } };
}

/**
 * The number of an item of a form before `ss` cut it: where there is a gap now, and was none, its text stood.
 * @param {State} before
 * @param {State} after
 * @param {Spot} spot
 */
function itemBefore(before, after, spot) {
  const texts = moveFrom(before, after).call?.texts ?? [];
  const [old, now] = [before, after].map((state) => itemsOf(formOf(state, spot.name)?.text ?? "").items);
  let at = 0;
  for (const { gap } of now.slice(0, spot.numbers[0])) {
    const text = gap !== undefined && old[at]?.byte !== undefined ? texts[1 + gap] ?? "" : null;
    const length = text === null ? 1 : lengthOf(text);
    if (text !== null && old.slice(at, at + length).map(({ byte }) => byte).join("") !== text) return null;
    at += length;
  }
  return old[at]?.byte === now[spot.numbers[0]]?.byte ? at : null;
}

/**
 * The first step of which something holds, and the one before: it does not hold of the first of these, and from where
 * it holds it does up to the last.
 * @param {Run} run
 * @param {number} from
 * @param {number} to
 * @param {(state: State | undefined) => boolean} holds
 */
async function firstWith(run, from, to, holds) {
  while (to - from > 1) {
    const stride = Math.max(Math.ceil((to - from) / (PROBES + 1)), 1);
    const steps = Array.from({ length: PROBES }, (_, index) => from + (index + 1) * stride).filter((one) => one < to);
    const states = await run.story.at(steps);
    const first = steps.find((one) => holds(states.get(one))) ?? to;
    from = steps.filter((one) => one < first).at(-1) ?? from;
    to = first;
  }
  return { from, to };
}

/**
 * The place of a byte that is not scanned yet, which stands so far before the end of that.
 * @param {State} state
 * @param {number} step
 * @param {number} rest
 */
function stillToScan(state, step, rest) {
  const byte = activeLength(state) - rest;
  return byte >= 0 ? { step, spot: inActive(byte) } : null;
}

/**
 * Where a byte of an argument was at an earlier step: there already, or in what was not scanned yet. Of that none but
 * those in front are ever taken.
 * @param {Engine} engine
 * @param {Run} run
 * @param {number} early
 * @param {number} step
 * @param {Spot} spot
 */
async function gathered(engine, run, early, step, spot) {
  const [depth, argument, byte] = spot.numbers;
  const begun = await beginAt(engine, run, step, depth);
  if (begun === null) return null;
  /** @param {State | undefined} state */
  const isThere = (state) => lengthOf(state?.parts.calls[depth]?.texts[argument] ?? "") > byte;
  const was = /** @type {State} */ ((await run.story.at([early])).get(early));
  if (begun < early && isThere(was)) return { step: early, spot };
  const { from, to } = await firstWith(run, Math.max(begun, early), step, isThere);
  const states = await run.story.at([from, to]);
  const [before, after] = [from, to].map((one) => /** @type {State} */ (states.get(one)));
  const move = moveFrom(before, after);
  if (move.call || !move.moved) return null;
  const old = lengthOf(before.parts.calls[depth]?.texts[argument] ?? "");
  const front = move.moved === move.taken ? 0 : 1;
  return stillToScan(was, early, activeLength(before) - front - (byte - old));
}

/**
 * The step where the begun call began that so many others stand around, or nothing.
 * @param {Engine} engine
 * @param {Run} run
 * @param {number} step
 * @param {number} depth
 */
async function beginAt(engine, run, step, depth) {
  /** @type {number | null} */
  let at = step;
  for (let left = MOST_BEGUN; at !== null && left > 0; left--) {
    const state = (await run.story.at([at])).get(at);
    if (!state || state.parts.calls.length <= depth) return at < step ? at : null;
    at = await beginOf(engine, run, at);
  }
  return null;
}
