// A byte followed back by the processor: the calls on its way, the latest first, and how it ends.
import { bytesOf } from "./bytes.js";
import { KINDS, sourceOf, stoodAt } from "./earlier.js";
import { NotUnderstood } from "./replies.js";

/** @typedef {import("./earlier.js").Spot} Spot */

/**
 * A row of a way: a step, what was done with the byte there, and from where it was followed to that, or which byte of
 * all input it is. Where many are left out, one stands for them.
 * @typedef {{ step: number, deed: string, spot?: Spot, byte?: number, left?: number, state?: State }} Row
 */

/** @type {Record<string, string>} */
const DEEDS = {
  prints: "prints", sets: "sets", gives: "gives", nothing: "nothing", made: "makes", read: "reads", earlier: "there",
};

// A row: its step, what was done, and where; where that is a form, its name follows.
const ROW = new RegExp("(\\d+) (prints|sets|gives|made|read|earlier|nothing)"
  + "((?: (?:output|active|base|argument|form|held))?(?: \\d+)*)( |\n)", "y");

/**
 * The way of a byte that stands at a place of the state after a step, without a limit but time: where the processor
 * keeps no more steps, the byte is followed on from there. (A byte of the output is followed from where it was there
 * first, or soon after.)
 * @param {Page} page
 * @param {string} place
 * @param {number} at
 * @param {number} number
 * @param {Engine} engine
 * @param {() => boolean} isWanted
 */
export async function followed(page, place, at, number, engine = page.engine, isWanted = () => true) {
  const run = /** @type {Run} */ (page.run);
  const marks = place === "output" ? run.landmarks : [];
  const step = marks.find((mark) => mark.step <= at && mark.printed > number)?.step ?? at;
  return wayFrom(engine, run, step, await spotOf(run, place, step, number), isWanted);
}

/**
 * The same of a place in the words of the module.
 * @param {Engine} engine
 * @param {Run} run
 * @param {number} step
 * @param {Spot} spot
 * @param {() => boolean} isWanted
 */
export async function wayFrom(engine, run, step, spot, isWanted = () => true) {
  const rows = await wayOf(engine, run, step, spot);
  /** @type {Row[]} */
  const passed = [];
  for (let [at, place] = [step, spot]; ;) {
    const last = /** @type {Row} */ (rows.pop());
    const ends = () => [...passed, ...rows, last];
    if (last.deed !== "there" || last.step === 0 || !isWanted()) return ends();
    const next = await onFrom(engine, run, at, place, rows, last.step);
    if (!next || next.step >= at) return ends();
    [at, place] = [next.step, next.spot];
    // (a call to which it goes back is met again)
    if (next.step <= (rows.at(-1)?.step ?? 0)) passed.push(...rows);
    else passed.push(...rows.slice(0, -1));
      rows.splice(0, rows.length, ...await wayOf(engine, run, at, place));
  }
}

/**
 * From where a byte is followed on: from before the last call but one that passed it on; if only one did, from before
 * that; or, if none did, from the first step that is kept.
 * @param {Engine} engine
 * @param {Run} run
 * @param {number} step
 * @param {Spot} spot
 * @param {Row[]} rows
 * @param {number} early
 */
async function onFrom(engine, run, step, spot, rows, early) {
  // (of states that are large no more are fetched than are shown)
  if (!run.story.isSmall) return null;
  const [last, later] = [rows.at(-1), rows.at(-2)];
  if (!last) {
    const stood = await stoodAt(engine, run, early, step, spot);
    return stood && { ...stood };
  }
  if (later) return last.spot ? { step: later.step, spot: last.spot } : null;
  const stood = last.step + 1 < step ? await stoodAt(engine, run, last.step + 1, step, spot) : { step, spot };
  if (stood?.step !== last.step + 1) return stood && { ...stood };
  const states = await run.story.at([last.step, last.step + 1]);
  const [before, after] = [0, 1].map((more) => /** @type {State} */ (states.get(last.step + more)));
  const source = sourceOf(before, after, stood.spot);
  return source && { step: last.step, spot: source };
}

/**
 * A place that the page shows, in the words of the module.
 * @param {Run} run
 * @param {string} place
 * @param {number} step
 * @param {number} number
 * @returns {Promise<Spot>}
 */
async function spotOf(run, place, step, number) {
  const [kind, ...words] = place.split(" ");
  const numbers = words.map(Number);
  let name = new Uint8Array(0);
  if (kind === "form" || kind === "held") {
    const { forms, blocks } = /** @type {State} */ ((await run.story.at([step])).get(step)).parts;
    const [block, held] = numbers.splice(0);
    name = bytesOf((kind === "form" ? forms[block] : blocks[block].forms[held]).name);
    if (kind === "held") numbers.push(blocks[block].number);
  }
  return { kind: KINDS[/** @type {keyof typeof KINDS} */ (kind)], numbers: [...numbers, number], name };
}

/**
 * The way of a byte as far as the processor keeps steps.
 * @param {Engine} engine
 * @param {Run} run
 * @param {number} step
 * @param {Spot} spot
 */
async function wayOf(engine, run, step, { kind, numbers, name }) {
  const request = { step, kind, numbers: [...numbers, 0, 0].slice(0, 3), name };
  const { status, bytes } = await engine.ask("way", run.tape, request, 1 << 16);
  if (status !== 0) throw new NotUnderstood(`the way of this byte has status ${status}`);
  return wayRows(bytes);
}

/**
 * The rows of a way. The name of a form may have any bytes: it is passed over by its length.
 * @param {Uint8Array} bytes
 */
function wayRows(bytes) {
  const text = new TextDecoder("latin1").decode(bytes);
  /** @type {Row[]} */
  const rows = [];
  for (let at = 0; at < text.length;) {
    const row = new RegExp(ROW);
    row.lastIndex = at;
    const found = row.exec(text);
    if (!found) throw new NotUnderstood("a row of a way");
    at = row.lastIndex;
    let name = new Uint8Array(0);
    if (found[4] === " ") {
      const length = Number(/\d+$/.exec(found[3])?.[0]);
      name = bytes.slice(at, at + length);
      at += length + 1;
    }
    rows.push(wayRow(found, name));
  }
  if (rows.length === 0 || rows[rows.length - 1].deed === "nothing") throw new NotUnderstood("nothing stands there");
  return rows;
}

/**
 * @param {RegExpExecArray} found
 * @param {Uint8Array} name
 * @returns {Row}
 */
function wayRow([, step, deed, rest], name) {
  const row = { step: Number(step), deed: DEEDS[deed] };
  const [kind, ...words] = rest.trim().split(" ");
  if (deed === "read") return { ...row, byte: Number(kind) };
  if (!Object.hasOwn(KINDS, kind)) return row;
  const numbers = words.map(Number);
  // (the length of the name comes last)
  if (kind === "form" || kind === "held") numbers.pop();
  return { ...row, spot: { kind: KINDS[/** @type {keyof typeof KINDS} */ (kind)], numbers, name } };
}
