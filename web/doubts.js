// What a program does that a person is unlikely to have meant, as the processor tells it.
import { grouped } from "./bytes.js";
import { doubtSign } from "./words.js";
import { placeOf } from "./way.js";
import { buttonOf, byId, make } from "./elements.js";
import { formsSet, remedied } from "./remedies.js";

// So many doubts are listed.
const MOST_DOUBTS = 30;
// All rows of doubts have room in so many bytes: there are 1,000 at most.
const ROOM_OF_DOUBTS = 1 << 18;

const ENDS_NOTHING = ") ends no call";

/**
 * What is doubted: at a step, or of the text of the program; the byte where it stands, and the one before which it
 * ends; what is said of it, and beside that.
 * @typedef {{ step: number | null, byte: number, end?: number, words: string, notes?: string[] }} Doubt
 */

/**
 * The doubts of a run, by the steps, each once for each place: rows of the line and the column in all of the input, the
 * words, and the step.
 * @param {Uint8Array} bytes
 * @param {Uint8Array} tape
 * @returns {Doubt[]}
 */
function doubtsSaid(bytes, tape) {
  /** @type {(Doubt & { notes: string[] })[]} */
  const doubts = [];
  const rows = new TextDecoder().decode(bytes).split("\n");
  const starts = startsOf(tape, rows.map((row) => Number(/^:(\d+):/.exec(row)?.[1] ?? 1)));
  /** @param {string} line @param {string} column */
  const place = (line, column) => (starts.get(Number(line)) ?? 0) + Number(column) - 1;
  for (const row of rows) {
    const found = /^:(\d+):(\d+): (.+) \(step (\d+)\)$/.exec(row);
    if (found) doubts.push({ step: Number(found[4]), byte: place(found[1], found[2]), words: found[3], notes: [] });
    // (a note goes on with the doubt before it)
    const note = /^:(\d+):(\d+): note: (?:(.+) here|this (.) (.+))$/.exec(row);
    const doubt = doubts.at(-1);
    if (!note || !doubt) continue;
    doubt.notes.push(noteSaid(note, isWithinWords(tape, place(note[1], note[2]))));
    // (else it stands where its text begins)
    if (note[4] && doubt.words === ENDS_NOTHING) doubt.byte = place(note[1], note[2]);
  }
  return doubts;
}

// Whether an apostrophe stands there before more words, and so ended a text where it was hardly meant to.
/** @param {Uint8Array} bytes @param {number} at */
function isWithinWords(bytes, at) {
  return bytes[at] === 39 && /^[ \t]*[A-Za-z]/.test(String.fromCharCode(...bytes.subarray(at + 1, at + 20)));
}

// What a note adds to the words of a doubt: which parenthesis may be wrong, where a form of nearly the name is defined,
// or that an apostrophe ended the text.
/** @param {string[]} note @param {boolean} isApostrophe */
function noteSaid(note, isApostrophe) {
  const [, line, column, missing, surplus, why] = note;
  const where = `line ${line}, column ${column}`;
  if (isApostrophe && missing === "a ) may be missing") return `the ' at ${where} ended its text`;
  return missing ? `${missing} at ${where}` : `the ${surplus} at ${where} ${why}`;
}

// The doubts of a run, as trac-lint finds them.
/** @param {Engine} engine @param {Run} run */
export async function doubtsOf(engine, run) {
  const { bytes } = await engine.ask("doubts", run.tape, { budget: Math.max(run.end, 1) }, ROOM_OF_DOUBTS);
  return doubtsSaid(bytes, run.tape).filter(({ step }) => step !== null && step < run.end);
}

// Where lines begin that are counted from 1. (All are found on one way: there may be millions.)
/** @param {Uint8Array} bytes @param {number[]} lines */
function startsOf(bytes, lines) {
  /** @type {Map<number, number>} */
  const starts = new Map();
  let line = 1, start = 0;
  for (const wanted of [...lines].sort((one, other) => one - other)) {
    for (; line < wanted && start < bytes.length; start++) if (bytes[start] === 10) line++;
    starts.set(wanted, start);
  }
  return starts;
}

// Says of the last step and of the next one what was hardly meant.
/** @param {Page} page */
export function markDoubts({ tree, cursor: { step } }) {
  for (const of of [step - 1, step]) {
    const place = byId(of < step ? "last" : "next");
    const words = tree.doubts.get(of);
    place.querySelector(".doubt")?.remove();
    if (words) place.append(doubtSign(words));
  }
}

// Lists the first doubts, each as a link to its step, marks all of them in the program, and each under its call. Hints
// of the page have no step. Until they are known there is no number of them.
/** @param {Page} page @param {Doubt[] | null} told */
export function showDoubts(page, told) {
  const { shownRun: run } = page;
  page.tree.doubts = new Map();
  const forms = formsSet(run, page.tree.calls);
  const doubts = (told ?? []).map((doubt) => remedied(doubt, page, forms));
  for (const { step, words } of doubts) {
    if (step === null) continue;
    const said = page.tree.doubts.get(step);
    page.tree.doubts.set(step, said ? `${said}; ${words}` : words);
  }
  page.tree.draw();
  markDoubts(page);
  /** @param {Doubt} doubt */
  const isInProgram = ({ byte }) => byte < run.program.length;
  const inProgram = page.isStale ? [] : doubts.filter(isInProgram);
  page.editor.light("doubtful", inProgram.map(({ byte, end = byte + 1 }) => [byte, end]), false);
  page.tabs.count("doubts", told ? grouped(doubts.length) : "", doubts.length > 0);
  // (the tab may be out of the window: beside the output they are told, too)
  const button = byId("doubted");
  button.hidden = doubts.length === 0;
  button.textContent = `${grouped(doubts.length)} ${doubts.length === 1 ? "doubt" : "doubts"}`;
  button.onclick = () => {
    page.tabs.choose("doubts");
    byId("tab-doubts").focus();
  };
  const none = told ? "Nothing is done that was probably not meant." : "What was probably not meant is looked for ..";
  byId("doubts-hint").textContent = doubts.length ? "What was probably not meant." : none;
  byId("doubts").replaceChildren(...doubts.slice(0, MOST_DOUBTS).map((doubt) => {
    const { step, byte, words } = doubt;
    const row = make("p", "way-row");
    if (step !== null) row.append(buttonOf(`step ${grouped(step)}`, () => page.cursor.visit(step)));
    row.append(make("span", "doubt", words));
    if (isInProgram(doubt)) row.append(placeOf(page, byte));
    return row;
  }));
  const more = doubts.length - MOST_DOUBTS;
  if (more > 0) byId("doubts").append(make("p", "note", `and ${grouped(more)} more`));
}
