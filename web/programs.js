// Programs come into the page: of a file, of the page itself, by a link; and go to a file.
import { grouped } from "./bytes.js";
import { unpackedText } from "./engine.js";
import { BUDGET } from "./measure.js";
import { byId, make } from "./elements.js";
import { legible } from "./unseen.js";

// The most bytes that a program may have. A longer file is not even read: a tab has no room for any size.
const MOST_BYTES = 33554432;
// how often something was asked for
let asked = 0;
/** @type {Promise<unknown>} what is opened, up to what was asked for last */
let opening = Promise.resolve();

// Takes what is to be opened in its turn: so what was asked for last stands in the editor, however long each takes, and
// what was there can be brought back. Where that is kept nowhere, it is asked first. (A file that is read may never
// come: it is opened only if nothing else was asked for meanwhile.)
/** @param {Page} page @param {() => Promise<unknown>} does */
export function inTurn(page, does) {
  asked++;
  const done = opening.then(async () => await page.draft.mayGo() && does());
  opening = done.catch(() => {});
  return done;
}

/** @param {Page} page @param {File | undefined} file */
async function openFile(page, file) {
  if (!file) return;
  if (file.size > MOST_BYTES) {
    const most = `a program may have at most ${grouped(MOST_BYTES)}`;
    refuseFile(page, `${legible(file.name)} has ${grouped(file.size)} bytes: ${most}. Nothing is opened.`);
    return;
  }
  const own = ++asked, buffer = await file.arrayBuffer().catch(() => null);
  if (own !== asked) return;
  if (buffer) await inTurn(page, async () => page.open({ name: file.name, bytes: new Uint8Array(buffer) }));
  else refuseFile(page, `${legible(file.name)} cannot be read. Nothing is opened.`);
}

// Says that a file is not opened.
/** @param {Page} page @param {string} words */
function refuseFile(page, words) {
  page.view.showWords(words);
  page.announcer.say("ending", words);
}

// Writes the program to a file, by a link that is pressed.
/** @param {Page} page */
function saveProgram(page) {
  const link = make("a");
  link.href = URL.createObjectURL(new Blob([page.editor.bytes()], { type: "application/octet-stream" }));
  link.download = page.editor.name;
  link.click();
  setTimeout(() => URL.revokeObjectURL(link.href), 1000);
  page.draft.saved();
}

/** @param {Page} page */
export function startFiles(page) {
  const file = byId("file");
  file.addEventListener("change", async () => {
    await openFile(page, file.files?.[0]);
    file.value = "";
  });
  byId("save").addEventListener("click", () => saveProgram(page));
  const drop = byId("drop");
  // (a text that is dragged is no file: the editor takes it)
  /** @param {DragEvent} event */
  const isFile = (event) => event.dataTransfer?.types.includes("Files") ?? false;
  addEventListener("dragover", (event) => {
    if (!isFile(event)) return;
    event.preventDefault();
    drop.hidden = false;
  });
  addEventListener("dragleave", (event) => {
    if (!event.relatedTarget) drop.hidden = true;
  });
  addEventListener("drop", (event) => {
    if (!isFile(event)) return;
    event.preventDefault();
    drop.hidden = true;
    openFile(page, event.dataTransfer?.files[0]);
  });
}

// How many steps a run may take at least that comes to a step, if one is said.
/** @param {number | null} step */
export function budgetTo(step) {
  return BUDGET * Math.max(Math.ceil((step ?? 0) / BUDGET), 1);
}

// Runs a program, and goes to the step that a link or a page is to, if there is one; unless another run is shown by
// then.
/** @param {Page} page @param {Wanted & { step: number | null }} wanted @param {string} who */
export async function performTo(page, { program, inputs, isClosed, step, budget }, who) {
  const run = await page.runs.perform({ program, inputs, isClosed, budget, isNew: true });
  if (!run || run !== page.run || step === null) return;
  await page.cursor.visit(step);
  if (step > run.end && run === page.run) {
    page.view.note(`${who} is to step ${grouped(step)}, and the run ends before it`);
  }
}

// Runs what was put into the page, and goes to its step, or stays at the end. It is not kept for the next time.
/** @param {Page} page @param {import("./given.js").Given} given */
export async function openGiven(page, { name, program, input, step, budget }) {
  const [bytes, read] = await Promise.all([program, input].map(unpackedText));
  const inputs = read.length ? [{ step: 0, bytes: read }] : [];
  document.title = `${name}: TRAC`;
  if (!await page.draft.mayGo()) return;
  page.open({ name, bytes }, true);
  const wanted = { program: bytes, inputs, isClosed: false, step, budget: budget ?? budgetTo(step) };
  await performTo(page, wanted, "the page");
}
