// What the page shows: a run with its output and its end, and of the step where the cursor is the sentences, the text,
// and what stands beside it.
import { grouped, leftOut, lengthOf, lineAndColumn, showFramed } from "./bytes.js";
import { addCells } from "./cells.js";
import { isDoubtfulForm, showBegun, showBlocks, showForms, showRest } from "./panels.js";
import { showActive, showScanned } from "./tape.js";
import { endingSaid } from "./announce.js";
import { Refused, Stopped, wordsOf } from "./engine.js";
import { NotUnderstood } from "./replies.js";
import { lastOf, nextOf } from "./stretch.js";
import { showSentences } from "./sentences.js";
import { endingOf } from "./endings.js";
import { showOutput, startOfSign } from "./output.js";
import { NO_CALLS } from "./calls.js";
import { followed } from "./follow.js";
import { markDoubts, showDoubts } from "./doubts.js";
import { keepFocus, setOff } from "./focus.js";
import { buttonOf, byId, focused } from "./elements.js";

// So much input is shown.
const MOST_GIVEN = 400;
// So many begun calls are shown, and so many signs of an argument, of a form, and on each side of the mark.
const MOST_SHOWN = { side: 300, boxes: 12, mostOfCall: 400, mostOfForm: 2000 };
// After so many milliseconds an answer can be stopped, and after so many it is said that a run goes on.
const LATE = 300;
const SAID_LATE = 1500;
export const CHANGED = "changed since the run";

export class View {
  /** @param {Page} page */
  constructor(page) {
    this.page = page;
    // which of the output is shown: all of it up to a byte, and by what it is known whether that is there already
    /** @type {Uint8Array | null} */
    this.output = null;
    /** @type {string | null} */
    this.outputKey = null;
    /** @type {number | undefined} */
    this.outputTo = undefined;
    this.hint = "click a character to see where it comes from";
    // the step where the idle program was explained, and whether bytes of forms may look like gaps
    /** @type {number | undefined} */
    this.idleTold = undefined;
    this.hasMarks = false;
    this.isBusy = false;
    this.isLighting = false;
    // which step is to be lit
    this.lightWanted = { step: 0 };
    /** @type {ReturnType<typeof setTimeout> | undefined} */
    this.late = undefined;
    /** @type {ReturnType<typeof setTimeout> | undefined} */
    this.saying = undefined;
    /** @type {HTMLElement | null} what had the focus before the help */
    this.beforeHelp = null;
  }

  redraw() {
    return this.page.cursor.redraw();
  }

  // Shows what the run came to.
  shown() {
    const { shownRun: run, tree, timeline, isStale } = this.page;
    for (const id of ["player", "panels"]) byId(id).hidden = false;
    byId("welcome").hidden = true;
    const { end, output } = run;
    byId("slider").max = String(end);
    byId("of-steps").textContent = `of ${grouped(end)}`;
    showOutput(this, output, output.length, 0, end);
    byId("program-note").textContent = isStale ? CHANGED : "";
    showDoubts(this.page, null);
    tree.note = "";
    tree.show(NO_CALLS);
    timeline.show(tree.calls, end);
    byId("repeats").hidden = true;
  }

  // Nothing of a run is shown.
  clear() {
    const { page } = this;
    page.run?.story.letGo();
    page.run = null;
    if (page.big.isOn) page.big.leave();
    for (const id of ["player", "panels", "given", "input-form", "repeats"]) byId(id).hidden = true;
    byId("output").replaceChildren();
    this.outputKey = null;
    for (const id of ["output-note", "program-note"]) byId(id).textContent = "";
    for (const name of ["lit", "doubtful"]) page.editor.light(name, []);
  }

  // Says how the run ended, after other words, if there are any; and where the cursor is, if that is not the end. What
  // can be done about it stands beside it.
  showEnding(lead = "") {
    const ending = byId("ending");
    const { words, isGood, mend } = endingOf(this.page);
    ending.textContent = ending.dataset.words = lead + words;
    ending.classList.toggle("good", isGood && lead === "");
    this.page.announcer.say("ending", endingSaid(lead + words, this.page.shownRun.output));
    if (mend) ending.append(buttonOf(mend.words, mend.does));
    this.showGiven();
  }

  // Elsewhere than at the end of the run it is said where, too. What can be done about the end is not offered there.
  showWhere() {
    const ending = byId("ending");
    const { shownRun: { end }, cursor: { step } } = this.page;
    if (!ending.dataset.words) return;
    const lead = step < end ? `Step ${grouped(step)} of ${grouped(end)} is shown. At the end: ` : "";
    const words = ending.dataset.words;
    const shown = lead ? lead + words[0].toLowerCase() + words.slice(1) : words;
    const text = ending.firstChild;
    if (text?.nodeType === Node.TEXT_NODE && text.nodeValue !== shown) text.nodeValue = shown;
    ending.classList.toggle("away", lead !== "");
  }

  // Says something in place of how a run ended.
  /** @param {string} words */
  showWords(words) {
    const ending = byId("ending");
    ending.textContent = words;
    delete ending.dataset.words;
    ending.classList.remove("good", "away");
  }

  // Shows the end of what came as input after the program.
  showGiven() {
    const { tape, program } = this.page.shownRun;
    const given = tape.subarray(program.length);
    const text = byId("given-text");
    byId("given").hidden = given.length === 0;
    const first = startOfSign(given, Math.max(given.length - MOST_GIVEN, 0));
    text.replaceChildren(...(first > 0 ? [leftOut(first)] : []));
    addCells(text, given.subarray(first), first);
  }

  // Shows a state, with what the last step did and the next one does.
  /** @param {Around} states */
  draw(states) {
    const { page } = this;
    const { shownRun: run, cursor, tree, big } = page;
    const last = lastOf(page, states), next = nextOf(page, states);
    const { before, at } = states;
    const { step } = cursor;
    const move = last?.move;
    const parts = at.parts;
    cursor.read = parts.position;
    byId("input-form").hidden = !page.runs.takesInput;
    showSentences(step, last, next, endingOf(page).next, states);
    markDoubts(page);
    showScanned(parts, move, { ...MOST_SHOWN, step });
    showActive(parts, move, next?.move, { ...MOST_SHOWN, step });
    this.drawPanels(parts, before?.parts, step);
    showOutput(this, run.output, parts.printed, move ? lengthOf(move.printed) : 0, step);
    tree.mark(step);
    this.showPlace();
    for (const id of ["start", "back", "over-back", "begin"]) setOff(byId(id), step === 0);
    for (const id of ["end", "forward", "over", "out"]) setOff(byId(id), step === run.end);
    this.showWhere();
    // (this has the browser lay out the page at once)
    if (big.isOn) big.bring();
    this.light(step);
  }

  // Shows the number of the step.
  showPlace() {
    const { shownRun: run, cursor: { step } } = this.page;
    const place = grouped(step);
    byId("slider").value = String(step);
    byId("slider").setAttribute("aria-valuetext", `step ${place} of ${grouped(run.end)}`);
    byId("place").value = place;
  }

  // Shows what the state has beside its text, and marks what the last step changed.
  /** @param {Parts} parts @param {Parts | undefined} before @param {number} step */
  drawPanels(parts, before, step) {
    const old = new Set(before?.lines.slice(2 + before.calls.length));
    /** @type {import("./panels.js").Shown} */
    const shown = {
      ...MOST_SHOWN,
      step,
      isChanged: (line) => before !== undefined
        && (line < 2 + parts.calls.length ? before.lines[line] !== parts.lines[line] : !old.has(parts.lines[line])),
      isDoubtful: (_, text) => isDoubtfulForm(text, this.hasMarks),
    };
    showBegun(parts.calls, shown);
    showForms(parts.forms, shown);
    showBlocks(parts.blocks, shown);
    /** @param {import("./panels.js").Setting} name */
    const isOther = (name) => name !== "numbers" && before?.[name] !== parts[name];
    showRest(parts, this.page.shownRun.tape.length, (name) => before !== undefined && isOther(name));
    const { tabs } = this.page;
    tabs.count("forms", grouped(parts.forms.length));
    tabs.count("begun", grouped(parts.calls.length));
  }

  // Lights the place in the program where what comes next was written. While that is looked for, only the last step is
  // kept in mind.
  /** @param {number} step */
  async light(step) {
    const { page } = this;
    this.lightWanted = { step };
    if (this.isLighting || page.isStale) return;
    this.isLighting = true;
    try {
      for (let at = null; at !== this.lightWanted && page.run;) {
        at = this.lightWanted;
        const place = await placeInProgram(page, at.step).catch(() => null);
        if (at === this.lightWanted) this.lit(place ?? null);
      }
    } finally {
      this.isLighting = false;
    }
  }

  // Lights a byte of the program, or none.
  /** @param {number | null} place */
  lit(place) {
    const { run, isStale, editor } = this.page;
    if (isStale || !run) return;
    const isInProgram = place !== null && place < run.program.length;
    editor.light("lit", isInProgram ? [[place, place + 1]] : []);
    const where = isInProgram ? lineAndColumn(run.program, place) : "in the input";
    byId("program-note").textContent = place === null ? "" : `here: ${where}`;
  }

  // Opens the help or closes it. By a key the help has the focus then, and after that what had it before.
  help(isOpening = byId("help").hidden) {
    const help = byId("help");
    const held = focused();
    help.hidden = !isOpening;
    byId("help-button").setAttribute("aria-expanded", String(isOpening));
    if (isOpening) {
      help.scrollTop = 0;
      this.beforeHelp = held;
      if (held !== byId("help-button")) help.focus({ preventScroll: true });
    } else if (held !== byId("help-button")) {
      const before = this.beforeHelp;
      (before?.isConnected && before !== document.body ? before : byId("help-button")).focus();
    }
  }

  // Stop is there where an answer takes long, too.
  /** @param {number} count */
  waits(count) {
    clearTimeout(this.late);
    if (count === 0 && !this.isBusy) keepFocus(() => {
      byId("stop").hidden = true;
    });
    else if (count > 0) {
      this.late = setTimeout(() => {
        byId("stop").hidden = false;
      }, LATE);
    }
  }

  /** @param {boolean} isBusy */
  busy(isBusy) {
    this.isBusy = isBusy;
    clearTimeout(this.saying);
    keepFocus(() => {
      byId("stop").hidden = !isBusy;
      if (isBusy) this.showWords("It runs.");
    });
    const say = () => this.page.announcer.say("ending", "It runs. Escape stops it.");
    if (isBusy) this.saying = setTimeout(say, SAID_LATE);
  }

  /** @param {string} words */
  note(words) {
    showFramed(byId("note"), words);
    this.page.announcer.say("note", words);
  }

  // Says what went wrong. The page goes on.
  /** @param {unknown} fault */
  say(fault) {
    if (fault instanceof Stopped) return;
    this.note(wordsOf(fault));
    if (!(fault instanceof Refused) && !(fault instanceof NotUnderstood)) throw fault;
  }
}

// Where what comes next was written: a byte of all input, or nothing. (It is not followed on from before the steps that
// are kept.)
/** @param {Page} page @param {number} step */
async function placeInProgram(page, step) {
  const state = page.shownRun.story.kept(step);
  if (!state) return null;
  const places = [];
  if (state.active) places.push("active");
  if (state.parts.calls.length) places.push(`argument ${state.parts.calls.length - 1} 0`);
  for (const place of places) {
    const rows = await followed(page, place, step, 0, page.ahead, () => false).catch(() => []);
    const last = rows[rows.length - 1];
    if (last?.deed === "reads") return last.byte;
  }
  return null;
}
