// How a run comes about, and what input it is given.
import { grouped } from "./bytes.js";
import { Stopped, wordsOf } from "./engine.js";
import { countOfLines, laterSaid, linesBegun, tapeOf } from "./input.js";
import { Story } from "./story.js";
import { BUDGET, measure } from "./measure.js";
import { isLong, measureInTurns, probe, showSoFar, WATCHED } from "./probing.js";
import { needsEnd } from "./endings.js";
import { keepFocus } from "./focus.js";
import { isEqual } from "./judging.js";
import { legible } from "./unseen.js";
import { byId, focused } from "./elements.js";
import { gather } from "./gathering.js";
import { ask } from "./question.js";
import { Run } from "./run.js";

const STOPPED = "The run was stopped.";

export class Runs {
  /** @param {Page} page */
  constructor(page) {
    this.page = page;
    /** @type {Begin | null} what is asked to be run, until it has come to an end */
    this.began = null;
    /** @type {Came | null} how far that is known to have come */
    this.partial = null;
    /** @type {Came | null} and the last such whose states are kept */
    this.kept = null;
    // whether more is to be typed of a program that is done
    this.wantsInput = false;
  }

  // Runs the program of the editor from its start, with no input but what is given.
  async start(given = new Uint8Array(0)) {
    const { page } = this;
    const inputs = given.length ? [{ step: 0, bytes: given }] : [];
    const held = focused();
    await this.perform({ program: page.editor.bytes(), inputs, isClosed: false, budget: BUDGET, isNew: true });
    // (on a phone a lesson stands over it)
    byId("ending").scrollIntoView({ block: "nearest" });
    if (page.run?.stand === "waits" && [document.body, held, byId("output")].includes(focused())) byId("input").focus();
  }

  // What is run as it was asked for last: that may go on still. (How far the run before has come is no matter then.)
  get latest() {
    return this.began ? { ...this.began, from: undefined } : this.page.shownRun.wanted({});
  }

  // Runs the program that was run with other input, or further.
  /** @param {Partial<Wanted>} changes */
  performAgain(changes) {
    return this.perform({ ...this.latest, ...changes });
  }

  /**
   * Runs a program with its input, and goes to the end. Until then the run before is there, and is asked over its own
   * input. Returns the run, or nothing where it has come to no end, or is not wanted any more.
   * @param {Wanted} asked
   * @returns {Promise<Run | null>}
   */
  async perform(asked) {
    const { page } = this;
    const wanted = { ...asked, tape: tapeOf(asked) };
    page.cursor.play(0);
    page.view.note("");
    page.way.clear();
    page.cursor.turn++;
    page.drop();
    [this.began, this.partial, this.kept] = [wanted, null, null];
    if (wanted.isNew) this.wantsInput = false;
    page.view.busy(true);
    const before = page.run?.story;
    if (!before?.isSmall) before?.letGo();
    try {
      const came = await this.came(wanted);
      if (wanted.budget === wanted.from) came.stand = "stopped";
      const run = this.runOf(wanted, came);
      const states = await run.story.around(run.end, run.end);
      if (wanted !== this.began) return null;
      this.take(run, states);
      return run;
    } catch (fault) {
      if (wanted === this.began) this.fail(fault instanceof Stopped ? STOPPED : wordsOf(fault));
      page.view.say(fault);
      return null;
    }
  }

  // A run with its states, of which the last are there.
  /** @param {Begin} wanted @param {Came} came */
  runOf(wanted, came) {
    const { engine, ahead } = this.page;
    const story = new Story(engine, wanted.tape, came.landmarks, ahead);
    if (came.window) story.keep(came.window);
    came.window = null;
    return new Run(wanted, came, story);
  }

  // What a run comes to. Meanwhile it shows what is printed, if it takes long; so if it is stopped, that much is there.
  /** @param {Begin} wanted */
  came(wanted) {
    const { engine, ahead } = this.page;
    const began = performance.now();
    const isWanted = () => wanted === this.began;
    /** @param {Came} came */
    const come = (came) => {
      this.partial = came;
      if (came.window) this.kept = came;
      if (performance.now() - began >= WATCHED) this.showPartial(came);
    };
    if (isLong(wanted)) return measureInTurns(engine, wanted, isWanted, come);
    setTimeout(() => probe(ahead, wanted, isWanted, come).catch(() => {}), WATCHED);
    return measure(engine, wanted.tape, wanted.isClosed, wanted.budget);
  }

  /** @param {Came} came */
  showPartial(came) {
    const { view } = this.page;
    view.showWords(`It runs: ${grouped(came.end)} steps so far.`);
    showSoFar(view, came.output);
  }

  /**
   * Takes a run in place of the one before, and shows its end, after other words, if there are any.
   * @param {Around} states
   * @param {Run} run
   */
  take(run, states, lead = "") {
    const { page } = this;
    const { cursor, view } = page;
    this.leave();
    page.run = run;
    cursor.put(run.end);
    page.isStale = !isEqual(run.program, page.editor.bytes());
    view.outputTo = undefined;
    view.busy(false);
    keepFocus(() => {
      view.shown();
      view.showEnding(lead);
      view.draw(states);
    });
    run.story.cursor = run.end;
    run.story.widen(run.end);
    gather(page, run);
  }

  // Takes as much of a run as is known of it, after words that say why it came to no end. Large states are not known:
  // for these it is run anew up to there.
  /** @param {Begin} wanted @param {Came} came @param {string} words */
  async takePartial(wanted, came, words) {
    const budget = came.end;
    if (!came.window) {
      const anew = this.perform({ ...wanted, budget, from: budget });
      this.page.view.showWords(`${STOPPED} Its states are large: it is run anew up to step ${grouped(budget)}.`);
      return anew;
    }
    const run = this.runOf({ ...wanted, budget }, { ...came, stand: "stopped" });
    const states = await run.story.around(run.end, run.end);
    if (this.began === null) this.take(run, states, words === STOPPED ? "" : `${words} `);
    return undefined;
  }

  // Says why a run came to no end. As much of it as is known is shown; if nothing is, the run before. (What was refused
  // memory is not run anew.)
  /** @param {string} words */
  fail(words) {
    const { began, page: { view } } = this;
    const partial = words === STOPPED ? this.partial : this.kept;
    this.leave();
    view.busy(false);
    if (!began || !partial) return this.stay(words + this.untaken(began));
    view.showWords(words);
    this.takePartial(began, partial, words);
    return undefined;
  }

  // The lines that were given for a run that came to nothing: they are not to be lost.
  /** @param {Begin | null} began */
  untaken(began) {
    const known = this.page.run?.inputs ?? [];
    const isKnown = (/** @type {import("./run.js").Line} */ { step, bytes }) =>
      known.some((line) => line.step === step && isEqual(line.bytes, bytes));
    const lost = (began?.inputs ?? []).filter((line) => !isKnown(line));
    const told = lost.map(({ bytes }) => legible(new TextDecoder().decode(bytes).trimEnd()));
    return told.length > 0 ? ` Not taken: ${told.join("; ")}.` : "";
  }

  // Shows the run before, after words that say why there is no other, or nothing.
  /** @param {string} words */
  stay(words) {
    const { page } = this;
    const { view, run } = page;
    keepFocus(() => {
      view.showWords(words);
      if (!run) view.clear();
      else {
        page.isStale = !isEqual(run.program, page.editor.bytes());
        view.outputKey = null;
        page.cursor.redraw();
        view.showEnding(`${words} The run before is shown. `);
      }
    });
    if (run && !run.isGathered) gather(page, run);
  }

  // Leaves the run that is shown, and what is asked to be run: no answer is waited for.
  leave() {
    const { page } = this;
    page.cursor.turn++;
    this.began = this.partial = this.kept = null;
    page.drop();
    page.cursor.play(0);
    page.way.clear();
  }

  // Ends what goes on. (Of a run that stays, the calls are listed all the same.)
  stop() {
    const { cursor, view, engine, ahead } = this.page;
    cursor.turn++;
    cursor.play(0);
    for (const one of [engine, ahead]) if (one.waiting.size) one.stop();
    if (this.began) this.fail(STOPPED);
    // (a number that was typed may not be reached)
    if (this.page.run) view.showPlace();
    view.note("stopped");
  }

  // Whether input may be given where the cursor is.
  get takesInput() {
    const { shownRun: run, cursor } = this.page;
    return run.takesInput(cursor.step, cursor.read, this.wantsInput);
  }

  async goOn() {
    const { shownRun: run } = this.page;
    const taken = Math.max(run.budget, run.end);
    await this.performAgain({ budget: taken + Math.max(taken, BUDGET), from: run.end });
    if (focused() === byId("output")) byId("ending").querySelector("button")?.focus();
  }

  // The lines of input that stay where other input is given at the cursor: at the end all, or while they are run still,
  // else those that the program has begun to read. It is asked first if others came; nothing if these are to stay.
  /** @param {string} wish */
  async linesBefore(wish) {
    const { shownRun: run, cursor: { step, read } } = this.page;
    if (this.began || step === run.end) return this.latest.inputs;
    const stay = linesBegun(run.inputs, read - run.program.length);
    const later = laterSaid(countOfLines(run.inputs) - countOfLines(stay), run.isClosed, step);
    const isWanted = !later || await ask(`${later} ${wish}`);
    return isWanted && run === this.page.run ? stay : null;
  }

  // Takes a line of input at the step where the cursor is. It gets the ' that ends it, where it has none and is to be
  // read up to that. Returns whether it was taken.
  /** @param {string} line */
  async feed(line) {
    const { shownRun: run, cursor: { step } } = this.page;
    const before = await this.linesBefore("Take this line in place of that?");
    if (!before) return false;
    const isEnded = needsEnd(run, line);
    const bytes = new TextEncoder().encode(`${line}${isEnded ? "'" : ""}\n`);
    const given = { step, bytes };
    await this.performAgain({ inputs: [...before, given], isClosed: false });
    // (it may have been stopped before anything was known of it)
    const now = this.began ?? this.page.run;
    if (now && !now.inputs.includes(given)) return false;
    if (isEnded) this.page.view.note("' was put at its end, since it is read up to that");
    return true;
  }

  // Lets more of the program be typed, after its end.
  async typeMore() {
    const { shownRun: run, cursor, view } = this.page;
    this.wantsInput = true;
    await cursor.go(run.end, null, null);
    view.showEnding();
    byId("input").focus();
  }

  // Ends what stands there and is not read, and goes on.
  /** @param {string} end */
  feedEnd(end) {
    const { shownRun: run } = this.page;
    const bytes = new TextEncoder().encode(`${end}\n`);
    return this.performAgain({ inputs: [...this.latest.inputs, { step: run.end, bytes }], isClosed: false });
  }

  async endInput() {
    const inputs = await this.linesBefore("End the input here, in place of that?");
    if (inputs) await this.performAgain({ inputs, isClosed: true });
  }
}
