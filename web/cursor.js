// The cursor: the step of the run that is shown, and moves from it to others.
import { wordsSaid } from "./announce.js";
import { movedAnew } from "./anew.js";
import { foldedSpan, tokenLength, tokenStart } from "./stretch.js";
import { callsOf } from "./calls.js";
import { lastChange } from "./changed.js";
import { showUnit, UNITS } from "./walking.js";
import { keepFocus } from "./focus.js";
import { byId } from "./elements.js";
import { listAround } from "./gathering.js";

// Less than so much output may be had with each state.
const SMALL_OUTPUT = 1 << 16;

/**
 * A stretch of steps that was passed as one.
 * @typedef {{ from: number, to: number }} Passed
 */

/** @typedef {import("./walking.js").Unit} Unit */

export class Cursor {
  /** @param {Page} page */
  constructor(page) {
    this.page = page;
    this.step = 0;
    // how much is read there
    this.read = 0;
    // where the last move began, and the token that it passed
    this.from = 0;
    /** @type {Passed | null} */
    this.passed = null;
    // what is asked for later makes an earlier answer worthless
    this.turn = 0;
    /** @type {ReturnType<typeof setTimeout> | 0} */
    this.playing = 0;
    /** @type {Unit} */
    this.unit = "token";
    // whether each step of the idle program is shown
    this.showsIdle = false;
  }

  // Another run is shown, at this step.
  /** @param {number} step */
  put(step) {
    [this.step, this.passed] = [step, null];
  }

  // Goes to a step that was asked for by itself: so what it does is said, and not what led there.
  /** @param {number} step */
  visit(step) {
    return this.go(step, null, "next");
  }

  // Goes to the first call that a search leaves.
  visitFound() {
    const { calls, shown } = this.page.tree;
    if (shown.length) this.visit(calls.steps[shown[0]]);
    else this.page.view.note("no call has this");
  }

  /**
   * Goes to a step, and shows it; where a token was passed on the way, with what that came to. Says what led there, or
   * what is next, or nothing.
   * @param {number} wanted
   * @param {Passed | null} passed
   * @param {"last" | "next" | null} said
   */
  async go(wanted, passed = null, said = "last") {
    const { run, view, announcer } = this.page;
    if (!run) return;
    const step = Math.min(Math.max(wanted, 0), run.end);
    const turn = ++this.turn;
    try {
      run.story.cursor = step;
      const states = await run.story.aroundIf(step, run.end, () => turn === this.turn);
      if (turn !== this.turn || !states) return;
      [this.step, this.passed] = [step, passed];
      keepFocus(() => view.draw(states));
      if (said) announcer.step(wordsSaid(byId(said)));
      run.story.widen(run.end);
      listAround(this.page);
    } catch (fault) {
      view.say(fault);
    }
  }

  redraw() {
    return this.go(this.step, this.passed, null);
  }

  // The states around the step that is shown.
  states() {
    const { shownRun: run } = this.page;
    return run.story.around(this.step, run.end);
  }

  // Does what a button or a key is for.
  /** @param {Action} action */
  async act(action) {
    const { run, view } = this.page;
    if (action.id !== "play") this.play(0);
    if (action.id || action.way) this.from = this.step;
    view.note("");
    if (action.way && this.step === (action.way < 0 ? 0 : run?.end)) {
      return void view.note(action.way < 0 ? "this is the start" : "this is the end");
    }
    try {
      await action.does();
    } catch (fault) {
      view.say(fault);
    }
    return undefined;
  }

  // A step back or forward, as far as the switch says.
  unitBack() {
    return { byte: () => this.stepBack(), token: () => this.tokenBack(), call: () => this.walk("r") }[this.unit]();
  }

  unitForward() {
    return { byte: () => this.stepForward(), token: () => this.token(), call: () => this.walk("u") }[this.unit]();
  }

  // A step; those by which the idle program reads on are one, unless each is asked for.
  stepBack() {
    return this.go(foldedSpan(this.page, this.step - 1)?.from ?? this.step - 1);
  }

  stepForward() {
    return this.go(foldedSpan(this.page, this.step)?.to ?? this.step + 1);
  }

  // Shows each step of the idle program, or has them taken as one.
  showIdle(isShown = !this.showsIdle) {
    this.showsIdle = isShown;
    byId("idle").setAttribute("aria-pressed", String(isShown));
    return this.redraw();
  }

  /** @param {Unit} unit */
  setUnit(unit) {
    this.unit = unit;
    for (const one of UNITS) byId(one).setAttribute("aria-pressed", String(one === unit));
    showUnit(unit);
  }

  async token() {
    const { at } = await this.states();
    const [from, to] = [this.step, this.step + tokenLength(this.page, at, this.step)];
    await this.go(to, { from, to });
  }

  async tokenBack() {
    const to = this.step;
    // (a long token that was just passed need not be looked for)
    const from = this.passed?.to === to ? this.passed.from : await tokenStart(this.page, to);
    await this.go(from, { from, to });
  }

  // A move of trac-walk. What it says beside where it stands is shown. Of a move to a call, or to where one begins,
  // that is said.
  /** @param {string} line */
  async walk(line) {
    const { engine, shownRun: run, view } = this.page;
    const { story } = run;
    const isSmall = story.isSmall && run.output.length < SMALL_OUTPUT;
    const { said, step, window } = await movedAnew(engine, run, this.step, line, isSmall);
    if (window && run === this.page.run) story.keep(window);
    const note = noteOf(said, line);
    if (step !== this.step || !note) await this.go(step, null, "urNO".includes(line) ? "next" : "last");
    view.note(note);
  }

  async returnTo() {
    await this.visit(this.from);
  }

  /** @param {string | null} name */
  async whoChanged(name) {
    const { tabs, view } = this.page;
    const { forms } = (await this.states()).at.parts;
    const wanted = name ?? (forms.length === 1 ? forms[0].name : null);
    if (forms.length === 0) view.note("there is no form at this step");
    else if (wanted === null) {
      tabs.choose("forms");
      byId("forms").querySelector("button")?.focus();
      view.note("which form? each has a button");
    }
    else await this.goToChange(wanted);
  }

  // Goes to the call that changed a form last.
  /** @param {string} name */
  async goToChange(name) {
    const { engine, shownRun: run, tree: { calls }, view } = this.page;
    const { tape, story, isClosed } = run;
    const listed = calls.steps.length ? calls : await callsOf(engine, tape, this.step, isClosed);
    const found = await lastChange(engine, tape, story, listed, this.step, name);
    if (found === null) view.note("no call that is listed changed it");
    else await this.visit(found);
  }

  async followName() {
    const { at } = await this.states();
    const inner = at.parts.calls.length - 1;
    const cell = document.querySelector(`#begun [data-place="argument ${inner} 0"]`);
    if (cell instanceof HTMLElement) await this.follow(cell, 0);
  }

  /** @param {number} way */
  doubt(way) {
    const { tree, view } = this.page;
    const steps = [...tree.doubts.keys()].sort((a, b) => a - b);
    const found = way > 0 ? steps.find((step) => step > this.step) : steps.filter((step) => step < this.step).at(-1);
    if (found === undefined) view.note(way > 0 ? "no new doubt after this step" : "no new doubt before this step");
    else return this.visit(found);
    return undefined;
  }

  // Follows a byte of a text that is shown.
  /** @param {HTMLElement} holder @param {number} number */
  async follow(holder, number) {
    const { view, way } = this.page;
    view.note("");
    try {
      await way.follow(holder, number);
    } catch (fault) {
      view.say(fault);
    }
  }

  // Searches the calls.
  search() {
    this.page.tabs.choose("tree");
    byId("filter").focus();
  }

  // Plays, or stops: 1, 0, or the other of what it does.
  play(way = this.playing ? 0 : 1) {
    clearTimeout(this.playing);
    this.playing = 0;
    const button = byId("play");
    if (button) {
      button.textContent = way ? "pause" : "play";
      button.setAttribute("aria-label", button.textContent);
    }
    this.page.announcer.playing(Boolean(way));
    if (way) this.playOn();
  }

  playOn() {
    this.playing = setTimeout(async () => {
      const { playing, step } = this;
      if (step < this.page.shownRun.end) await this.unitForward();
      if (this.step === step) return this.play(0);
      if (this.playing === playing) this.playOn();
      return undefined;
    }, 1000 / Number(byId("speed").value));
  }
}

const NO_EARLIER = /^not met since the first step that is kept, step 0$/;

// What trac-walk says beside where it stands after a command, without its own commands.
/** @param {string} text @param {string} line */
function noteOf(text, line) {
  const met = line === "u" ? text.replace(/^not met; /, "there is no call after this step: ")
    : line === "r" ? text.replace(NO_EARLIER, "there is no call before this step") : text;
  return met.replace(/: i TEXT feeds a line, e ends the input/g, "")
    .replace(/ ?\bm goes to step (\d+), where the search ended/g, " (step $1)");
}
