// The course: a lesson or an exercise beside the editor. An exercise is checked by running the program of the editor.
import { leftOut } from "./bytes.js";
import { addCells } from "./cells.js";
import { Stopped, wordsOf } from "./engine.js";
import { isOff, setOff } from "./focus.js";
import { inputAfter, judged } from "./judging.js";
import { addParts } from "./lesson.js";
import { buttonOf, byId, make, textIn } from "./elements.js";
import { startList } from "./lists.js";
import { inTurn } from "./programs.js";

const SHOWN_BYTES = 4096;

/**
 * A lesson, with a line that says what it shows; or an exercise, with its runs: what stands after the program, and what
 * must be printed.
 * @typedef {import("./lesson.js").TextPart} TextPart
 * @typedef {{ title: string, parts: TextPart[], line: string, runs?: undefined }} Lesson
 * @typedef {Lesson | Exercise} Item
 * @typedef {{
 *   title: string, parts: TextPart[], runs: [string, string][], start: string | null, hint: TextPart[],
 *   solution: string
 * }} Exercise
 */

export class Course {
  /** @param {Page} page */
  constructor(page) {
    this.page = page;
    const data = JSON.parse(textIn("course-data"));
    /** @type {import("./judging.js").Rules} */
    this.rules = data.rules;
    /** @type {(Lesson & { exercises: Exercise[] })[]} */
    const lessons = data.lessons;
    /** @type {Item[]} lessons, each before its exercises */
    this.items = lessons.flatMap(({ exercises, ...lesson }) => [lesson, ...exercises]);
    this.at = 0;
    // what is said of a check
    this.said = make("div");
    this.list();
    byId("lesson-before").addEventListener("click", () => this.show(this.at - 1));
    byId("lesson-next").addEventListener("click", () => this.show(this.at + 1));
    byId("lesson-close").addEventListener("click", () => this.close());
  }

  list() {
    const list = byId("course");
    list.append(new Option("Course", ""));
    this.items.forEach((item, index) => {
      const words = item.runs ? `\u00a0\u00a0\u00a0${item.title}` : `${item.title}: ${item.line}`;
      list.append(new Option(words, String(index)));
    });
    startList(list, (index) => this.show(Number(index)));
  }

  // Shows a lesson or an exercise.
  /** @param {number} index */
  show(index) {
    this.at = index;
    const item = this.items[index], next = this.items[index + 1], before = this.items[index - 1];
    const place = byId("lesson-text");
    byId("lesson-title").textContent = (item.runs ? "Exercise " : "") + item.title;
    byId("lesson-before").hidden = !before;
    if (before) byId("lesson-before").setAttribute("aria-label", `previous: ${before.title}`);
    byId("lesson-next").hidden = !next;
    if (next) byId("lesson-next").setAttribute("aria-label", `next: ${next.title}`);
    place.replaceChildren();
    addParts(place, item.parts, (name, text) => this.program(name, text));
    if (item.runs) this.addExercise(place, item);
    byId("lesson").hidden = false;
    place.scrollTop = 0;
    place.focus({ preventScroll: true });
    byId("lesson").scrollIntoView({ block: "nearest" });
  }

  close() {
    byId("lesson").hidden = true;
    byId("course").focus();
  }

  // A program that can be opened in the editor.
  /** @param {string} name @param {string} text */
  program(name, text) {
    const frame = make("div", "program");
    const opens = async () => this.page.open({ name, bytes: new TextEncoder().encode(text) });
    const open = buttonOf(`Open ${name}`, () => inTurn(this.page, opens));
    frame.append(make("pre", "block", text.replace(/\n$/, "")), open);
    return frame;
  }

  // What an exercise has beside its text: where it begins, its runs, a hint, a solution, and the check.
  /** @param {HTMLElement} place @param {Exercise} item */
  addExercise(place, { start, runs, hint, solution }) {
    if (start) place.append(this.program("start.trac", start));
    runs.forEach(([given, wanted], at) => place.append(this.run(at, given, wanted)));
    this.said = make("div", "judged");
    this.said.setAttribute("role", "status");
    const bar = make("p", "bar");
    const check = buttonOf("Check", () => this.check(runs));
    check.className = "main";
    /** @param {HTMLElement} at */
    const hinted = (at) => addParts(at, hint, (name, text) => this.program(name, text));
    /** @param {HTMLElement} at */
    const solved = (at) => at.append(this.program("solution.trac", solution));
    bar.append(check, buttonOf("Hint", (button) => this.unfold(button, hinted)));
    bar.append(buttonOf("A solution", (button) => this.unfold(button, solved)));
    place.append(bar, this.said);
  }

  // A run: what stands after the program, and what must be printed.
  /** @param {number} at @param {string} given @param {string} wanted */
  run(at, given, wanted) {
    const frame = make("div", "run");
    frame.append(make("h3", "", `Run ${at + 1}`));
    const parts = [["The input after the program", given], ["Must be printed", wanted]];
    for (const [words, text] of parts.slice(given ? 0 : 1)) {
      frame.append(make("p", "pale", words), this.block(new TextEncoder().encode(text)));
    }
    return frame;
  }

  // Bytes as a block, the first of them.
  /** @param {Uint8Array} bytes */
  block(bytes) {
    const block = make("pre", "block");
    addCells(block, bytes.subarray(0, SHOWN_BYTES), 0, true);
    if (bytes.length > SHOWN_BYTES) block.append(leftOut(bytes.length - SHOWN_BYTES));
    if (bytes.length === 0) block.append(make("span", "note", "nothing"));
    return block;
  }

  // Shows what a button is for below the buttons, once, and says it.
  /** @param {HTMLButtonElement} button @param {(place: HTMLElement) => void} adds */
  unfold(button, adds) {
    if (isOff(button)) return;
    setOff(button, true);
    const place = make("div", "unfolded");
    adds(place);
    this.said.before(place);
    place.scrollIntoView({ block: "nearest" });
    this.page.announcer.say("note", `${button.textContent}: ${place.textContent}`);
  }

  // Checks the program of the editor, and says what differs.
  /** @param {[string, string][]} runs */
  async check(runs) {
    const { page, said } = this;
    const program = page.editor.bytes();
    said.replaceChildren("It is checked ..");
    try {
      const failed = await judged(page.engine, program, runs, this.rules);
      if (failed) said.replaceChildren(...this.failure(failed, program, runs));
      else said.replaceChildren(make("p", "right", "✓ It is solved."));
    } catch (fault) {
      said.replaceChildren(fault instanceof Stopped ? "The check was stopped." : wordsOf(fault));
    }
    said.lastElementChild?.scrollIntoView({ block: "nearest" });
  }

  // What is said of a run that fails.
  /** @param {import("./judging.js").Failure} failed @param {Uint8Array} program @param {[string, string][]} runs */
  failure({ at, printed, why, where }, program, runs) {
    const run = buttonOf("Run it on this input", () => this.page.runs.start(inputAfter(program, runs[at][0])));
    const last = make("p", "", where ? `${where[0].toUpperCase()}${where.slice(1)}. ` : "");
    last.append(run);
    const first = make("p", "wrong", `✗ Run ${at + 1} of ${runs.length}: ${why}`);
    return [first, make("p", "pale", "Is printed"), this.block(printed), last];
  }
}
