// The first minute: a program to run, what to do with it, and some others to try. And the list of all programs that
// come with the page.
import { bytesOfSigns, textOf } from "./bytes.js";
import { buttonOf, byId, make, textIn } from "./elements.js";
import { startList } from "./lists.js";
import { inTurn } from "./programs.js";
import { Yours } from "./yours.js";

// What is there at first, and what else is offered beside that.
const FIRST = "wrong-factorial.trac";
const TRIES = ["hello.trac", "guess.trac", "hanoi.trac"];

/**
 * A program that comes with the page: where it is listed, its file, what it is called and what it shows, and its bytes
 * in base64.
 * @typedef {{ group: string, name: string, title: string, line: string, text: string }} Program
 */

export class Library {
  /** @param {Page} page */
  constructor(page) {
    this.page = page;
    /** @type {Program[]} */
    this.programs = JSON.parse(textIn("library-data"));
    const list = byId("library");
    list.append(new Option("Programs", ""));
    for (const group of new Set(this.programs.map((program) => program.group))) {
      const part = make("optgroup");
      part.label = group;
      this.programs.forEach(({ group: own, title, line, name }, index) => {
        if (own !== group) return;
        const option = new Option(`${title}: ${line}`, String(index));
        option.title = name;
        part.append(option);
      });
      list.append(part);
    }
    this.yours = new Yours(page, list);
    startList(list, (choice) => this.yours.take(choice) || this.open(this.programs[Number(choice)]));
  }

  /** @param {Program} program */
  open(program) {
    inTurn(this.page, async () => {
      this.page.open({ name: program.name, bytes: bytesOfSigns(program.text) });
      this.page.view.showWords(`${program.title}: ${program.line}. Press Run.`);
    });
  }

  /** @param {string} name */
  named(name) {
    return /** @type {Program} */ (this.programs.find((program) => program.name === name));
  }
}

// Shows what a newcomer meets: the program that was typed last, or a first one, and what to do. Whoever opens the page
// of a program meets that.
/** @param {Page} page @param {boolean} isGiven */
export function welcome(page, isGiven) {
  const { library } = page;
  const first = library.named(FIRST);
  const isBack = page.draft.restore();
  if (!isBack && !isGiven) page.editor.put({ name: first.name, bytes: bytesOfSigns(first.text) });
  const isFirst = page.editor.name === FIRST && page.editor.box.value === textOf(bytesOfSigns(first.text));
  byId("welcome-about").hidden = !isFirst;
  for (const program of TRIES.map((name) => library.named(name))) {
    addTry(program.title, program.line, () => library.open(program));
  }
  addTry("The course", "TRAC in short lessons, with exercises", () => page.course.show(0));
  byId("welcome").hidden = isGiven;
}

/** @param {string} title @param {string} line @param {() => void} does */
function addTry(title, line, does) {
  const button = buttonOf("", does);
  button.append(make("b", "", title), line);
  byId("tries").append(button);
}
