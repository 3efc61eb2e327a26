// Where the processor does not run, it is said what is lacking. Programs can be read and written all the same.
import { NotUnderstood } from "./replies.js";
import { make } from "./elements.js";

// Stands for the processor where that does not run: it answers at once that it does not.
class NoEngine {
  constructor() {
    this.waiting = new Map();
  }

  stop() {}

  /** @returns {Promise<Answer>} */
  async ask() {
    throw new NotUnderstood("This takes the processor, which does not run in this browser.");
  }
}

// What is lacking, as a sentence says it.
/** @param {Error} fault */
function lackSaid(fault) {
  return typeof WebAssembly !== "undefined" ? `it does not take the module of this page (${fault.message})`
    : "it has no WebAssembly, or that is switched off, as by Safari's Lockdown Mode";
}

// Goes on without the processor, and says what is lacking.
/** @param {Page} page @param {Error} fault */
export function goWithout(page, fault) {
  page.engine = page.ahead = page.background = new NoEngine();
  const words = `The processor does not run in this browser: ${lackSaid(fault)}. You can read and write programs here.`;
  const notice = make("p", "notice", words);
  notice.id = "lacking";
  document.querySelector("main")?.before(notice);
  page.announcer.say("ending", words);
}
