// What is said to those who do not see the page: at a step its sentence, while it plays nothing, and the last one at
// its end.
import { grouped, signOf } from "./bytes.js";
import { runsOf } from "./cells.js";
import { byId } from "./elements.js";

// So many milliseconds it waits whether more is to be said.
const PAUSE = 80;
// So many it waits with a note after the end of a run, which would else be lost to some.
const REST = 1000;
// What is said first.
const SAID = ["ending", "note", "step"];

// The words of a sentence. A byte that has no letter stands apart from what is beside it.
/** @param {Element} sentence @returns {string} */
export function wordsSaid(sentence) {
  const copy = /** @type {Element} */ (sentence.cloneNode(true));
  for (const byte of copy.querySelectorAll(".byte")) byte.replaceWith(` ${byte.textContent} `);
  return copy.textContent ?? "";
}

export class Announcer {
  constructor() {
    this.box = byId("said");
    /** @type {Map<string, string>} what is to be said, of each kind */
    this.words = new Map();
    /** @type {ReturnType<typeof setTimeout> | undefined} */
    this.later = undefined;
    this.isSilent = false;
    this.rests = 0;
  }

  // Says words of a kind soon, in place of those of that kind which are not said yet.
  /** @param {string} kind @param {string} words */
  say(kind, words) {
    if (this.isSilent) return;
    if (words) this.words.set(kind, words);
    else this.words.delete(kind);
    if (kind === "ending") this.words.delete("step");
    clearTimeout(this.later);
    this.later = setTimeout(() => this.now(), PAUSE);
  }

  // Says what the step did that was shown last.
  step(words = wordsSaid(byId("last"))) {
    this.say("step", words);
  }

  now() {
    if (this.words.size === 0) return;
    const left = this.rests - performance.now();
    if (left > 0 && this.words.size === 1 && this.words.has("note")) {
      this.later = setTimeout(() => this.now(), left);
      return;
    }
    this.rests = this.words.has("ending") ? performance.now() + REST : 0;
    const parts = SAID.flatMap((kind) => this.words.get(kind) ?? []);
    this.words.clear();
    const words = parts.map((said, at) => (at + 1 === parts.length || /[.:?!]\s*$/.test(said) ? said : `${said}.`));
    this.box.replaceChildren(words.join(" "));
  }

  // Nothing is said while it plays; at the end of that, where it stands.
  /** @param {boolean} isPlaying */
  playing(isPlaying) {
    const ends = this.isSilent && !isPlaying;
    this.isSilent = isPlaying;
    clearTimeout(this.later);
    if (ends) this.step();
  }
}

// Says how many calls a search leaves.
/** @param {Page} page */
export function startAnnouncing(page) {
  byId("filter").addEventListener("input", () => page.announcer.say("note", `${byId("tree-count").textContent} calls`));
}

// What a run came to, in words.
/** @param {string} sentence @param {Uint8Array} output */
export function endingSaid(sentence, output) {
  if (output.length === 0) return `${sentence} Nothing is printed.`;
  if (output.length > 60) return `${sentence} ${grouped(output.length)} bytes are printed.`;
  return `${sentence} Printed is: ${[...runsOf(output)].map((run) => run.text ?? ` ${signOf(run.byte)} `).join("")}`;
}
