// Which calls of a run are listed, as a tree: within a call stand those that made its arguments. What is folded is not
// listed, or all that is not asked for.
import { levelsOf, NO_CALLS } from "./calls.js";

// Whether a call is asked for, both in small letters: by how it begins, if that is what the words are; else by words
// anywhere.
/** @param {string} text @param {string} word */
function isAsked(text, word) {
  if (word.startsWith("#(")) return text.replace(/^##/, "#").startsWith(word);
  return word.startsWith("##(") ? text.startsWith(word) : text.includes(word);
}

export class Listing {
  constructor() {
    this.calls = NO_CALLS;
    /** @type {Set<number>} the calls that are folded */
    this.folded = new Set();
    /** @type {number[][]} for each call those within it, and those within none */
    this.children = [];
    /** @type {number[]} */
    this.roots = [];
    /** @type {number[]} for each call its number among those within the same, and how many calls it is within */
    this.ranks = [];
    this.levels = new Int32Array(0);
    // whether calls are asked for, so that these stand one below another
    this.isFlat = false;
    /** @type {number[]} the calls that are listed */
    this.shown = [];
    /** @type {Map<number, number>} where each of them stands */
    this.places = new Map();
  }

  // Takes the calls of a run.
  /** @param {Calls} calls */
  hold(calls) {
    this.calls = calls;
    this.folded = new Set();
    this.children = calls.steps.map(() => []);
    this.roots = [];
    this.ranks = calls.steps.map((_, index) => this.siblingsOf(index).push(index));
    this.levels = levelsOf(calls.parents);
  }

  // Lists the calls that have a word, or without one all but those within folded ones.
  /** @param {string} word */
  ask(word) {
    this.isFlat = word !== "";
    const { texts } = this.calls;
    const found = () => [...texts.keys()].filter((index) => isAsked(texts[index].toLowerCase(), word));
    this.shown = this.isFlat ? found() : this.unfolded();
    this.places = new Map(this.shown.map((index, place) => [index, place]));
  }

  // Calls before those within them, without going deeper by calling itself.
  unfolded() {
    const shown = [];
    const stack = [...this.roots].reverse();
    for (let index = stack.pop(); index !== undefined; index = stack.pop()) {
      shown.push(index);
      if (this.folded.has(index)) continue;
      for (let child = this.children[index].length - 1; child >= 0; child--) stack.push(this.children[index][child]);
    }
    return shown;
  }

  // The calls within the same call.
  /** @param {number} index */
  siblingsOf(index) {
    const parent = this.calls.parents[index];
    return parent < 0 ? this.roots : this.children[parent];
  }

  // The call that is performed at a step or was last performed before it, or -1.
  /** @param {number} step */
  at(step) {
    let low = 0, high = this.calls.steps.length;
    while (low < high) {
      const middle = (low + high) >> 1;
      if (this.calls.steps[middle] <= step) low = middle + 1;
      else high = middle;
    }
    return low - 1;
  }

  // The place of the next call whose name begins so, from a place on, or nothing.
  /** @param {string} word @param {number} from */
  named(word, from) {
    for (let ahead = 0; ahead < this.shown.length; ahead++) {
      const to = (from + ahead) % this.shown.length;
      if (this.calls.texts[this.shown[to]].replace(/^##?\(/, "").toLowerCase().startsWith(word)) return to;
    }
    return undefined;
  }
}
