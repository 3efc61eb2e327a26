// Calls that are seen in the list or named over the slider get their arguments one by one, as they stood when they were
// performed, so that they look as they do in sentences: protected ones in quotes, and empty ones with their sign.
import { addText, boundary, grouped } from "./bytes.js";
import { NO_CALLS } from "./calls.js";
import { Tree } from "./tree.js";
import { addCallText, isProtected } from "./words.js";
import { Story } from "./story.js";
import { make } from "./elements.js";

// So many milliseconds they have to stay, so large are states at most on average, and so many are fetched for a part of
// the page.
const REST_TIME = 120;
const MOST_STATE = 1 << 16;
const MOST_ROWS = 120;

// How long a call is in the text that lists it, with or without parentheses around what was protected; 0 where it is
// cut.
/** @param {string} text @param {Called} call */
function listedLength(text, { neutral, texts }) {
  const ways = [texts.map((one) => (isProtected(one) ? `(${one})` : one)), texts];
  const found = ways.map((way) => `${neutral ? "##(" : "#("}${way.join(",")})`).find((way) => text.startsWith(way));
  return found?.length ?? 0;
}

export class CallTree extends Tree {
  // What is told how many calls there are.
  /** @param {(step: number) => void} go @param {(count: string) => void} counted */
  constructor(go, counted) {
    super(go);
    this.counted = counted;
    /** @type {((indexes: number[]) => void) | undefined} what is told which calls are shown */
    this.wants = undefined;
    /** @type {Map<number, Called | null>} the calls as they stood, as far as they are known */
    this.exact = new Map();
  }

  /** @override */
  list() {
    super.list();
    this.counted?.(this.calls === NO_CALLS ? "" : grouped(this.calls.steps.length));
  }

  // It is seen now: its rows are made, and that of the step is in view.
  seen() {
    this.draw();
    if (this.places.has(this.current)) this.bring(this.current);
    this.draw();
  }

  /** @override @param {Calls} calls */
  show(calls) {
    this.exact = new Map();
    super.show(calls);
  }

  /** @override */
  draw() {
    super.draw();
    this.wants?.([...this.made.keys()]);
  }

  /**
   * What a row says of its call: once its arguments are known, protected ones stand in quotes.
   * @override
   * @param {HTMLElement} row
   * @param {number} index
   */
  fill(row, index) {
    const text = this.calls.texts[index], call = this.exact.get(index);
    const length = call ? listedLength(text, call) : 0;
    if (call && length > 0) row.append(addCallText(make("span"), call, 80));
    addText(row, text.slice(length, boundary(text, Math.min(length + (length ? 200 : 300), text.length))));
  }

  // The call that is performed at a step, as it is listed, or nothing.
  /** @param {number} step */
  textAt(step) {
    const index = this.at(step);
    return this.calls.steps[index] === step ? this.calls.texts[index] : undefined;
  }

  // The calls cannot be listed: that is said in place of them.
  /** @param {string} words */
  lack(words) {
    this.note = `: ${words}`;
    this.list();
  }

  // A call is known, or cannot be told.
  /** @param {number} index @param {Called | null} call */
  learn(index, call) {
    this.exact.set(index, call);
    this.made.delete(index);
  }
}

export class Exact {
  /** @param {Page} page */
  constructor(page) {
    this.page = page;
    this.tree = page.tree;
    /** @type {{ tree: number[], timeline: number[] }} the calls that each part shows */
    this.wanted = { tree: [], timeline: [] };
    /** @type {ReturnType<typeof setTimeout> | undefined} */
    this.later = undefined;
    this.tree.wants = (indexes) => this.want("tree", indexes);
    page.timeline.wants = (indexes) => this.want("timeline", indexes);
  }

  // A part of the page shows these calls now.
  /** @param {"tree" | "timeline"} part @param {number[]} indexes */
  want(part, indexes) {
    this.wanted[part] = indexes.slice(0, MOST_ROWS);
    clearTimeout(this.later);
    this.later = setTimeout(() => this.fetch(), REST_TIME);
  }

  async fetch() {
    const { page, tree } = this;
    const { run } = page;
    const indexes = [...new Set(Object.values(this.wanted).flat())].filter((index) => !tree.exact.has(index));
    if (!run || indexes.length === 0 || run.story.size > MOST_STATE) return;
    const { calls } = tree;
    const story = new Story(page.ahead, run.tape, run.landmarks);
    const states = await story.at(indexes.map((index) => calls.steps[index])).catch(() => new Map());
    if (tree.calls !== calls) return;
    for (const index of indexes) {
      const begun = states.get(calls.steps[index])?.parts.calls ?? [];
      // (what cannot be told is not asked again)
      tree.learn(index, begun[begun.length - 1] ?? null);
    }
    tree.draw();
    page.timeline.choose(page.timeline.chosen);
  }
}
