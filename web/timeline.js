// Over the slider: how many calls are begun, where something is printed, where a form changes, and where the idle
// program reads on.
import { grouped, plainOf, showFramed } from "./bytes.js";
import { callText } from "./words.js";
import { nameSaid, NO_CALLS } from "./calls.js";
import { isForming } from "./changed.js";
import { byId, elementOf, focused, make } from "./elements.js";
import { MOST_IDLE_STEPS } from "./tracks.js";

// The kinds of marks, from above: the colour, and how high it is.
const LANES = {
  print: { colour: "--put-line", top: 0.59, height: 0.18 },
  form: { colour: "--form", top: 0.8, height: 0.18 },
};
// So many marks beside the chosen one have names for screen readers, and so near to one a click is for it, in pixels.
const NAMED_MARKS = 60;
const NEAR_MARK = 14;

/**
 * What can be chosen over the slider: its step, its kind, and what it prints, or the number of its call.
 * @typedef {{ step: number, kind: "print" | "form", words?: string, index?: number }} Mark
 */

/**
 * What is drawn on: how many pixels of it are one of the page, its size, and its colours by their names.
 * @typedef {object} Picture
 * @property {CanvasRenderingContext2D} pen
 * @property {number} scale
 * @property {number} width
 * @property {number} height
 * @property {(name: string) => string} colour
 */

// What can be chosen over the slider, in the order of steps.
/** @param {Calls} calls @returns {Mark[]} */
function marksOf(calls) {
  /** @type {Mark[]} */
  const marks = (calls.prints ?? []).map((print) => ({ ...print, kind: "print" }));
  calls.steps.forEach((step, index) => {
    if (isForming(nameSaid(calls.texts[index]))) marks.push({ step, kind: "form", index });
  });
  return marks.sort((one, other) => one.step - other.step);
}

// The marks over the slider: a list of one line, with one stop for the Tab key.
export class Timeline {
  /** @param {Page} page */
  constructor(page) {
    this.page = page;
    this.box = byId("marks");
    /** @type {((indexes: number[]) => void) | undefined} what is told which calls are named */
    this.wants = undefined;
    this.label = byId("mark-label");
    this.calls = NO_CALLS;
    this.end = 0;
    // the mark that is chosen
    this.chosen = -1;
    /** @type {Mark[]} */
    this.marks = [];
    this.forget();
    byId("depth").addEventListener("click", ({ offsetX }) => {
      this.go(Math.round(offsetX / byId("depth").clientWidth * this.end));
    });
    this.box.addEventListener("click", (event) => this.click(event));
    this.box.addEventListener("keydown", (event) => this.key(event));
    this.box.addEventListener("focus", () => this.choose(Math.max(this.lastBefore(page.cursor.step), 0)));
    this.box.addEventListener("blur", () => this.choose(-1));
    this.box.addEventListener("pointermove", (event) => this.tell(this.near(event)));
    this.box.addEventListener("pointerleave", () => this.tell(this.chosen));
    addEventListener("resize", () => this.draw());
  }

  forget() {
    this.show(NO_CALLS, 0);
  }

  /**
   * Shows the calls of a run, and the marks of what is known of it.
   * @param {Calls} calls
   * @param {number} end
   */
  show(calls, end) {
    this.calls = calls;
    this.end = end;
    this.chosen = -1;
    this.marks = marksOf(calls);
    this.box.hidden = this.marks.length === 0;
    this.draw();
    if (focused() === this.box) this.choose(Math.max(this.lastBefore(this.page.cursor.step), 0));
    else this.choose(-1);
  }

  /** @param {number} step */
  go(step) {
    this.page.cursor.play(0);
    this.page.cursor.visit(step);
  }

  // How far from the left a step is, of 1.
  /** @param {number} step */
  across(step) {
    return step / Math.max(this.end, 1);
  }

  // The last mark at a step or before it, or -1.
  /** @param {number} step */
  lastBefore(step) {
    let low = 0, high = this.marks.length;
    while (low < high) {
      const middle = (low + high) >> 1;
      if (this.marks[middle].step <= step) low = middle + 1;
      else high = middle;
    }
    return low - 1;
  }

  // The mark that the mouse or a finger is near to, if it is: of the lane under it, or else of any.
  /** @param {MouseEvent} event */
  near(event) {
    const { clientX, clientY } = event;
    const own = elementOf(event).dataset.mark;
    if (own) return Number(own);
    const frame = this.box.getBoundingClientRect();
    const step = (clientX - frame.left) / frame.width * this.end;
    const lane = clientY - frame.top < frame.height / 2 ? "print" : "form";
    /** @param {number} index */
    const away = (index) => Math.abs(this.marks[index].step - step) / Math.max(this.end, 1) * frame.width;
    const next = this.lastBefore(step);
    const from = Math.max(next - 200, 0), to = Math.min(next + 201, this.marks.length);
    let best = -1, least = NEAR_MARK;
    for (let index = from; index < to; index++) {
      const far = away(index) + (this.marks[index].kind === lane ? 0 : 4);
      if (far < least) [best, least] = [index, far];
    }
    return best;
  }

  /** @param {MouseEvent} event */
  click(event) {
    const index = this.near(event);
    const frame = this.box.getBoundingClientRect();
    this.go(index < 0 ? Math.round((event.clientX - frame.left) / frame.width * this.end) : this.marks[index].step);
    if (index >= 0) this.choose(index);
  }

  // Arrows choose a mark; Enter goes to its step.
  /** @param {KeyboardEvent} event */
  key(event) {
    if (event.ctrlKey || event.altKey || event.metaKey || event.shiftKey) return;
    const last = this.marks.length - 1;
    const { chosen } = this;
    /** @type {Record<string, number | undefined>} */
    const places = {
      ArrowLeft: chosen - 1, ArrowUp: chosen - 1, ArrowRight: chosen + 1, ArrowDown: chosen + 1,
      PageUp: chosen - 10, PageDown: chosen + 10, Home: 0, End: last,
    };
    const to = places[event.key];
    if (to !== undefined) this.choose(Math.min(Math.max(to, 0), last));
    else if ((event.key === "Enter" || event.key === " ") && chosen >= 0) this.go(this.marks[chosen].step);
    else return;
    event.preventDefault();
    event.stopPropagation();
  }

  // Chooses a mark, or none, and names those beside it.
  /** @param {number} index */
  choose(index) {
    this.chosen = index < this.marks.length ? index : -1;
    const from = Math.max(this.chosen - NAMED_MARKS, 0), to = Math.min(from + 2 * NAMED_MARKS, this.marks.length);
    const named = this.marks.slice(from, to);
    this.box.replaceChildren(...named.map((mark, at) => this.option(mark, from + at)));
    this.wants?.(named.flatMap(({ index }) => index ?? []));
    if (this.chosen >= 0) this.box.setAttribute("aria-activedescendant", `mark-${this.chosen}`);
    else this.box.removeAttribute("aria-activedescendant");
    this.tell(this.chosen);
  }

  // The name of a mark, for labels.
  /** @param {Mark} mark */
  nameOf({ step, words, index = -1 }) {
    if (words !== undefined) return `step ${grouped(step)}: ${plainOf(words, 60)}`;
    const call = this.page.tree.exact.get(index);
    return `step ${grouped(step)}, a form: ${plainOf(call ? callText(call) : this.calls.texts[index], 60)}`;
  }

  /** @param {Mark} mark @param {number} index */
  option(mark, index) {
    const { step, kind } = mark;
    const option = make("span", `tick ${kind}`);
    option.id = `mark-${index}`;
    option.dataset.mark = String(index);
    option.style.left = `${this.across(step) * 100}%`;
    const said = {
      role: "option", "aria-label": this.nameOf(mark), "aria-posinset": index + 1, "aria-setsize": this.marks.length,
      "aria-selected": index === this.chosen,
    };
    for (const [attribute, value] of Object.entries(said)) option.setAttribute(attribute, String(value));
    return option;
  }

  // Shows the name of a mark over it, or none.
  /** @param {number} index */
  tell(index) {
    this.label.hidden = index < 0;
    if (index < 0) return;
    const place = this.across(this.marks[index].step);
    showFramed(this.label, this.nameOf(this.marks[index]));
    this.label.style.left = `calc(0.5rem + ${place} * (100% - 1rem))`;
    this.label.style.transform = `translateX(-${place * 100}%)`;
  }

  // Draws how many calls are begun, and all marks.
  draw() {
    const canvas = byId("depth");
    const scale = devicePixelRatio || 1;
    [canvas.width, canvas.height] = [Math.max(canvas.clientWidth * scale, 1), Math.max(canvas.clientHeight * scale, 1)];
    const pen = canvas.getContext("2d");
    if (!pen) return;
    const style = getComputedStyle(document.documentElement);
    /** @param {string} name */
    const colour = (name) => style.getPropertyValue(name);
    const picture = { pen, scale, width: canvas.width - 2 * scale, height: canvas.height, colour };
    const deepest = this.drawDepth(picture);
    for (const { from, to } of this.calls.idles ?? []) this.drawIdle(picture, from, to);
    if (!this.calls.prints) this.drawPrinted(picture);
    for (const { step, kind } of this.marks) {
      const { colour: name, top, height } = LANES[kind];
      pen.fillStyle = colour(name);
      const [left, from, long] = [this.across(step) * picture.width, top * picture.height, height * picture.height];
      if (kind === "print") pen.fillRect(left, from, 2 * scale, long);
      else [0, 0.4, 0.8].forEach((part) => pen.fillRect(left, from + part * long, 2 * scale, 2 * scale));
    }
    byId("timeline-note").textContent = this.calls.begun ? `, at most ${grouped(deepest)} at once` : "";
  }

  // Draws where something is printed, as far as the run itself told it, until each print is known.
  /** @param {Picture} picture */
  drawPrinted({ pen, width, height, colour }) {
    const { top, height: high } = LANES.print;
    let before = { step: 0, printed: 0 };
    pen.fillStyle = colour("--put-line");
    for (const mark of this.end < MOST_IDLE_STEPS ? [] : this.page.run?.landmarks ?? []) {
      const [left, right] = [before.step, mark.step].map((step) => this.across(step) * width);
      if (mark.printed > before.printed) pen.fillRect(left, top * height, Math.max(right - left, 1), high * height);
      before = mark;
    }
  }

  // Draws how many calls are begun, as soon as it is known: a stair, each tread from one step to the next. Returns the
  // most.
  /** @param {Picture} picture */
  drawDepth({ pen, scale, width, height, colour }) {
    const { stride, depths } = this.calls.begun ?? { stride: 1, depths: [] };
    // (a step that is not looked at may have more: where all calls are listed, those that are performed there say it)
    const listed = this.calls.from === 0 ? this.calls.depths : [];
    const deepest = Math.max(listed.reduce((most, depth) => Math.max(most, depth + 2), 1), ...depths);
    const floor = height * 0.56;
    [pen.fillStyle, pen.strokeStyle, pen.lineWidth] = [colour("--depth"), colour("--moved-line"), scale];
    pen.beginPath();
    pen.moveTo(0, floor);
    depths.forEach((depth, index) => {
      const above = floor - depth / deepest * (floor - 2 * scale);
      for (const at of [index, index + 1]) pen.lineTo(this.across(Math.min(at * stride, this.end)) * width, above);
    });
    pen.lineTo(width, floor);
    pen.fill();
    pen.stroke();
    return deepest;
  }

  // Hatches the steps by which the idle program reads on.
  /** @param {Picture} picture @param {number} from @param {number} to */
  drawIdle({ pen, scale, width, height, colour }, from, to) {
    const [left, right] = [from, to].map((step) => this.across(step) * width);
    pen.fillStyle = colour("--pale");
    const end = Math.max(right, left + scale);
    for (let at = left; at < end; at += 3 * scale) pen.fillRect(at, height * 0.42, scale, height * 0.14);
  }
}
