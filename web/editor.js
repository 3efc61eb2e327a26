// The program: a box of text over the same text, on which places are lit. Bytes are the truth: what the box cannot give
// back as it was is shown for reading only.
import { grouped, textOf } from "./bytes.js";
import { fixedOf, isOfWide, unitOfFixed, whyWide } from "./fixed.js";
import { setLight } from "./lights.js";
import { isLong, Paint, pairAround } from "./paint.js";
import { byId, focused } from "./elements.js";
import { insertText, startIndenting } from "./indent.js";
import { Undoing } from "./undoing.js";
import { legible } from "./unseen.js";

// A longer program is for reading only.
const MOST_EDITED = 1 << 21;
// Why a program is for reading only.
const NO_TEXT = "it has bytes that are no text";
const TWO_ENDS = "its line ends are of two kinds, CR LF and LF";

/**
 * A stretch of a program: from a byte to before another.
 * @typedef {[from: number, to: number]} Stretch
 * @typedef {import("./fixed.js").Fixed} Fixed
 * @typedef {import("./undoing.js").Held} Held
 * @typedef {import("./undoing.js").Work} Work
 */

/**
 * Whether a text is more than a box can hold for writing.
 * @param {string} text
 */
const isTooMuch = (text) => text.length > MOST_EDITED || whyWide(text) !== null;

export class Editor {
  /** @param {() => void} changed */
  constructor(changed) {
    this.box = byId("source");
    this.frame = byId("editor");
    this.paint = new Paint(byId("paint"));
    /** @type {Fixed | null} what is for reading only */
    this.fixed = null;
    this.eol = "\n";
    this.name = "program.trac";
    // the bytes of the text in the box, once they are asked for
    /** @type {{ value: string, eol: string, bytes: Uint8Array } | null} */
    this.kept = null;
    /** @type {Map<string, Stretch[]>} which bytes are lit, in which way */
    this.lit = new Map();
    /** @type {Work} the work on what stands there */
    this.work = { isTyped: false };
    // whether something was typed since a program was opened, and how that stood in the box
    this.isTouched = false;
    this.asOpened = "";
    // whether all of that was undone
    this.isUndone = false;
    /** @type {() => void} what is done before another program stands there, and before all of one is replaced */
    this.leaving = () => {};
    /** @type {() => void} */
    this.replacing = () => {};
    /** @type {ReturnType<typeof setTimeout> | undefined} */
    this.later = undefined;
    this.undoing = new Undoing(this);
    this.box.addEventListener("input", (event) => {
      this.isTouched = true;
      const isUndo = event instanceof InputEvent && event.inputType === "historyUndo";
      this.isUndone = isUndo && this.box.value === this.asOpened;
      this.typed();
      changed();
      this.undoing.show();
    });
    this.box.addEventListener("beforeinput", (event) => {
      const { box: { selectionStart, selectionEnd, value }, isTouched } = this, { inputType } = event;
      // (Chromium would go on with what was done to the program before this one)
      const isPast = !isTouched || (inputType === "historyUndo" && this.isUndone);
      if (isPast && inputType.startsWith("history")) event.preventDefault();
      // (what is composed is chosen as a whole before each sign of it)
      if (event.isComposing) return;
      const isAll = value !== "" && selectionStart === 0 && selectionEnd === value.length;
      if (isAll && !inputType.startsWith("history")) this.replacing();
    });
    this.box.addEventListener("compositionstart", () => {
      const { selectionStart, selectionEnd, value } = this.box;
      if (value !== "" && selectionStart === 0 && selectionEnd === value.length) this.replacing();
    });
    this.box.addEventListener("paste", (event) => {
      if (this.pasted(event)) changed();
    });
    // (the frame scrolls, and never the box in it: what is lit would stand under other signs)
    this.box.addEventListener("scroll", () => {
      if (this.box.scrollTop || this.box.scrollLeft) [this.box.scrollTop, this.box.scrollLeft] = [0, 0];
    });
    startIndenting(this.box);
    document.addEventListener("selectionchange", () => this.lightPair());
    byId("mend").addEventListener("click", () => this.mend());
    this.repaint();
  }

  // Something else stands in the box.
  typed() {
    clearTimeout(this.later);
    const { name, work, box: { value } } = this;
    if (isTooMuch(value)) return this.put({ name, bytes: this.encoded(value), work });
    if (this.fixed) this.free();
    if (!isLong(value)) this.repaint();
    else this.later = setTimeout(() => this.repaint(), 150);
    return undefined;
  }

  // What is pasted never comes into the box if that makes the program long or wide. Whether it does.
  /** @param {ClipboardEvent} event */
  pasted(event) {
    const text = event.clipboardData?.getData("text/plain") ?? "";
    const { value, selectionStart, selectionEnd, readOnly } = this.box;
    const whole = value.slice(0, selectionStart) + text.replaceAll("\r\n", "\n") + value.slice(selectionEnd);
    if (readOnly || !isTooMuch(whole)) return false;
    event.preventDefault();
    this.open({ name: this.name, bytes: this.encoded(whole) });
    return true;
  }

  // Opens a program in place of what is there, which can be brought back.
  /** @param {Held} held */
  open(held) {
    this.leaving();
    this.undoing.leave();
    this.put(held);
  }

  // Shows a program. What is long, is not UTF-8, has wide lines or line ends of two kinds, is for reading only.
  /** @param {Held} held */
  put({ name, bytes, work = { isTyped: false } }) {
    clearTimeout(this.later);
    [this.name, this.work] = [name, work];
    this.lit.clear();
    const text = bytes.length > MOST_EDITED ? null : textOf(bytes);
    const plain = text === null ? null : text.replaceAll("\r\n", "\n");
    this.eol = text !== null && text !== plain ? "\r\n" : "\n";
    const wide = plain === null ? null : whyWide(plain);
    if (plain !== null && !wide) this.box.value = plain;
    const isSame = plain !== null && !wide && this.box.value === plain && plain.replaceAll("\n", this.eol) === text;
    // (other carriage returns are bytes that the box would change)
    const areEnds = !isSame && !wide && text !== null && !/\r(?!\n)|\0/.test(text);
    byId("mend").hidden = !areEnds;
    if (isSame) this.free();
    else this.fix(fixedOf(bytes, wide ?? (areEnds ? TWO_ENDS : NO_TEXT)));
    this.isTouched = this.isUndone = false;
    this.asOpened = this.box.value;
    this.repaint();
    this.frame.scrollTop = 0;
    this.undoing.show();
  }

  // What stands there was typed before the page was there to hear of it.
  begun() {
    this.isTouched = true;
    this.typed();
  }

  // Has one kind of line ends in place of two, so that the program can be edited.
  mend() {
    const text = textOf(this.bytes()) ?? "";
    const bytes = new TextEncoder().encode(text.replaceAll("\r\n", "\n"));
    this.open({ name: this.name, bytes, work: { isTyped: true } });
    this.undoing.restored(this.name);
    this.box.focus();
  }

  // The box is for writing.
  free() {
    this.fixed = null;
    this.box.readOnly = false;
    byId("program-name").textContent = legible(this.name);
  }

  // Keeps bytes as they are, and shows signs in their place.
  /** @param {Fixed} fixed */
  fix(fixed) {
    this.fixed = fixed;
    this.box.value = fixed.text;
    this.box.readOnly = true;
    this.kept = null;
    const [one, last, all] = [fixed.from + 1, fixed.to, fixed.bytes.length].map(grouped);
    const part = `bytes ${one} to ${last} of ${all} are shown`;
    const said = fixed.isWhole ? fixed.why : isOfWide(fixed.why) ? `${part}: ${fixed.why}` : part;
    byId("program-name").textContent = `${legible(this.name)} (for reading only: ${said})`;
  }

  // The bytes of a text of the box.
  /** @param {string} text */
  encoded(text) {
    return new TextEncoder().encode(text.replaceAll("\n", this.eol));
  }

  // The bytes of the program.
  bytes() {
    if (this.fixed) return this.fixed.bytes;
    const { eol, kept, box: { value } } = this;
    if (kept?.value === value && kept.eol === eol) return kept.bytes;
    const bytes = this.encoded(value);
    this.kept = { value, eol, bytes };
    return bytes;
  }

  // The program as it can be brought back.
  /** @returns {Held} */
  held() {
    return { name: this.name, bytes: this.bytes(), work: this.work };
  }

  // Writes a text at the end of the program, before the line ends there, as if it was typed.
  /** @param {string} text */
  write(text) {
    const end = this.box.value.trimEnd().length;
    this.box.focus({ preventScroll: true });
    this.box.setSelectionRange(end, end);
    insertText(this.box, text);
  }

  repaint() {
    for (const name of ["lit", "read", "doubtful", "pair"]) setLight(name, []);
    this.paint.show(this.box.value, this.fixed?.isWhole === false);
    this.frame.classList.toggle("plain", this.paint.isPlain);
  }

  // Lights the parentheses that one stands in.
  lightPair() {
    const { box } = this;
    const isHere = focused() === box && box.selectionStart === box.selectionEnd && !this.paint.isPlain;
    const pair = isHere ? pairAround(box.value, box.selectionStart) : null;
    setLight("pair", (pair ?? []).flatMap((unit) => this.paint.rangeOf(unit) ?? []));
  }

  // Where the signs of bytes stand in the box, each byte after the one before; -1 where one is not there.
  /** @param {number[]} numbers */
  unitsOf(numbers) {
    const { fixed } = this;
    if (fixed) return numbers.map((number) => unitOfFixed(fixed, number));
    const bytes = this.bytes();
    if (bytes.length === this.box.value.length) return numbers;
    let at = 0, unit = 0, next = 0;
    return numbers.map((number) => {
      for (; at <= number; at++) {
        if ((bytes[at] & 0xc0) === 0x80 || (bytes[at] === 10 && bytes[at - 1] === 13)) continue;
        [unit, next] = [next, next + (bytes[at] >= 0xf0 ? 2 : 1)];
      }
      return unit;
    });
  }

  // Lights stretches of the program, each from a byte to before another, in a way that has a name. If it is wanted,
  // they come in view.
  /** @param {string} name @param {Stretch[]} stretches */
  light(name, stretches, isShown = true) {
    this.lit.set(name, stretches);
    const rising = [...new Set(stretches.flatMap(([from, to]) => [from, to - 1]))].sort((one, other) => one - other);
    const units = new Map(this.unitsOf(rising).map((unit, at) => [rising[at], unit]));
    /** @param {number} byte */
    const unitOf = (byte) => units.get(byte) ?? -1;
    const ranges = stretches.flatMap(([from, to]) => this.paint.rangesOf(unitOf(from), unitOf(to - 1) + 1));
    setLight(name, ranges);
    if (isShown && ranges.length && focused() !== this.box) this.bring(ranges[0]);
  }

  // Chooses the sign of a byte, in view, so that it can be edited.
  /** @param {number} number */
  choose(number) {
    if (this.fixed && unitOfFixed(this.fixed, number) < 0) this.showAround(this.fixed, number);
    const [unit] = this.unitsOf([number]);
    this.frame.scrollIntoView({ block: "nearest" });
    this.box.focus({ preventScroll: true });
    this.box.setSelectionRange(unit, unit + (/[\ud800-\udbff]/.test(this.box.value[unit]) ? 2 : 1));
    const range = this.paint.rangeOf(unit);
    if (range) this.bring(range);
  }

  // Shows the part that has a byte in its middle, with what is lit in it.
  /** @param {Fixed} fixed @param {number} number */
  showAround({ bytes, why }, number) {
    this.fix(fixedOf(bytes, why, number));
    this.repaint();
    for (const [name, stretches] of this.lit) this.light(name, stretches, false);
  }

  // Scrolls the box so that a range is in view.
  /** @param {Range} range */
  bring(range) {
    const at = range.getBoundingClientRect(), frame = this.frame.getBoundingClientRect();
    if (at.top >= frame.top && at.bottom <= frame.bottom) return;
    this.frame.scrollTop += at.top - frame.top - frame.height / 2;
  }
}
