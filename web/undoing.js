// What stood in the editor before another program was opened, and after it: it can be brought back. This is for
// convenience: what was typed is kept besides (drafts.js), and what could not be kept stays in these lists.
import { byId, elementOf } from "./elements.js";
import { isWriting } from "./focus.js";
import { legible } from "./unseen.js";

// So many programs that stood there before are held, and so many bytes of them.
const MOST_BEFORE = 20;
const MOST_BEFORE_BYTES = 1 << 25;

/**
 * The work on a program: whether something was typed that is in no file, whether that is kept, in which entry, whether
 * this tab has written that entry, and whether it was to be forgotten. And a program: its name, its bytes, and the work
 * on it.
 * @typedef {{
 *   isTyped: boolean, isKept?: boolean, place?: import("./works.js").Place, isMine?: boolean, isForgotten?: boolean
 * }} Work
 * @typedef {{ name: string, bytes: Uint8Array, work?: Work }} Held
 */

/** @type {((held: Held) => boolean)[]} what goes first of too many: what was only opened, then what is kept */
const GOING = [({ work }) => !work?.isTyped, ({ work }) => work?.isKept === true];

export class Undoing {
  /** @param {Editor} editor */
  constructor(editor) {
    this.editor = editor;
    /** @type {Held[]} what stood there before, and after */
    this.before = [];
    /** @type {Held[]} */
    this.after = [];
    /** @type {(name: string) => void} what is told that such a program is back */
    this.restored = () => {};
    document.addEventListener("keydown", (event) => this.key(event));
    byId("undo").addEventListener("click", () => this.goBack(this.before, this.after));
  }

  // Another program comes: what is there can be brought back, and nothing that came after it, but what is not kept.
  leave() {
    this.before.unshift(...this.after.filter((held) => !GOING.some((goes) => goes(held))));
    this.after = [];
    if (this.editor.box.value !== "") this.hold(this.before);
  }

  // Holds what is there.
  /** @param {Held[]} list */
  hold(list) {
    list.push(this.editor.held());
    const isTooMuch = () => list.length > MOST_BEFORE
      || list.reduce((sum, { bytes }) => sum + bytes.length, 0) > MOST_BEFORE_BYTES;
    for (const goes of GOING) {
      for (let at = list.findIndex(goes); at >= 0 && isTooMuch(); at = list.findIndex(goes)) list.splice(at, 1);
    }
  }

  // What can be brought back.
  held() {
    return [...this.before, ...this.after];
  }

  // Brings back what stood there before another program was opened, or after.
  /** @param {Held[]} from @param {Held[]} to */
  goBack(from, to) {
    if (from.length === 0) return;
    this.editor.leaving();
    const held = /** @type {Held} */ (from.pop());
    this.hold(to);
    this.editor.put(held);
    this.restored(held.name);
    this.editor.box.focus({ preventScroll: true });
  }

  // Ctrl+Z, where nothing was typed since a program was opened, brings back the one before. All else is undone by the
  // browser, which could not do again what was undone once another program stands there. (So a key that is held down
  // does not go so far.)
  /** @param {KeyboardEvent} event */
  key(event) {
    const { box, isTouched } = this.editor, key = event.key.toLowerCase();
    if (!(event.ctrlKey || event.metaKey) || event.altKey || !["z", "y"].includes(key)) return;
    const isElsewhere = elementOf(event) !== box && isWriting(elementOf(event));
    const isAgain = key === "y" || event.shiftKey;
    if (isElsewhere || isTouched || event.repeat || !(isAgain ? this.after : this.before).length) return;
    event.preventDefault();
    if (isAgain) this.goBack(this.after, this.before);
    else this.goBack(this.before, this.after);
  }

  // Offers it as long as nothing was typed since.
  show() {
    const held = this.before[this.before.length - 1];
    const button = byId("undo");
    button.hidden = !held || this.editor.isTouched;
    button.textContent = held ? `bring back ${legible(held.name)}` : "";
  }
}
