// What is typed is kept in an entry of its own (works.js), soon after it was typed, and before anything else comes in
// its place. So whatever is opened then, it is there still.
import { textOf } from "./bytes.js";
import { byId } from "./elements.js";
import { ask } from "./question.js";
import { keepText, kept } from "./stored.js";
import {
  countOfEntries, entries, entryOf, forgetEntry, isRaced, MOST_WORKS, noteReplaced, standOf, takeOlder, writeEntry,
} from "./works.js";
import { legible } from "./unseen.js";

// What this tab had last, for when it is loaded anew.
const TAB = "trac.tab";
// A longer program is not kept, and it is kept so many milliseconds after it was typed.
const MOST_DRAFT = 1 << 20;
const DRAFT_TIME = 250;

/**
 * @typedef {import("./undoing.js").Held} Held
 * @typedef {import("./undoing.js").Work} Work
 * @typedef {import("./works.js").Kept} Kept
 */

// What is to be kept of a program; nothing where it is too long, or no text.
/** @param {Uint8Array} bytes */
const textToKeep = (bytes) => bytes.length > MOST_DRAFT ? null : textOf(bytes);

// A program of an entry. Whether it is this tab's own: else another tab may have it, too.
/** @param {Kept} entry @returns {Required<Held>} */
export function heldOf({ id, raw, name, text, isSaved, isReplaced }, isMine = false) {
  const work = { isTyped: !isSaved && !isReplaced, isKept: true, place: { id, raw }, isMine };
  return { name, bytes: new TextEncoder().encode(text), work };
}

// Whether what was typed in a work is neither kept nor saved.
/** @param {Held} held */
function isAtRisk({ bytes, work }) {
  if (!work?.isTyped || bytes.length === 0) return false;
  return !(work.isKept && work.place && standOf(work.place) !== "gone");
}

export class Draft {
  /** @param {Editor} editor */
  constructor(editor) {
    this.editor = editor;
    /** @type {ReturnType<typeof setTimeout> | 0} */
    this.later = 0;
    /** @type {(words: string) => void} what says what is not kept */
    this.told = () => {};
    editor.leaving = () => this.leave();
    editor.replacing = () => this.replace();
    addEventListener("pagehide", () => this.leave());
    document.addEventListener("visibilitychange", () => this.leave());
    // (a page that the browser has set aside, and brings back, has heard of nothing meanwhile)
    for (const kind of ["storage", "pageshow", "focus"]) addEventListener(kind, () => this.look());
    addEventListener("beforeunload", (event) => {
      this.leave();
      if ([...editor.undoing.held(), editor.held()].some(isAtRisk)) event.preventDefault();
    });
  }

  // The program was typed: it is kept soon. (One that was deleted sign by sign was replaced, too.)
  typed() {
    if (this.editor.box.value === "") this.replace();
    Object.assign(this.editor.work, { isTyped: true, isKept: false });
    clearTimeout(this.later);
    this.later = setTimeout(() => this.keep(), DRAFT_TIME);
  }

  // All that stands there gives way to another text: its entry stays, if it has one, and what comes has one of its own.
  replace() {
    if (this.later) this.keep();
    const { place, isKept, isMine } = this.editor.work;
    if (!place || !(isKept || this.editor.box.value === "")) return;
    if (isMine) noteReplaced(place);
    this.editor.work = { isTyped: false };
  }

  // What is to be kept soon is kept at once. So is what could not be kept before.
  leave() {
    const { work } = this.editor;
    if (this.later || (work.isTyped && !work.isKept)) this.keep();
    for (const held of this.editor.undoing.held()) if (held.work?.isTyped && !held.work.isKept) this.keepHeld(held);
  }

  // Where another page has gone on with the entry of what was typed here, this has another one. So has what gave way to
  // another program here, if both were written at about the same time.
  look() {
    const { work, undoing } = this.editor;
    if (work.isTyped && work.isMine && work.place && standOf(work.place) === "other") this.keep();
    for (const held of undoing.held()) {
      if (held.work?.isTyped && held.work.isMine && held.work.place && isRaced(held.work.place)) this.keepHeld(held);
    }
  }

  // Keeps what was typed, if that is something.
  keep() {
    clearTimeout(this.later);
    this.later = 0;
    const held = this.editor.held();
    if (held.bytes.length > 0) this.keepHeld(held);
    this.remember();
    this.show(held);
  }

  /** @param {Held} held */
  keepHeld({ name, bytes, work }) {
    const text = textToKeep(bytes);
    if (!work) return;
    const entry = text === null ? null : { name, text, time: Date.now(), isSaved: !work.isTyped, isReplaced: false };
    const place = entry && writeEntry(work.place, entry);
    work.isKept = place !== null;
    if (place) Object.assign(work, { place, isMine: true });
  }

  // Says what is not kept, and why; or that there are many.
  /** @param {Held} held */
  show(held) {
    const count = countOfEntries();
    const why = textToKeep(held.bytes) === null ? "over 1 MiB, or no text" : "this browser refuses it";
    const words = isAtRisk(held) ? `not kept (${why}): save it`
      : count > MOST_WORKS ? `Yours has ${count} programs: save or forget some` : "";
    if (words && words !== byId("kept-note").textContent) this.told(words);
    byId("kept-note").textContent = words;
  }

  // Another program stands there. What was forgotten and is brought back is as if it were typed.
  opened() {
    const { work } = this.editor;
    if (work.isForgotten) Object.assign(work, { isTyped: true, isForgotten: false });
    this.remember();
    byId("kept-note").textContent = "";
    if (isAtRisk(this.editor.held())) this.typed();
  }

  // This tab remembers its entry, or what was only opened, for when it is loaded anew.
  remember() {
    const { name, bytes, work } = /** @type {Required<Held>} */ (this.editor.held());
    const text = work.place ? "" : textToKeep(bytes);
    const tab = work.place ? { id: work.place.id, isMine: work.isMine } : { name, text, isTyped: work.isTyped };
    const isDone = text !== null && keepText(TAB, JSON.stringify(tab), "sessionStorage");
    if (!isDone) keepText(TAB, null, "sessionStorage");
  }

  /** @returns {Held | null} */
  remembered() {
    try {
      const { id, isMine, name, text, isTyped } = JSON.parse(kept(TAB, "sessionStorage") ?? "");
      const entry = typeof id === "string" ? entryOf(id) : null;
      if (entry) return heldOf(entry, isMine === true);
      if (typeof name !== "string" || typeof text !== "string") return null;
      return { name, bytes: new TextEncoder().encode(text), work: { isTyped: isTyped === true } };
    } catch {
      return null;
    }
  }

  // Goes on with what this tab had, or else with what was typed last, if it was not saved or replaced. What someone has
  // typed before the page was there stays, as a work of its own. Returns whether something stands there.
  restore() {
    takeOlder();
    const { editor } = this;
    const all = entries(), last = all.find((one) => heldOf(one).work.isTyped) ?? all[0];
    const held = this.remembered() ?? (last ? heldOf(last) : null);
    const early = editor.box.value;
    if (early !== "" && early !== (held && textOf(held.bytes))) {
      editor.begun();
      this.typed();
      this.keep();
      return true;
    }
    if (!held) return false;
    editor.put(held);
    this.opened();
    return true;
  }

  // Whether another program may be opened: that is asked where what was typed is kept nowhere.
  async mayGo() {
    this.leave();
    const held = this.editor.held(), words = `${legible(held.name)} is not kept by this browser.`;
    return !isAtRisk(held) || ask(`${words} Open another program in its place?`);
  }

  // The program is in a file.
  saved() {
    this.leave();
    const { work } = this.editor;
    work.isTyped = false;
    if (work.place && standOf(work.place) === "same") this.keep();
    byId("kept-note").textContent = "";
  }

  // Forgets the entry of what stands there, after a question. Returns whether it did.
  async forget() {
    this.leave();
    const { editor, editor: { name, work } } = this;
    const words = `Forget ${legible(name)}, as it stands there?${work.isTyped ? " It is in no file." : ""}`;
    if (!work.place || !await ask(words)) return false;
    if (work !== editor.work) return false;
    forgetEntry(work.place);
    editor.work = { isTyped: false, isForgotten: true };
    return true;
  }
}
