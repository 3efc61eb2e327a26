// The large view, for a class: the rule and the text fill the window, in large type.
import { isOn, isWriting } from "./focus.js";
import { byId, elementOf, focused } from "./elements.js";

// Keys that are for what the large view leaves out: they leave it first.
const OUTSIDE_KEYS = ["/", "?", "h"];

export class Big {
  /** @param {Page} page */
  constructor(page) {
    this.page = page;
    this.button = byId("big");
    /** @type {HTMLElement | null} what had the focus before, and how far the page was scrolled */
    this.before = null;
    this.scrolled = 0;
    this.button.addEventListener("click", () => this.toggle());
    document.addEventListener("keydown", (event) => this.key(event), true);
  }

  get isOn() {
    return document.documentElement.dataset.big === "yes";
  }

  toggle() {
    if (this.isOn) this.leave();
    else this.enter();
  }

  enter() {
    if (!this.page.run) return;
    this.before = focused();
    this.scrolled = scrollY;
    document.documentElement.dataset.big = "yes";
    this.shown();
    this.button.focus({ preventScroll: true });
    this.page.view.note("Esc or this button leaves the large view");
  }

  leave() {
    delete document.documentElement.dataset.big;
    this.page.view.note("");
    this.shown();
    scrollTo(0, this.scrolled);
    if (this.before?.isConnected && this.before !== document.body) this.before.focus();
  }

  // The window shows other parts now.
  shown() {
    this.button.setAttribute("aria-pressed", String(this.isOn));
    dispatchEvent(new Event("resize"));
    this.bring();
  }

  /** @param {KeyboardEvent} event */
  key(event) {
    if (!this.isOn || event.ctrlKey || event.altKey || event.metaKey || isWriting(elementOf(event))) return;
    const leaves = event.key === "Escape";
    if (leaves || (OUTSIDE_KEYS.includes(event.key) && isOn(event.key))) this.leave();
    if (leaves) event.preventDefault();
  }

  // Brings the mark to the middle of the text.
  bring() {
    const tape = byId("tape");
    const place = byId("mark").getBoundingClientRect().top - tape.getBoundingClientRect().top;
    if (this.isOn) tape.scrollTop += place - tape.clientHeight * 0.45;
    else tape.scrollTop = 0;
  }
}
