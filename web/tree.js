// The calls of the run as a tree. Only the rows that can be seen are made.
import { addText, grouped } from "./bytes.js";
import { doubtSign } from "./words.js";
import { NO_CALLS } from "./calls.js";
import { Listing } from "./listing.js";
import { around, byId, elementOf, make } from "./elements.js";

// So many milliseconds what was typed to choose a call is kept.
const TYPING = 1000;

// Has an element hold these and no others. Those that stay are not touched, so that nothing reads them anew.
/** @param {Element} parent @param {Element[]} elements */
function keepSame(parent, elements) {
  const wanted = new Set(elements);
  for (const old of [...parent.children]) if (!wanted.has(old)) old.remove();
  elements.forEach((element, at) => {
    if (parent.children[at] !== element) parent.insertBefore(element, parent.children[at] ?? null);
  });
}

export class Tree extends Listing {
  /** @param {(step: number) => void} go */
  constructor(go) {
    super();
    this.box = byId("tree");
    this.go = go;
    /** @type {Map<number, string>} what is doubted of calls, by their steps */
    this.doubts = new Map();
    this.note = "";
    // the call of the step, and the one that is chosen
    this.current = -1;
    this.chosen = -1;
    /** @type {Map<number, HTMLElement>} the rows that are there */
    this.made = new Map();
    this.rows = make("div", "rows");
    this.box.append(this.rows);
    // what was typed to choose a call, and whether keys or the mouse came last
    this.typed = "";
    /** @type {ReturnType<typeof setTimeout> | undefined} */
    this.forgetting = undefined;
    this.isByKeys = false;
    this.isPointed = false;
    this.show(NO_CALLS);
    this.box.addEventListener("scroll", () => requestAnimationFrame(() => this.draw()));
    this.box.addEventListener("click", (event) => this.click(event));
    this.box.addEventListener("keydown", (event) => this.key(event));
    this.box.addEventListener("pointerdown", () => this.pointed(true));
    this.box.addEventListener("focus", () => this.entered());
    this.box.addEventListener("blur", () => this.pointed(false));
    // (as a description for all, it would be read aloud after the name, which is the same)
    this.box.addEventListener("pointerover", (event) => {
      const row = around(elementOf(event), ".row");
      if (row) row.title = row.textContent ?? "";
    });
    byId("filter").addEventListener("input", () => this.searched());
    addEventListener("resize", () => this.draw());
  }

  // Shows the calls of a run.
  /** @param {Calls} calls */
  show(calls) {
    this.hold(calls);
    this.made.clear();
    this.current = this.chosen = -1;
    this.list();
  }

  // Lists what is to be seen: what is not folded, or what is asked for.
  list() {
    this.ask(byId("filter").value.toLowerCase());
    const count = this.calls.steps.length;
    const of = this.isFlat ? `${grouped(this.shown.length)} of ` : "";
    byId("tree-count").textContent = `${of}${grouped(count)}${this.note}`;
    this.draw();
  }

  // Something else is asked for: the first call of that is seen, or without a search that of the step.
  searched() {
    this.list();
    if (this.isFlat) this.box.scrollTop = 0;
    else if (this.places.has(this.current)) this.bring(this.current);
    this.draw();
  }

  get rowHeight() {
    return parseFloat(getComputedStyle(this.box).lineHeight);
  }

  // Makes the rows that can be seen, and that of the chosen call, which has the focus. Those that are there stay.
  draw() {
    const height = this.rowHeight;
    const from = Math.max(Math.floor(this.box.scrollTop / height) - 3, 0);
    const to = Math.min(from + Math.ceil(this.box.clientHeight / height) + 6, this.shown.length);
    const places = Array.from({ length: Math.max(to - from, 0) }, (_, at) => from + at);
    const chosen = this.places.get(this.chosen) ?? -1;
    if (chosen >= to) places.push(chosen);
    else if (chosen >= 0 && chosen < from) places.unshift(chosen);
    const made = new Map(places.map((place) => [this.shown[place], this.row(place, height)]));
    this.rows.style.height = `${this.shown.length * height}px`;
    keepSame(this.rows, [...made.values()]);
    this.made = made;
    if (chosen >= 0) this.box.setAttribute("aria-activedescendant", `call-${this.chosen}`);
    else this.box.removeAttribute("aria-activedescendant");
  }

  // The row of a place, as it is there or new.
  /** @param {number} place @param {number} height */
  row(place, height) {
    const index = this.shown[place];
    const attributes = this.attributes(place);
    const doubt = this.doubts.get(this.calls.steps[index]);
    const looks = JSON.stringify([attributes, place * height, doubt]);
    const old = this.made.get(index);
    if (old?.dataset.looks === looks) return old;
    const row = make("div");
    for (const [name, value] of Object.entries(attributes)) row.setAttribute(name, String(value));
    [row.dataset.index, row.dataset.looks] = [String(index), looks];
    row.style.top = `${place * height}px`;
    row.append(make("span", "number", grouped(this.calls.steps[index])));
    row.append("\u00a0".repeat(this.isFlat ? 1 : 1 + Math.min(this.levels[index], 40)));
    const isOpen = attributes["aria-expanded"];
    const fold = make("span", "fold", isOpen === undefined ? "" : isOpen ? "▾" : "▸");
    fold.setAttribute("aria-hidden", "true");
    row.append(fold);
    this.fill(row, index);
    if (doubt) row.append(doubtSign(doubt));
    return row;
  }

  // Fills a row with what it says of its call.
  /** @param {HTMLElement} row @param {number} index */
  fill(row, index) {
    addText(row, this.calls.texts[index]);
  }

  // What a row says of its call to those who do not see it, and how it looks.
  /** @param {number} place */
  attributes(place) {
    const index = this.shown[place];
    /** @type {Record<string, string | number | boolean>} */
    const attributes = {
      id: `call-${index}`,
      class: index === this.chosen ? "row chosen" : "row",
      role: "treeitem",
      "aria-level": this.isFlat ? 1 : this.levels[index] + 1,
      "aria-posinset": this.isFlat ? place + 1 : this.ranks[index],
      "aria-setsize": this.isFlat ? this.shown.length : this.siblingsOf(index).length,
    };
    if (index === this.current) attributes["aria-current"] = "step";
    if (this.children[index].length > 0 && !this.isFlat) attributes["aria-expanded"] = !this.folded.has(index);
    return attributes;
  }


  // Marks the call of a step, and brings it in view.
  /** @param {number} step */
  mark(step) {
    let index = this.at(step);
    while (index >= 0 && !this.places.has(index)) index = this.isFlat ? index - 1 : this.calls.parents[index];
    if (index === this.current) return;
    this.current = index;
    this.bring(index);
  }

  /** @param {number} index */
  bring(index) {
    const top = (this.places.get(index) ?? 0) * this.rowHeight;
    if (top < this.box.scrollTop || top + 2 * this.rowHeight > this.box.scrollTop + this.box.clientHeight) {
      this.box.scrollTop = Math.max(top - this.box.clientHeight / 2, 0);
    }
    this.draw();
  }

  /** @param {MouseEvent} event */
  click(event) {
    const row = around(elementOf(event), ".row");
    if (!row) return;
    const index = Number(row.dataset.index);
    this.chosen = index;
    if (elementOf(event).closest(".fold")?.textContent) this.fold(index, !this.folded.has(index));
    else this.go(this.calls.steps[index]);
  }

  /** @param {number} index @param {boolean} isFolded */
  fold(index, isFolded) {
    if (isFolded) this.folded.add(index);
    else this.folded.delete(index);
    this.list();
    // (what was chosen may be folded now)
    if (isFolded && this.chosen >= 0 && !this.places.has(this.chosen)) this.choose(this.places.get(index) ?? 0);
  }

  // The mouse or a finger came to a row: letters are keys of the page then, until arrows move.
  /** @param {boolean} isPointed */
  pointed(isPointed) {
    this.isPointed = isPointed;
    if (isPointed) this.isByKeys = false;
  }

  // The focus came: by keys, to the chosen call, or that of the step, or the first.
  entered() {
    this.isByKeys = !this.isPointed;
    if (this.isByKeys && this.shown.length) this.choose(this.place);
  }

  // The place of the call where keys are.
  get place() {
    return this.places.get(this.chosen) ?? this.places.get(this.current) ?? 0;
  }

  // Arrows choose a call, unfold and fold; letters choose the next call of that name; Enter goes there.
  /** @param {KeyboardEvent} event */
  key(event) {
    const isCommand = event.ctrlKey || event.altKey || event.metaKey || (event.shiftKey && event.key.length > 1);
    if (isCommand || this.shown.length === 0) return;
    const { place } = this;
    const page = Math.max(Math.floor(this.box.clientHeight / this.rowHeight) - 1, 1);
    /** @type {Record<string, number | undefined>} */
    const places = {
      ArrowDown: place + 1, ArrowUp: place - 1, PageDown: place + page, PageUp: place - page,
      Home: 0, End: this.shown.length,
    };
    const to = places[event.key];
    if (to !== undefined) this.choose(Math.min(Math.max(to, 0), this.shown.length - 1));
    else if (event.key === "ArrowRight") this.inwards(place);
    else if (event.key === "ArrowLeft") this.outwards(place);
    else if (event.key === "Enter") this.go(this.calls.steps[this.shown[place]]);
    else if (this.isByKeys && /^[\p{L}\p{N}]$/u.test(event.key)) this.typeahead(event.key, place);
    else return;
    if (event.key.startsWith("Arrow")) this.isByKeys = true;
    if (event.key.length > 1) this.typed = "";
    event.preventDefault();
    event.stopPropagation();
  }

  // Unfolds a call, or goes to the first one within it.
  /** @param {number} place */
  inwards(place) {
    const index = this.chosen = this.shown[place];
    if (this.folded.has(index)) this.fold(index, false);
    else if (!this.isFlat && this.children[index].length) this.choose(place + 1);
  }

  // Folds a call, or goes to the one that it is within.
  /** @param {number} place */
  outwards(place) {
    const index = this.chosen = this.shown[place];
    if (this.isFlat) return;
    if (this.children[index].length && !this.folded.has(index)) this.fold(index, true);
    else this.choose(this.places.get(this.calls.parents[index]) ?? place);
  }

  // Chooses the next call whose name begins so. What is typed soon after is more of the name.
  /** @param {string} sign @param {number} place */
  typeahead(sign, place) {
    clearTimeout(this.forgetting);
    this.typed += sign.toLowerCase();
    this.forgetting = setTimeout(() => {
      this.typed = "";
    }, TYPING);
    // (more of the name may be that of the same call; the same sign again is for the next one)
    const more = this.named(this.typed, place + (this.typed.length > 1 ? 0 : 1));
    const to = more ?? this.named(sign.toLowerCase(), place + 1);
    if (to !== undefined) this.choose(to);
  }


  /** @param {number} place */
  choose(place) {
    this.chosen = this.shown[place];
    this.bring(this.chosen);
  }
}
