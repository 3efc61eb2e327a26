// Where a byte comes from: the calls that carried it, each a link, and the byte of the program that it was read from.
import { addShort, grouped, lengthOf, lineAndColumn, plainOf } from "./bytes.js";
import { rangeOfByte } from "./cells.js";
import { addCall } from "./panels.js";
import { callText } from "./words.js";
import { ruleOf } from "./moves.js";
import { addLight, setLight } from "./lights.js";
import { followed } from "./follow.js";
import { keepFocus } from "./focus.js";
import { around, buttonOf, byId, elementOf, make } from "./elements.js";

/** @type {Record<string, string>} */
const DEEDS = {
  prints: "prints it", sets: "sets it", gives: "gives it", makes: "makes it", there: "it is there already",
};
// So often a byte that a call made is followed on by itself, through the same argument of calls of the same name.
const MOST_HOPS = 200;
const SHOWN_ROWS = 30;
// What is said after a place in a program that was changed since the run.
const OF_OLD = " of the program as it was run";

/**
 * A byte of a text that is shown at a step: the place of that, and its number there.
 * @typedef {{ place: string, step: number, number: number }} Spot
 */

export class Way {
  /** @param {Page} page */
  constructor(page) {
    this.page = page;
    /** @type {Row[]} */
    this.rows = [];
    this.turn = 0;
    byId("way-list").addEventListener("click", (event) => {
      const link = around(elementOf(event), "[data-go]");
      if (link) page.cursor.visit(Number(link.dataset.go));
    });
  }

  // Forgets what was followed.
  clear() {
    this.turn++;
    this.rows = [];
    byId("way-hint").hidden = false;
    byId("way-list").replaceChildren();
    this.page.tabs?.count("way", "");
    setLight("followed", []);
    this.page.editor.light("read", []);
  }

  // Follows a byte of a text that is shown. From an argument of a call on the way, it goes on from there. Where a call
  // made the byte of an argument that was followed, the same argument of the next such call is followed too.
  /** @param {HTMLElement} holder @param {number} number */
  async follow(holder, number) {
    const turn = ++this.turn;
    const row = around(holder, ".way-row");
    this.rows = row?.dataset.row ? this.rows.slice(0, Number(row.dataset.row) + 1) : [];
    const range = rangeOfByte(holder, number);
    setLight("followed", range ? [range] : []);
    this.page.tabs.choose("way");
    /** @type {Spot | null} */
    let from = { place: holder.dataset.place ?? "", step: Number(holder.dataset.step), number };
    for (let hop = 0; from && hop < MOST_HOPS && turn === this.turn; hop++) from = await this.hop(from, turn);
    if (turn !== this.turn) return;
    // (the large view leaves out the list, so there it is shown what is said of it)
    if (this.page.big.isOn) this.page.view.note(`${this.said()}; Esc shows the list`);
    else this.page.announcer.say("note", this.said());
  }

  // What is said of the way: of a short one each call, of a long one how many there are, and the last.
  said() {
    const { rows } = this;
    /** @param {Row} row */
    const told = (row) => [`step ${grouped(row.step)}:`, plainOf(this.textOf(row), 60), this.words(row)].join(" ");
    const count = rows.reduce((sum, { left }) => sum + (left ?? 1), 0);
    const all = rows.length < 4 ? rows.map(told).join("; ")
      : `${grouped(count)} calls, the last is ${told(rows[rows.length - 1])}`;
    return `Where it comes from: ${all}`;
  }

  // The call of a row, as it was performed or as it is listed; else the idle program was loaded.
  /** @param {Row} row */
  textOf(row) {
    const call = callOf(row);
    return call ? callText(call) : this.page.tree.textAt(row.step) ?? "the idle program";
  }

  // One way of a byte. It is shown as soon as it is known, and its calls once they are. Returns from where to go on, if
  // from anywhere.
  /** @param {Spot} from @param {number} turn @returns {Promise<Spot | null>} */
  async hop(from, turn) {
    const isWanted = () => turn === this.turn;
    const found = shortened(await followed(this.page, from.place, from.step, from.number, this.page.engine, isWanted));
    if (!isWanted()) return null;
    this.rows.push(...found);
    this.draw();
    const { story } = this.page.shownRun;
    const states = await story.at([from.step, ...found.map((row) => row.step).filter((step) => step >= 0)]);
    if (turn !== this.turn) return null;
    for (const row of found) row.state = states.get(row.step);
    this.draw();
    return onward(from, states, found[found.length - 1]);
  }

  // The argument of the call at the end of the way that is followed next by the keys.
  focus() {
    const last = byId("way-list").lastElementChild;
    const texts = [...last?.querySelectorAll("[data-place][tabindex]") ?? []];
    around(texts.at(-1) ?? last?.querySelector("button") ?? null, "[tabindex], button")?.focus();
  }

  draw() {
    const list = byId("way-list");
    byId("way-hint").hidden = true;
    this.page.tabs.count("way", grouped(this.rows.reduce((sum, { left }) => sum + (left ?? 1), 0)));
    keepFocus(() => list.replaceChildren(...this.rows.map((row, index) => this.row(row, index))));
    const last = this.rows[this.rows.length - 1];
    this.light(last?.deed === "reads" ? last.byte ?? null : null);
    list.lastElementChild?.scrollIntoView({ block: "nearest" });
  }

  // Lights the byte that was read, in the program or in what came after it.
  /** @param {number | null} byte */
  light(byte) {
    const { editor, shownRun: { program }, isStale } = this.page;
    const isInput = byte !== null && byte >= program.length;
    editor.light("read", byte === null || isInput || isStale ? [] : [[byte, byte + 1]]);
    const range = isInput ? rangeOfByte(byId("given-text"), byte - program.length) : null;
    if (range) addLight("followed", range);
  }

  /** @param {Row} row @param {number} index */
  row(row, index) {
    const line = make("div", "way-row");
    line.dataset.row = String(index);
    if (row.left) {
      line.append(make("span", "note", `.. ${grouped(row.left)} more calls`));
      return line;
    }
    const link = make("button", "", `step ${grouped(row.step)}`);
    link.type = "button";
    link.dataset.go = String(row.step);
    line.append(link);
    // (until the state comes, the call stands as it is listed)
    const listed = row.state ? undefined : this.page.tree.textAt(row.step);
    if (listed !== undefined) addShort(line, listed, "code", 60);
    const own = callOf(row);
    if (own) {
      const call = make("span", "code");
      addCall(call, own, (row.state?.parts.calls.length ?? 0) - 1, row.step, 60, false);
      /** @type {NodeListOf<HTMLElement>} */
      const texts = call.querySelectorAll(".argument:not(.name)");
      if (row.deed === "makes") texts.forEach((text, at) => reachable(text, `argument ${at + 1}`));
      else reachable(call, "call");
      line.append(call);
    }
    const read = row.deed === "reads" ? row.byte ?? 0 : Infinity;
    const isRead = read < this.page.shownRun.program.length;
    const name = row === this.rows[this.rows.length - 1] ? "deed way-end" : "deed";
    const deed = make("span", name, isRead ? "reads it: " : this.words(row));
    if (isRead) deed.append(placeOf(this.page, read));
    line.append(deed);
    return line;
  }

  // What the call did with the byte.
  /** @param {Row} row */
  words(row) {
    const isLast = row === this.rows[this.rows.length - 1];
    const { texts } = callOf(row) ?? { texts: [] };
    if (row.deed === "makes" && isLast && texts.length > 1) return "makes it: follow one of its arguments";
    if (row.deed === "makes" && row.state && ruleOf(row.state) === "i") return "the idle program begins, which has it";
    if (row.deed !== "reads") return DEEDS[row.deed];
    const { shownRun: { program } } = this.page, { byte = 0 } = row;
    if (byte < program.length) return `reads it: ${placeSaid(this.page, byte)}`;
    return `reads it: byte ${grouped(byte - program.length + 1)} of the input after the program`;
  }
}

// The call that is performed at a row of a way, if its state is known.
/** @param {Row} row */
function callOf({ state }) {
  return state && ruleOf(state) === "p" ? state.parts.calls[state.parts.calls.length - 1] : null;
}

// What a place in the program is called.
/** @param {Page} page @param {number} byte */
function placeSaid({ shownRun, isStale }, byte) {
  return lineAndColumn(shownRun.program, byte) + (isStale ? OF_OLD : "");
}

// A place in the program, which leads there: that byte is chosen in the editor, unless that has another text now.
/** @param {Page} page @param {number} byte */
export function placeOf(page, byte) {
  const words = placeSaid(page, byte);
  if (page.isStale) return make("span", "", words);
  const button = buttonOf(words, () => page.editor.choose(byte));
  button.className = "place";
  return button;
}

// The editor has another text now: no place leads there any more.
export function unlinkPlaces() {
  keepFocus(() => {
    for (const button of document.querySelectorAll("button.place")) {
      button.replaceWith(make("span", "", button.textContent + OF_OLD));
    }
  });
}

// Lets a text be reached by keys, under a name.
/** @param {HTMLElement} element @param {string} label */
function reachable(element, label) {
  element.tabIndex = 0;
  element.setAttribute("role", "group");
  element.setAttribute("aria-label", `${label}: ${element.textContent}`);
}

// Of a long way the latest calls, how many more there are, and the last one.
/** @param {Row[]} rows @returns {Row[]} */
function shortened(rows) {
  if (rows.length <= SHOWN_ROWS) return rows;
  const left = { left: rows.length - SHOWN_ROWS + 1, step: -1, deed: "" };
  return [...rows.slice(0, SHOWN_ROWS - 2), left, rows[rows.length - 1]];
}

// From where a made byte is followed on: the same argument, if it was one of a call of the same name.
/**
 * @param {Spot} from
 * @param {Map<number, State | undefined>} states
 * @param {Row | undefined} last
 * @returns {Spot | null}
 */
function onward(from, states, last) {
  const found = /^argument \d+ (\d+)$/.exec(from.place);
  const state = states.get(from.step);
  if (!found || !state || last?.deed !== "makes" || !last.state) return null;
  if (ruleOf(state) !== "p" || ruleOf(last.state) !== "p") return null;
  const [old, now] = [state, last.state].map(({ parts }) => parts.calls[parts.calls.length - 1]);
  const text = now.texts[Number(found[1])];
  if (old.texts[0] !== now.texts[0] || !text || last.step >= from.step) return null;
  return {
    place: `argument ${last.state.parts.calls.length - 1} ${found[1]}`,
    step: last.step,
    number: Math.min(from.number, lengthOf(text) - 1),
  };
}
