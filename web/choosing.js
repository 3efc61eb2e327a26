// In a text that has the focus, arrows choose a sign and Enter follows it, as a click does.
import { grouped } from "./bytes.js";
import { cellsOf, rangeOfByte, textOfCell } from "./cells.js";
import { setLight } from "./lights.js";
import { around, elementOf } from "./elements.js";

// Texts whose signs can be chosen.
export const TEXTS = "#output, #rules, #neutral, #active, #begun, [data-place][tabindex], .way-row .code[tabindex]";
// In these, the first sign is chosen first, and not the last.
const FORWARD = new Set(["active", "rules"]);

// What signs are called that nobody sees or hears.
/** @type {Record<string, string>} */
const BLANKS = { " ": "a blank", "\n": "LF", "\t": "TAB" };

/**
 * A sign of a text: the number of its first byte, and the element that says where it stands.
 * @typedef {{ holder: HTMLElement, number: number }} Sign
 */

// The signs of a text.
/** @param {HTMLElement} text */
function signsIn(text) {
  return [...cellsOf(text)].flatMap((cell) => {
    const holder = around(cell, "[data-place]");
    return holder ? numbersOf(cell).map((number) => ({ holder, number })) : [];
  });
}

// The numbers of the first bytes of an element's signs.
/** @param {HTMLElement} cell */
function numbersOf(cell) {
  const from = Number(cell.dataset.byte), per = Number(cell.dataset.per ?? 0);
  const text = textOfCell(cell);
  if (!text) return [from];
  const units = Array.from({ length: text.length }, (_, unit) => unit);
  return units.filter((unit) => !/[\udc00-\udfff]/.test(text.data[unit])).map((unit) => from + unit * per);
}

// A sign of a text by a name, so that it is found again after a step.
/** @param {Sign} sign */
function signName({ holder, number }) {
  return `${number} ${holder.dataset.place} ${holder.dataset.step}`;
}

// Moves the choice of a sign within a text, or follows it. Returns whether the key was for that.
/** @param {Page} page @param {HTMLElement} text @param {string} key */
function chooseSign(page, text, key) {
  if (!["ArrowLeft", "ArrowRight", "Enter"].includes(key)) return false;
  const signs = signsIn(text);
  if (signs.length === 0) return false;
  const isForward = FORWARD.has(text.id);
  const at = signs.findIndex((sign) => signName(sign) === text.dataset.chosen);
  if (key === "Enter") {
    const { holder, number } = signs[at >= 0 ? at : isForward ? 0 : signs.length - 1];
    page.cursor.follow(holder, number).then(() => page.way.focus());
    return true;
  }
  const next = at < 0 ? (isForward ? 0 : signs.length - 1) : at + (key === "ArrowLeft" ? -1 : 1);
  const sign = signs[Math.min(Math.max(next, 0), signs.length - 1)];
  text.dataset.chosen = signName(sign);
  showChosen(page, text, sign);
  return true;
}

// Marks the chosen sign, brings it in view, and says what it is.
/** @param {Page} page @param {HTMLElement} text @param {Sign} sign */
function showChosen(page, text, { holder, number }) {
  const range = rangeOfByte(holder, number);
  if (!range) return;
  setLight("chosen", [range]);
  bringInView(text, range);
  const shown = String(range);
  page.view.note(`byte ${grouped(number + 1)}: ${BLANKS[shown] ?? shown}`);
}

// Brings a range in view of its text, which scrolls, or is one line that is cut at its ends.
/** @param {HTMLElement} text @param {Range} range */
function bringInView(text, range) {
  const line = lineIn(text);
  const at = range.getBoundingClientRect(), box = text.getBoundingClientRect();
  if (line) {
    const shift = Number(line.dataset.shift ?? 0);
    const by = at.left < box.left ? box.left - at.left : at.right > box.right ? box.right - at.right : 0;
    line.dataset.shift = String(shift + by);
    line.style.transform = `translateX(${shift + by}px)`;
  } else if (at.top < box.top) text.scrollTop += at.top - box.top;
  else if (at.bottom > box.bottom) text.scrollTop += at.bottom - box.bottom;
}

// The line of a text that has one.
/** @param {HTMLElement} text @returns {HTMLElement | null} */
function lineIn(text) {
  return text.querySelector(":scope > .line");
}

// Nothing is chosen any more: no sign is marked, and a line stands as it did.
/** @param {EventTarget | null} text */
function forgetChosen(text) {
  setLight("chosen", []);
  const line = text instanceof HTMLElement ? lineIn(text) : null;
  if (!line?.dataset.shift) return;
  delete line.dataset.shift;
  line.style.transform = "";
}

/** @param {Page} page */
export function startChoosing(page) {
  document.addEventListener("keydown", (event) => {
    if (!elementOf(event).matches?.(TEXTS) || event.ctrlKey || event.altKey || event.metaKey || event.shiftKey) return;
    if (!page.run || !chooseSign(page, elementOf(event), event.key)) return;
    event.preventDefault();
    event.stopImmediatePropagation();
  }, true);
  document.addEventListener("focusout", (event) => forgetChosen(event.target));
}
