// Texts as they are shown: no sign without its byte's number, so that each can be followed back.
import { asByte, boundary, bytesOf, leftOut, lengthOf } from "./bytes.js";
import { around, make } from "./elements.js";
import { SHAPELESS } from "./unseen.js";

/**
 * A run of signs, or a byte that is none: from which byte on, and how many bytes a unit of the script's text stands
 * for.
 * @typedef {{ from: number, text: string, perUnit: number, byte?: undefined }
 *   | { from: number, byte: number, text?: undefined }} Signs
 */

// Splits bytes into runs of signs that have equally many bytes, and single other bytes.
/** @param {Uint8Array} bytes @returns {Generator<Signs>} */
export function* runsOf(bytes) {
  let at = 0;
  while (at < bytes.length) {
    const width = widthAt(bytes, at);
    if (width === 0) yield { from: at, byte: bytes[at++] };
    else {
      const from = at;
      while (at < bytes.length && widthAt(bytes, at) === width) at += width;
      yield { from, text: new TextDecoder().decode(bytes.subarray(from, at)), perUnit: width === 4 ? 2 : width };
    }
  }
}

// How many bytes the sign has that begins there, or 0 where the byte is shown by its number: signs without a shape are.
/** @param {Uint8Array} bytes @param {number} at */
function widthAt(bytes, at) {
  const first = bytes[at];
  if (first < 128) return first >= 32 && first < 127 ? 1 : 0;
  const width = first >= 0xf0 ? 4 : first >= 0xe0 ? 3 : 2;
  if (first < 0xc2 || first > 0xf4 || at + width > bytes.length) return 0;
  const sign = new TextDecoder().decode(bytes.subarray(at, at + width));
  return [...sign].length !== 1 || sign === "\ufffd" || SHAPELESS.test(sign) ? 0 : width;
}

// Adds bytes to an element. The first of them has this number. With `lines`, line feeds end lines and tabs are blank.
/** @param {Element} parent @param {Uint8Array} bytes */
export function addCells(parent, bytes, first = 0, lines = false) {
  for (const run of runsOf(bytes)) {
    const cell = make("span", run.text === undefined ? "byte" : "");
    cell.dataset.byte = String(first + run.from);
    if (run.text !== undefined) {
      cell.textContent = run.text;
      cell.dataset.per = String(run.perUnit);
    } else if (lines && (run.byte === 10 || run.byte === 9)) {
      cell.className = run.byte === 10 ? "end-of-line" : "";
      cell.textContent = String.fromCharCode(run.byte);
    } else asByte(cell, run.byte);
    parent.append(cell);
  }
}

// What a step did to a text is told by its element, too, for those who do not see its look.
/** @type {Record<string, "del" | "ins" | "mark">} */
const TAGS = { gone: "del", put: "ins", moved: "ins", coming: "mark" };

// Adds a text as the debugger prints it, in a span of a class; where it is long its middle is left out.
/** @param {Element} parent @param {string} text */
export function addTextCells(parent, text, first = 0, name = "", most = Infinity) {
  const span = make(TAGS[name.split(" ")[0]] ?? "span", name);
  if (text.length <= most) addCells(span, bytesOf(text), first);
  else {
    const front = boundary(text, Math.ceil(most / 2));
    const back = boundary(text, text.length - Math.floor(most / 2));
    addCells(span, bytesOf(text.slice(0, front)), first);
    span.append(leftOut(lengthOf(text.slice(front, back))));
    addCells(span, bytesOf(text.slice(back)), first + lengthOf(text.slice(0, back)));
  }
  parent.append(span);
  return span;
}

/**
 * An element that shows a text of a place, as "output" or "argument 3 1" of a state at a step, if its bytes can be
 * followed.
 * @template {HTMLElement} Kind
 * @param {Kind} element
 * @param {string} place
 * @param {number | undefined} step
 */
export function placed(element, place, step) {
  if (step !== undefined) {
    element.dataset.place = place;
    element.dataset.step = String(step);
  }
  return element;
}

// The first unit of a sign that has two.
/** @param {string} text @param {number} unit */
function wholeUnit(text, unit) {
  return /[\udc00-\udfff]/.test(text[unit]) ? unit - 1 : unit;
}

// The range of the sign that has a byte within an element, or nothing.
/** @param {Element} holder @param {number} number */
export function rangeOfByte(holder, number) {
  for (const cell of cellsOf(holder)) {
    const from = Number(cell.dataset.byte), per = Number(cell.dataset.per ?? 0);
    const text = textOfCell(cell);
    const count = text ? text.length * per : 1;
    if (number < from || number >= from + count) continue;
    const range = document.createRange();
    if (!text) range.selectNodeContents(cell);
    else {
      const unit = wholeUnit(text.data, Math.floor((number - from) / per));
      const isPair = /[\ud800-\udbff]/.test(text.data[unit]);
      range.setStart(text, unit);
      range.setEnd(text, unit + (isPair ? 2 : 1));
    }
    return range;
  }
  return null;
}

// The elements of single bytes and of runs of signs within one; and the text of a run, or nothing for a byte.
/** @param {Element} holder */
export function cellsOf(holder) {
  return /** @type {NodeListOf<HTMLElement>} */ (holder.querySelectorAll("[data-byte]"));
}

/** @param {HTMLElement} cell */
export function textOfCell(cell) {
  return cell.dataset.per && cell.firstChild instanceof Text ? cell.firstChild : null;
}

// The byte under a point: its number, and the element that says where it stands.
/** @param {number} x @param {number} y */
export function byteUnder(x, y) {
  const element = around(document.elementFromPoint(x, y), "[data-byte]");
  const holder = around(element, "[data-place]");
  if (!element || !holder) return null;
  const within = unitUnder(element, x, y) * Number(element.dataset.per ?? 0);
  return { holder, number: Number(element.dataset.byte) + within };
}

// Which unit of an element's text is under a point.
/** @param {HTMLElement} element @param {number} x @param {number} y */
function unitUnder(element, x, y) {
  const text = textOfCell(element);
  if (!text) return 0;
  const range = document.createRange();
  const caret = document.caretPositionFromPoint?.(x, y);
  const near = caret ? caret.offset : document.caretRangeFromPoint?.(x, y)?.startOffset ?? 0;
  for (const unit of [near, near - 1, near + 1]) {
    if (unit < 0 || unit >= text.length) continue;
    range.setStart(text, unit);
    range.setEnd(text, unit + 1);
    for (const box of range.getClientRects()) {
      if (x >= box.left && x <= box.right && y >= box.top && y <= box.bottom) return wholeUnit(text.data, unit);
    }
  }
  return wholeUnit(text.data, Math.min(near, text.length - 1));
}

