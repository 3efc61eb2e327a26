// The text in reading order: what is scanned, a mark, what is not scanned yet. What `shown` says of it: the number of
// the step, if bytes can be followed; and how many signs stand on each side.
import { addShort, boundary, grouped, lengthOf } from "./bytes.js";
import { addTextCells, placed } from "./cells.js";
import { addCallText, isProtected, QUOTES } from "./words.js";
import { byId, make } from "./elements.js";

/**
 * A part of the scanned text with its place, or a sign between such parts. And what is said of what is shown.
 * @typedef {{ text: string, place: string } | { sign: string, name: string }} Scanned
 * @typedef {{ step: number, side: number }} Sides
 */

// The scanned text in parts: base text, and the begun calls.
/** @param {Parts} parts @param {number} side */
function scannedParts(parts, side) {
  /** @type {Scanned[]} */
  const list = [{ text: parts.base, place: "base" }];
  // the innermost calls are enough to fill what is shown
  let from = parts.calls.length, signs = 0;
  while (from > 0 && signs <= side) signs += parts.calls[--from].text.length;
  if (from > 0) list[0] = { sign: `${grouped(from)} calls further out `, name: "left-out" };
  for (let depth = from; depth < parts.calls.length; depth++) {
    const call = parts.calls[depth];
    // (a call takes its line apart each time that it is asked; of many arguments the last are enough too)
    const { texts } = call;
    let first = texts.length;
    for (let filled = 0; first > 0 && filled <= side;) filled += texts[--first].length + 1;
    list.push({ sign: call.neutral ? "##(" : "#(", name: "begun" });
    for (let index = first; index < texts.length; index++) {
      const text = texts[index];
      if (index) list.push({ sign: ",", name: "begun comma" });
      const isOpen = depth === parts.calls.length - 1 && index === texts.length - 1;
      const isQuoted = isProtected(text);
      if (isQuoted) list.push({ sign: QUOTES[0], name: "quote" });
      list.push({ text, place: `argument ${depth} ${index}` });
      if (isQuoted && !isOpen) list.push({ sign: QUOTES[1], name: "quote" });
    }
  }
  return list;
}

// Adds the end of those parts to a line. Returns what the last step moved or put at its end, if it did.
/** @param {HTMLElement} line @param {Scanned[]} list @param {Move | undefined} move @param {Sides} shown */
function addScanned(line, list, move, { side, step }) {
  const come = move ? move.moved || move.grown : "";
  const end = list[list.length - 1];
  const split = "text" in end && come && end.text.endsWith(come) ? end.text.length - come.length : null;
  let left = side;
  const shown = [];
  for (let index = list.length - 1; index >= 0 && left > 0; index--) {
    const part = list[index];
    if ("sign" in part) {
      shown.unshift(make("span", part.name, part.sign));
      left -= part.sign.length;
      continue;
    }
    const holder = placed(make("span"), part.place, step);
    const from = boundary(part.text, Math.max(part.text.length - left, 0));
    const cut = part === end && split !== null ? Math.max(split, from) : part.text.length;
    addTextCells(holder, part.text.slice(from, cut), lengthOf(part.text.slice(0, from)));
    if (cut < part.text.length) {
      addTextCells(holder, part.text.slice(cut), lengthOf(part.text.slice(0, cut)), move?.moved ? "moved" : "put");
    }
    shown.unshift(holder);
    if (from > 0) shown.unshift(make("span", "left-out", "… "));
    left -= part.text.length;
  }
  line.append(...shown);
  return split === null ? null : line.lastElementChild?.lastElementChild ?? null;
}

// What a step deleted, which stood before what it put there; but not a call.
/** @param {Move | undefined} move */
function goneOf(move) {
  if (!move || move.call) return "";
  if (move.moved) return move.rule === "(" || move.rule === "u" ? "(" : "";
  return move.taken;
}

// A text that stands there no more: so it has no numbers.
/** @param {string} text @param {Called | null} [call] */
function struck(text, call) {
  const part = make("del", "gone");
  if (call) addCallText(part, call, 60);
  else addShort(part, text, "", 60);
  return part;
}

// The sign of a begun call that stands for what a step deleted: its beginning, or the comma after an argument.
/** @param {HTMLElement} line @param {Move} move */
function standsFor(line, { rule }) {
  return ["a", "n", ","].includes(rule) ? [...line.querySelectorAll(".begun")].pop() : undefined;
}

// Shows the scanned text up to the mark. What was moved or put there stands after what was deleted, but for the
// parenthesis after protected text.
/** @param {Parts} parts @param {Move | undefined} move @param {Sides} shown */
export function showScanned(parts, move, shown) {
  const line = make("div", "line");
  const come = addScanned(line, scannedParts(parts, shown.side), move, shown);
  const gone = goneOf(move);
  if (move && (gone || move.call)) {
    const sign = standsFor(line, move);
    if (come) come.before(struck(gone, move.call));
    else if (sign) sign.replaceWith(struck(gone));
    else line.append(struck(gone, move.call));
  }
  if (move?.rule === "(") line.append(struck(")"));
  byId("neutral").replaceChildren(line);
}

// Where the active text is cut, up to so many signs, and what its parts are: what the last step put there, and what the
// next one takes.
/** @param {string} active @param {Move | undefined} last @param {Move | undefined} next @param {Sides} shown */
function activeParts(active, last, next, { side }) {
  const put = last ? last.put.length : 0, taken = next ? next.taken.length : 0;
  const end = boundary(active, Math.min(active.length, side));
  const places = [...new Set([0, put, taken, end])].filter((place) => place <= end).sort((a, b) => a - b);
  return places.slice(1).map((to, index) => {
    const from = places[index];
    const names = to <= put ? ["put"] : [];
    if (to <= taken) names.push("coming");
    return { from, text: active.slice(from, to), name: names.join(" ") };
  });
}

// Shows the text that is not scanned.
/** @param {Parts} parts @param {Move | undefined} last @param {Move | undefined} next @param {Sides} shown */
export function showActive({ active }, last, next, shown) {
  const line = placed(make("div", "line"), "active", shown.step);
  let end = 0;
  for (const { from, text, name } of activeParts(active, last, next, shown)) {
    addTextCells(line, text, lengthOf(active.slice(0, from)), name);
    end = from + text.length;
  }
  if (end < active.length) line.append(make("span", "left-out", ` … ${grouped(lengthOf(active.slice(end)))} more`));
  byId("active").replaceChildren(line);
}
