import { grouped, lengthOf } from "./bytes.js";
import { currentOf } from "./parts.js";
import { addTextCells, placed } from "./cells.js";
import { addCall } from "./panels.js";
import { addArgument, addWord, IDLE_WORDS, RULES, showWords } from "./words.js";
import { stepsSaid } from "./stretch.js";
import { byId, make } from "./elements.js";

/** @typedef {import("./stretch.js").Last} Last */
/** @typedef {import("./stretch.js").Next} Next */

// The sentences of what led here and of what comes next: of the state before, here, and after. Only the next step is
// numbered: it has the number that stands in the box, and in the lists.
/**
 * @param {number} step
 * @param {Last | null} last
 * @param {Next | null} next
 * @param {string} endWords
 * @param {Around} states
 */
export function showSentences(step, last, next, endWords, { before, at, after }) {
  const count = last ? step - last.from : 0;
  const lead = count === 1 ? "Just done: " : `Just done, ${grouped(count)} steps: `;
  if (last && before) showSentence(byId("last"), lead, last.move, step - 1, before, at);
  else showWords(byId("last"), "Start: ", ["the idle program is there. ", ...IDLE_WORDS]);
  if (next && after) showSentence(byId("next"), `Next, ${stepsSaid(step, next.to)}: `, next.move, step, at, after);
  else showWords(byId("next"), "Next: ", [endWords]);
}

// What the step after a number of steps does. The call and its value can be followed where they stand.
/**
 * @param {Element} parent
 * @param {string} lead
 * @param {Move} move
 * @param {number} step
 * @param {State} before
 * @param {State} after
 */
function showSentence(parent, lead, move, step, before, after) {
  parent.replaceChildren(make("b", "", lead));
  for (const word of move.words ?? RULES[move.rule](move)) {
    const [, kind = ""] = Array.isArray(word) ? word : [];
    if (kind === "call" && move.call) {
      const code = make("span", "code");
      addCall(code, move.call, before.parts.calls.length - 1, step, 60, false);
      parent.append(code);
    } else if (kind.startsWith("value") && move.value !== "") {
      const { place, first } = placeOfValue(move, after.parts);
      const value = placed(addTextCells(make("span"), move.value, first, "code", 72), place, step + 1);
      if (move.scanned) parent.append(value);
      else addArgument(parent, move.value, () => parent.appendChild(value));
    } else addWord(parent, word);
  }
}

// Where the value of a call stands once it is performed: before the active text, or at the end of the current text.
/** @param {Move} move @param {Parts} parts */
function placeOfValue(move, parts) {
  if (move.scanned) return { place: "active", first: 0 };
  const inner = parts.calls[parts.calls.length - 1];
  const place = inner ? `argument ${parts.calls.length - 1} ${inner.texts.length - 1}` : "base";
  return { place, first: lengthOf(currentOf(parts)) - lengthOf(move.value) };
}
