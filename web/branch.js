// Why a call gave what it gave: `eq` compares bytes, `gr` and the decimals take the numbers at the ends of their
// arguments, and `cs`, `cc`, `cn` and `in` give their default where they read nothing, as docs/language.md says. Where
// the value is another than these rules give, nothing is said.
import { boundary, grouped, isOnce, lengthOf } from "./bytes.js";
import { DECIMALS } from "./given.js";

/**
 * The number at the end of a text: what stands before it, whether one is there, and whether it is negative; zero has no
 * digits.
 * @typedef {{ prefix: string, isThere: boolean, isNegative: boolean, digits: string }} NumberSaid
 */

/** @typedef {Move & { call: Called }} Performed */

// Where the digits begin with which a text ends. (The sign of a byte that has no letter may end in digits, too.)
/** @param {string} text */
function digitsFrom(text) {
  let from = text.length;
  while (from > 0 && text[from - 1] >= "0" && text[from - 1] <= "9") from--;
  for (const back of [2, 3]) {
    if (from >= back && text.startsWith("\\x", from - back)) return Math.min(from - back + 4, text.length);
  }
  return from;
}

/** @param {string} text @returns {NumberSaid} */
export function numberAt(text) {
  const from = digitsFrom(text);
  const isSigned = from < text.length && from > 0 && (text[from - 1] === "+" || text[from - 1] === "-");
  const digits = text.slice(from).replace(/^0+/, "");
  return {
    prefix: text.slice(0, isSigned ? from - 1 : from),
    isThere: from < text.length,
    isNegative: isSigned && digits !== "" && text[from - 1] === "-",
    digits,
  };
}

/** @param {Pick<NumberSaid, "isNegative" | "digits">} number */
function numberText({ isNegative, digits }) {
  return `${isNegative ? "-" : ""}${digits || "0"}`;
}

// Whether a number is greater than another, however long they are.
/** @param {NumberSaid} one @param {NumberSaid} other */
function isGreater(one, other) {
  if (one.isNegative !== other.isNegative) return other.isNegative;
  const [great, small] = one.isNegative ? [other.digits, one.digits] : [one.digits, other.digits];
  return great.length === small.length ? great > small : great.length > small.length;
}

// What counts as the number of an argument, where that is not the argument itself.
/** @param {Called} call @param {number} place @returns {Word[]} */
function wordsOfNumber(call, place) {
  const text = call.texts[place];
  if (text === undefined) return [`argument ${place} is missing and counts as 0; `];
  const number = numberAt(text);
  const said = numberText(number);
  if (said === text) return [];
  if (!number.isThere) return [[text, "text"], text === "" ? " counts as 0; " : " ends in no digit and counts as 0; "];
  if (number.prefix === "") return [[text], " counts as ", [said], "; "];
  return ["of ", [text, "text"], " only the end counts, ", [said], "; "];
}

// The words before the value where it is one of the arguments.
/** @param {Called} call @param {number} place @returns {Word[]} */
function wordsOfBranch(call, place, which = "") {
  return [`, so its value is argument ${place}${which}${place < call.texts.length ? ": " : ", which is missing: "}`];
}

/** @param {Called} call @param {number} place */
function argumentAt(call, place) {
  return call.texts[place] ?? "";
}

// Why the words before the value are these, or nothing.
/** @param {Performed} move @returns {Word[] | null} */
export function reasonOf(move) {
  const name = move.call.texts[0].toLowerCase();
  if (name === "eq") return reasonOfEqual(move);
  if (name === "gr") return reasonOfGreater(move);
  if (isReader(move.call)) return reasonOfDefault(move, name);
  return Object.hasOwn(OPERATIONS, name) ? reasonOfResult(move, name) : null;
}

/** @param {Performed} move @returns {Word[] | null} */
function reasonOfEqual(move) {
  const { call } = move;
  const [one, other] = [1, 2].map((place) => argumentAt(call, place));
  const place = one === other ? 3 : 4;
  if (argumentAt(call, place) !== move.value) return null;
  /** @param {number} at @returns {Word[]} */
  const shown = (at) => [[argumentAt(call, at), "text"], at < call.texts.length ? "" : ` (argument ${at} is missing)`];
  return [...shown(1), " and ", ...shown(2), one === other ? " are the same" : ` differ${differenceOf(one, other)}`,
    ...wordsOfBranch(call, place)];
}

// How two texts differ, where that is easily overlooked. (Of long ones only where.)
/** @param {string} one @param {string} other */
function differenceOf(one, other) {
  if (Math.max(one.length, other.length) > 4096) return ` from byte ${grouped(firstDifference(one, other) + 1)} on`;
  if (one.toLowerCase() === other.toLowerCase()) return " (capital and small letters are not the same)";
  const [bare, otherBare] = [one, other].map((text) => text.replace(/ |\\x09|\\x0a|\\x0d/g, ""));
  if (bare === otherBare) return " (blanks and line ends count)";
  const numbers = [one, other].map(numberAt);
  const areNumbers = numbers.every(({ prefix, isThere }) => isThere && prefix === "");
  if (areNumbers && numberText(numbers[0]) === numberText(numbers[1])) return " (bytes are compared, not numbers)";
  return Math.min(one.length, other.length) < 24 ? "" : ` from byte ${grouped(firstDifference(one, other) + 1)} on`;
}

// How many bytes two texts have in common at their fronts.
/** @param {string} one @param {string} other */
function firstDifference(one, other) {
  let at = 0;
  while (one[at] === other[at]) at++;
  return lengthOf(one.slice(0, boundary(one, at)));
}

/** @param {Performed} move @returns {Word[] | null} */
function reasonOfGreater(move) {
  const { call } = move;
  const numbers = [1, 2].map((place) => numberAt(argumentAt(call, place)));
  const place = isGreater(numbers[0], numbers[1]) ? 3 : 4;
  if (argumentAt(call, place) !== move.value) return null;
  const [one, other] = numbers.map(numberText);
  return [...wordsOfNumber(call, 1), ...wordsOfNumber(call, 2),
    [one], place === 3 ? " is greater than " : " is not greater than ", [other], ...wordsOfBranch(call, place)];
}

/**
 * What a call does with two numbers: its sign, the result, or none, and what that is called.
 * @typedef {{ sign: string, result: (one: bigint, other: bigint) => bigint | null, words: string }} Operation
 */

/** @type {Record<string, Operation>} */
const OPERATIONS = {
  ad: { sign: " plus ", result: (one, other) => one + other, words: "sum" },
  su: { sign: " minus ", result: (one, other) => one - other, words: "difference" },
  ml: { sign: " times ", result: (one, other) => one * other, words: "product" },
  dv: { sign: " divided by ", result: (one, other) => (other === 0n ? null : one / other), words: "quotient" },
};

/** @param {bigint} value */
function fits(value) {
  return BigInt.asIntN(DECIMALS, value) === value;
}

// The number as an integer, or nothing where it does not fit. (Only a short one is read.)
/** @param {NumberSaid} number */
function fittingNumber(number) {
  if (number.digits.length > 40) return null;
  const value = BigInt(numberText(number));
  return fits(value) ? value : null;
}

/** @param {Performed} move @param {string} name @returns {Word[] | null} */
function reasonOfResult(move, name) {
  const { call } = move;
  const numbers = [1, 2].map((place) => numberAt(argumentAt(call, place)));
  const [one, other] = numbers.map(fittingNumber);
  const value = one === null || other === null ? null : OPERATIONS[name].result(one, other);
  const isFitting = value !== null && fits(value);
  if (move.value !== (isFitting ? `${numbers[0].prefix}${value}` : argumentAt(call, 3))) return null;
  const words = [...wordsOfNumber(call, 1), ...wordsOfNumber(call, 2)];
  if (one === null || other === null) {
    words.push([numberText(numbers[one === null ? 0 : 1])], ` does not fit in ${DECIMALS} bits`);
  } else if (value === null) words.push("the divisor is 0");
  else {
    words.push([String(one)], OPERATIONS[name].sign, [String(other)]);
    words.push(...wordsOfResult(name, value, one, other, numbers[0].prefix));
  }
  return isFitting ? words : [...words, ...wordsOfBranch(call, 3, ", the default")];
}

// What a result is, and what stands before it in the value.
/**
 * @param {string} name
 * @param {bigint} value
 * @param {bigint} one
 * @param {bigint} other
 * @param {string} prefix
 * @returns {Word[]}
 */
function wordsOfResult(name, value, one, other, prefix) {
  if (!fits(value)) return [` is a ${OPERATIONS[name].words} that does not fit in ${DECIMALS} bits`];
  const cut = name === "dv" && value * other !== one ? ", cut toward zero," : "";
  /** @type {Word[]} */
  const words = [`${cut} is `, [String(value)]];
  return prefix === "" ? words : [...words, ", and ", [prefix, "text"], " stays before it"];
}

// Calls that read a form at its pointer, and which argument they give where they read nothing.
/** @type {Record<string, number>} */
const READERS = { cs: 2, cc: 2, cn: 3, in: 3 };

/** @param {Called} call */
export function isReader(call) {
  return Object.hasOwn(READERS, call.texts[0].toLowerCase());
}

// Why such a call gave its default. `move.form` is the text of the form, if that stands as it did: it does where
// nothing was read.
/** @param {Performed} move @param {string} name @returns {Word[] | null} */
function reasonOfDefault(move, name) {
  const { call, form } = move;
  const place = READERS[name];
  if (form === undefined || argumentAt(call, place) !== move.value) return null;
  const words = name === "in" ? wordsOfSearch(call, form) : wordsOfPointer(call, form, name);
  return words && [...words, ...wordsOfBranch(call, place, ", the default")];
}

// What was not found. (A null text is found at once.)
/** @param {Called} call @param {string} form @returns {Word[] | null} */
function wordsOfSearch(call, form) {
  const text = argumentAt(call, 2);
  // (other signs like that of the pointer are text)
  const isAtEnd = form.endsWith("<^>") && isOnce(form, "<^>");
  return text === "" ? null : [[text, "text"], " is not found after the pointer of ", [argumentAt(call, 1), "text"],
    isAtEnd ? ", which stands at its end" : ""];
}

// Where the pointer stands, if nothing is to be read there. (`cn` reads back where its number is negative, and gives
// null where that is 0 or does not fit.)
/** @param {Called} call @param {string} form @param {string} name @returns {Word[] | null} */
function wordsOfPointer(call, form, name) {
  const number = numberAt(argumentAt(call, 2));
  if (name === "cn" && (number.digits === "" || fittingNumber(number) === null)) return null;
  const isBack = name === "cn" && number.isNegative;
  /** @type {Word} */
  const of = [argumentAt(call, 1), "text"];
  if (!(isBack ? form.startsWith("<^>") : form.endsWith("<^>"))) {
    return [`only gaps stand ${isBack ? "before" : "after"} the pointer of `, of];
  }
  const more = name === "cs" ? ": no segment is left" : "";
  return ["the pointer of ", of, ` stands at its ${isBack ? "start" : "end"}${more}`];
}
