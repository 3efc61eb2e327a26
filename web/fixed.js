// Bytes of a program that are for reading only: the box cannot give them back as they were, so signs stand in their
// place.
import { runsOf } from "./cells.js";
import { lastFrom } from "./paint.js";
import { startOfSign } from "./output.js";

// Of more bytes than the first a part of the second is shown: browsers take some hundred bytes of memory for each sign
// that is in a box. The third is for wide lines.
const MOST_FIXED = 1 << 18;
const PART = 1 << 16;
const NARROW = 1 << 12;

// Signs that are laid out by those around them: they join, stand over others, or turn the direction. In a line of many
// of them a browser looks at each with each; so it does in one of many signs for bytes that are no text.
const JOINING = new RegExp(`[${[
  "\\u0300-\\u036f\\u0483-\\u0489\\u0590-\\u1cff\\u1dc0-\\u1dff\\u200b-\\u200f\\u202a-\\u202e\\u2060-\\u206f",
  "\\u20d0-\\u20ff\\u2d7f\\u302a-\\u302f\\u3099\\u309a\\ua66f-\\ua67d\\ua800-\\uabff\\ud7b0-\\ud7ff\\ud802-\\ud807",
  "\\ud80d\\ud81a\\ud81b\\ud838-\\ud83a\\udb40\\ufb1d-\\ufdff\\ufe00-\\ufe0f\\ufe20-\\ufe2f\\ufe70-\\ufeff",
  "\\ufffd",
].join("")}]`, "g");

// Signs of one alphabet, of which a font mostly has all: they are laid out as one run. Any other sign is taken for one
// of its own, so what stands in no list weighs most; so are controls, as tabs, also one after another.
const ALPHABETS = [
  [0x20, 0x24f], [0x370, 0x3e1], [0x400, 0x52f], [0x3000, 0x303f], [0x3040, 0x30ff], [0x4e00, 0x9fff],
  [0xac00, 0xd7a3], [0xff00, 0xff65], [0xff66, 0xff9f],
];
const STARTS = Uint16Array.from({ length: 0x10000 }, (_, sign) => sign);
for (const [first, last] of ALPHABETS) STARTS.fill(first, first, last + 1);

// For each row of a line a browser goes through all of its runs, so a line weighs these times its signs, and one word
// of letters less: its rows end at any sign, else a browser goes back for the end of each. The most of all lines that
// are not short takes about a second.
const ONE_WORD = /^[\w\u00c0-\u024f\u0370-\u052f\u2018\u2019]*$/;
const WORD_SHARE = 1 / 10;
const MOST_WEIGHT = 3e8;
const SHORT = 256;

// Why a text would hold the page for seconds or minutes.
const JOINED = "a line is too long for signs that join";
const MIXED = "lines are too long for their mixed scripts";

/**
 * Where the signs begin that are laid out with this one, after one of others. (Blanks, digits, dashes and quotes are
 * laid out with a letter before them, if it is of a font that has them; fonts for Chinese or Korean are others.)
 * @param {number} sign
 * @param {number} before
 */
function alphabetOf(sign, before) {
  if (sign < 0x20 || (sign >= 0x7f && sign < 0xa0) || sign === 0xad) return -1;
  const isWithAny = sign < 0x41 || (sign >= 0x2013 && sign <= 0x2026);
  if (isWithAny && before >= 0 && before <= 0x400) return before;
  return STARTS[sign] ?? sign;
}

/**
 * How many runs a line has: stretches of signs that are laid out together.
 * @param {string} line
 */
function countRuns(line) {
  let runs = 1, before = 0x20;
  for (let at = 0; at < line.length; at++) {
    const sign = line.codePointAt(at) ?? 0;
    if (sign > 0xffff) at++;
    const alphabet = alphabetOf(sign, before);
    if (alphabet !== before || alphabet < 0) runs++;
    before = alphabet;
  }
  return runs;
}

/**
 * What a line weighs, by its runs.
 * @param {string} line
 */
const weightOf = (line) => countRuns(line) * line.length * (ONE_WORD.test(line) ? WORD_SHARE : 1);

/**
 * Why a text would hold the page for seconds or minutes: it has a line of more than 4,096 signs that join, or long ones
 * in which scripts alternate.
 * @param {string} text
 */
export function whyWide(text) {
  let weight = 0;
  for (let from = 0, to; from < text.length; from = to + 1) {
    to = text.indexOf("\n", from);
    if (to < 0) to = text.length;
    const line = to - from > SHORT ? text.slice(from, to) : "";
    if (!/[^ -~\xa0-\xac\xae-\u024f]/.test(line)) continue;
    if (line.length > NARROW && (line.match(JOINING)?.length ?? 0) > NARROW) return JOINED;
    weight += weightOf(line);
    if (weight > MOST_WEIGHT) return MIXED;
  }
  return null;
}

/**
 * Whether something is for reading only since it is wide.
 * @param {string} why
 */
export const isOfWide = (why) => why === JOINED || why === MIXED;

/**
 * Bytes that are for reading only: why, which of them are shown, by which text, and where their signs stand in that.
 * @typedef {object} Fixed
 * @property {Uint8Array} bytes
 * @property {string} why
 * @property {boolean} isWhole
 * @property {number} from
 * @property {number} to
 * @property {string} text
 * @property {{ byte: number, unit: number, per: number }[]} places
 */

/**
 * Signs in place of bytes; of many, and of wide lines, a part that has one of them in its middle.
 * @param {Uint8Array} bytes
 * @param {string} why
 * @returns {Fixed}
 */
export function fixedOf(bytes, why, middle = 0) {
  const fixed = partOf(bytes, why, middle, bytes.length <= MOST_FIXED ? MOST_FIXED : PART);
  return whyWide(fixed.text) ? partOf(bytes, why, middle, NARROW) : fixed;
}

/**
 * The same, of a part that has at most so many bytes.
 * @param {Uint8Array} bytes
 * @param {string} why
 * @param {number} middle
 * @param {number} most
 * @returns {Fixed}
 */
function partOf(bytes, why, middle, most) {
  const isWhole = bytes.length <= most;
  const from = isWhole ? 0 : startOfSign(bytes, Math.max(middle - most / 2, 0));
  const to = isWhole ? bytes.length : startOfSign(bytes, Math.min(from + most, bytes.length));
  const places = [];
  let text = "";
  for (const run of runsOf(bytes.subarray(from, to))) {
    places.push({ byte: from + run.from, unit: text.length, per: run.text === undefined ? 1 : run.perUnit });
    text += run.text ?? standIn(run.byte);
  }
  return { bytes, why, isWhole, from, to, text, places };
}

/**
 * Where the sign of a byte stands in that text, or -1 if it is not shown.
 * @param {Fixed} fixed
 * @param {number} number
 */
export function unitOfFixed({ from, to, places }, number) {
  if (number < from || number >= to) return -1;
  const place = places[lastFrom(places.length, (at) => places[at].byte, number)];
  return place.unit + Math.floor((number - place.byte) / place.per);
}

/**
 * What is shown in place of a byte that has no sign.
 * @param {number} byte
 */
function standIn(byte) {
  if (byte === 10 || byte === 9) return String.fromCharCode(byte);
  return byte < 32 ? String.fromCharCode(0x2400 + byte) : "\ufffd";
}
