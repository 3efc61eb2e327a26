// What the text of a program shows by itself: places where it hardly says what was meant, each with what to do. The
// page finds them; a run need not come there.
import { primitivesCalled, question } from "./remedies.js";
import { PRIMITIVES } from "./words.js";

/**
 * What a hint is for: a sign, the first part of what is looked for; its words, or what says them of the sign, if there
 * is something to say; and what in a program makes it needless.
 * @typedef {{ sign: RegExp, words: string | ((sign: string) => string), unless?: RegExp }} Hint
 */

/** @type {Hint[]} */
const HINTS = [
  { sign: /(#[ \t]+\()/g, words: "a blank stands between # and (, so no call begins here; without it one does" },
  {
    sign: /[A-Za-z](')[a-z]/g, unless: /#\(cm,/i,
    words: "this ' ends the text, as it does wherever it stands; #(cm,;)' has ; end texts instead",
  },
  { sign: /(?:^|')\s*([A-Za-z]{2,10}\()/g, unless: /#\(cm,/i, words: wordsOfCall },
];
// So many of a kind are told.
const MOST_HINTS = 5;

// Of a text that begins as a call does elsewhere, how it begins here.
/** @param {string} sign */
function wordsOfCall(sign) {
  const name = sign.slice(0, -1).toLowerCase();
  const near = Object.hasOwn(PRIMITIVES, name) ? [name] : primitivesCalled(name);
  const calls = near.map((one) => `#(${one},`);
  return near.length ? `no # stands before this, so no call begins here: ${question(calls)}` : "";
}

// The hints of a program: rows like doubts, without a step.
/** @param {Uint8Array} bytes */
export function hintsOf(bytes) {
  const text = new TextDecoder("latin1").decode(bytes.subarray(0, MOST_HINTED));
  return HINTS.filter(({ unless }) => !unless?.test(text)).flatMap((hint) => rowsOfHint(text, hint));
}

/** @param {string} text @param {Hint} hint */
function rowsOfHint(text, { sign, words }) {
  /** @type {Doubt[]} */
  const rows = [];
  for (const { index = 0, 0: whole, 1: part } of text.matchAll(sign)) {
    const said = typeof words === "string" ? words : words(part), byte = index + whole.indexOf(part);
    if (said) rows.push({ step: null, byte, end: byte + part.length, words: said });
    if (rows.length === MOST_HINTS) break;
  }
  return rows;
}

// So much of a program is looked at.
const MOST_HINTED = 1 << 20;
