// Signs that nobody sees: they have no shape and make no room, turn the direction of others, or end a line. The list
// also stands in crates/trac_person_lines/src/unseen.rt, python/trac_tools/tool.py and node/names.js:
// tests/test_unseen.py compares them.
const UNSEEN =
  "\\u{ad}\\u{34f}\\u{61c}\\u{115f}-\\u{1160}\\u{17b4}-\\u{17b5}\\u{180b}-\\u{180f}\\u{200b}-\\u{200f}" +
  "\\u{2028}-\\u{202e}\\u{2060}-\\u{206f}\\u{3164}\\u{feff}\\u{ffa0}\\u{fff0}-\\u{fffb}" +
  "\\u{1bca0}-\\u{1bca3}\\u{1d173}-\\u{1d17a}\\u{e0000}-\\u{e0fff}";

// A sign without a shape of its own, or of which nobody knows one: controls and what Unicode has no letter for, too.
export const SHAPELESS = new RegExp(`[\\p{C}${UNSEEN}]`, "u");

// A name in words of the page: what is not seen stands as its bytes do in replies of the debugger.
/** @param {string} name */
export function legible(name) {
  const bytes = (/** @type {string} */ sign) =>
    Array.from(new TextEncoder().encode(sign), (byte) => `\\x${byte.toString(16).padStart(2, "0")}`).join("");
  return name.replace(new RegExp(SHAPELESS, "gu"), bytes);
}
