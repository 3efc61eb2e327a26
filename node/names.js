// Names and bytes as the programs show them.

const isPlain = (byte) => byte >= 32 && byte < 127 && !"\\[]".includes(String.fromCharCode(byte));

// A word in a message: bytes 32 to 126 but \, [ and ] as themselves, all others as \x and two digits.
function shown(word) {
  const bytes = [...Buffer.from(word)];
  return bytes.map((it) => (isPlain(it) ? String.fromCharCode(it) : `\\x${it.toString(16).padStart(2, "0")}`)).join("");
}

// The byte that is shown so.
function byteShown(text) {
  return text.startsWith("\\x") ? parseInt(text.slice(2), 16) : text.charCodeAt(0);
}

// What nobody sees: control characters, and signs that have no shape, turn the direction or end a line. The list also
// stands in crates/trac_person_lines/src/unseen.rt.
const UNSEEN = new RegExp(
  "[\\p{Cc}" +
  "\\u{ad}\\u{34f}\\u{61c}\\u{115f}-\\u{1160}\\u{17b4}-\\u{17b5}\\u{180b}-\\u{180f}\\u{200b}-\\u{200f}" +
  "\\u{2028}-\\u{202e}\\u{2060}-\\u{206f}\\u{3164}\\u{feff}\\u{ffa0}\\u{fff0}-\\u{fffb}" +
  "\\u{1bca0}-\\u{1bca3}\\u{1d173}-\\u{1d17a}\\u{e0000}-\\u{e0fff}" +
  "]", "gu");

// The name of a file in a line that an editor reads, which opens it: only what cannot be seen is shown as bytes.
function legible(name) {
  return name === "" ? "''" : name.replace(UNSEEN, shown);
}
