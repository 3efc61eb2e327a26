// Texts as the debugger prints them: bytes 32 to 126 but \ [ ] stand as themselves, every other byte as \x and two
// digits.
import { labelled, make } from "./elements.js";

/**
 * A run of plain bytes, or another byte.
 * @typedef {{ plain: string } | { byte: number }} Piece
 */

/**
 * Splits a text into runs of plain bytes and single other bytes.
 * @param {string} text
 */
function piecesOf(text) {
  /** @type {Piece[]} */
  const pieces = [];
  for (const part of text.split(/(\\x..)/)) {
    if (part === "") continue;
    const isByte = part[0] === "\\";
    const byte = isByte ? parseInt(part.slice(2), 16) : 0;
    const last = pieces[pieces.length - 1];
    if (!isByte) addPlain(pieces, last, part);
    else if (byte === 0x5b || byte === 0x5c || byte === 0x5d) addPlain(pieces, last, String.fromCharCode(byte));
    else pieces.push({ byte });
  }
  return pieces;
}

/** @param {Piece[]} pieces @param {Piece | undefined} last @param {string} text */
function addPlain(pieces, last, text) {
  if (last && "plain" in last) last.plain += text;
  else pieces.push({ plain: text });
}

// How many bytes a text has.
/** @param {string} text */
export function lengthOf(text) {
  let length = text.length;
  for (let at = text.indexOf("\\"); at >= 0; at = text.indexOf("\\", at + 4)) length -= 3;
  return length;
}

// Whether these signs stand once in a text.
/** @param {string} text @param {string} signs */
export function isOnce(text, signs) {
  const at = text.indexOf(signs);
  return at >= 0 && text.indexOf(signs, at + signs.length) < 0;
}

// A place at or before this one that is not within the sign of a byte.
/** @param {string} text @param {number} place */
export function boundary(text, place) {
  const sign = place > 0 ? text.lastIndexOf("\\", place - 1) : -1;
  return sign >= 0 && sign + 4 > place ? sign : place;
}

// The bytes of a text.
/** @param {string} text */
export function bytesOf(text) {
  const bytes = new Uint8Array(lengthOf(text));
  for (let at = 0, place = 0; at < text.length; at++, place++) {
    if (text[at] === "\\") {
      bytes[place] = parseInt(text.slice(at + 2, at + 4), 16);
      at += 3;
    } else bytes[place] = text.charCodeAt(at);
  }
  return bytes;
}

// The bytes of a text in base64. (There may be very many.)
/** @param {string} text */
export function bytesOfSigns(text) {
  const signs = atob(text), bytes = new Uint8Array(signs.length);
  for (let at = 0; at < signs.length; at++) bytes[at] = signs.charCodeAt(at);
  return bytes;
}

// The names of bytes 0 to 31.
const CONTROLS = "NUL SOH STX ETX EOT ENQ ACK BEL BS TAB LF VT FF CR SO SI " +
  "DLE DC1 DC2 DC3 DC4 NAK SYN ETB CAN EM SUB ESC FS GS RS US";

// The sign for a byte that has no letter of its own.
/** @param {number} byte */
export function signOf(byte) {
  if (byte < 32) return CONTROLS.split(" ")[byte];
  return byte === 127 ? "DEL" : byte.toString(16);
}

// A byte that has no letter. Who does not see its frame is told that its sign is no text.
/** @param {HTMLElement} element @param {number} byte */
export function asByte(element, byte) {
  element.textContent = signOf(byte);
  return labelled(element, byte > 127 ? `byte ${signOf(byte)}` : signOf(byte));
}

// Adds a text to an element, all of it.
/** @param {Element} parent @param {string} text */
export function addText(parent, text) {
  for (const piece of piecesOf(text)) {
    if ("plain" in piece) parent.append(piece.plain);
    else parent.append(asByte(make("span", "byte"), piece.byte));
  }
}

// Adds a text in a span of a class, with its middle left out where it is longer than so many signs.
/** @param {Element} parent @param {string} text @param {string} name @param {number} most */
export function addShort(parent, text, name, most) {
  const span = make("span", name);
  if (text.length <= most) addText(span, text);
  else {
    const front = boundary(text, Math.ceil(most / 2));
    const back = boundary(text, text.length - Math.floor(most / 2));
    addText(span, text.slice(0, front));
    span.append(leftOut(lengthOf(text.slice(front, back))));
    addText(span, text.slice(back));
  }
  parent.append(span);
  return span;
}

// What stands in place of so many bytes.
/** @param {number} count */
export function leftOut(count) {
  return make("span", "left-out", ` … ${grouped(count)} bytes … `);
}

// A number with commas.
/** @param {number} count */
export function grouped(count) {
  return String(count).replace(/\B(?=(\d{3})+$)/g, ",");
}

// A text as plain signs, for lists and labels: short, and with a sign for each byte.
/** @param {string} text @param {number} most */
export function plainOf(text, most) {
  const front = text.length > most ? boundary(text, most) : text.length;
  let plain = "";
  for (const piece of piecesOf(text.slice(0, front))) {
    plain += "plain" in piece ? piece.plain : `‹${signOf(piece.byte)}›`;
  }
  return front < text.length ? plain + "…" : plain;
}

// Line and column of a byte, both counted from 1, as trac-walk counts them.
/** @param {Uint8Array} bytes @param {number} number */
export function lineAndColumn(bytes, number) {
  let line = 1, end = -1;
  for (let at = 0; at < number; at++) if (bytes[at] === 10) [line, end] = [line + 1, at];
  return `line ${grouped(line)}, column ${grouped(number - end)}`;
}

// Bytes, one after the other.
/** @param {Uint8Array[]} parts */
export function joined(parts) {
  const bytes = new Uint8Array(parts.reduce((sum, part) => sum + part.length, 0));
  let at = 0;
  for (const part of parts) {
    bytes.set(part, at);
    at += part.length;
  }
  return bytes;
}

// The text of bytes that are UTF-8, or nothing.
/** @param {Uint8Array} bytes */
export function textOf(bytes) {
  try {
    return new TextDecoder("utf-8", { fatal: true, ignoreBOM: true }).decode(bytes);
  } catch {
    return null;
  }
}

// Shows words in an element: a byte without a letter has its frame.
/** @param {Element} parent @param {string} words */
export function showFramed(parent, words) {
  parent.replaceChildren();
  words.split(/‹(\w+)›/).forEach((part, at) => {
    if (at % 2) parent.append(make("span", "byte", part));
    else if (part) parent.append(part);
  });
}
