// A link's part after #: a program, its input and a step. Its first sign says its form, the second how the rest is
// packed.
import { bytesOfSigns, joined } from "./bytes.js";

const LINK_FORM = "1";
// So many bytes of a program are held at most, so many of input, and so many lines.
const MOST_HELD = 1 << 20;
const MOST_LINES = 10000;
const MOST_PACKED = 2 * MOST_HELD + 32 * MOST_LINES;

// What is said of a link that is not taken.
export class WrongLink extends Error {}

/**
 * What a link holds: a program, its input, whether that has ended, and the step, or nothing where the program was not
 * run.
 * @typedef {{ program: Uint8Array, inputs: Line[], isClosed: boolean, step: number | null }} Linked
 * @typedef {CompressionStream | DecompressionStream} Packing
 */

const LINK_FAULTS = {
  other: "This link is not one that this page made. Nothing is opened.",
  later: "This link was made by a later version of this page. Nothing is opened.",
  cut: "This link was cut off or changed on its way. Nothing is opened.",
  large: "This link holds more than 1 MiB. Nothing is opened.",
  lines: "This link holds more than 10,000 lines of input. Nothing is opened.",
  packed: "This browser cannot unpack links. Nothing is opened.",
};

// A sum of bytes by which a link that was cut off or changed is known: FNV-1a, as four bytes.
/** @param {Uint8Array} bytes */
function sumOf(bytes) {
  let sum = 0x811c9dc5;
  for (const byte of bytes) sum = Math.imul(sum ^ byte, 0x01000193) >>> 0;
  return [24, 16, 8, 0].map((shift) => (sum >>> shift) & 255);
}

// A whole number as bytes of seven bits each, the lowest first; all but the last have the eighth.
/** @param {number} number */
function numberBytes(number) {
  const bytes = [];
  for (let rest = number; ; rest = Math.floor(rest / 128)) {
    bytes.push(rest % 128 + (rest > 127 ? 128 : 0));
    if (rest < 128) return Uint8Array.from(bytes);
  }
}

// Bytes, read one after the other.
class Held {
  /** @param {Uint8Array} bytes */
  constructor(bytes) {
    this.bytes = bytes;
    this.at = 0;
  }

  number() {
    let number = 0;
    for (let worth = 1; worth < 2 ** 49; worth *= 128) {
      const byte = this.take(1)[0];
      number += byte % 128 * worth;
      if (byte < 128) return number;
    }
    throw new WrongLink(LINK_FAULTS.cut);
  }

  /** @param {number} count */
  take(count) {
    if (this.at + count > this.bytes.length) throw new WrongLink(LINK_FAULTS.cut);
    this.at += count;
    return this.bytes.slice(this.at - count, this.at);
  }

  // Bytes after how many they are, which are not more than so many.
  /** @param {number} most */
  text(most) {
    const length = this.number();
    if (length > most) throw new WrongLink(LINK_FAULTS.large);
    return this.take(length);
  }
}

// What a link holds, as bytes: a sum of the rest; the step and 1, or 0 where the program was not run; the program; how
// many lines of input, and whether it has ended; and each line after its step.
/** @param {Linked} held */
function bytesOfLink({ program, inputs, isClosed, step }) {
  const parts = [numberBytes(step === null ? 0 : step + 1), numberBytes(program.length), program,
    numberBytes(2 * inputs.length + (isClosed ? 1 : 0))];
  for (const line of inputs) parts.push(numberBytes(line.step), numberBytes(line.bytes.length), line.bytes);
  const rest = joined(parts);
  return joined([Uint8Array.from(sumOf(rest)), rest]);
}

// What those bytes hold.
/** @param {Uint8Array} bytes @returns {Linked} */
function heldInLink(bytes) {
  const held = new Held(bytes);
  const sum = held.take(4);
  if (sumOf(bytes.subarray(4)).some((byte, index) => byte !== sum[index])) throw new WrongLink(LINK_FAULTS.cut);
  const stepAndOne = held.number();
  const program = held.text(MOST_HELD);
  const lines = held.number();
  if (lines >= 2 * (MOST_LINES + 1)) throw new WrongLink(LINK_FAULTS.lines);
  /** @type {Line[]} */
  const inputs = [];
  let left = MOST_HELD;
  for (let count = Math.floor(lines / 2); count > 0; count--) {
    const line = { step: held.number(), bytes: held.text(left) };
    left -= line.bytes.length;
    inputs.push(line);
  }
  if (held.at !== bytes.length) throw new WrongLink(LINK_FAULTS.cut);
  return { program, inputs, isClosed: lines % 2 === 1, step: stepAndOne === 0 ? null : stepAndOne - 1 };
}

// Bytes through a stream, of which not more than so many come out.
/** @param {Uint8Array} bytes @param {Packing} stream @param {number} most */
async function streamed(bytes, stream, most) {
  const reader = new Blob([bytes]).stream().pipeThrough(stream).getReader();
  const parts = [];
  let left = most;
  for (;;) {
    const { done, value } = await reader.read();
    if (done || !value) return joined(parts);
    left -= value.length;
    if (left < 0) {
      reader.cancel().catch(() => {});
      throw new WrongLink(LINK_FAULTS.large);
    }
    parts.push(value);
  }
}

// The stream that packs or unpacks, or nothing where the browser has none.
/** @param {"CompressionStream" | "DecompressionStream"} name */
function packing(name) {
  try {
    return new (name === "CompressionStream" ? CompressionStream : DecompressionStream)("deflate-raw");
  } catch {
    return null;
  }
}

// Bytes in signs that stand in an address.
/** @param {Uint8Array} bytes */
function signsOf(bytes) {
  let text = "";
  for (const byte of bytes) text += String.fromCharCode(byte);
  return btoa(text).replaceAll("+", "-").replaceAll("/", "_").replace(/=+$/, "");
}

// The part after #, or nothing where the page would not take so much. It is packed where that makes it shorter.
/** @param {Linked} held */
export async function linkOf(held) {
  const input = held.inputs.reduce((sum, { bytes }) => sum + bytes.length, 0);
  if (held.program.length > MOST_HELD || input > MOST_HELD || held.inputs.length > MOST_LINES) return null;
  const bytes = bytesOfLink(held);
  const stream = packing("CompressionStream");
  const packed = stream && await streamed(bytes, stream, Infinity);
  return packed && packed.length < bytes.length ? `${LINK_FORM}d${signsOf(packed)}` : `${LINK_FORM}s${signsOf(bytes)}`;
}

// What a link holds: an address with it, or its part after #. Blanks and line ends that a letter put into it do not
// matter.
/** @param {string} address */
export async function openedLink(address) {
  const text = address.replace(/\s/g, "").replace(/^.*#/, "");
  if (/^[2-9][a-z]/.test(text)) throw new WrongLink(LINK_FAULTS.later);
  if (!/^1[ds][\w-]*$/.test(text)) throw new WrongLink(LINK_FAULTS.other);
  if (text.length > 2 * MOST_PACKED) throw new WrongLink(LINK_FAULTS.large);
  let bytes;
  try {
    bytes = bytesOfSigns(text.slice(2).replaceAll("-", "+").replaceAll("_", "/"));
  } catch {
    throw new WrongLink(LINK_FAULTS.cut);
  }
  return heldInLink(text[1] === "s" ? bytes : await unpacked(bytes));
}

/** @param {Uint8Array} bytes */
async function unpacked(bytes) {
  const stream = packing("DecompressionStream");
  if (!stream) throw new WrongLink(LINK_FAULTS.packed);
  try {
    return await streamed(bytes, stream, MOST_PACKED);
  } catch (fault) {
    throw fault instanceof WrongLink ? fault : new WrongLink(LINK_FAULTS.cut);
  }
}
