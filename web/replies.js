// The replies of the debugger, which are fixed byte for byte: what is not understood is refused.
import { partsOf } from "./parts.js";

export class NotUnderstood extends Error {}

const STATE_LINE = new RegExp(
  ("^(?:(?:active|base|meta|output) \\[T\\]|call ##? (?:\\[T\\])+|(?:form|held) \\[T\\] \\[T\\]"
    + "|block \\d+(?: erased)?|trace (?:on|off)|(?:position|journal) \\d+)$")
    .replaceAll("T", "[^\\][\\\\]*(?:\\\\x[0-9a-f]{2}[^\\][\\\\]*)*"),
);

// Replies, read one after the other. They are kept as bytes: only what is wanted of them becomes text.
export class Replies {
  /** @param {Uint8Array} bytes */
  constructor(bytes) {
    this.bytes = bytes;
    this.decoder = new TextDecoder("latin1");
    this.at = 0;
    /** @type {string | undefined} */
    this.whole = undefined;
  }

  // All of them as text, of which each sign is a byte.
  get text() {
    this.whole ??= this.decoder.decode(this.bytes);
    return this.whole;
  }

  /** @param {number} from @param {number} to */
  textBetween(from, to) {
    return this.decoder.decode(this.bytes.subarray(from, to));
  }

  // Whether these signs stand there.
  /** @param {string} words */
  has(words, at = this.at) {
    for (let index = 0; index < words.length; index++) {
      if (this.bytes[at + index] !== words.charCodeAt(index)) return false;
    }
    return true;
  }

  // The next line.
  line() {
    const end = this.bytes.indexOf(10, this.at);
    if (end < 0) throw new NotUnderstood(`no reply at ${this.at}`);
    const line = this.textBetween(this.at, end);
    this.at = end + 1;
    return line;
  }

  // How many steps a move took, and why it took no more.
  /** @param {string} word */
  moved(word) {
    const found = /^(\w+) (\d+)(?: (\w+))?$/.exec(this.line());
    if (!found || found[1] !== word) throw new NotUnderstood(`no reply to ${word}`);
    return { done: Number(found[2]), why: found[3] ?? null };
  }

  // A move forward took all its steps.
  goes() {
    const { why } = this.moved("forward");
    if (why) throw new NotUnderstood(`the way is ${why}`);
  }

  // What was printed before a commit, as it stands in the reply.
  committed() {
    const line = this.line();
    if (!line.startsWith("commit [") || !line.endsWith("]")) throw new NotUnderstood("no reply to c");
    return line.slice("commit [".length, -1);
  }

  // How many bytes were printed before a commit.
  committedLength() {
    if (!this.has("commit [")) throw new NotUnderstood("no reply to c");
    const from = this.at + "commit [".length, end = this.bytes.indexOf(10, from) - 1;
    let length = end - from;
    for (let at = this.bytes.indexOf(92, from); at >= 0 && at < end; at = this.bytes.indexOf(92, at + 4)) length -= 3;
    this.at = end + 2;
    return length;
  }

  // The lines of a state, as they stand, without the last one.
  state() {
    const from = this.at;
    const { end } = this.passed();
    return this.textBetween(from, end);
  }

  // Passes over a state: where its lines end without the last one, and how much was read until then.
  passed() {
    if (!this.has("active [")) throw new NotUnderstood("no state");
    let end = this.at, position = 0;
    do {
      const from = end + 1;
      end = this.bytes.indexOf(10, from);
      if (end < 0) throw new NotUnderstood("no state");
      if (this.has("position ", from)) position = Number(this.textBetween(from + "position ".length, end));
    } while (!this.has("journal ", end + 1));
    this.at = end + 1;
    if (!STATE_LINE.test(this.line())) throw new NotUnderstood("no number of steps");
    return { end, position };
  }

  // All of them were read.
  end() {
    if (this.at !== this.bytes.length) throw new NotUnderstood("more replies than commands");
  }
}

/**
 * How much was read and printed before what the lines of a state say.
 * @typedef {{ position: number, printed: number }} Before
 */

// A state: what the debugger prints of it, and what was read and printed before that counts.
export class State {
  /** @param {string} text @param {Before} before */
  constructor(text, before) {
    this.text = text;
    this.before = before;
    /** @type {Parts | null} its parts, once they are wanted */
    this.kept = null;
  }

  // Its lines, each of which is one that the debugger prints.
  get lines() {
    const lines = this.text.split("\n");
    for (const line of lines) {
      // (a long text is not looked at sign by sign)
      if (line.length < 65536 && !STATE_LINE.test(line)) throw new NotUnderstood(line.slice(0, 80));
    }
    return lines;
  }

  // Its parts; texts stand as the debugger prints them.
  get parts() {
    this.kept ??= partsOf(this.lines, this.before);
    return this.kept;
  }

  // What stands first in it.
  get active() {
    return this.text.slice("active [".length, this.text.indexOf("\n") - 1);
  }

  // Whether a call is begun in it.
  get isWithin() {
    const base = this.text.indexOf("\n", this.text.indexOf("\n") + 1);
    return this.text.startsWith("call ", base + 1);
  }
}
