// The parts of a state, of the lines that the debugger prints of it. Texts stay as they stand there.
import { lengthOf } from "./bytes.js";

// The text within the brackets of a line, and the texts of a line with several.
/** @param {string} line */
function textIn(line) {
  return line.slice(line.indexOf("[") + 1, -1);
}

/** @param {string} line */
function textsIn(line) {
  return textIn(line).split("][");
}

// A begun call of a line. There may be very many, so texts are taken apart where they are asked for.
export class Begun {
  /** @param {string} text @param {number} line */
  constructor(text, line) {
    this.text = text;
    this.line = line;
  }

  get neutral() {
    return this.text.startsWith("call ##");
  }

  get texts() {
    return textsIn(this.text);
  }
}

// A form of a line, in the storage or in a block.
export class Form {
  /** @param {string} source @param {number} line */
  constructor(source, line) {
    this.source = source;
    this.line = line;
    /** @type {string[] | undefined} */
    this.kept = undefined;
  }

  get name() {
    return this.texts[0];
  }

  get text() {
    return this.texts[1];
  }

  get texts() {
    this.kept ??= textsIn(this.source.replace("] [", "]["));
    return this.kept;
  }
}

/**
 * A block of forms put aside.
 * @typedef {{ number: number, isErased: boolean, forms: Form[], line: number }} Block
 */

/**
 * The parts of a state.
 * @typedef {object} Parts
 * @property {string[]} lines
 * @property {string} active
 * @property {string} base
 * @property {Begun[]} calls
 * @property {Form[]} forms
 * @property {Block[]} blocks

 * @property {number} printed how many bytes were printed
 * @property {string} meta
 * @property {boolean} trace
 * @property {number} position how many bytes were read
 * @property {string} output what was printed since the last landmark
 */

/**
 * The parts, where so much was read and printed before what the lines say. Each knows the number of its line.
 * @param {string[]} lines
 * @param {Before} before
 * @returns {Parts}
 */
export function partsOf(lines, before) {
  /** @type {[Begun[], Form[], Block[]]} */
  const [calls, forms, blocks] = [[], [], []];
  let at = 2;
  for (; lines[at].startsWith("call "); at++) calls.push(new Begun(lines[at], at));
  for (; lines[at].startsWith("form "); at++) forms.push(new Form(lines[at], at));
  for (; !lines[at].startsWith("meta "); at++) {
    if (lines[at].startsWith("held ")) blocks[blocks.length - 1].forms.push(new Form(lines[at], at));
    else {
      const [, number, erased] = lines[at].split(" ");
      blocks.push({ number: Number(number), isErased: Boolean(erased), forms: [], line: at });
    }
  }
  const output = textIn(lines[at + 3]);
  /** @type {number | undefined} */
  let counted;
  return {
    lines, active: textIn(lines[0]), base: textIn(lines[1]), calls, forms, blocks, output,
    meta: textIn(lines[at]),
    trace: lines[at + 1] === "trace on",
    position: before.position + Number(lines[at + 2].slice("position ".length)),
    // how many bytes were printed, counted where it is asked for
    get printed() {
      counted ??= before.printed + lengthOf(output);
      return counted;
    },
  };
}

// The text that what is scanned goes to.
/** @param {Pick<Parts, "base" | "calls">} parts */
export function currentOf(parts) {
  const inner = parts.calls[parts.calls.length - 1];
  return inner ? inner.texts[inner.texts.length - 1] : parts.base;
}

// The text of a form in a state, or nothing.
/** @param {State} state @param {string} name */
export function formIn(state, name) {
  return state.parts.forms.find((form) => form.name === name)?.text;
}
