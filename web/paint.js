// The text of the editor with its colours, line by line, under the box where it is typed: calls, primitives, protected
// text, numbers, and what ends a text.
import { PRIMITIVES } from "./words.js";
import { make } from "./elements.js";

// A program that is longer, or has more lines, is painted without colours and numbers of lines, so many lines as one,
// and only once its typist rests.
const LONG = 65536;
const MOST_LINES = 8192;
const LINES_AS_ONE = 64;

/**
 * A part of a program, with what it is of; and a line that is painted, or several without colours, with what it is
 * known by, and once it is asked for its texts, each with where it begins in that.
 * @typedef {{ of: string, text: string }} Part
 * @typedef {{ text: Text, start: number }} Piece
 * @typedef {{ key: string, element: HTMLElement, pieces?: Piece[] }} PaintedLine
 */

// Whether a program is painted so.
/** @param {string} text */
export function isLong(text) {
  if (text.length >= LONG) return true;
  let lines = 0;
  for (let at = text.indexOf("\n"); at >= 0; at = text.indexOf("\n", at + 1)) lines++;
  return lines > MOST_LINES;
}

// The parts of a program, each with what it is of: the signs of calls, names of primitives, protected text, numbers,
// ends of texts, parentheses that match none. It is said by the bytes alone: what `cm` chooses is not known.
/** @param {string} text @returns {Generator<Part>} */
function* partsOfProgram(text) {
  /** @type {string[]} */
  const open = [];
  let depth = 0;
  const sign = /##?\(|[(),']|[+-]?\d+|[^#(),'\d]+|./gs;
  for (let found = sign.exec(text); found; found = sign.exec(text)) {
    const part = found[0];
    if (part.endsWith("(")) {
      const kind = part === "(" ? "protected" : part === "#(" ? "call" : "neutral";
      open.push(kind);
      if (kind === "protected") depth++;
      yield { of: kind, text: part };
      const name = kind === "protected" ? null : /[A-Za-z]{2}(?=[,)])/y;
      if (name) name.lastIndex = sign.lastIndex;
      const named = name?.exec(text)?.[0];
      if (named && Object.hasOwn(PRIMITIVES, named.toLowerCase())) {
        yield { of: "primitive", text: named };
        sign.lastIndex += 2;
      }
    } else if (part === ")") {
      const kind = open.pop();
      if (kind === "protected") depth--;
      yield { of: kind ?? "stray", text: part };
    } else if (part === "'") {
      open.length = depth = 0;
      yield { of: "ending", text: part };
    } else if (part === "," && open.length) yield { of: open[open.length - 1], text: part };
    else if (/\d$/.test(part) && !/[^+\d-]/.test(part)) yield { of: "number", text: part };
    else yield { of: depth ? "protected" : "", text: part };
  }
}

// The same as lines, each with its end: lists of parts.
/** @param {string} text */
function linesOfProgram(text) {
  /** @type {Part[][]} */
  const lines = [[]];
  for (const { of, text: part } of partsOfProgram(text)) {
    part.split(/(?<=\n)/).forEach((piece) => {
      const line = lines[lines.length - 1];
      const last = line[line.length - 1];
      if (last?.of === of) last.text += piece;
      else line.push({ of, text: piece });
      if (piece.endsWith("\n")) lines.push([]);
    });
  }
  return lines;
}

// A text without colours, in parts of some lines each: those of the text before that stand at the front and at the end
// of this one stay, so that a sign that is typed changes one of them. (All of them end with a line end.)
/** @param {string} text @param {string[]} before */
function blocksOf(text, before) {
  let front = 0, from = 0, back = before.length, to = text.length;
  while (front < back && text.startsWith(before[front], from)) from += before[front++].length;
  while (back > front && to - before[back - 1].length >= from && text.endsWith(before[back - 1], to)) {
    to -= before[--back].length;
  }
  // (what stands between them may go on in a line of the next one)
  if (to > from && text[to - 1] !== "\n") to += before[back++].length;
  const changed = [];
  while (from < to) {
    let end = from;
    for (let count = 0; count < LINES_AS_ONE && end < to; count++) end = text.indexOf("\n", end) + 1;
    changed.push(text.slice(from, end));
    from = end;
  }
  return [...before.slice(0, front), ...changed, ...before.slice(back)];
}

// Which of things that stand in order is the last that begins at a place or before it; the first where none does.
/** @param {number} count @param {(at: number) => number} start @param {number} place */
export function lastFrom(count, start, place) {
  let low = 0, high = count - 1;
  while (low < high) {
    const middle = (low + high + 1) >> 1;
    if (start(middle) <= place) low = middle;
    else high = middle - 1;
  }
  return low;
}

// The beginning and the end of the call or the parentheses that a place stands in, as places; nothing outside all.
/** @param {string} text @param {number} at */
export function pairAround(text, at) {
  const from = text.lastIndexOf("'", at - 1) + 1;
  const end = text.indexOf("'", at);
  const upTo = end < 0 ? text.length : end;
  const open = [];
  for (let place = from; place < upTo; place++) {
    if (text[place] === "(") {
      open.push(place);
    } else if (text[place] === ")") {
      const began = open.pop();
      if (began !== undefined && began < at && place >= at - 1) return [began, place];
    }
  }
  return null;
}

export class Paint {
  /** @param {HTMLElement} place */
  constructor(place) {
    this.place = place;
    /** @type {PaintedLine[]} */
    this.lines = [];
    // where each line begins, and how long all is
    this.starts = [0];
    this.length = 0;
    this.isPlain = false;
  }

  // Paints a text, without colours if it is long or a part. Lines that are the same as before stay as they are.
  /** @param {string} text */
  show(text, isPart = false) {
    const before = this.isPlain ? this.lines.map(({ key }) => key) : [];
    this.isPlain = isPart || isLong(text);
    // (the line after the last line end has room too)
    if (this.isPlain) this.put(blocksOf(`${text}\n`, before), (block) => block, (block) => [{ of: "", text: block }]);
    else this.put(linesOfProgram(text), (line) => JSON.stringify(line), (line) => line);
    if (this.isPlain) this.length = text.length;
  }

  // Shows lines, by what each is known and which parts it has, in place of those before. Of those that differ the
  // first have their elements: else all lines after them would be numbered anew.
  /**
   * @template Kind
   * @param {Kind[]} lines
   * @param {(line: Kind) => string} keyOf
   * @param {(line: Kind) => Part[]} partsOf
   */
  put(lines, keyOf, partsOf) {
    const keys = lines.map(keyOf), old = this.lines;
    let front = 0, back = 0;
    const most = Math.min(keys.length, old.length);
    while (front < most && old[front].key === keys[front]) front++;
    while (back < most - front && old[old.length - 1 - back].key === keys[keys.length - 1 - back]) back++;
    const gone = old.slice(front, old.length - back), added = new DocumentFragment();
    const fresh = lines.slice(front, lines.length - back).map((line, at) => {
      const element = gone[at]?.element ?? added.appendChild(make("div", "line"));
      fill(element, partsOf(line));
      return { key: keys[front + at], element };
    });
    for (const { element } of gone.slice(fresh.length)) element.remove();
    this.place.insertBefore(added, old[old.length - back]?.element ?? null);
    this.lines = [...old.slice(0, front), ...fresh, ...old.slice(old.length - back)];
    this.starts = [0];
    this.length = 0;
    for (const line of lines) {
      this.length += partsOf(line).reduce((sum, { text }) => sum + text.length, 0);
      this.starts.push(this.length);
    }
  }

  // The line that has a unit of the text.
  /** @param {number} unit */
  lineAt(unit) {
    return lastFrom(this.lines.length, (at) => this.starts[at], unit);
  }

  // The texts of a line. (One line may have tens of thousands.)
  /** @param {number} number */
  piecesOf(number) {
    const line = this.lines[number];
    if (line.pieces) return line.pieces;
    line.pieces = [];
    let start = 0;
    for (const { firstChild: text } of line.element.children) {
      if (!(text instanceof Text)) continue;
      line.pieces.push({ text, start });
      start += text.length;
    }
    return line.pieces;
  }

  // The ranges of a stretch of the text, one in each part that has some of it.
  /** @param {number} from @param {number} to */
  rangesOf(from, to) {
    const ranges = [];
    for (let unit = from; unit < to;) {
      const range = this.rangeOf(unit, to - unit);
      if (!range) break;
      ranges.push(range);
      unit += range.endOffset - range.startOffset;
    }
    return ranges;
  }

  // The range of so many units of the text, in one part of it, or nothing.
  /** @param {number} unit */
  rangeOf(unit, count = 1) {
    if (unit < 0 || unit >= this.length) return null;
    const line = this.lineAt(unit), pieces = this.piecesOf(line), place = unit - this.starts[line];
    const piece = pieces[lastFrom(pieces.length, (at) => pieces[at].start, place)];
    if (!piece || place >= piece.start + piece.text.length) return null;
    const range = document.createRange();
    range.setStart(piece.text, place - piece.start);
    range.setEnd(piece.text, Math.min(place - piece.start + count, piece.text.length));
    return range;
  }
}

// Gives the element of a line its painted text.
/** @param {HTMLElement} element @param {Part[]} parts */
function fill(element, parts) {
  element.replaceChildren();
  for (const { of, text } of parts) element.append(make("span", of && `of-${of}`, text));
  if (parts.length === 0) element.append(make("br"));
}
