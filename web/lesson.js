// Texts of the course, as elements. web/assemble has taken them apart, as `trac course` does.
import { make } from "./elements.js";

// Code of so many signs at most is not broken at the end of a line.
const SHORT = 24;

/**
 * A part of a text: a block, with its lines and, of a program, its name; or words in pieces, of which a marked one has
 * its tag.
 * @typedef {string | ["code" | "strong" | "em", string]} Span
 * @typedef {{ kind: string, name?: string, lines?: string[], spans?: Span[] }} TextPart
 */

/** @template {Element} Kind @param {Kind} parent @param {Span[]} spans */
function addSpans(parent, spans) {
  parent.append(...spans.map((span) => {
    if (typeof span === "string") return span;
    const [tag, text] = span;
    return make(tag, tag === "code" && text.length <= SHORT ? "short" : "", text);
  }));
  return parent;
}

// Adds the parts of a text. `shown` makes the element of a program in it, of its name and its text.
/** @param {Element} parent @param {TextPart[]} parts @param {(name: string, text: string) => Element} shown */
export function addParts(parent, parts, shown) {
  for (const { kind, name = "", lines = [], spans = [] } of parts) {
    const last = parent.lastElementChild;
    if (kind === "trac") parent.append(shown(name, `${lines.join("\n")}\n`));
    else if (kind === "console") addConsole(parent, lines);
    else if (kind === "heading") parent.append(addSpans(make("h3"), spans));
    else if (kind === "p") parent.append(addSpans(make("p"), spans));
    else {
      const list = last?.localName === kind ? last : make(kind === "ul" ? "ul" : "ol");
      list.append(addSpans(make("li"), spans));
      parent.append(list);
    }
  }
}

// Adds what stands in a terminal. Of a run it is what that prints, also with what is typed: here Run does it.
/** @param {Element} parent @param {string[]} lines */
function addConsole(parent, lines) {
  const [, kind] = /^\$ \.\/trac (run <|play) \S+$/.exec(lines[0]) ?? [];
  if (kind === "run <") parent.append(make("p", "pale", "It prints"));
  parent.append(make("pre", "block", (kind ? lines.slice(1) : lines).join("\n")));
}
