// Ranges that are lit, each kind under a name: by the browser's highlights, or where it has none by boxes under the
// signs.
import { make } from "./elements.js";

// So many boxes of a kind stand there at most.
const MOST_BOXES = 200;
/** @type {Map<string, { ranges: Range[], boxes: Element[] }>} */
const lit = new Map();

// Lights these ranges in the way of a name, and no others in that way.
/** @param {string} name @param {Range[]} ranges */
export function setLight(name, ranges) {
  const before = lit.get(name);
  for (const box of before?.boxes ?? []) box.remove();
  lit.delete(name);
  if (window.Highlight) CSS.highlights.delete(name);
  if (ranges.length === 0) return;
  const boxes = window.Highlight ? [] : ranges.flatMap((range) => boxesOf(name, range)).slice(0, MOST_BOXES);
  lit.set(name, { ranges, boxes });
  if (window.Highlight) CSS.highlights.set(name, new Highlight(...ranges));
}

// Lights one more.
/** @param {string} name @param {Range} range */
export function addLight(name, range) {
  setLight(name, [...(lit.get(name)?.ranges ?? []), range]);
}

// Boxes where a range stands, within what it scrolls with.
/** @param {string} name @param {Range} range */
function boxesOf(name, range) {
  const { startContainer: start } = range;
  const element = start instanceof HTMLElement ? start : start.parentElement;
  const frame = element?.offsetParent;
  if (!frame) return [];
  const outer = frame.getBoundingClientRect();
  return [...range.getClientRects()].map((rect) => {
    const box = make("i", `light ${name}`);
    box.style.left = `${rect.left - outer.left - frame.clientLeft + frame.scrollLeft}px`;
    box.style.top = `${rect.top - outer.top - frame.clientTop + frame.scrollTop}px`;
    box.style.width = `${rect.width}px`;
    box.style.height = `${rect.height}px`;
    frame.append(box);
    return box;
  });
}

// Lines may break elsewhere now: boxes are made anew.
export function startLights() {
  if (window.Highlight) return;
  addEventListener("resize", () => [...lit].forEach(([name, { ranges }]) => setLight(name, ranges)));
}
