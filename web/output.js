// What was printed, up to the step where the cursor is.
import { grouped } from "./bytes.js";
import { addCells, placed } from "./cells.js";
import { byId, make } from "./elements.js";
import { endingOf } from "./endings.js";

const SHOWN_OUTPUT = 8192;
// whether the end of what is shown is in view
let isAtEnd = true;

// Shows the output up to so many bytes, of which the last step has printed some. Of a long one a part is shown, which
// buttons move.
/** @param {View} view @param {Uint8Array} bytes @param {number} printed @param {number} fresh @param {number} step */
export function showOutput(view, bytes, printed, fresh, step) {
  const last = Math.min(view.outputTo ?? printed, printed);
  const first = startOfSign(bytes, Math.max(last - SHOWN_OUTPUT, 0));
  const key = [first, last, printed, fresh].join();
  const parent = placed(byId("output"), "output", step);
  if (printed === 0) byId("output-note").textContent = nothing(view.page, step);
  if (view.output === bytes && view.outputKey === key) return;
  [view.output, view.outputKey] = [bytes, key];
  const split = Math.max(first, Math.min(printed - fresh, last));
  parent.replaceChildren();
  if (first > 0) parent.append(turnButton("earlier", first, view));
  addCells(parent, bytes.subarray(first, split), first, true);
  if (split < last) {
    const mark = make("ins", "put");
    addCells(mark, bytes.subarray(split, last), split, true);
    parent.append(mark);
  }
  if (last < printed) parent.append(turnButton("later", Math.min(last + SHOWN_OUTPUT, printed), view));
  const part = `bytes ${grouped(first + 1)} to ${grouped(last)} of ${grouped(printed)}`;
  const isWhole = first === 0 && last === printed;
  if (printed > 0) byId("output-note").textContent = isWhole ? view.hint : part;
  parent.scrollTop = parent.scrollHeight;
  isAtEnd = true;
}

// What is said where nothing is printed: that more may come, unless the run is done there.
/** @param {Page} page @param {number} step */
function nothing(page, step) {
  return step === page.shownRun.end && endingOf(page).isGood ? "nothing is printed" : "nothing printed yet";
}

// The end of the output stays in view where the box gets another height, as by a line of input under it; unless one has
// scrolled away from there.
export function startOutput() {
  const box = byId("output");
  let height = 0;
  box.addEventListener("scroll", () => {
    // (what comes of another height is no scrolling)
    if (box.clientHeight === height) isAtEnd = box.scrollTop + height >= box.scrollHeight - 2;
  });
  new ResizeObserver(() => {
    height = box.clientHeight;
    if (isAtEnd) box.scrollTop = box.scrollHeight;
  }).observe(box);
}

// A button that shows an earlier or later part, up to a byte.
/** @param {string} word @param {number} to @param {View} view */
function turnButton(word, to, view) {
  const button = make("button", "link", word);
  button.type = "button";
  button.addEventListener("click", () => {
    view.outputTo = to;
    view.redraw();
  });
  return button;
}

// The place of the first byte of a sign.
/** @param {Uint8Array} bytes @param {number} at */
export function startOfSign(bytes, at) {
  let place = at;
  while (place > 0 && at - place < 3 && (bytes[place] & 0xc0) === 0x80) place--;
  return place;
}
