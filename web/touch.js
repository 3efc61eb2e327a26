// Fingers: a swipe over the text is a step, and a tap beside a sign is for it.
import { byteUnder } from "./cells.js";
import { TEXTS } from "./choosing.js";
import { byId } from "./elements.js";

// So far a finger moves at least, and so far beside a sign it may tap, in pixels of the page.
const SWIPE = 40;
const BESIDE = 22;

// A swipe to the right is a step forward, as the key and the slider; to the left, a step back.
/** @param {Page} page */
export function startSwipes(page) {
  const tape = byId("tape");
  /** @type {PointerEvent | null} */
  let from = null;
  tape.addEventListener("pointerdown", (event) => {
    from = event.pointerType === "touch" && event.isPrimary ? event : null;
  });
  tape.addEventListener("pointercancel", () => {
    from = null;
  });
  tape.addEventListener("pointerup", (event) => {
    if (!from) return;
    const across = event.clientX - from.clientX, along = event.clientY - from.clientY;
    from = null;
    if (Math.abs(across) < SWIPE || Math.abs(across) < 2 * Math.abs(along)) return;
    const action = page.actions.find(({ keys }) => keys.includes(across > 0 ? "s" : "b"));
    if (action) page.cursor.act(action);
  });
}

// A finger that only scrolls the page has moved the slider where it came down: it goes back to its step.
/** @param {Page} page */
export function startSlider(page) {
  let from = 0;
  byId("slider").addEventListener("pointerdown", () => {
    from = page.cursor.step;
  });
  byId("slider").addEventListener("pointercancel", () => page.cursor.go(from, null, null));
}

// The byte under a finger, or the nearest in the text that it taps.
/** @param {number} x @param {number} y */
export function byteNear(x, y) {
  const found = byteUnder(x, y);
  if (found || !matchMedia("(pointer: coarse)").matches) return found;
  const text = document.elementFromPoint(x, y)?.closest(`${TEXTS}, [data-place], .way-row .code, .box > .head, .rule`);
  const near = text ? nearestRect(text, x, y) : null;
  if (!near) return null;
  /** @param {number} at @param {number} from @param {number} to */
  const within = (at, from, to) => Math.min(Math.max(at, from + 1), to - 1);
  return byteUnder(within(x, near.left, near.right), within(y, near.top, near.bottom));
}

// The box of the nearest run of signs in a text, not too far away.
/** @param {Element} text @param {number} x @param {number} y */
function nearestRect(text, x, y) {
  /** @param {DOMRect} box */
  const away = (box) => Math.hypot(Math.max(box.left - x, x - box.right, 0), Math.max(box.top - y, y - box.bottom, 0));
  const boxes = [...text.querySelectorAll("[data-byte]")].flatMap((cell) => [...cell.getClientRects()]);
  const [first, ...others] = boxes;
  const least = others.reduce((best, box) => (away(box) < away(best) ? box : best), first);
  return least && away(least) <= BESIDE ? least : null;
}
