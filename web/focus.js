// The focus stays where it is while the page is shown anew: what stands in place of its element has it then.
import { byId, focused } from "./elements.js";

const FOCUSABLE = "button, select, input, textarea, [tabindex]";
/** @type {Record<string, string>} what has the focus where an element is gone, and nothing stands in its place */
const INSTEAD = {
  stop: "run", undo: "source", mend: "source", welcome: "run", tries: "run", input: "output", "end-input": "output",
  ending: "output", output: "output", doubted: "output",
};

// Where an element stands: the element with an id that it is in, its name, and how many before it have the same.
/** @param {HTMLElement} element */
function addressOf(element) {
  const within = element.closest("[id]");
  if (!within) return null;
  const name = nameOf(element);
  const same = within === element ? [] : sameIn(within, name);
  return { id: within.id, isSelf: within === element, name, count: same.indexOf(element) };
}

/** @param {Element} element */
function nameOf(element) {
  return element.getAttribute("aria-label") ?? element.textContent;
}

/** @param {Element} within @param {string | null} name */
function sameIn(within, name) {
  /** @type {NodeListOf<HTMLElement>} */
  const all = within.querySelectorAll(FOCUSABLE);
  return [...all].filter((one) => nameOf(one) === name);
}

// Whether an element has a place in the page.
/** @param {Element} element */
export function isShown(element) {
  return element.getClientRects().length > 0;
}

// Does what may take away the element that has the focus.
/** @param {() => void} does */
export function keepFocus(does) {
  const held = focused();
  const address = held && held !== document.body ? addressOf(held) : null;
  does();
  if (!address || isShown(held)) return;
  const within = byId(address.id);
  const same = address.isSelf || !within ? [] : sameIn(within, address.name);
  const next = [same[address.count], same.at(-1), within, byId(INSTEAD[address.id] ?? "active"), byId("source")];
  next.find((one) => one?.matches(FOCUSABLE) && isShown(one))?.focus({ preventScroll: true });
}

// A button that does nothing here keeps the focus: so it is not disabled, but says that it is.
/** @param {Element} button @param {boolean} isOff */
export function setOff(button, isOff) {
  if (isOff) button.setAttribute("aria-disabled", "true");
  else button.removeAttribute("aria-disabled");
}

/** @param {Element | null} button */
export function isOff(button) {
  return button?.getAttribute("aria-disabled") === "true";
}

// Whether keys write where the focus is.
/** @param {Element} element */
export function isWriting(element) {
  return element.closest("textarea, select, dialog, input:not([type='range'], [type='checkbox'])") !== null;
}

// Whether a key is one that does something now.
/** @param {string} key */
export function isOn(key) {
  return key.length > 1 || byId("single-keys").checked;
}
