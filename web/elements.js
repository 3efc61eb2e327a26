// Elements of the page.

// Those of page.html that are more than any element.
/**
 * @typedef {{
 *   source: HTMLTextAreaElement, "share-text": HTMLTextAreaElement, input: HTMLInputElement, place: HTMLInputElement,
 *   slider: HTMLInputElement, filter: HTMLInputElement, file: HTMLInputElement, paste: HTMLInputElement,
 *   "single-keys": HTMLInputElement, library: HTMLSelectElement, course: HTMLSelectElement, speed: HTMLSelectElement,
 *   depth: HTMLCanvasElement, question: HTMLDialogElement, "share-box": HTMLDialogElement,
 *   "open-box": HTMLDialogElement, dark: HTMLStyleElement,
 * }} Special
 */

/**
 * The kind of the element with an id.
 * @template {string} Id
 * @typedef {Id extends keyof Special ? Special[Id] : HTMLElement} Kind
 */

/**
 * The element with an id.
 * @template {string} Id
 * @param {Id} id
 */
export function byId(id) {
  return /** @type {Kind<Id>} */ (/** @type {unknown} */ (document.getElementById(id)));
}

/**
 * The text of the element with an id.
 * @param {string} id
 */
export const textIn = (id) => document.getElementById(id)?.textContent ?? "";

/**
 * Makes an element with a class and a text.
 * @template {keyof HTMLElementTagNameMap} Tag
 * @param {Tag} tag
 * @param {string} [name]
 * @param {string} [text]
 * @returns {HTMLElementTagNameMap[Tag]}
 */
export function make(tag, name, text) {
  const element = document.createElement(tag);
  if (name) element.className = name;
  if (text !== undefined) element.textContent = text;
  return element;
}

/**
 * A button that does something.
 * @param {string} word
 * @param {(button: HTMLButtonElement) => void} does
 */
export function buttonOf(word, does) {
  const button = make("button", "", word);
  button.type = "button";
  button.addEventListener("click", () => does(button));
  return button;
}

/**
 * The element that an event came to.
 * @param {Event} event
 */
export function elementOf(event) {
  return /** @type {HTMLElement} */ (event.target);
}

/** The element that has the focus. */
export function focused() {
  return /** @type {HTMLElement} */ (document.activeElement);
}

/**
 * The element around another one, or that one, that is of a kind.
 * @param {Element | null} element
 * @param {string} kind
 * @returns {HTMLElement | null}
 */
export function around(element, kind) {
  return element?.closest(kind) ?? null;
}

/**
 * Gives an element a name for screen readers.
 * @template {Element} Any
 * @param {Any} element
 * @param {string} label
 */
export function labelled(element, label) {
  element.setAttribute("role", "img");
  element.setAttribute("aria-label", label);
  return element;
}
