// What keys do. Those that type a sign can be switched off, for those who speak to their computer or hit keys by
// mistake.
import { keyOf, moreKeys } from "./walking.js";
import { isOn, isShown, isWriting } from "./focus.js";
import { byId, elementOf, focused } from "./elements.js";

/** @param {Page} page @param {KeyboardEvent} event @param {Map<string, Action>} keys */
function onKey(page, event, keys) {
  if ((event.ctrlKey || event.metaKey) && event.key === "Enter") {
    event.preventDefault();
    startByKeys(page);
    return;
  }
  if (event.ctrlKey || event.altKey || event.metaKey || event.isComposing) return;
  if (event.key === "Escape" && !elementOf(event).closest("dialog") && leaves(page, event)) return;
  if (event.key === "Enter" && elementOf(event).id === "filter") {
    page.cursor.visitFound();
    return;
  }
  if (isWriting(elementOf(event)) || !page.run) return;
  // space and Enter press the button that has the focus; arrows move the slider
  const isPress = event.key === " " || event.key === "Enter";
  if (isPress && elementOf(event).closest("button, summary, [type='checkbox']")) return;
  const action = keys.get(keyOf(event));
  if (!action || !isOn(event.key)) return;
  event.preventDefault();
  page.cursor.act(action);
}

// Ends what goes on, or closes the help, or leaves what is written in, by Escape. Whether it did.
/** @param {Page} page @param {KeyboardEvent} event */
function leaves(page, event) {
  if (!event.defaultPrevented && !byId("stop").hidden) page.runs.stop();
  else if (!event.defaultPrevented && !byId("help").hidden) page.view.help(false);
  else if (isWriting(elementOf(event))) elementOf(event).blur();
  else return false;
  return true;
}

// Runs the program. The output has the focus then, if nothing else was given it meanwhile.
/** @param {Page} page */
async function startByKeys(page) {
  const held = focused();
  await page.runs.start();
  if (focused() === held || !isShown(held)) byId("output").focus();
}

// Listens to the keys of all actions.
/** @param {Page} page */
export function startKeys(page) {
  /** @type {Map<string, Action>} */
  const keys = new Map();
  for (const action of [...page.actions, ...moreKeys(page)]) action.keys.forEach((key) => keys.set(key, action));
  document.addEventListener("keydown", (event) => onKey(page, event, keys));
  const letters = byId("single-keys");
  letters.addEventListener("change", () => {
    byId("keys").classList.toggle("off", !letters.checked);
  });
}
