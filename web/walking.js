// Moves through a run. Where a call is meant, trac-walk says the step.
import { grouped } from "./bytes.js";
import { buttonOf, byId, make } from "./elements.js";

/** @typedef {"byte" | "token" | "call"} Unit */

/**
 * What can be done: what it is for, its keys, and what it does; of a button its id, the bar where it stands, and its
 * sign. `way` says that it does nothing at the start, or at the end.
 * @typedef {object} Action
 * @property {string} words
 * @property {string[]} keys
 * @property {() => unknown} does
 * @property {string} [id]
 * @property {"buttons" | "more-buttons"} [bar]
 * @property {string} [sign]
 * @property {number} [way]
 */

// How far a step goes, as the switch says: what the buttons do then, and the name of that.
/** @type {Unit[]} */
export const UNITS = ["byte", "token", "call"];
// So many tokens a second it may play.
const SPEEDS = [1, 2, 4, 8, 16, 32];
const SPEED = 8;

// What can be done in the player.
/** @param {Page} page @returns {Action[]} */
export function actionsOf(page) {
  /** @param {string} line */
  const walk = (line) => () => page.cursor.walk(line);
  return [
    button("start", "|◀", { words: "to the start", keys: ["Home"], way: -1, does: () => page.cursor.go(0) }),
    button("back", "◀ back", {
      words: "back, as far as the switch says", keys: [], way: -1, does: () => page.cursor.unitBack(),
    }),
    button("play", "play", { words: "play, pause", keys: [" "], does: () => page.cursor.play() }),
    button("forward", "step ▶", {
      words: "forward, as far as the switch says", keys: [], way: 1, does: () => page.cursor.unitForward(),
    }),
    button("end", "▶|", { words: "to the end", keys: ["End"], way: 1, does: () => page.cursor.go(Infinity) }),
    { words: "a step back", keys: ["b"], way: -1, does: () => page.cursor.stepBack() },
    { words: "a step forward", keys: ["s"], way: 1, does: () => page.cursor.stepForward() },
    { words: "a token back", keys: ["ArrowLeft"], way: -1, does: () => page.cursor.tokenBack() },
    { words: "a token forward", keys: ["ArrowRight"], way: 1, does: () => page.cursor.token() },
    { words: "back to the call before", keys: ["r", "Shift+ArrowLeft"], way: -1, does: walk("r") },
    { words: "forward to the next call", keys: ["u", "Shift+ArrowRight"], way: 1, does: walk("u") },
    moreButton("over-back", "◀ over", {
      words: "back over the call that gave what stands here", keys: ["N"], way: -1, does: walk("N"),
    }),
    moreButton("over", "over ▶", {
      words: "over this call, until its value is scanned too", keys: ["n"], way: 1, does: walk("n"),
    }),
    moreButton("begin", "◀ in", {
      words: "back to where the innermost begun call began", keys: ["O"], way: -1, does: walk("O"),
    }),
    moreButton("out", "out ▶", { words: "out of the innermost begun call", keys: ["o"], way: 1, does: walk("o") }),
  ];
}

// What has a button in one of the two bars.
/** @param {string} id @param {string} sign @param {Action} action @returns {Action} */
const button = (id, sign, action) => ({ id, bar: "buttons", sign, ...action });
/** @param {string} id @param {string} sign @param {Action} action @returns {Action} */
const moreButton = (id, sign, action) => ({ id, bar: "more-buttons", sign, ...action });

// What keys do beside those.
/** @param {Page} page @returns {Action[]} */
export function moreKeys(page) {
  return [
    { keys: ["m"], words: "back to where the last of these moves began", does: () => page.cursor.returnTo() },
    { keys: ["y"], words: "where the name of the next call comes from", does: () => page.cursor.followName() },
    { keys: ["w"], words: "back to the call that changed a form last", does: () => page.cursor.whoChanged(null) },
    { keys: ["d"], words: "forward to the next doubt", does: () => page.cursor.doubt(1) },
    { keys: ["D"], words: "back to the last doubt", does: () => page.cursor.doubt(-1) },
    { keys: ["g"], words: "to the number of a step", does: () => byId("place").select() },
    { keys: ["/"], words: "search the calls", does: () => page.cursor.search() },
    { keys: ["i"], words: "each step of the idle program, or all as one", does: () => page.cursor.showIdle() },
    { keys: ["f"], words: "rule and text alone, in large type, and back", does: () => page.big.toggle() },
    { keys: ["?", "h"], words: "this help", does: () => page.view.help() },
  ];
}

// The name of a key as a press of it says.
/** @param {KeyboardEvent} event */
export function keyOf(event) {
  return event.shiftKey && event.key.startsWith("Arrow") ? `Shift+${event.key}` : event.key;
}

/** @type {Record<string, string>} */
const KEY_NAMES = {
  ArrowLeft: "←", ArrowRight: "→", "Shift+ArrowLeft": "Shift+←", "Shift+ArrowRight": "Shift+→", " ": "Space",
};
// What a step is, as far as the switch says, and its keys, back and forward.
/** @type {Record<Unit, [words: string, back: string, forward: string]>} */
const UNIT_WORDS = { byte: ["a byte", "b", "s"], token: ["a token", "←", "→"], call: ["a call", "r", "u"] };

// The name of a button for those who do not see it, or say it: it has the word that is seen.
/** @param {Pick<Action, "sign" | "words">} said */
function buttonName({ sign = "", words }) {
  const word = /[a-z]+/.exec(sign)?.[0] ?? "";
  return words.includes(word) ? words : `${word}: ${words}`;
}

// Shows buttons, the switch, and the list of keys.
/** @param {Page} page @param {Action[]} actions */
export function showActions(page, actions) {
  for (const action of actions) if (action.bar) addButton(page, action);
  byId("buttons").append(unitSwitch(page));
  for (const speed of SPEEDS) {
    const isFirst = speed === SPEED;
    byId("speed").append(new Option(`${speed}/s`, String(speed), isFirst, isFirst));
  }
  startPlace(page);
  for (const { keys, words } of [...actions.filter((action) => action.keys.length), ...moreKeys(page)]) {
    const row = make("div");
    const name = make("dt");
    keys.forEach((key) => name.append(make("kbd", key.length === 1 ? "single" : "", KEY_NAMES[key] ?? key), " "));
    row.append(name, make("dd", "", words));
    byId("keys").append(row);
  }
}

/** @param {Page} page @param {Action} action */
function addButton(page, action) {
  const { id = "", bar, sign = "", words, keys } = action;
  if (!bar) return;
  const button = buttonOf("", () => page.cursor.act(action));
  button.id = id;
  // (a small window has no room for the words of two of them)
  const parts = /^(◀ )?(back|step)( ▶)?$/.test(sign) ? sign.split(/([a-z]+)/).filter((part) => part) : [sign];
  button.append(...parts.map((part) => (parts.length > 1 && /[a-z]/.test(part) ? make("span", "word", part) : part)));
  button.title = keys.length ? `${words} (${keys.map((key) => KEY_NAMES[key] ?? key).join(", ")})` : words;
  button.setAttribute("aria-label", buttonName({ sign, words }));
  byId(bar).insertBefore(button, bar === "buttons" ? null : byId("speed-label"));
}

// How far a step goes by these buttons.
/** @param {Page} page */
function unitSwitch(page) {
  const place = make("span");
  place.id = "unit";
  place.setAttribute("role", "group");
  place.setAttribute("aria-label", "How far a step goes");
  for (const unit of UNITS) {
    const button = buttonOf(unit, () => page.cursor.setUnit(unit));
    button.id = unit;
    place.append(button);
  }
  return place;
}

// The buttons say how far they go.
/** @param {Unit} unit */
export function showUnit(unit) {
  const [words, back, forward] = UNIT_WORDS[unit];
  for (const [id, word, way, key] of [["back", "back", "back", back], ["forward", "step", "forward", forward]]) {
    byId(id).title = `${words} ${way} (${key})`;
    byId(id).setAttribute("aria-label", buttonName({ sign: word, words: `${words} ${way}` }));
  }
}

// The number of the step, which can be typed.
/** @param {Page} page */
function startPlace(page) {
  const box = byId("place");
  box.addEventListener("change", () => {
    const digits = box.value.replaceAll(",", "").trim();
    const { end } = page.shownRun;
    const isStep = /^\d+$/.test(digits) && Number(digits) <= end;
    page.view.note(isStep ? "" : `the run has steps 0 to ${grouped(end)}`);
    if (/^\d+$/.test(digits)) page.cursor.visit(Number(digits));
    else page.cursor.redraw();
  });
}
