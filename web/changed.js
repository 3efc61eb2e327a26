// Which call changed a form last: its text, its gaps or its pointer. States before and after calls say it, so its name
// may have any bytes.
import { formIn } from "./parts.js";
import { windowOf } from "./story.js";
import { callsOf, nameSaid } from "./calls.js";

// Calls that may change the form which they name first, and calls that may change others.
const CHANGES_ONE = new Set(["ds", "ss", "cr", "cs", "cc", "cn", "in"]);
const CHANGES_MANY = new Set(["dd", "da", "sb", "fb", "eb"]);
// So many calls are looked at first, and each time so many times as many more.
const FIRST_LOOK = 8;
const MORE_LOOKS = 4;

// Whether a call of this name may change a form.
/** @param {string} name */
export function isForming(name) {
  return CHANGES_ONE.has(name) || CHANGES_MANY.has(name);
}

// Whether a call, as it is listed, may change the form of this name. (What is listed may be cut, and an argument with a
// comma or parenthesis stands in parentheses.)
/** @param {string} text @param {string} form */
function mayChange(text, form) {
  const name = nameSaid(text);
  const rest = text.slice(text.indexOf("(") + name.length + 2);
  const mayBeIt = rest.startsWith(form) || rest.startsWith("(" + form) || rest.includes("..");
  return CHANGES_MANY.has(name) || (CHANGES_ONE.has(name) && mayBeIt);
}

// The last of these calls, before a step, that changed a form, or nothing.
/** @param {Story} story @param {Calls} calls @param {number} step @param {string} name */
async function changeIn(story, calls, step, name) {
  const steps = calls.steps.filter((one, index) => one < step && mayChange(calls.texts[index], name));
  for (let count = FIRST_LOOK; steps.length; count *= MORE_LOOKS) {
    const some = steps.splice(-Math.min(count, story.roomFor(3))).reverse();
    // (one goes to the call that is found, so what stands before it is wanted too)
    /** @param {number} one */
    const around = (one) => [one - 1, one, one + 1];
    const states = await story.at(some.flatMap(around));
    const stateAt = (/** @type {number} */ one) => /** @type {State} */ (states.get(one));
    const found = some.find((one) => formIn(stateAt(one), name) !== formIn(stateAt(one + 1), name));
    if (found === undefined) continue;
    story.keep(windowOf(found - 1, around(found).map(stateAt)));
    return found;
  }
  return null;
}

// The step of the call that changed a form last, before a step, or nothing. Calls before those that are listed are
// listed anew.
/**
 * @param {Engine} engine
 * @param {Uint8Array} tape
 * @param {Story} story
 * @param {Calls} listed
 * @param {number} step
 * @param {string} name
 */
export async function lastChange(engine, tape, story, listed, step, name) {
  for (let calls = listed; ; calls = await callsOf(engine, tape, calls.from, calls.isClosed)) {
    const found = await changeIn(story, calls, step, name);
    if (found !== null || calls.from === 0) return found;
  }
}
