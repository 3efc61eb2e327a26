// Beside what the processor doubts: what was probably meant in place of a name, and how far what is doubted goes.
import { numberAt } from "./branch.js";
import { PRIMITIVES } from "./words.js";

// So many names are offered, and so many of a program's are looked at; longer ones are not compared.
const MOST_OFFERED = 3;
const MOST_NAMES = 10000;
const LONGEST = 64;
// So much of a program is marked for a doubt.
const MOST_MARKED = 400;
const [OPENS, CLOSES, COMMA, HASH, APOSTROPHE] = [..."(),#'"].map((sign) => sign.charCodeAt(0));

// What primitives are called in other languages, or in full.
/** @type {Record<string, string>} */
const OTHER_NAMES = {
  ps: "print println printf write echo say put puts output display", rs: "read readln readline input get gets ask",
  ds: "define def let set", dd: "delete del", cl: "call", pf: "printform", eq: "equal equals if", gr: "greater if",
  ad: "add plus", su: "subtract sub minus", ml: "multiply mul times", dv: "divide div", hl: "halt stop exit quit end",
};

// The primitives that others call so.
/** @param {string} name */
export function primitivesCalled(name) {
  const small = name.toLowerCase().trim();
  return Object.keys(OTHER_NAMES).filter((one) => OTHER_NAMES[one].split(" ").includes(small));
}

// Whether one name becomes another by one slip: a sign that is wrong, missing or too many, or two that are swapped.
/** @param {string} one @param {string} other */
export function isSlip(one, other) {
  const [short, long] = one.length <= other.length ? [one, other] : [other, one];
  if (one === other || long.length - short.length > 1) return false;
  let at = 0;
  while (at < short.length && short[at] === long[at]) at++;
  const [rest, left] = [short.slice(at), long.slice(at)];
  if (rest.length < left.length) return rest === left.slice(1);
  const isSwapped = rest[0] === left[1] && rest[1] === left[0] && rest.slice(2) === left.slice(2);
  return isSwapped || rest.slice(1) === left.slice(1);
}

// The primitives that others call so, or else that a name is one slip from: of names of two signs half are near, so
// those that begin as it does, if some do.
/** @param {string} name */
function primitivesLike(name) {
  const called = primitivesCalled(name);
  if (called.length) return called;
  const small = name.toLowerCase();
  const near = Object.keys(PRIMITIVES).filter((one) => isSlip(small, one));
  const first = near.filter((one) => one[0] === small.trim()[0]);
  return first.length ? first : near;
}

// The forms that a name is one slip from, or that differ from it by capital and small letters alone.
/** @param {string} name @param {Set<string>} forms */
function formsLike(name, forms) {
  const small = name.toLowerCase();
  return [...forms].filter((form) => isSlip(name, form) || (form !== name && form.toLowerCase() === small));
}

// The names of the forms that a run sets, as far as they are listed or there at its end, and have no sign that a list
// leaves unclear.
/** @param {Run} run @param {Calls} calls */
export function formsSet(run, calls) {
  const names = new Set();
  for (const text of calls.texts) {
    const name = /^##?\(ds,([^(),\\]*)[,)]/i.exec(text)?.[1];
    if (name && names.size < MOST_NAMES) names.add(name);
  }
  const end = run.story.isSmall ? run.story.kept(run.end) : undefined;
  for (const { name } of end?.parts.forms.slice(0, MOST_NAMES) ?? []) if (!name.includes("\\")) names.add(name);
  return names;
}

// What was probably meant by a name that nothing has, as a question; nothing if no name is near.
/** @param {string} words @param {Set<string>} forms */
function offered(words, forms) {
  const [, kind, name] = /^no (primitive|form) is named (.*)$/s.exec(words) ?? [];
  if (!name || name.length > LONGEST) return "";
  const near = kind === "form" ? formsLike(name, forms)
    : [...primitivesLike(name), ...formsLike(name, forms).map((form) => `#(cl,${form})`)];
  return near.length ? `: ${question(near)}` : "";
}

// Asks whether one of these was meant.
/** @param {string[]} near */
export function question(near) {
  const some = near.slice(0, MOST_OFFERED);
  const all = some.length > 1 ? `${some.slice(0, -1).join(", ")} or ${some.at(-1)}` : some[0];
  return `did you mean ${all}?`;
}

// Where the name or the argument ends that begins at a byte of a program: at the comma or the parenthesis after it.
/** @param {Uint8Array} program @param {number} from */
export function endOfArgument(program, from) {
  const isProtected = program[from - 1] === OPENS && program[from - 2] !== HASH;
  const most = Math.min(program.length, from + MOST_MARKED);
  let end = from, depth = 0;
  for (; end < most; end++) {
    const sign = program[end];
    if (sign === OPENS) depth++;
    else if (sign === CLOSES && depth-- === 0) break;
    else if (sign === APOSTROPHE || (sign === COMMA && depth === 0 && !isProtected)) break;
  }
  while (end > from + 1 && program[end - 1] <= 32) end--;
  return Math.max(end, from + 1);
}

// A doubt with what was probably meant, why there is no result, and where what is doubted ends in the program.
/** @param {Doubt} doubt @param {Page} page @param {Set<string>} forms @returns {Doubt} */
export function remedied(doubt, { run, tree }, forms) {
  const { step, byte, words, notes = [] } = doubt;
  if (step === null) return doubt;
  const isOfSign = /^(?:[()] |\d+ calls? w)/.test(words);
  const told = [isDivisionByZero(words, tree.textAt(step)) ? BY_ZERO : words, ...notes].join("; ");
  const { program } = /** @type {Run} */ (run);
  return { ...doubt, words: told + offered(words, forms), end: isOfSign ? byte + 1 : endOfArgument(program, byte) };
}

const BY_ZERO = "this divides by 0, which gives nothing: a third argument is given in its place";

// Whether a call, as it is listed, has no result since it divides by 0.
/** @param {string} words */
function isDivisionByZero(words, text = "") {
  const found = /^##?\(dv,[^,]*(?:,([^,)]*))?[,)]/i.exec(text);
  return found !== null && words.includes("does not fit") && numberAt(found[1] ?? "").digits === "";
}
