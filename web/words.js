// What each step and each primitive does, in the words of docs/language.md. A text of the program stands in a list,
// with what it is after it; the empty text has a sign of its own.
import { addShort, grouped } from "./bytes.js";
import { reasonOf } from "./branch.js";
import { make } from "./elements.js";

/** @type {Word[]} */
const UNPROTECTED = [" that is not protected by ", ["( )"]];
// What ends a line or sets it in.
/** @type {Record<string, string>} */
const MARGINS = { "\\x0d": "a carriage return", "\\x0a": "a line feed", "\\x09": "a tab" };

/** @type {Record<string, (move: Move) => Word[]>} */
export const RULES = {
  i: () => ["nothing is left: base text and begun functions are emptied, and the idle program is loaded"],
  "(": (move) => [["("], " and its matching ", [")"],
    " are deleted, and what they protect goes to the current text unchanged", protectedWords(move.moved)],
  u: () => [["("], " has no match: it is deleted, and all the rest goes to the current text"],
  w: (move) => [[move.taken], " is deleted: ", MARGINS[move.taken], ...UNPROTECTED],
  ",": (move) => wordsOfComma(move.ended),
  ";": () => ["a ", [","], " outside any function is deleted"],
  a: () => [["#("], " begins an active function: its value will be scanned"],
  n: () => [["##("], " begins a neutral function: its value will not be scanned, unless it is the default"],
  "#": () => ["a ", ["#"], " that begins no function goes to the current text"],
  ")": () => ["a ", [")"], " outside any function is deleted"],
  x: (move) => [movedWords(move.taken), " goes to the current text"],
  p: (move) => wordsOfCall(move),
};

// What stands for the empty text in a list or a label, and the quotes around an argument that has a comma or a
// parenthesis. The debugger prints no such sign, so none is the program's.
const EMPTY = "‹empty›";
export const QUOTES = ["“", "”"];

/** @type {Record<string, string>} */
export const PRIMITIVES = {
  ps: "prints its argument",
  rs: "reads a text of the input, up to the meta character",
  rc: "reads the next byte of the input",
  cm: "chooses the meta character",
  hl: "halts",
  tn: "the trace goes on",
  tf: "the trace goes off",
  eq: "gives argument 3 if the first two are the same, else argument 4",
  gr: "gives argument 3 if the first number is greater than the second, else argument 4",
  ad: "adds two numbers",
  su: "takes the second number from the first",
  ml: "multiplies two numbers",
  dv: "divides the first number by the second, cut toward zero",
  bu: "bitwise or of two octal strings",
  bi: "bitwise and of two octal strings",
  bc: "turns over each bit of an octal string",
  bs: "moves the bits of an octal string",
  br: "rotates the bits of an octal string",
  ds: "defines a form: a text under a name",
  dd: "deletes forms",
  da: "deletes all forms",
  ss: "cuts texts out of a form, which leave numbered gaps",
  cr: "a form's pointer goes before its first item",
  cl: "calls a form: gives its text, with the arguments in its gaps",
  cs: "reads a form up to the next gap",
  cc: "reads the next byte of a form",
  cn: "reads so many bytes of a form",
  in: "reads a form up to a text",
  ln: "lists the names of all forms",
  pf: "prints a form, with its gaps and its pointer",
  sb: "puts forms aside in a block",
  fb: "brings back the forms of a block",
  eb: "erases a block",
};

// What the idle program is.
/** @type {Word[]} */
export const IDLE_WORDS = ["It is ", ["#(ps,#(rs))"], ", there at the start and whenever nothing is left: ", ["rs"],
  " reads a text of the input, up to the meta character; that is scanned as the argument of ", ["ps"],
  ", which prints what is left of it"];

// What is moved: blanks have a word, since nobody hears them.
/** @param {string} text @returns {Word} */
export function movedWords(text) {
  if (!/^ +$/.test(text)) return [text];
  return text.length === 1 ? "a blank" : `${grouped(text.length)} blanks`;
}

// What it means that a text was protected.
/** @param {string} text */
function protectedWords(text) {
  const comma = text.includes(",") && "no comma in it ends an argument";
  const call = text.includes("#(") && "no call in it is begun";
  const words = [comma, call].filter(Boolean).join(", and ");
  return words && `: ${words}`;
}

// What a comma does: the argument that it ends, of which call and which one it is, where that is known.
/** @param {Move["ended"]} ended @returns {Word[]} */
function wordsOfComma(ended) {
  /** @type {Word[]} */
  const comma = ["a ", [","], ...UNPROTECTED, " ends "];
  if (!ended) return [...comma, "the argument, and an empty one is begun"];
  const { call, index } = ended;
  const text = call.texts[index];
  /** @type {Word[]} */
  const which = index === 0 ? ["the name of the function, "] : [`argument ${index} of `, [call.texts[0], "text"], ": "];
  return [...comma, ...which, [text, "text"], `; argument ${index + 1} is begun`];
}

// What a function does, by its name. Letters of either case name a primitive.
/** @param {string} name @returns {Word[]} */
function deedOf(name) {
  const known = PRIMITIVES[/^[A-Za-z]{2}$/.test(name) ? name.toLowerCase() : ""];
  return known ? [[name, "text"], " ", known] : ["no primitive is named ", [name, "text"], ", so nothing is done"];
}

// A call in words: why its value is what it is, or what it is for and what it printed; and its value.
/** @param {Move} move @returns {Word[]} */
function wordsOfCall(move) {
  const call = /** @type {Begun} */ (move.call);
  const whose = move.isLast ? " of the idle program" : "";
  /** @type {Word[]} */
  const words = [[")"], `${whose} ends the function, and `, [callText(call), "call", call], " is performed: ",
    ...(reasonOf({ ...move, call }) ?? deedOf(call.texts[0]))];
  if (move.printed) words.push("; printed is ", [move.printed]);
  const last = words[words.length - 1];
  if (typeof last !== "string" || !last.endsWith(": ")) words.push("; its value is ");
  words.push([move.value, move.scanned ? "value" : "value text"], ...(move.value === "" ? [] : fateOf(move, call)));
  return words;
}

// What becomes of a value, and why.
/** @param {Move} move @param {Called} call @returns {Word[]} */
function fateOf(move, call) {
  /** @type {Word} */
  const sign = [call.neutral ? "##(" : "#("];
  if (!move.scanned) return [", which is not scanned, since ", sign, " began a neutral function"];
  if (!call.neutral) return [", which is scanned next, since ", sign, " began an active function"];
  return [", which is scanned next: it is the default, although ", sign, " began a neutral function"];
}

// Whether an argument could be taken for several, or for a call.
/** @param {string} text */
export function isProtected(text) {
  return /[(),]/.test(text);
}

// An argument as it stands in a list or a label: in quotes where it is protected.
/** @param {string} text */
function argumentText(text) {
  return text === "" ? EMPTY : isProtected(text) ? `${QUOTES[0]}${text}${QUOTES[1]}` : text;
}

// A call as it is written, in one text.
/** @param {Called} call */
export function callText(call) {
  const texts = call.texts.map((text) => (text === "" ? "" : argumentText(text)));
  return `${call.neutral ? "##(" : "#("}${texts.join(",")})`;
}

// The sign for the empty text. It is none of the program's.
function emptySign() {
  const sign = make("span", "empty", "empty");
  sign.setAttribute("role", "img");
  sign.setAttribute("aria-label", "empty");
  return sign;
}

// What is doubted. For those who do not see the sign before it there is a word.
/** @param {string} words */
export function doubtSign(words) {
  const sign = make("span", "doubt");
  sign.append(make("span", "unseen", ". Doubt: "), words);
  return sign;
}

// Adds an argument, of which `add` adds the text and returns its element: where it is protected it stands in quotes,
// and where it is empty there is the sign for that. One that is gathered still is open at its end.
/** @param {Element} parent @param {string} text @param {() => Element} add */
export function addArgument(parent, text, add, isOpen = false) {
  const isQuoted = isProtected(text);
  if (isQuoted) parent.append(make("span", "quote", QUOTES[0]));
  const span = add();
  if (text === "" && !isOpen) span.append(emptySign());
  if (isQuoted && !isOpen) parent.append(make("span", "quote", QUOTES[1]));
}

// So many texts of a call are shown: its name, and arguments.
const MOST_TEXTS = 400;

// Adds the texts of a call, with commas between them, each by `add`. Where there are many, those in the middle are left
// out.
/** @param {Element} parent @param {Called} call @param {(text: string, index: number, isEnd: boolean) => void} add */
export function addTexts(parent, call, add) {
  // (a call takes its line apart each time that it is asked)
  const { texts } = call;
  const more = Math.max(texts.length - MOST_TEXTS, 0), from = MOST_TEXTS / 2;
  texts.forEach((text, index) => {
    if (more && index >= from && index < from + more) return;
    if (more && index === from + more) parent.append(make("span", "left-out", ` … ${grouped(more)} more arguments … `));
    if (index) parent.append(make("span", "comma", ","));
    add(text, index, index === texts.length - 1);
  });
}

// Adds a call as it is written; of a long argument its middle is left out.
/** @param {Element} parent @param {Called} call @param {number} most */
export function addCallText(parent, call, most) {
  const code = make("span", "code");
  code.append(make("span", "kind", call.neutral ? "##(" : "#("));
  addTexts(code, call, (text, index) => {
    addArgument(code, text, () => addShort(code, text, index ? "argument" : "argument name", most));
  });
  code.append(make("span", "kind", ")"));
  parent.append(code);
  return code;
}

// Adds a word of a sentence: what stands first in a list is a text of the program.
/** @param {Element} parent @param {Word} word */
export function addWord(parent, word) {
  if (!Array.isArray(word)) return void parent.append(word);
  const [text, kind = "", call] = word;
  if (call) addCallText(parent, call, 60);
  else if (kind.includes("text")) addArgument(parent, text, () => addShort(parent, text, "code", 72));
  else if (text === "") parent.append(emptySign());
  else addShort(parent, text, "code", 72);
  return undefined;
}

// Shows words in an element.
/** @param {Element} parent @param {string} lead @param {Word[]} words */
export function showWords(parent, lead, words) {
  parent.replaceChildren(make("b", "", lead));
  for (const word of words) addWord(parent, word);
}
