// What a state has beside its text: begun calls, forms, blocks and settings. What `shown` says of them: the number of
// the step, if bytes can be followed; the most boxes, and the most signs of an argument and of a form; whether the last
// step changed a line; and whether what looks like gaps of a form may be bytes.
import { addText, boundary, bytesOf, grouped, isOnce, leftOut, lengthOf, plainOf } from "./bytes.js";
import { addCells, addTextCells, placed } from "./cells.js";
import { addArgument, addTexts } from "./words.js";
import { DECIMALS } from "./given.js";
import { byId, labelled, make } from "./elements.js";

const ROWS = 200;

/**
 * What is said of what is shown beside the text.
 * @typedef {object} Shown
 * @property {number} [step]
 * @property {number} boxes
 * @property {number} mostOfCall
 * @property {number} mostOfForm
 * @property {(line: number) => boolean} isChanged
 * @property {(name: string, text: string) => boolean} isDoubtful
 */

/** @typedef {"meta" | "trace" | "position" | "numbers" | "printed"} Setting */

// A call as it stands, each argument with its place. The one that is gathered is marked.
/**
 * @param {Element} parent
 * @param {Called} call
 * @param {number} depth
 * @param {number | undefined} step
 * @param {number} most
 * @param {boolean} isGathered
 */
export function addCall(parent, call, depth, step, most, isGathered) {
  parent.append(make("span", "kind", call.neutral ? "##(" : "#("));
  addTexts(parent, call, (text, index, isEnd) => {
    const isLast = isGathered && isEnd;
    addArgument(parent, text, () => {
      const name = (index ? "argument" : "argument name") + (isLast ? " gathered" : "");
      const span = addTextCells(parent, text, 0, name, most);
      return placed(span, `argument ${depth} ${index}`, step);
    }, isLast);
  });
  if (!isGathered) parent.append(make("span", "kind", ")"));
}

// A box for a begun call. The argument that is gathered is its last.
/** @param {Begun} call @param {number} number @param {Shown} shown */
function boxOf(call, number, shown) {
  const box = make("div", shown.isChanged(call.line) ? "box changed" : "box");
  box.setAttribute("role", "group");
  const name = plainOf(call.texts[0], 30) || "no name yet";
  const gathered = call.texts.length === 1 ? "its name" : `argument ${call.texts.length - 1}`;
  const kind = call.neutral ? "neutral" : "active";
  box.setAttribute("aria-label", `call ${number + 1}, ${kind}: ${name}, ${gathered} is gathered`);
  const head = make("p", "head");
  addCall(head, call, number, shown.step, shown.mostOfCall, true);
  box.append(head);
  return box;
}

// Shows begun calls as boxes, each within the one outside it; where there are many, the innermost ones.
/** @param {Begun[]} calls @param {Shown} shown */
export function showBegun(calls, shown) {
  const depth = calls.length;
  const from = Math.max(depth - shown.boxes, 0);
  const outside = make("div");
  const many = `${grouped(depth)}, each within the one before`;
  byId("begun-count").textContent = depth === 0 ? "none" : depth === 1 ? "1" : many;
  if (from > 0) {
    const names = calls.slice(0, Math.min(from, 3)).map((call) => plainOf(call.texts[0], 12)).join(", ");
    outside.append(make("p", "left-out", `${grouped(from)} further out (${names} …)`));
  }
  let parent = outside;
  for (let number = from; number < depth; number++) {
    const box = boxOf(calls[number], number, shown);
    parent.append(box);
    parent = box;
  }
  byId("begun").replaceChildren(outside);
}

// A form's text with gaps as pills and the pointer as a bar. Items are counted, gaps too. Where the text may have such
// signs itself, it stands as the debugger prints it, and its items have no numbers.
/** @param {Element} parent @param {Form} form @param {Shown} shown */
function addForm(parent, { name, text }, shown) {
  const front = boundary(text, Math.min(text.length, shown.mostOfForm));
  const parts = text.slice(0, front).split(/(<(?:\d+|\^)>)/);
  if (shown.isDoubtful(name, text)) {
    addText(parent, text.slice(0, front));
    parent.append(make("span", "note", " (some of these < > may be text)"));
    parts.length = 0;
  }
  let item = 0;
  for (const part of parts) {
    if (part === "<^>") parent.append(labelled(make("span", "pointer"), "pointer"));
    else if (/^<\d+>$/.test(part)) parent.append(gapOf(part.slice(1, -1), item++));
    else {
      addCells(parent, bytesOf(part), item);
      item += lengthOf(part);
    }
  }
  if (front < text.length) parent.append(leftOut(lengthOf(text.slice(front))));
}

// A gap as a pill. Who copies it gets it as the debugger prints it.
/** @param {string} number @param {number} item */
function gapOf(number, item) {
  const gap = labelled(make("span", "gap"), `gap ${number}`);
  gap.append(make("span", "copied", "<"), number, make("span", "copied", ">"));
  gap.dataset.byte = String(item);
  return gap;
}

// Whether bytes of a form may look like gaps or the pointer: more look like the pointer than there is, or such bytes
// were given to ds.
/** @param {string} text @param {boolean} hasMarks */
export function isDoubtfulForm(text, hasMarks) {
  return !isOnce(text, "<^>") || (hasMarks && /<\d+>/.test(text));
}

// A row for a form, with its place: of a form by its number in the state.
/** @param {Form} form @param {string} place @param {Shown} shown */
function formRow(form, place, shown) {
  const isChanged = shown.isChanged(form.line);
  const row = make("tr", isChanged ? "changed" : "");
  const head = make("th");
  head.scope = "row";
  addTextCells(head, form.name, 0, "", 60);
  if (isChanged) head.append(make("span", "unseen", " changed"));
  const cell = make("td");
  const text = placed(make("div"), place, shown.step);
  addForm(text, form, shown);
  if (shown.step !== undefined) letFollow(form, text, place.startsWith("form ") ? head : null);
  cell.append(text);
  row.append(head, cell);
  return row;
}

// Lets the bytes of a form be followed by keys, and asks who changed it.
/** @param {Form} form @param {HTMLElement} text @param {HTMLElement | null} head */
function letFollow(form, text, head) {
  text.tabIndex = 0;
  text.setAttribute("role", "group");
  text.setAttribute("aria-label", `the form ${plainOf(form.name, 30)}`);
  if (!head) return;
  const who = make("button", "link", "who changed it");
  who.type = "button";
  who.dataset.who = form.name;
  who.setAttribute("aria-label", `who changed it: ${plainOf(form.name, 30)}`);
  head.append(make("br"), who);
}

// Shows forms. Those that the last step changed are marked.
/** @param {Form[]} forms @param {Shown} shown */
export function showForms(forms, shown) {
  const rows = forms.slice(0, ROWS).map((form, index) => formRow(form, `form ${index}`, shown));
  if (forms.length > ROWS) rows.push(noteRow(`and ${grouped(forms.length - ROWS)} more`));
  if (forms.length === 0) rows.push(noteRow("none"));
  byId("forms").replaceChildren(...rows);
}

/** @param {Block[]} blocks @param {Shown} shown */
export function showBlocks(blocks, shown) {
  byId("blocks-section").hidden = blocks.length === 0;
  const rows = [];
  for (const [place, block] of blocks.slice(0, ROWS).entries()) {
    rows.push(noteRow(`block ${block.number}${block.isErased ? ", erased" : ""}`, shown.isChanged(block.line)));
    block.forms.slice(0, ROWS).forEach((form, index) => rows.push(formRow(form, `held ${place} ${index}`, shown)));
  }
  if (blocks.length > ROWS) rows.push(noteRow(`and ${grouped(blocks.length - ROWS)} more`));
  byId("blocks").replaceChildren(...rows);
}

/** @param {string} text */
function noteRow(text, isChanged = false) {
  const row = make("tr", isChanged ? "changed" : "");
  const cell = make("td", "note", text);
  cell.colSpan = 2;
  row.append(cell);
  return row;
}

// Settings, each with its name: how it is shown, of the parts of a state and the length of all input.
/** @type {Record<Setting, [title: string, shown: (parts: Parts, length: number) => Node | string]>} */
const SETTINGS = {
  meta: ["meta character", ({ meta }) => addTextCells(make("span"), meta, 0, "code")],
  trace: ["trace", ({ trace }) => (trace ? "on" : "off")],
  position: ["read", ({ position }, length) => `${grouped(position)} of ${grouped(length)} bytes`],
  numbers: ["numbers", () => `of ${DECIMALS} bits`],
  printed: ["printed", ({ printed }) => (printed === 1 ? "1 byte" : `${grouped(printed)} bytes`)],
};

// Shows these settings, and marks those that the last step changed.
/** @param {Parts} parts @param {number} length @param {(name: Setting) => boolean} isChanged */
export function showRest(parts, length, isChanged) {
  const names = /** @type {Setting[]} */ (Object.keys(SETTINGS));
  byId("rest").replaceChildren(...names.map((name) => {
    const [title, value] = SETTINGS[name];
    const row = make("div", isChanged(name) ? "changed" : "");
    const cell = make("dd");
    cell.append(value(parts, length));
    if (isChanged(name)) cell.append(make("span", "unseen", " changed"));
    row.append(make("dt", "", title), cell);
    return row;
  }));
}
