// Tab in the editor: it sets lines in. Esc, and then Tab, leaves.

// What sets a line in: a tab that is not protected is deleted where the program is scanned, and a blank is not.
const MARGIN = "\t";

// Writes a text in place of what is chosen in a box, so that the browser can undo it.
/** @param {HTMLTextAreaElement} box @param {string} text */
export function insertText(box, text) {
  const [from, to] = [box.selectionStart, box.selectionEnd];
  if (text === "" ? document.execCommand("delete") : document.execCommand("insertText", false, text)) return;
  box.setRangeText(text, from, to, "end");
  box.dispatchEvent(new Event("input"));
}

// Changes the lines that have something of what is chosen, each by itself. They are chosen then, if there are several;
// else the caret stays at its sign.
/** @param {HTMLTextAreaElement} box @param {(line: string) => string} change */
function changeLines(box, change) {
  const { value, selectionStart, selectionEnd } = box;
  const from = value.slice(0, selectionStart).lastIndexOf("\n") + 1;
  // (a line whose end alone is chosen is the last one)
  const last = selectionEnd > selectionStart && value[selectionEnd - 1] === "\n" ? selectionEnd - 1 : selectionEnd;
  const end = value.indexOf("\n", last), to = end < 0 ? value.length : end;
  const before = value.slice(from, to), text = before.split("\n").map(change).join("\n");
  if (text === before) return;
  box.setSelectionRange(from, to);
  insertText(box, text);
  const isOne = !before.includes("\n"), by = text.length - before.length;
  /** @param {number} place */
  const caret = (place) => Math.max(place + by, from);
  if (isOne) box.setSelectionRange(caret(selectionStart), caret(selectionEnd));
  else box.setSelectionRange(from, from + text.length);
}

/** @param {HTMLTextAreaElement} box */
function setIn(box) {
  const isOne = !box.value.slice(box.selectionStart, box.selectionEnd).includes("\n");
  if (isOne) insertText(box, MARGIN);
  else changeLines(box, (line) => (line === "" ? line : MARGIN + line));
}

/** @param {HTMLTextAreaElement} box */
function setOut(box) {
  changeLines(box, (line) => (line.startsWith(MARGIN) ? line.slice(MARGIN.length) : line));
}

// Listens to Tab in a box. Who has left it by Esc goes on from it by Tab.
/** @param {HTMLTextAreaElement} box */
export function startIndenting(box) {
  let isLeft = false;
  box.addEventListener("keydown", (event) => {
    const isPlain = !event.ctrlKey && !event.altKey && !event.metaKey && !event.isComposing;
    const isTab = event.key === "Tab" && isPlain && !isLeft && !box.readOnly;
    isLeft = event.key === "Escape" || (isLeft && event.key === "Shift");
    if (!isTab) return;
    event.preventDefault();
    if (event.shiftKey) setOut(box);
    else setIn(box);
  });
  document.addEventListener("keydown", (event) => {
    // (the browser goes on from what has the focus)
    if (event.key === "Tab" && isLeft && document.activeElement === document.body) box.focus({ preventScroll: true });
  });
  for (const kind of ["focusin", "pointerdown"]) document.addEventListener(kind, () => {
    isLeft = false;
  });
}
