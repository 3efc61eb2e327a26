// Of a run that came to no end: which calls are made again and again at its end.
import { addText, grouped } from "./bytes.js";
import { buttonOf, byId } from "./elements.js";

// So many of the last calls are looked at, so many kinds are told, and a kind counts from so many calls on.
const LOOKED_AT = 300;
const MOST_TOLD = 3;
const FEWEST = 5;

// A call without what changes from one time to the next: its name, and for a form the name of that.
/** @param {string} text */
function kindOfCall(text) {
  const found = /^(##?\()([^,)]*)(,[^,)]*)?/.exec(text);
  const isOfForm = found && ["cl", "cs", "cc", "cn", "in"].includes(found[2].toLowerCase());
  return found ? `#(${found[2]}${isOfForm ? found[3] ?? "" : ""}` : text;
}

// The kinds of calls that come most often at the end, with how often and the last step of each.
/** @param {Calls} calls */
function repeatsOf({ steps, texts }) {
  const kinds = new Map();
  for (let index = Math.max(texts.length - LOOKED_AT, 0); index < texts.length; index++) {
    const kind = kindOfCall(texts[index]);
    kinds.set(kind, { kind, count: (kinds.get(kind)?.count ?? 0) + 1, step: steps[index] });
  }
  const often = [...kinds.values()].filter(({ count }) => count >= FEWEST);
  return often.sort((one, other) => other.count - one.count).slice(0, MOST_TOLD);
}

// Says it under the end of a run that was stopped; each is a link to where it was made last.
/** @param {Page} page @param {Calls} calls */
export function showRepeats(page, calls) {
  const place = byId("repeats");
  const isOpen = ["spent", "stopped", "refused"].includes(page.shownRun.stand);
  const repeats = isOpen ? repeatsOf(calls) : [];
  place.hidden = repeats.length === 0;
  place.replaceChildren("Called again and again: ");
  repeats.forEach(({ kind, step }, at) => {
    const link = buttonOf("", () => page.cursor.visit(step));
    link.className = "link";
    addText(link, plainKind(kind));
    link.setAttribute("aria-label", `${kind} ..), the last time at step ${grouped(step)}`);
    place.append(at ? ", " : "", link);
  });
}

/** @param {string} kind */
function plainKind(kind) {
  return `${kind} ..)`;
}
