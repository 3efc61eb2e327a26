// Share: a link to what the page shows; and Open, which takes a file or such a link. The address is never written.
import { grouped } from "./bytes.js";
import { BUDGET } from "./measure.js";
import { linkOf, openedLink, WrongLink } from "./link.js";
import { DECIMALS, WIDE } from "./given.js";
import { byId } from "./elements.js";
import { budgetTo, inTurn, performTo } from "./programs.js";
import { ask } from "./question.js";

// A link's run goes no further than this step, and by itself no further than any run.
const MOST_LINK_STEPS = 100000000;

/** @typedef {import("./link.js").Linked} Linked */

// What is shared: the program as it stands in the editor; and if that was run, the input and the step.
/** @param {Page} page */
function heldByPage(page) {
  const { run, cursor, editor } = page;
  const isRun = run !== null && !page.isStale && !page.view.isBusy;
  return {
    program: isRun ? run.program : editor.bytes(),
    inputs: isRun ? run.inputs : [],
    isClosed: isRun && run.isClosed,
    step: isRun ? cursor.step : null,
  };
}

// Opens what a link holds: the program, and if it was run, a run with the same input, at the same step; unless another
// program is opened before that is wanted.
/** @param {Page} page @param {Linked} held */
async function openHeld(page, held) {
  page.open({ name: "shared.trac", bytes: held.program }, true);
  const { opened } = page;
  if (held.step === null) return;
  const steps = Math.min(held.step, MOST_LINK_STEPS);
  const isFar = steps > BUDGET
    && await ask(`The link is to step ${grouped(held.step)}. Run ${grouped(steps)} steps of this program?`);
  if (opened === page.opened) await performTo(page, { ...held, budget: budgetTo(isFar ? steps : 0) }, "the link");
}

// Opens the link that is an address, if there is one. If it is wrong, that is said beside an empty editor.
/** @param {Page} page @param {string} address */
export async function openAddress(page, address) {
  if (address.length < 2) return;
  let run = Promise.resolve();
  await inTurn(page, async () => {
    try {
      run = openHeld(page, await openedLink(address));
    } catch (fault) {
      if (!(fault instanceof WrongLink)) throw fault;
      page.open({ name: "program.trac", bytes: new Uint8Array(0) }, true);
      page.view.showWords(fault.message);
      page.announcer.say("ending", fault.message);
    }
  });
  await run;
}

// Whether the page came over a network: else a link to it is worth nothing to others.
function isServed() {
  return location.protocol === "https:" || location.protocol === "http:";
}

/** @param {Page} page */
async function share(page) {
  const held = heldByPage(page);
  const link = await linkOf(held);
  const lines = held.inputs.length;
  const parts = ["the program"];
  if (lines) parts.push(lines === 1 ? "a line of input" : `${grouped(lines)} lines of input`);
  if (held.step !== null) parts.push(`step ${grouped(held.step)}`);
  const holds = `${parts.slice(0, -1).join(", ")}${parts.length > 1 ? " and " : ""}${parts[parts.length - 1]}`;
  const text = link === null ? "" : `${isServed() ? location.href.replace(/#.*$/, "") : ""}#${link}`;
  const lacks = DECIMALS === WIDE ? "" : ` It does not say that numbers have ${DECIMALS} bits here.`;
  byId("share-words").textContent = link === null ? "A link holds at most 1 MiB. Save the program to a file."
    : isServed() ? `This link holds ${holds}, in ${grouped(text.length)} signs.${lacks}`
      : `This text holds ${holds}, in ${grouped(text.length)} signs.${lacks} Whoever has this page opens it by Open. `
        + "This page is a file on your disk, so a link to it would open for nobody else.";
  byId("share-text").value = text;
  byId("share-text").hidden = byId("share-copy").hidden = link === null;
  byId("share-note").textContent = "";
  byId("share-box").showModal();
  byId("share-text").select();
}

// Copies the link, or chooses its text, so that a key copies it.
async function copyLink() {
  try {
    await navigator.clipboard.writeText(byId("share-text").value);
    byId("share-note").textContent = "Copied.";
  } catch {
    byId("share-text").focus();
    byId("share-text").select();
    byId("share-note").textContent = "This browser does not let the page copy: the text is chosen, so copy it.";
  }
}

// Opens a link that was pasted. If it is wrong, that is said, and nothing else changes; nor does it where the box is
// closed meanwhile.
/** @param {Page} page */
async function openPasted(page) {
  const box = byId("open-box"), text = byId("paste").value;
  let run = Promise.resolve();
  await inTurn(page, async () => {
    try {
      const held = await openedLink(text);
      if (!box.open) return;
      box.close();
      run = openHeld(page, held);
    } catch (fault) {
      if (!(fault instanceof WrongLink)) throw fault;
      byId("open-note").textContent = fault.message;
      byId("paste").setAttribute("aria-invalid", "true");
    }
  });
  await run;
}

/** @param {Page} page */
export function startSharing(page) {
  byId("share").addEventListener("click", () => share(page));
  byId("share-copy").addEventListener("click", copyLink);
  byId("share-close").addEventListener("click", () => byId("share-box").close());
  byId("open").addEventListener("click", () => {
    byId("paste").value = byId("open-note").textContent = "";
    byId("paste").removeAttribute("aria-invalid");
    byId("open-box").showModal();
  });
  byId("open-file").addEventListener("click", () => {
    byId("open-box").close();
    byId("file").click();
  });
  byId("open-form").addEventListener("submit", (event) => {
    event.preventDefault();
    openPasted(page);
  });
  byId("open-close").addEventListener("click", () => byId("open-box").close());
  // (of two links after each other the address has the last one by now)
  addEventListener("hashchange", ({ newURL }) => openAddress(page, new URL(newURL).hash));
}
