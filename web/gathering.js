// What is told of a run once it is there: its calls, how many are begun, its doubts, and where it prints.
import { grouped } from "./bytes.js";
import { Stopped, wordsOf } from "./engine.js";
import { callsOf } from "./calls.js";
import { showRepeats } from "./repeats.js";
import { hintsOf } from "./hints.js";
import { doubtsOf, showDoubts } from "./doubts.js";
import { byId } from "./elements.js";
import { depthsOf, idlesOf, printsOf } from "./tracks.js";

// Gathers all that, as long as the run is the one that is shown.
/** @param {Page} page @param {Run} run */
export async function gather(page, run) {
  byId("tree-count").textContent = "are listed ..";
  let calls = null;
  try {
    calls = await callsOf(page.background, run.tape, run.end, run.isClosed);
    if (run !== page.run) return;
    showCalls(page, run, calls);
    await gatherMore(page, run, calls);
  } catch (fault) {
    if (run === page.run && !(fault instanceof Stopped)) lack(page, calls !== null, wordsOf(fault));
    page.view.say(fault);
  }
}

// Why calls, or doubts alone, are not listed.
/** @param {Page} page @param {boolean} isListed @param {string} words */
function lack(page, isListed, words) {
  if (!isListed) page.tree.lack(words);
  if (!page.run?.isDoubted) byId("doubts-hint").textContent = words;
}

/** @param {Page} page @param {Run} run @param {Calls} calls */
function showCalls(page, run, calls) {
  const { tree } = page;
  tree.note = calls.from > 0 ? ", the last of the run" : "";
  page.view.hasMarks = calls.texts.some((text) => /^##?\(ds,.*<(\d+|\^)>/i.test(text));
  tree.show(calls);
  tree.mark(page.cursor.step);
  page.timeline.show(calls, run.end);
  showRepeats(page, calls);
}

/** @param {Page} page @param {Run} run @param {Calls} calls */
async function gatherMore(page, run, calls) {
  const { background, timeline } = page;
  const { tape, isClosed } = run;
  calls.begun = await depthsOf(background, tape, run, isClosed);
  if (run !== page.run) return;
  timeline.show(calls, run.end);
  const doubts = await doubtsOf(background, run);
  if (run !== page.run) return;
  doubts.push(...hintsOf(run.program));
  showDoubts(page, doubts);
  run.isDoubted = true;
  const count = doubts.length === 1 ? "1 doubt is" : `${grouped(doubts.length)} doubts are`;
  if (doubts.length) page.announcer.say("note", `${count} listed`);
  calls.prints = await printsOf(background, tape, calls, run);
  calls.idles = await idlesOf(background, tape, calls, run);
  if (run === page.run) timeline.show(calls, run.end);
  run.isGathered = true;
  listAround(page);
}

// Of a run with more calls than are listed, it lists those around the cursor once that stands outside the list: so many
// steps after it at most. For that the run is done anew.
const STEPS_AFTER = 50000;
let isListing = false;

/** @param {Page} page */
export async function listAround(page) {
  const { run, tree, cursor } = page;
  const isOutside = () => run === page.run && (cursor.step < tree.calls.from || cursor.step > tree.calls.to);
  if (isListing) return;
  isListing = true;
  try {
    while (run?.isGathered && isOutside()) {
      const end = Math.min(cursor.step + STEPS_AFTER, run.end);
      const calls = await callsOf(page.background, run.tape, end, run.isClosed);
      if (run !== page.run || calls.from > cursor.step) return;
      const some = calls.from > 0 ? `${grouped(calls.from)} to ` : "up to ";
      tree.note = end === run.end ? ", the last of the run" : `, those of steps ${some}${grouped(end)}`;
      tree.show(calls);
      tree.mark(cursor.step);
    }
  } catch (fault) {
    page.view.say(fault);
  } finally {
    isListing = false;
  }
}
