// Begins the page: what buttons, keys, files and the mouse do.
import { startAnnouncing } from "./announce.js";
import { engineOfPage, Stopped } from "./engine.js";
import { startLights } from "./lights.js";
import { keepText, kept, THEME } from "./stored.js";
import { startChoosing } from "./choosing.js";
import { byteNear, startSlider, startSwipes } from "./touch.js";
import { startKeys } from "./keys.js";
import { startOutput } from "./output.js";
import { Page } from "./page.js";
import { openAddress, startSharing } from "./share.js";
import { DECIMALS, givenToPage } from "./given.js";
import { goWithout } from "./lacking.js";
import { welcome } from "./welcome.js";
import { around, byId, elementOf } from "./elements.js";
import { openGiven, startFiles } from "./programs.js";

// What is said where a sign that stands for a begun call is clicked.
const NO_BYTE = "this sign is no byte any more: it was deleted, and shows where a call or an argument begins";

// A click on a sign follows it.
/** @param {Page} page */
function startFollowing(page) {
  document.addEventListener("click", (event) => {
    const who = around(elementOf(event), "[data-who]");
    const form = who?.dataset.who;
    if (form !== undefined) {
      return void page.cursor.act({ words: "", keys: [], does: () => page.cursor.whoChanged(form) });
    }
    if (!page.run || elementOf(event).closest("button, .link") || !getSelection()?.isCollapsed) return undefined;
    const found = byteNear(event.clientX, event.clientY);
    if (found) page.cursor.follow(found.holder, found.number);
    else if (elementOf(event).closest("#tape .begun")) page.view.note(NO_BYTE);
    return undefined;
  });
}

function isDark() {
  const { theme } = document.documentElement.dataset;
  return theme ? theme === "dark" : matchMedia("(prefers-color-scheme: dark)").matches;
}

// Has the page dark or light, whatever the system is.
/** @param {string} theme */
function setTheme(theme) {
  document.documentElement.dataset.theme = theme;
  byId("dark").media = theme === "dark" ? "all" : "not all";
}

// The looks that were chosen are kept for the next time.
/** @param {Page} page */
function startLooks(page) {
  const named = () => {
    byId("theme").textContent = isDark() ? "Light" : "Dark";
    page.timeline.draw();
  };
  const theme = kept(THEME);
  if (theme === "dark" || theme === "light") setTheme(theme);
  byId("theme").addEventListener("click", () => {
    const theme = isDark() ? "light" : "dark";
    setTheme(theme);
    keepText(THEME, theme);
    named();
  });
  for (const looks of ["(prefers-color-scheme: dark)", "(forced-colors: active)"]) {
    matchMedia(looks).addEventListener("change", named);
  }
  byId("help-button").addEventListener("click", () => page.view.help());
  byId("help-close").addEventListener("click", () => page.view.help(false));
  named();
}

/** @param {Page} page */
function startPage(page) {
  byId("run").addEventListener("click", () => page.runs.start());
  byId("stop").addEventListener("click", () => page.runs.stop());
  byId("idle").addEventListener("click", () => page.cursor.showIdle());
  byId("slider").addEventListener("input", () => {
    page.cursor.play(0);
    page.cursor.go(Number(byId("slider").value));
  });
  byId("input-form").addEventListener("submit", (event) => {
    event.preventDefault();
    const box = byId("input"), line = box.value;
    box.value = "";
    page.runs.feed(line).then((isTaken) => {
      if (!isTaken && box.value === "") box.value = line;
      box.focus();
    });
  });
  byId("end-input").addEventListener("click", () => page.runs.endInput());
  // a button that the mouse has pressed is not to be pressed again by the space key
  document.addEventListener("click", (event) => {
    if (event.detail > 0) around(elementOf(event), "#buttons button, #more-buttons button, #run")?.blur();
  });
  startLights();
  startOutput();
  startKeys(page);
  startAnnouncing(page);
  startFollowing(page);
  startChoosing(page);
  startSwipes(page);
  startSlider(page);
  startFiles(page);
  startSharing(page);
  startLooks(page);
}

engineOfPage(DECIMALS).then(async (engine) => {
  const page = new Page(engine);
  startPage(page);
  const given = givenToPage();
  // (what is kept stands there before anything can be typed, though the processor may take long to come)
  welcome(page, given !== null);
  // (one that was stopped before it was ready is no fault of the browser: the next request begins another)
  await engine.ready?.catch((fault) => fault instanceof Stopped || goWithout(page, fault));
  // (a link to the page of a program says more than that)
  if (given && location.hash.length < 2) await openGiven(page, given);
  else await openAddress(page, location.hash);
  document.documentElement.dataset.ready = "yes";
}).catch((fault) => {
  byId("ending").textContent = `This page takes Chromium 105, Firefox 121, Safari 16.4 or later: ${fault.message}`;
});
