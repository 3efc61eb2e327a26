// The page: its processors, the program, the run that is shown, the cursor in it, and what shows these.
import { Announcer } from "./announce.js";
import { Editor } from "./editor.js";
import { Draft } from "./drafts.js";
import { Tabs } from "./tabs.js";
import { CallTree, Exact } from "./exact.js";
import { Timeline } from "./timeline.js";
import { unlinkPlaces, Way } from "./way.js";
import { actionsOf, showActions } from "./walking.js";
import { Course } from "./course.js";
import { Big } from "./big.js";
import { CHANGED, View } from "./view.js";
import { Cursor } from "./cursor.js";
import { Library } from "./welcome.js";
import { dismiss } from "./question.js";
import { byId } from "./elements.js";
import { Runs } from "./runs.js";

export class Page {
  /** @param {import("./engine.js").Engine} engine */
  constructor(engine) {
    // one processor answers at once, another tells what is beside that, and one gathers what may come later
    /** @type {Engine} */
    this.engine = engine;
    /** @type {Engine} */
    this.ahead = engine.twin();
    /** @type {Engine} */
    this.background = engine.twin();
    engine.told = (count) => this.view.waits(count);
    this.editor = new Editor(() => this.changed());
    this.draft = new Draft(this.editor);
    this.editor.undoing.restored = (name) => {
      this.forget();
      this.draft.opened();
      this.announcer.say("ending", `${name} is back.`);
    };
    /** @type {Run | null} the run that is shown */
    this.run = null;
    // whether the editor has another program than was run
    this.isStale = false;
    // how often a program was opened, or brought back
    this.opened = 0;
    this.announcer = new Announcer();
    this.draft.told = (words) => this.announcer.say("note", words);
    this.view = new View(this);
    this.runs = new Runs(this);
    this.cursor = new Cursor(this);
    this.tabs = new Tabs((name) => this.panelShown(name));
    this.tree = new CallTree((step) => this.cursor.visit(step), (count) => this.tabs.count("tree", count));
    this.way = new Way(this);
    this.actions = actionsOf(this);
    showActions(this, this.actions);
    this.cursor.setUnit("token");
    this.big = new Big(this);
    this.timeline = new Timeline(this);
    this.exact = new Exact(this);
    this.library = new Library(this);
    this.course = new Course(this);
  }

  // The run that is shown, for what is done with one alone.
  get shownRun() {
    if (!this.run) throw new Error("no run is shown");
    return this.run;
  }

  // A panel is seen now: the calls are drawn as far as they can be seen.
  /** @param {string} name */
  panelShown(name) {
    if (name === "tree") this.tree?.seen();
  }

  // What is still asked of an earlier run is dropped.
  drop() {
    for (const engine of [this.engine, this.ahead, this.background]) if (engine.waiting.size) engine.stop();
  }

  // Opens a program: its bytes stand in the editor, and what was run before is gone from the page. What stood in the
  // editor can be brought back. That of a link is not remembered for when this tab is loaded anew: the link is.
  /** @param {import("./undoing.js").Held} held */
  open(held, isOfLink = false) {
    this.editor.open(held);
    byId("welcome-about").hidden = true;
    this.forget();
    if (!isOfLink) this.draft.opened();
    this.announcer.say("ending", `${byId("program-name").textContent} is opened.`);
  }

  // Another program is opened: nothing of the last run is shown, and nothing is asked of it.
  forget() {
    this.opened++;
    dismiss();
    this.runs.leave();
    this.view.clear();
    this.view.busy(false);
    this.view.showWords("");
  }

  // The program is not what was run.
  changed() {
    this.isStale = true;
    this.draft.typed();
    if (!this.run) return;
    byId("program-note").textContent = CHANGED;
    unlinkPlaces();
  }
}
