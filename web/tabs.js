// Tabs: where a byte comes from, calls, forms, begun calls, doubts. One stop for the Tab key; arrows choose.
import { byId, make } from "./elements.js";

const TABS = { way: "Where from", tree: "Calls", forms: "Forms", begun: "Begun", doubts: "Doubts" };
/** @typedef {keyof typeof TABS} Tab */

export class Tabs {
  /** @param {(name: string) => void} shown */
  constructor(shown) {
    // what is told that a panel is seen now
    this.shown = shown;
    this.names = /** @type {Tab[]} */ (Object.keys(TABS));
    for (const name of this.names) byId("tabs").append(this.make(name));
    byId("tabs").addEventListener("keydown", (event) => this.key(event));
    this.choose("way");
  }

  /** @param {Tab} name */
  make(name) {
    const tab = make("button", "", TABS[name]);
    tab.type = "button";
    tab.id = `tab-${name}`;
    tab.setAttribute("role", "tab");
    tab.setAttribute("aria-controls", `${name}-panel`);
    // (a plain blank at an end, as long as there is no number, would be left out of what is read aloud)
    tab.append("\xa0", make("span", "count"));
    byId(`${name}-panel`).setAttribute("aria-labelledby", tab.id);
    tab.addEventListener("click", () => this.choose(name));
    return tab;
  }

  get chosen() {
    return this.names.find((name) => !byId(`${name}-panel`).hidden) ?? "way";
  }

  /** @param {Tab} chosen */
  choose(chosen) {
    for (const name of this.names) {
      const tab = byId(`tab-${name}`), isChosen = name === chosen;
      tab.setAttribute("aria-selected", String(isChosen));
      tab.tabIndex = isChosen ? 0 : -1;
      byId(`${name}-panel`).hidden = !isChosen;
    }
    this.shown(chosen);
  }

  // How much a panel has stands beside its name.
  /** @param {Tab} name @param {string} text */
  count(name, text, isAlarm = false) {
    const tab = byId(`tab-${name}`), place = tab.lastElementChild ?? tab;
    place.textContent = text;
    tab.setAttribute("aria-label", text ? `${TABS[name]} ${text}` : TABS[name]);
    place.classList.toggle("alarm", isAlarm);
  }

  /** @param {KeyboardEvent} event */
  key(event) {
    if (event.ctrlKey || event.altKey || event.metaKey || event.shiftKey) return;
    const last = this.names.length - 1, at = this.names.indexOf(this.chosen);
    /** @type {Record<string, number | undefined>} */
    const places = { ArrowLeft: at === 0 ? last : at - 1, ArrowRight: at === last ? 0 : at + 1, Home: 0, End: last };
    const to = places[event.key];
    if (to === undefined) return;
    this.choose(this.names[to]);
    byId(`tab-${this.chosen}`).focus();
    event.preventDefault();
    event.stopPropagation();
  }
}
