// The entries of this browser: each program that someone types on has its own, under its own id. A page writes over an
// entry only where that is still what this page has read or written there. Otherwise it begins another one. So two
// pages lose nothing to each other.
import { keepText, kept, keptKeys } from "./stored.js";

const KEY = "trac.work.";
// If there are more entries, the oldest go whose programs are in files.
export const MOST_WORKS = 50;
// Within so many milliseconds two pages may write one entry, and not see each other do so.
const RACE_TIME = 2000;
// Where versions before this one kept a program, and those put aside.
const OLDER = "trac.draft", OLDER_ASIDE = "trac.aside";

/**
 * A program as it is kept, when it was typed last, and what came of it since: whether it was saved to a file, and
 * whether someone has put another text in its place. Where that is kept: the id of the entry, and the whole entry as
 * this page knows it.
 * @typedef {{ name: string, text: string, time: number, isSaved: boolean, isReplaced: boolean }} Entry
 * @typedef {{ id: string, raw: string }} Place
 * @typedef {Entry & Place} Kept
 */

/** @param {string} id */
const rawOf = (id) => kept(KEY + id);
const newId = () => Date.now().toString(36) + Math.random().toString(36).slice(2);

// The entry of an id; nothing where there is none.
/** @param {string} id @returns {Kept | null} */
export function entryOf(id) {
  const raw = rawOf(id) ?? "";
  try {
    const { name, text, time, isSaved, isReplaced } = JSON.parse(raw);
    if (typeof name !== "string" || typeof text !== "string" || text === "") return null;
    const came = { isSaved: isSaved === true, isReplaced: isReplaced === true };
    return { id, raw, name, text, time: Number(time) || 0, ...came };
  } catch {
    return null;
  }
}

const ids = () => keptKeys().filter((key) => key.startsWith(KEY)).map((key) => key.slice(KEY.length));
export const countOfEntries = () => ids().length;

// All entries, the latest first.
export function entries() {
  const all = /** @type {Kept[]} */ (ids().map(entryOf).filter((one) => one !== null));
  return all.sort((one, other) => other.time - one.time);
}

// How an entry is now that this page knows so: it may be gone, or another page may have gone on with it.
/** @param {Place} place @returns {"same" | "gone" | "other"} */
export function standOf({ id, raw }) {
  const now = rawOf(id);
  return now === raw ? "same" : now === null ? "gone" : "other";
}

// Writes an entry where this page has it, or else a new one. Returns where it is; nothing where the browser refuses it.
/** @param {Place | undefined} place @param {Entry} entry @returns {Place | null} */
export function writeEntry(place, entry) {
  const raw = JSON.stringify(entry);
  const isSame = place !== undefined && standOf(place) === "same";
  const id = isSame ? place.id : newId();
  if (!keepText(KEY + id, raw)) return null;
  if (!isSame) dropOldest();
  return { id, raw };
}

// Notes that another text was put in place of an entry's. It stays.
/** @param {Place} place */
export function noteReplaced(place) {
  const entry = standOf(place) === "same" ? entryOf(place.id) : null;
  if (!entry) return;
  const { name, text, time, isSaved } = entry;
  writeEntry(place, { name, text, time, isSaved, isReplaced: true });
}

// Whether another page has written an entry so soon after this one that it may not have seen what this had written.
/** @param {Place} place */
export function isRaced({ id, raw }) {
  const now = entryOf(id);
  return now !== null && now.raw !== raw && now.time - JSON.parse(raw).time < RACE_TIME;
}

// Forgets an entry, unless another page has gone on with it.
/** @param {Place} place */
export function forgetEntry(place) {
  if (standOf(place) === "same") keepText(KEY + place.id, null);
}

// Of too many entries the oldest go that were saved to files.
function dropOldest() {
  const all = entries();
  const going = all.filter(({ isSaved }) => isSaved).reverse();
  going.slice(0, Math.max(0, all.length - MOST_WORKS)).forEach(forgetEntry);
}

// What versions before this one have kept has entries now. One goes after the other, so that there is room.
export function takeOlder() {
  const [draft, aside] = [`[${kept(OLDER) ?? ""}]`, kept(OLDER_ASIDE)].map(partsOf);
  if (draft.every((one) => takeOne(one, 0))) keepText(OLDER, null);
  for (let count = 1; aside.length > 0 && takeOne(aside[aside.length - 1], count); count++) {
    aside.pop();
    keepText(OLDER_ASIDE, aside.length ? JSON.stringify(aside) : null);
  }
}

/**
 * What an older version has kept of a program.
 * @typedef {{ name?: unknown, text?: unknown, isTyped?: unknown }} Older
 */

// Has one of these in an entry, as one that was typed before so many others. Returns whether it is there.
/** @param {Older} older @param {number} count */
function takeOne({ name, text, isTyped }, count) {
  if (typeof name !== "string" || typeof text !== "string" || text === "") return true;
  if (entries().some((one) => one.name === name && one.text === text)) return true;
  const entry = { name, text, time: Date.now() - count, isSaved: isTyped === false, isReplaced: false };
  return writeEntry(undefined, entry) !== null;
}

/** @param {string | null} list @returns {Older[]} */
function partsOf(list) {
  try {
    return JSON.parse(list ?? "").filter(Boolean);
  } catch {
    return [];
  }
}
