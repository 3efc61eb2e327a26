// What this browser keeps for the next time, or for this tab alone. Where it keeps nothing, the page goes on without.

export const THEME = "trac.theme";

/** @typedef {"localStorage" | "sessionStorage"} Where for all pages, or for this tab */

/** @param {string} key @param {Where} [where] */
export function kept(key, where = "localStorage") {
  try {
    return window[where].getItem(key);
  } catch {
    return null;
  }
}

// Keeps a text, or forgets it. Returns whether that was done.
/** @param {string} key @param {string | null} text @param {Where} [where] */
export function keepText(key, text, where = "localStorage") {
  try {
    if (text === null) window[where].removeItem(key);
    else window[where].setItem(key, text);
    return true;
  } catch {
    return false;
  }
}

// The keys of what is kept for all pages.
export function keptKeys() {
  try {
    return Object.keys(localStorage);
  } catch {
    return [];
  }
}
