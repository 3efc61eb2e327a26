// What trac-page puts into a page: a program and what it reads, the step where the page opens, and how numbers are.
import { textIn } from "./elements.js";

/**
 * A program and what it reads, each packed; the step, if it is not the end; how many steps the run may take, if that is
 * said; and how many bits numbers have.
 * @typedef {{ name: string, program: string, input: string, step: number | null, budget: number | null,
 *   decimals: number }} Given
 */

/** @returns {Given | null} */
export function givenToPage() {
  return JSON.parse(textIn("given-data"));
}

// How many bits numbers have where nothing is said, and how many they have in this page.
export const WIDE = 128;
export const DECIMALS = givenToPage()?.decimals ?? WIDE;
