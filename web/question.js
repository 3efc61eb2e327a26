// Questions of the page, one at a time.
import { byId } from "./elements.js";

// Answers the question that is asked, if there is one, by no.
export let dismiss = () => {};

// Asks a question that is answered by yes or no. One that is asked still is answered by no.
/** @param {string} words @returns {Promise<boolean>} */
export function ask(words) {
  dismiss();
  const box = byId("question");
  byId("question-text").textContent = words;
  return new Promise((resolve) => {
    /** @param {boolean} isYes */
    const answer = (isYes) => {
      dismiss = () => {};
      if (box.open) box.close();
      resolve(isYes);
    };
    dismiss = () => answer(false);
    byId("question-yes").onclick = () => answer(true);
    byId("question-no").onclick = () => answer(false);
    // (the box of a question before this one may say only now that it was closed)
    box.onclose = () => {
      if (!box.open) answer(false);
    };
    box.showModal();
  });
}
