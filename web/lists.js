// The lists of programs and lessons.

// Does something with what is chosen in a list, and shows its first line again. Where arrows or letters go through the
// list while it is closed, it is chosen by Enter.
/** @param {HTMLSelectElement} list @param {(value: string) => void} does */
export function startList(list, does) {
  let isMoving = false;
  const take = () => {
    const { value } = list;
    [list.value, isMoving] = ["", false];
    if (value !== "") does(value);
  };
  list.addEventListener("pointerdown", () => {
    isMoving = false;
  });
  list.addEventListener("keydown", (event) => {
    if (event.key === "Enter" && isMoving) {
      event.preventDefault();
      take();
    } else isMoving = !event.altKey && ![" ", "Enter", "F4"].includes(event.key);
  });
  list.addEventListener("change", () => isMoving || take());
  list.addEventListener("blur", () => {
    if (isMoving) [list.value, isMoving] = ["", false];
  });
}
