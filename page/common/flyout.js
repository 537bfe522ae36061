// What opens beside a button, with controls in it: a press elsewhere or Escape closes it.

/** Has each `details` element of a class close by itself. */
export function followFlyouts(root = document) {
  for (const box of root.querySelectorAll("details.flyout")) {
    // Not as soon as the pointer goes down: what moves as it closes would not be where the pointer goes up.
    root.addEventListener("click", ({ target }) => {
      if (!box.contains(target)) box.open = false;
    });
    box.addEventListener("keydown", event => {
      if (event.key !== "Escape" || !box.open) return;
      event.preventDefault();
      event.stopPropagation();
      box.open = false;
      box.querySelector("summary").focus();
    });
  }
}

/** Opens what a control stands in, so that it can be seen and have the keys. */
export function reveal(control) {
  const box = control.closest("details");
  if (box) box.open = true;
}
