// A menu that a button opens: arrows go through its entries; Escape, Tab or a press elsewhere
// closes it.

/** The menu of a `details` element with a `summary`. */
export class Menu {
  constructor(box) {
    this.box = box;
    this.button = box.querySelector("summary");
    for (const entry of box.querySelectorAll("[role=menuitem]")) entry.tabIndex = -1;
    this.button.setAttribute("aria-haspopup", "menu");
    box.addEventListener("keydown", event => this.pressed(event));
    box.addEventListener("toggle", () => {
      this.button.setAttribute("aria-expanded", String(box.open));
    });
    document.addEventListener("pointerdown", event => {
      if (!box.contains(event.target)) this.close();
    });
    box.addEventListener("focusout", ({ relatedTarget }) => {
      if (relatedTarget && !box.contains(relatedTarget)) this.close();
    });
  }

  /** The entries that are to be had now. */
  get entries() {
    return [...this.box.querySelectorAll("[role=menuitem]:not([hidden])")];
  }

  open() {
    this.box.open = true;
    this.entries[0].focus();
  }

  close() {
    this.box.open = false;
  }

  toggle() {
    if (this.box.open) this.close();
    else this.open();
  }

  pressed(event) {
    const { entries } = this, at = entries.indexOf(document.activeElement), count = entries.length;
    const before = at < 0 ? count - 1 : (at + count - 1) % count;
    const to = { ArrowDown: (at + 1) % count, ArrowUp: before, Home: 0, End: count - 1 }[event.key];
    if (event.key === "Escape" && this.box.open) {
      this.close();
      this.button.focus();
    } else if (to !== undefined && (this.box.open || event.key.startsWith("Arrow"))) {
      this.box.open = true;
      entries[to].focus();
    } else if (at < 0 || event.key === "Tab" || event.key === "Enter" || event.key === " ") {
      return;
    }
    // While the menu is open, keys are its own.
    event.preventDefault();
    event.stopPropagation();
  }
}
