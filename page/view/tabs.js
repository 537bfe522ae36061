// The tabs below the picture, and the panel of the one that is open.
import { byId, element } from "../common/dom.js";

/** The names of the tabs, in their order: a link may name one, and the keys 1, 2, .. open them. */
export const TABS = ["registers", "memory", "cells", "colours", "BIOS data", "breakpoints",
  "write", "watches"];

/** The tabs. */
export class Tabs {
  /** The name of the one that is open. */
  selected = TABS[0];
  #panels;
  #buttons;
  #panel = byId("panel");
  #opened = null;
  #seen = null;
  /** How far each panel is scrolled. */
  #scrolled = new Map();
  #drawers;

  /**
   * `panels` has for each name a function that makes the panel's element of what is seen. The panel stands in
   * one of the `drawers`, which a tab opens.
   */
  constructor(panels, drawers) {
    this.#panels = panels;
    this.#drawers = drawers;
    this.#buttons = TABS.map((name, i) => element("button", { type: "button", role: "tab",
      id: `tab${i + 1}`, title: `${name} (${i + 1})`, "aria-controls": "panel",
      onclick: () => this.open(name) }, name));
    byId("tabs").append(...this.#buttons);
  }

  /** Shows a state in the panel that is open. */
  show(seen) {
    this.#seen = seen;
    this.draw();
  }

  /** Opens a tab. */
  open(name) {
    this.selected = name;
    this.#drawers.open("state");
    this.draw();
  }

  /** Shows what the tab has that is open; nothing while the panel is closed. */
  draw() {
    const name = this.selected;
    if (this.#opened !== name) this.#mark(name);
    this.#opened = name;
    if (!this.#seen || !this.#drawers.isOpen("state")) return;
    const made = this.#panels[name](this.#seen);
    if (this.#panel.firstChild === made) return;
    this.#panel.replaceChildren(made);
    this.#panel.scrollTop = this.#scrolled.get(name) ?? 0;
  }

  /** Opens the tab with a number from 1. */
  openNumber(number) {
    this.open(TABS[number - 1]);
  }

  /** Opens a tab beside the one that is open, so many to the right, and gives it the keys. */
  step(far) {
    const at = (TABS.indexOf(this.selected) + far + TABS.length) % TABS.length;
    this.open(TABS[at]);
    this.#buttons[at].focus();
  }

  /** Gives a tab a title of its own, such as "breakpoints (3)". */
  setTitle(name, title) {
    this.#buttons[TABS.indexOf(name)].textContent = title;
  }

  #mark(name) {
    this.#scrolled.set(this.#opened, this.#panel.scrollTop);
    TABS.forEach((one, i) => {
      this.#buttons[i].setAttribute("aria-selected", String(one === name));
      this.#buttons[i].tabIndex = one === name ? 0 : -1;
    });
    this.#panel.setAttribute("aria-labelledby", `tab${TABS.indexOf(name) + 1}`);
  }
}
