// The parts of the page that open as they are needed: the list of steps, and what the tabs show.
import { byId } from "../common/dom.js";

/** The drawers: the pane of each, and the pixels that it has while it is closed. */
const DRAWERS = { list: { pane: "listpane", opener: "openlist", closed: 34 },
  state: { pane: "statepane", opener: "openstate", closed: 106 } };
const KEPT_AS = "open";

/** Which of them are open. The browser's storage keeps that. */
export class Drawers {
  #settings;
  #open;
  #heard = () => {};

  constructor(settings) {
    this.#settings = settings;
    const kept = settings.get(KEPT_AS);
    this.#open = new Set(Array.isArray(kept) ? kept.filter(name => Object.hasOwn(DRAWERS, name)) : []);
    for (const [name, { opener }] of Object.entries(DRAWERS)) {
      byId(opener).addEventListener("click", () => this.#set(name, !this.isOpen(name)));
      this.#show(name);
    }
  }

  /** `heard` is called when one is opened or closed. */
  set heard(heard) {
    this.#heard = heard;
  }

  isOpen(name) {
    return this.#open.has(name);
  }

  open(name) {
    if (!this.isOpen(name)) this.#set(name, true);
  }

  /** The pixels of each that is closed, by its name. */
  get closed() {
    return Object.fromEntries(Object.entries(DRAWERS).filter(([name]) => !this.isOpen(name))
      .map(([name, { closed }]) => [name, closed]));
  }

  #set(name, isOpen) {
    if (isOpen) this.#open.add(name);
    else this.#open.delete(name);
    this.#settings.set(KEPT_AS, [...this.#open]);
    this.#show(name);
    this.#heard(name);
  }

  #show(name) {
    const { pane, opener } = DRAWERS[name], isOpen = this.isOpen(name);
    byId(pane).classList.toggle("closed", !isOpen);
    byId(opener).setAttribute("aria-expanded", String(isOpen));
  }
}
