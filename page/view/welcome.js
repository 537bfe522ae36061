// What the page tells who opens it for the first time: what it is, and three things to do.
import { byId } from "../common/dom.js";

const KEPT_AS = "welcomed";

/** The welcome. The browser's storage keeps that the user has closed it, or has done something. */
export class Welcome {
  #settings;
  #box = byId("welcome");

  /** `does` has `change()`, `drop()` and `back()`, for its three buttons. */
  constructor(settings, does) {
    this.#settings = settings;
    this.#box.hidden = settings.get(KEPT_AS) === true;
    const clicks = { trychange: does.change, trydrop: does.drop, tryback: does.back };
    for (const [name, act] of Object.entries(clicks)) {
      byId(name).addEventListener("click", () => {
        this.#know();
        act();
      });
    }
    byId("welcomed").addEventListener("click", () => this.close());
  }

  get isOpen() {
    return !this.#box.hidden;
  }

  /** The user knows what the page is. What is told stays until the page is opened next: nothing moves away. */
  #know() {
    this.#settings.set(KEPT_AS, true);
  }

  close() {
    if (!this.isOpen) return;
    this.#know();
    this.#box.hidden = true;
  }
}
