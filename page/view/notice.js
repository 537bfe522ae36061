import { byId, element } from "../common/dom.js";

/** The line at the foot of the window that tells what can't be done. */
export class Notice {
  #isKept = false;
  #box = byId("notice");

  constructor() {
    this.#box.lastElementChild.addEventListener("click", () => this.tell("", true));
  }

  /**
   * Tells something; an empty text takes the line away. What `isKept` stays until the user closes
   * it.
   */
  tell(text, isKept = false) {
    if (!text && this.#isKept && !isKept) return;
    this.#isKept = isKept && text !== "";
    this.#box.hidden = !text;
    this.#box.classList.remove("offer");
    this.#box.firstElementChild.textContent = text;
  }

  /** Takes an offer away that stands there. */
  withdraw() {
    if (this.#box.classList.contains("offer")) this.tell("", true);
  }

  /** Tells something with a button that does something about it. It stays until the user closes it. */
  offer(text, title, does) {
    const button = element("button", { type: "button", id: "offered" }, title);
    button.addEventListener("click", () => {
      this.tell("", true);
      does();
    });
    this.tell(text, true);
    this.#box.classList.add("offer");
    this.#box.firstElementChild.append(" ", button);
  }
}
