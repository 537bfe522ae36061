// A card beside what was pointed at: Escape, a press elsewhere, or its own button closes it. It
// leaves the page's keys to the page.
import { element } from "./dom.js";

/** So far a card stands from what was pointed at, and from the window's edges, in pixels. */
const GAP = 12, EDGE = 6;

/** A card that floats above the page. */
export class PopCard {
  #title = element("h2");
  #body = element("div");
  #opener = null;
  #heard;
  #free;
  #grows;

  /**
   * `heard` is called once the card is closed. Where there is room, it does not cover an element, `free`, even when it
   * has grown by so many pixels.
   */
  constructor(id, heard = () => {}, free = null, grows = 0) {
    this.#heard = heard;
    this.#free = free;
    this.#grows = grows;
    const close = element("button", { type: "button", "aria-label": "close this card",
      className: "close", onclick: () => this.close() }, "×");
    this.root = element("section", { id, className: "popcard", hidden: true, role: "dialog" },
      element("header", {}, this.#title, close), this.#body);
    this.root.setAttribute("aria-labelledby", this.#title.id = `${id}-title`);
    document.body.append(this.root);
    this.root.addEventListener("keydown", event => {
      if (event.key !== "Escape") return;
      event.stopPropagation();
      this.close();
    });
    document.addEventListener("pointerdown", ({ target }) => {
      if (!this.root.contains(target)) this.close(false);
    });
  }

  get isOpen() {
    return !this.root.hidden;
  }

  /**
   * Shows a title and elements; `place` is { x, y } in the window. The first button gets the keys.
   */
  open(place, title, ...inside) {
    if (!this.isOpen) this.#opener = document.activeElement;
    this.title = title;
    this.#body.replaceChildren(...inside);
    this.root.hidden = false;
    this.#put(place);
    this.root.querySelector(".actions button")?.focus({ preventScroll: true });
  }

  set title(text) {
    this.#title.textContent = text;
  }

  #put({ x, y }) {
    const { width, height: now } = this.root.getBoundingClientRect(), height = now + this.#grows;
    const isRoom = x + GAP + width + EDGE <= innerWidth;
    const left = isRoom ? x + GAP : Math.max(EDGE, x - GAP - width);
    const top = Math.max(EDGE, Math.min(y - height / 3, this.#floorFor(y, height) - height - EDGE));
    Object.assign(this.root.style, { left: `${Math.round(left)}px`, top: `${Math.round(top)}px` });
  }

  /** How far down a card of some height may reach: to what is to be free, where the card has room above it. */
  #floorFor(y, height) {
    const free = this.#free?.getBoundingClientRect().top ?? innerHeight;
    return y < free && free >= height + 2 * EDGE ? Math.min(free, innerHeight) : innerHeight;
  }

  /** Closes the card; what had the keys before gets them again, unless the pointer is elsewhere. */
  close(isBack = true) {
    if (!this.isOpen) return;
    const hadKeys = this.root.contains(document.activeElement);
    // Some browsers leave the keys with what is hidden, until they draw next.
    if (hadKeys) document.activeElement.blur();
    this.root.hidden = true;
    if (isBack && hadKeys && this.#opener?.isConnected) this.#opener.focus({ preventScroll: true });
    this.#heard();
  }
}
