// What a word of the script means, beside it: where the pointer rests, or at the caret at a press
// of a key.
import { byId, element, pageLink } from "../common/dom.js";
import { helpAt } from "./telling.js";

const REST = 400, GAP = 6;

/** The tip over a field of text. */
export class Tip {
  #box = byId("tip");
  #field;
  #sections;
  #timer = 0;

  constructor(field, sections) {
    this.#field = field;
    this.#sections = sections;
    const over = field.scroller;
    over.addEventListener("pointermove", event => this.#moved(event));
    over.addEventListener("pointerdown", () => this.hide());
    over.addEventListener("scroll", () => this.hide());
    // Whoever goes from the word to the tip may read it, and press its link.
    for (const box of [over, this.#box]) {
      box.addEventListener("pointerleave", event => this.#left(event));
    }
  }

  get isShown() {
    return !this.#box.hidden;
  }

  #moved({ clientX, clientY, buttons, pointerType }) {
    clearTimeout(this.#timer);
    if (buttons || pointerType === "touch") return;
    this.#timer = setTimeout(() => {
      const place = this.#field.placeAt(clientX, clientY);
      if (!place || !this.#show(place)) this.hide();
    }, REST);
  }

  #left({ relatedTarget }) {
    clearTimeout(this.#timer);
    if (!this.#box.contains(relatedTarget)) this.#timer = setTimeout(() => this.hide(), REST);
  }

  /** Shows what the word at the caret means; whether it means anything. */
  showAtCaret() {
    return this.#show(this.#field.caret);
  }

  #show({ line, ch }) {
    const field = this.#field, { base, data } = this.#sections;
    const found = helpAt(number => field.lineText(number), line, ch, data);
    if (!found) return false;
    const { title, lines, link, from } = found;
    const items = lines.map(text => element("li", {}, text));
    this.#box.replaceChildren(element("strong", {}, title),
      items.length ? element("ul", {}, ...items) : " ",
      pageLink(base, link.page, link.anchor, `See ${link.title}.`));
    this.#box.hidden = false;
    this.#place(field.pointOf({ line, ch: from }));
    field.area.setAttribute("aria-describedby", "tip");
    return true;
  }

  /** Puts it below the word, or above it where there is no room. */
  #place({ left, top, bottom }) {
    const box = this.#box, { width, height } = box.getBoundingClientRect();
    const below = bottom + GAP, isAbove = below + height > innerHeight && top > height + GAP;
    box.style.left = Math.max(GAP, Math.min(left, innerWidth - width - GAP)) + "px";
    box.style.top = (isAbove ? top - height - GAP : below) + "px";
  }

  hide() {
    clearTimeout(this.#timer);
    if (!this.isShown) return;
    this.#box.hidden = true;
    this.#field.area.removeAttribute("aria-describedby");
  }
}
