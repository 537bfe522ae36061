// A bar to search by: a field for words, what came of it, and buttons to the next and the last
// find.
import { element } from "../common/dom.js";

/**
 * The bar in a box. `heard` has `typed(words)`, the words were changed; `asked(words, isBack)`, the
 * next or the last find is asked for; and `closed()`.
 */
export class SearchBar {
  constructor(box, label, heard) {
    const button = (text, title, onclick) => element("button",
      { type: "button", title, "aria-label": title.split(" (")[0], onclick }, text);
    this.box = box;
    this.heard = heard;
    this.field = element("input", { type: "search", "aria-label": label, placeholder: label,
      autocomplete: "off", autocapitalize: "off", spellcheck: false });
    this.told = element("output", { "aria-live": "polite" });
    box.append(this.field, this.told,
      button("↑", "The find before (Shift+Enter)", () => heard.asked(this.words, true)),
      button("↓", "The next find (Enter)", () => heard.asked(this.words, false)),
      button("×", "End the search (Esc)", () => this.close()));
    this.field.addEventListener("input", () => heard.typed(this.words));
    box.addEventListener("keydown", event => this.#pressed(event));
  }

  get words() {
    return this.field.value;
  }

  get isOpen() {
    return !this.box.hidden;
  }

  /** Opens the bar, with these words in it. */
  open(words = this.words) {
    this.box.hidden = false;
    this.field.value = words;
    this.field.focus();
    this.field.select();
    this.heard.typed(words);
  }

  close() {
    this.box.hidden = true;
    this.say("");
    this.heard.closed();
  }

  say(text) {
    this.told.textContent = text;
  }

  #pressed(event) {
    const isIn = event.target === this.field;
    if (event.key === "Escape") this.close();
    else if (event.key === "F3" || (event.key === "Enter" && isIn)) {
      this.heard.asked(this.words, event.shiftKey);
    } else return;
    event.preventDefault();
    event.stopPropagation();
  }
}
