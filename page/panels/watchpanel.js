// The watch list: the value of each subject before the last step and after it.
import { element } from "../common/dom.js";

/** The panel of watches. `heard` has `change(subject)` and `changed()`. */
export class WatchPanel {
  #watches;
  #heard;
  #seen = null;

  constructor(watches, heard) {
    this.#watches = watches;
    this.#heard = heard;
    this.root = element("div", { className: "watches" });
  }

  made(seen) {
    this.#seen = seen;
    const rows = this.#watches.values(seen).map(one => this.#row(one));
    const hint = element("p", { className: "hint" }, "To watch a dot, a byte, a cell, a colour, " +
      "a register or a field, click it and choose “watch it”. Yellow: changed by the last step.");
    this.root.replaceChildren(hint, rows.length ? this.#table(rows)
      : element("p", {}, "Nothing is watched yet."));
    return this.root;
  }

  #table(rows) {
    const heads = ["watched", "before", "now", ""].map(text =>
      element("th", { scope: "col" }, text));
    return element("table", { className: "plain" },
      element("thead", {}, element("tr", {}, ...heads)), element("tbody", {}, ...rows));
  }

  #row({ subject, was, is, isChanged }) {
    const { words, title } = subject, button = (text, does) => element("button",
      { type: "button", "aria-label": `${text}: ${title}`, onclick: does }, text);
    const row = element("tr", { className: isChanged ? "changed" : "" },
      element("th", { scope: "row" }, title), element("td", {}, was), element("td", {}, is),
      element("td", {}, button("last change", () => this.#heard.change(subject)), " ",
        button("remove", () => {
          this.#watches.remove(words);
          this.#heard.changed();
          this.made(this.#seen);
        })));
    return row;
  }
}
