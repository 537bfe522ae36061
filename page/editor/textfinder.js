// The search in the script.
import { MOST_FOUND, TextSearch } from "./searching.js";
import { SearchBar } from "./searchbar.js";
import { byId } from "../common/dom.js";
import { grouped } from "../common/bytes.js";

const SLICE_TIME = 8, WAIT = 120;

/** The search in an editor's text, in a bar above it. */
export class TextFinder {
  #editor;
  #search = null;
  #asked = null;
  #timer = 0;
  #clearMarks = null;
  #clearHere = null;
  #at = -1;

  constructor(editor) {
    this.#editor = editor;
    this.bar = new SearchBar(byId("textfinder"), "find in the script", {
      typed: () => this.#soon({ from: this.#editor.place }),
      asked: (_, isBack) => this.go(isBack),
      closed: () => this.#end(),
    });
    editor.listeners.push(() => this.bar.isOpen && this.#soon(null));
  }

  /** Opens the bar, with what is selected in it. */
  open() {
    const selected = this.#editor.selected;
    this.bar.open(selected && !selected.includes("\n") ? selected : undefined);
  }

  /** Searches anew in a moment, and goes to the first find from a place on, where one is told. */
  #soon(asked) {
    clearTimeout(this.#timer);
    this.#clear();
    this.#asked = asked ?? this.#asked;
    if (!this.bar.words) return this.bar.say("");
    this.#timer = setTimeout(() => this.#begin(), WAIT);
    return null;
  }

  #begin() {
    const { words } = this.bar;
    this.#at = -1;
    this.#search = new TextSearch(this.#editor.text, words);
    if (words.trim()) this.#clearMarks = this.#editor.markAll(this.#search.pattern);
    this.#turn(this.#search);
  }

  #turn(search) {
    if (search !== this.#search) return;
    if (!search.take(SLICE_TIME)) {
      this.bar.say(`${grouped(search.length)} so far`);
      setTimeout(() => this.#turn(search));
      return;
    }
    const asked = this.#asked;
    this.#asked = null;
    if (asked) this.#show(search.numberFrom(asked.from, asked.isBack));
    else this.#say();
  }

  /** Goes to the next find, or the last. */
  go(isBack) {
    const search = this.#search, { place } = this.#editor;
    if (!this.bar.words) return;
    const from = isBack ? place : place + (this.#at < 0 ? 0 : 1);
    if (!search?.isDone) return this.#soon({ from, isBack });
    this.#show(search.numberFrom(from, isBack));
  }

  #show(number) {
    const search = this.#search;
    this.#at = number;
    this.#clearHere?.();
    if (number >= 0) {
      const from = search.at(number), to = from + search.words.length;
      this.#editor.select(from, to);
      // Where the bar has the keys, no selection is seen.
      this.#clearHere = this.#editor.markPart(from, to, "foundhere");
    }
    this.#say();
  }

  #say() {
    const { length } = this.#search, isCut = length === MOST_FOUND;
    const all = `${isCut ? "more than " : ""}${grouped(length)}`;
    if (!length) this.bar.say("not found");
    else this.bar.say(this.#at < 0 ? all : `${grouped(this.#at + 1)} of ${all}`);
  }

  #end() {
    clearTimeout(this.#timer);
    this.#clear();
    this.#editor.focus();
  }

  #clear() {
    this.#search = null;
    this.#clearMarks?.();
    this.#clearMarks = null;
    this.#clearHere?.();
    this.#clearHere = null;
  }
}
