// The watch list: what the user keeps an eye on, by the words of its subjects, with the value
// before and after the last step. The browser keeps the words while the page's tab is open.
import { subjectOf } from "./subjects.js";

const KEY = "zaklimot-watches";
/** More than these are not watched. */
export const MOST_WATCHES = 50;

/** The watched subjects. `storage` answers a storage, or throws if the browser forbids it. */
export class Watches {
  list = [];
  #storage;

  constructor(storage = () => sessionStorage) {
    this.#storage = storage;
    this.list = this.#kept().map(words => subjectOf(words)).filter(one => one)
      .slice(0, MOST_WATCHES);
  }

  #kept() {
    try {
      const words = JSON.parse(this.#storage().getItem(KEY) ?? "[]");
      return Array.isArray(words) ? words.filter(one => typeof one === "string") : [];
    } catch {
      return [];
    }
  }

  #keep() {
    try {
      this.#storage().setItem(KEY, JSON.stringify(this.list.map(({ words }) => words)));
    } catch {
      // The list holds until the page is closed.
    }
  }

  has(words) {
    return this.list.some(one => one.words === words);
  }

  /** Watches a subject; whether there was room for it. */
  add(words) {
    if (this.has(words)) return true;
    const subject = subjectOf(words);
    if (!subject || this.list.length >= MOST_WATCHES) return false;
    this.list = [...this.list, subject];
    this.#keep();
    return true;
  }

  remove(words) {
    this.list = this.list.filter(one => one.words !== words);
    this.#keep();
  }

  /** Of each subject its value before the last step and after it. */
  values({ before, after }) {
    return this.list.map(subject => {
      const was = subject.value(before), is = before === after ? was : subject.value(after);
      return { subject, was, is, isChanged: was !== is };
    });
  }
}
