// Searches in slices of time: the places of some words in a text, and the steps of a run that have
// them in their words or their answers.

/** More places of some words in a text are not counted. */
export const MOST_FOUND = 1000000;
const LOOKED_AT_ONCE = 512;
const LACKS = 1, HAS = 2;

/** A pattern that finds some words as they stand, in letters of either case. */
export function patternOf(words) {
  return new RegExp(words.replace(/[.*+?^${}()|[\]\\]/g, "\\$&"), "gi");
}

/** The search for some words in a text. */
export class TextSearch {
  isDone = false;
  length = 0;
  #places = new Uint32Array(1024);

  constructor(text, words) {
    this.text = text;
    this.words = words;
    this.pattern = patternOf(words);
  }

  /** Searches for about so many milliseconds; whether it is done. */
  take(milliseconds) {
    const until = performance.now() + milliseconds;
    while (!this.isDone) {
      const found = this.pattern.exec(this.text);
      if (found) this.#push(found.index);
      this.isDone = !found || this.length === MOST_FOUND;
      if (this.length % LOOKED_AT_ONCE === 0 && performance.now() > until) break;
    }
    return this.isDone;
  }

  #push(place) {
    if (this.length === this.#places.length) {
      const longer = new Uint32Array(2 * this.length);
      longer.set(this.#places);
      this.#places = longer;
    }
    this.#places[this.length++] = place;
  }

  /** The place of a find, from 0, in characters from the text's begin. */
  at(number) {
    return this.#places[number];
  }

  /**
   * The number of the first find at or after a place, or of the last one before it; -1 for none.
   */
  numberFrom(place, isBack) {
    let low = 0, high = this.length;
    while (low < high) {
      const middle = (low + high) >> 1;
      if (this.#places[middle] < place) low = middle + 1;
      else high = middle;
    }
    if (!this.length) return -1;
    return (low + (isBack ? this.length - 1 : 0)) % this.length;
  }
}

/**
 * The search for the next step of a session, or the last one, whose words or answer have some
 * words. It begins after step `from`, and goes on at the other end.
 */
export class StepSearch {
  looked = 0;
  #session;
  #pattern;
  #from;
  #by;
  #entries;
  #texts = [];

  constructor(session, words, from, isBack = false) {
    this.#session = session;
    this.#pattern = new RegExp(patternOf(words), "i");
    this.#from = from - 1;
    this.#by = isBack ? -1 : 1;
    this.#entries = new Uint8Array(session.outline.kinds.length);
    this.count = session.ran;
  }

  /**
   * Searches for about so many milliseconds: null if there is more to do, or { steps }, after so
   * many steps the one that was found is the last; 0 if none was.
   */
  take(milliseconds) {
    const until = performance.now() + milliseconds;
    while (this.looked < this.count) {
      this.looked++;
      if (this.#has(this.#step)) return { steps: this.#step + 1 };
      if (this.looked % LOOKED_AT_ONCE === 0 && performance.now() > until) return null;
    }
    return { steps: 0 };
  }

  /** The step that was looked at last, from 0. */
  get #step() {
    const { count } = this, far = this.#from + this.#by * this.looked;
    return (far % count + count) % count;
  }

  #has(step) {
    const { outline, answers, sizes } = this.#session, entry = outline.entryOf(step);
    const isInWords = this.#known(this.#entries, entry, () => outline.wordsOf(entry));
    if (isInWords || step >= answers.length) return isInWords;
    const size = sizes.get(step);
    if (size !== undefined) return this.#pattern.test(`picture ${size}`);
    return this.#known(this.#texts, answers.numbers[step], () => answers.get(step));
  }

  /** Whether a text has the words, which is noted by the text's number. */
  #known(list, number, text) {
    if (!list[number]) list[number] = this.#pattern.test(text()) ? HAS : LACKS;
    return list[number] === HAS;
  }
}
