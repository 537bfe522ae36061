// The answers of all steps of a run, in little memory: most of millions of steps answer alike.

/**
 * The texts of different answers have so many characters together at most. Of texts that come
 * later the page keeps the first characters.
 */
const MOST_TEXTS = 1 << 26;
const LONG_TEXT = 12, CUT_TEXT = 10;

/** Answers by the numbers of their steps, from 0. */
export class Answers {
  /** For each step the number of its text in `texts`. */
  numbers = new Uint32Array(4096);
  length = 0;
  texts = ["ok"];
  /** The numbers of texts that are cut off. */
  cut = new Set();
  #found = new Map([["ok", 0]]);
  #size = 0;

  constructor(most = MOST_TEXTS) {
    this.most = most;
  }

  /** Adds the next answer; whether its text is kept whole. */
  push(text) {
    if (this.length === this.numbers.length) {
      const longer = new Uint32Array(2 * this.length);
      longer.set(this.numbers);
      this.numbers = longer;
    }
    const number = text === "ok" ? 0 : this.#numberOf(text);
    this.numbers[this.length++] = number;
    return !this.cut.has(number);
  }

  #numberOf(text) {
    const whole = this.#found.get(text);
    if (whole !== undefined && !this.cut.has(whole)) return whole;
    const isCut = this.#size > this.most && text.length > LONG_TEXT;
    const stored = isCut ? text.slice(0, CUT_TEXT) + ".." : text, known = this.#found.get(stored);
    if (known !== undefined) return known;
    const number = this.texts.length;
    this.texts.push(stored);
    this.#found.set(stored, number);
    this.#size += stored.length;
    if (isCut) this.cut.add(number);
    return number;
  }

  /** The answer of a step. */
  get(step) {
    return this.texts[this.numbers[step]];
  }
}
