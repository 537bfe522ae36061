// Random numbers that are the same each time.

/** Random numbers from a seed: `below(n)`, `byte()`, `one(list)`. */
export class Random {
  constructor(seed) {
    this.state = seed >>> 0;
  }

  /** 32 random bits (mulberry32). */
  next() {
    this.state = this.state + 0x6d2b79f5 >>> 0;
    let word = Math.imul(this.state ^ this.state >>> 15, this.state | 1);
    word ^= word + Math.imul(word ^ word >>> 7, word | 61);
    return (word ^ word >>> 14) >>> 0;
  }

  below(count) {
    return Math.floor(this.next() / 2 ** 32 * count);
  }

  byte() {
    return this.next() & 255;
  }

  word() {
    return this.next() & 0xFFFF;
  }

  /** True once in so many times. */
  rarely(times) {
    return this.below(times) === 0;
  }

  one(list) {
    return list[this.below(list.length)];
  }
}
