// Checkpoints: saved states of a run. From the last one before a step a card gets to that step
// soon. A state is kept in parts, and a part that is the same as in the checkpoint before it is
// kept once. Checkpoints of a run that writes little therefore take little memory, and many of
// them can stand close together.
import { sameWords, wordsOfBytes } from "../common/bytes.js";

const PART = 4096;
/** The bytes that a checkpoint takes beside its parts, about. */
const OVERHEAD = 1024;
/** With fewer checkpoints than this there is nothing to thin out. */
const FEWEST = 4;

/** Saved states by the number of steps after which each stands, in a bounded number of bytes. */
export class Checkpoints {
  list = [];
  /** The bytes that all of them take, about. */
  size = 0;

  /** `most`: above so many bytes they are full. */
  constructor(most) {
    this.most = most;
  }

  get length() {
    return this.list.length;
  }

  /** The last checkpoint at or before a step, as { at, parts }; undefined if there is none. */
  before(step) {
    return this.list[this.placeAfter(step) - 1];
  }

  /** How many checkpoints stand at or before a step. */
  placeAfter(step) {
    let low = 0, high = this.list.length;
    while (low < high) {
      const middle = (low + high) >> 1;
      if (this.list[middle].at <= step) low = middle + 1;
      else high = middle;
    }
    return low;
  }

  /**
   * Adds a copy of a state after `at` steps, whose bytes begin at a multiple of four. A checkpoint
   * that stands there already stays.
   */
  add(at, state) {
    const place = this.placeAfter(at), last = this.list[place - 1];
    if (last?.at === at) return;
    const parts = [];
    for (let from = 0; from < state.length; from += PART) {
      const part = state.subarray(from, from + PART), old = last?.parts[from / PART];
      const isSame = old?.length === PART && part.length === PART &&
        sameWords(wordsOfBytes(old), wordsOfBytes(part));
      parts.push(isSame ? old : part.slice());
      if (!isSame) this.size += part.length;
    }
    this.size += OVERHEAD;
    this.list.splice(place, 0, { at, parts });
  }

  get isFull() {
    return this.size > this.most && this.list.length >= FEWEST;
  }

  /** Drops every other checkpoint. */
  thin() {
    this.list = this.list.filter((_, i) => i % 2 === 0);
    const parts = new Set(this.list.flatMap(checkpoint => checkpoint.parts));
    this.size = OVERHEAD * this.list.length;
    for (const part of parts) this.size += part.length;
  }

  clear() {
    this.list = [];
    this.size = 0;
  }
}
