// The snapshots on a machine's way, in the order of their time. They take a bounded number of bytes: where they would
// take more, old ones go, so that the newest stand close together and the others further apart the older they are.

/** The snapshots of a run take so many bytes at most. */
export const MOST_BYTES = 1 << 28;

/** The snapshots of a run. The first one and the last one always stay. */
export class Snapshots {
  #most;
  #all = [];
  /** The bytes of each beside the one before it. */
  #bytes = [];
  #total = 0;
  /** Those that stay as long as others can go. */
  #held = new Set();

  /** `first` is the snapshot of the start; `most` the bytes that all may take. */
  constructor(first, most = MOST_BYTES) {
    this.#most = most;
    this.#put(first, 0);
  }

  get first() {
    return this.#all[0];
  }

  get last() {
    return this.#all.at(-1);
  }

  /** How many there are. */
  get length() {
    return this.#all.length;
  }

  /** The bytes that all take. */
  get bytes() {
    return this.#total;
  }

  [Symbol.iterator]() {
    return this.#all.values();
  }

  /** The last one for which something holds; undefined for none. */
  findLast(isWanted) {
    return this.#all.findLast(isWanted);
  }

  /** The last one until a time, or else the first one. */
  until(time) {
    return this.findLast(one => one.time <= time) ?? this.first;
  }

  /** Adds a snapshot at its place. One that is held goes only where no other can go. */
  add(snapshot, isHeld = false) {
    this.#put(snapshot, 1 + this.#all.findLastIndex(({ time }) => time <= snapshot.time));
    if (isHeld) this.#held.add(snapshot);
    while (this.#total > this.#most && this.#all.length > 2) this.#remove(this.#leastNeeded());
  }

  /** None is held any longer. */
  release() {
    this.#held.clear();
  }

  /** Those after a time go. */
  forgetAfter(time) {
    while (this.last.time > time && this.#all.length > 1) this.#remove(this.#all.length - 1);
  }

  #put(snapshot, at) {
    this.#all.splice(at, 0, snapshot);
    this.#bytes.splice(at, 0, 0);
    this.#count(at);
    this.#count(at + 1);
  }

  #remove(at) {
    this.#held.delete(this.#all[at]);
    this.#total -= this.#bytes[at];
    this.#all.splice(at, 1);
    this.#bytes.splice(at, 1);
    this.#count(at);
  }

  /** Counts the bytes of a snapshot, if there is one, beside the one before it. */
  #count(at) {
    if (at >= this.#all.length) return;
    const bytes = this.#all[at].bytesBeside(this.#all[at - 1] ?? null);
    this.#total += bytes - this.#bytes[at];
    this.#bytes[at] = bytes;
  }

  /** The one whose absence is felt least: its neighbours are close to each other, for their age. */
  #leastNeeded() {
    const all = this.#all, end = this.last.time;
    const needOf = at => (all[at + 1].time - all[at - 1].time) / (end - all[at].time + 1) +
      (this.#held.has(all[at]) ? Infinity : 0);
    let found = all.length - 2;
    for (let at = found - 1; at > 0; at--) if (needOf(at) < needOf(found)) found = at;
    return found;
  }
}
