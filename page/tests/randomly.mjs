// Random numbers that are the same each time, and random states of the adapter.
import { GROUPS } from "../script/registers.js";
import { HIGHEST } from "../../javascript/zaklimot.js";

/** Random numbers from a seed: `below(n)`, `byte()`, `one(list)`. */
export class Random {
  constructor(seed) {
    this.state = seed >>> 0;
  }

  /** 32 random bits (mulberry32). */
  next() {
    this.state = this.state + 0x6d2b79f5 >>> 0;
    let word = Math.imul(this.state ^ this.state >>> 15, this.state | 1);
    word ^= word + Math.imul(word ^ word >>> 7, word | 61);
    return (word ^ word >>> 14) >>> 0;
  }

  below(count) {
    return Math.floor(this.next() / 2 ** 32 * count);
  }

  byte() {
    return this.next() & 255;
  }

  one(list) {
    return list[this.below(list.length)];
  }

  /** Fills bytes that begin anywhere. */
  fill(bytes) {
    const words = Uint32Array.from({ length: Math.ceil(bytes.length / 4) }, () => this.next());
    bytes.set(new Uint8Array(words.buffer, 0, bytes.length));
    return bytes;
  }
}

/** The bits that the registers of a group keep. */
export const keptBits = group => GROUPS.find(({ id }) => id === group).registers.map(({ kept }) =>
  kept);

/**
 * The length of a whole saved state before the dots of its frame, and where its parts begin
 * (docs/STATE.md).
 */
const AT = { crtc: 41, attr: 78, dac: 101, host: 874, lengths: 263038 };

/**
 * The bytes of a state at the first dot of a frame, from those of another such state: registers
 * that `give` makes of (group, number, kept bits), and planes, latches and DAC by chance where
 * `isFilled` says so.
 */
export function stateOf(old, random, give, isFilled = true) {
  const bytes = old.slice(0, AT.lengths + 2 * HIGHEST), put = (at, group) =>
    keptBits(group).forEach((kept, i) => { bytes[at + i] = give(group, i, kept) & kept; });
  put(AT.crtc, "crtc");
  put(AT.attr, "attr");
  put(AT.host + 4, "seq");
  put(AT.host + 9, "gfx");
  put(40, "misc");
  bytes[AT.attr + 21] = random.below(4) ? 0x20 : 0;
  bytes[AT.dac + 772] = random.below(2) ? 255 : random.byte();
  bytes[AT.crtc + 26] = random.below(32);
  if (!isFilled) return bytes;
  random.fill(bytes.subarray(AT.host + 20, AT.host + 20 + 4 * 65536));
  random.fill(bytes.subarray(AT.host, AT.host + 4));
  for (let at = 0; at < 768; at++) bytes[AT.dac + at] = random.byte() & 63;
  return bytes;
}
