// The time between the steps of a trace (docs/TRACES.md), as dots of the clock that the steps
// before have chosen. python/zaklimot/commands/trace/converting.py does the same for `--time`;
// page/tests/traces.mjs holds both to the same text.
import { FONTS_SIZE } from "../../javascript/zaklimot.js";
import { speedOf } from "../run/speed.js";

/** The ports of the DAC, which has no say in the clock, and gets most writes. */
const FIRST_OF_DAC = 0x3c6, LAST_OF_DAC = 0x3c9;
// No monitor of a VGA shows frames that are shorter than so many seconds: registers are being written.
const SHORTEST = 0.008;
// Microseconds that are put together before they become a step: about a line.
export const LEAST_PAUSE = 30n;

/**
 * A card that takes the writes to ports and the calls among a trace's steps. Its own clock stands at the
 * first dot of a frame.
 */
export class TraceClock {
  #card;
  #speed = null;
  #isKnown = true;

  constructor(adapter) {
    // The clock doesn't hang on glyphs.
    this.#card = adapter.open(new Uint8Array(FONTS_SIZE));
  }

  close() {
    this.#card.close();
  }

  /** Takes a step, also one that is refused: { name, isWord, address, value }, or a call: { name, registers, block }. */
  take({ name, isWord, address, value, registers, block }) {
    const card = this.#card, isOfDac = address >= FIRST_OF_DAC && address <= LAST_OF_DAC;
    if (name !== "int" && (name !== "out" || isOfDac)) return;
    this.#isKnown = false;
    if (name === "int") card.tryInt10(registers, block);
    else if (isWord) card.tryOutWord(address, value);
    else card.tryOut(address, value);
  }

  /** The dots of a frame and those of a second; null where the registers are those of no frame that is shown. */
  get speed() {
    if (this.#isKnown) return this.#speed;
    const speed = speedOf(this.#card);
    this.#speed = speed.dots / speed.rate < SHORTEST ? null : speed;
    this.#isKnown = true;
    return this.#speed;
  }
}

/** The steps by which so many dots pass. */
function* advances(dots, most) {
  for (let left = dots; left > 0; left -= most) yield { name: "advance", dots: Math.min(left, most) };
}

/**
 * The steps, with the clock advanced before those to which time has passed, by at most so many dots in
 * one step. Each has its `time` in microseconds, a BigInt, or null; and the `dots` that passed before
 * it, where these are known, or null. `clock` is a TraceClock.
 */
export function* withPauses(steps, most, clock) {
  let last = null, owed = 0n;
  for (const step of steps) {
    const { time, dots: known } = step;
    if (known !== null) {
      last = time;
      owed = 0n;
      yield* advances(known, most);
    } else if (time !== null) {
      if (last !== null && time > last) owed += time - last;
      last = time;
    }
    if (owed >= LEAST_PAUSE) {
      const { speed } = clock, dots = speed ? pauseDots(owed, speed) : 0;
      owed = 0n;
      if (dots) yield { name: "advance", dots };
    }
    clock.take(step);
    yield step;
  }
}

/** The dots of so many microseconds: a frame's at most, or a pause would run for hours. */
function pauseDots(microseconds, { dots, rate }) {
  return Math.min(Math.trunc(Number(microseconds) * rate / 1000000), dots);
}
