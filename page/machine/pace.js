// When a machine rests, and which of its frames are drawn: so one that only waits costs little.

/** A display is quiet which nothing has reached for so many milliseconds, and a machine by which nothing was typed. */
const QUIET = 250;
/** Instructions a nanosecond, of a processor that only waits at most: a million a second. */
const FEW = 1e6 / 1e9;
/** A picture that nothing changes changes by itself once in so many frames: the cursor and characters blink. */
const BLINK_FRAMES = 8;
/** Nanoseconds by which a frame may be shorter than the one before. */
const SLACK = 200000;

/** The pace of a machine in real time. */
export class Pace {
  /** Whether nothing reaches the display, so its picture only blinks. */
  isQuiet = false;
  /** Whether it is quiet, and the processor only waits: for a key, or an interrupt. */
  isResting = false;
  #cpu;
  /** The cycles of the display until now, and since when there were no others and nothing was typed. */
  #cycles = 0;
  #since;
  /** When instructions were counted last, in milliseconds; how many there were, and the machine's time. */
  #counted;
  #isWaiting = false;
  /** When the last frame ended, in the machine's time, and how long it was. */
  #end;
  #length = 0;
  /** Whether the last turn came as far as it should. */
  #isInTime = false;
  #drawn = -1;

  /** The pace of a machine's processor from now on; `now` is in milliseconds. */
  constructor(cpu, now) {
    this.#cpu = cpu;
    this.#since = now;
    this.#counted = this.#countAt(now);
    this.#end = cpu.now();
  }

  /** Which of the pictures it is that follow each other where nothing changes them. */
  get #blink() {
    return Math.floor(this.#cpu.frames() / BLINK_FRAMES);
  }

  /** A frame has ended. */
  passFrame() {
    const end = this.#cpu.now();
    this.#length = end - this.#end;
    this.#end = end;
  }

  /**
   * Whether the frame under way is drawn in a turn that goes on until a time of the machine: not where the
   * next one ends in that turn too. Of a turn that does not come to its end all frames are drawn.
   */
  isFrameSeen(until) {
    if (this.isQuiet && this.#blink === this.#drawn) return false;
    return !this.#isInTime || until < this.#end + 2 * this.#length + SLACK;
  }

  /** The last frame was drawn. */
  passDrawing() {
    this.#drawn = this.#blink;
  }

  /** A turn has ended, which was to go on until a time of the machine. */
  passTurn(until, now) {
    // The end of a frame counts as a cycle.
    const cycles = this.#cpu.cycles() - this.#cpu.frames();
    if (cycles !== this.#cycles) this.#since = now;
    this.#cycles = cycles;
    this.#isInTime = this.#cpu.now() >= until;
    if (now - this.#counted.at > QUIET) this.#count(now);
    this.isQuiet = now - this.#since > QUIET;
    this.isResting = this.isQuiet && this.#isWaiting;
  }

  #countAt(at) {
    return { at, instructions: this.#cpu.instructions(), time: this.#cpu.now() };
  }

  /** Looks how much the processor has done since it was looked last. */
  #count(now) {
    const last = this.#counted;
    this.#counted = this.#countAt(now);
    const { instructions, time } = this.#counted;
    this.#isWaiting = instructions - last.instructions < FEW * (time - last.time);
  }

  /** Something was typed. */
  wake(now) {
    this.#since = now;
    this.isQuiet = this.isResting = false;
  }
}
