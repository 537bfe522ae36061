// The pace of frames that are played: when the next one is due, and which are left out.

/** Play may be so many milliseconds behind, and looks so soon whether a frame is due. */
const MOST_LATE = 200, SOON = 4;
/** So many frames one after the other may be left out. */
const MOST_LEFT_OUT = 5;

/** Tells when frames are due. All times are in milliseconds. */
export class Pacer {
  #due;
  #leftOut = 0;

  constructor(now) {
    this.#due = now;
  }

  isDue(now) {
    return now >= this.#due;
  }

  /** How long to wait before looking again. */
  wait(now) {
    return Math.min(SOON, Math.max(0, this.#due - now));
  }

  /** The next frame is due a frame's time after this one, which is asked for now. */
  goOn(now, frameTime) {
    this.#due = Math.max(now - MOST_LATE, this.#due + frameTime);
  }

  /** Whether a frame that was found is left out, since the machine is too slow for all of them. */
  leavesOut(now, frameTime) {
    const isLate = now > this.#due + frameTime;
    if (!isLate || this.#leftOut >= MOST_LEFT_OUT) {
      this.#leftOut = 0;
      return false;
    }
    this.#leftOut++;
    this.#due += frameTime;
    return true;
  }
}
