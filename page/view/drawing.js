// A run that is drawn from its beginning as the beam does it, step after step in a few seconds.

/** The milliseconds of a whole run, and those before it begins. */
const DRAWING = 5000, BEFORE = 350;
/** What the user does ends the drawing. */
const ACTS = ["pointerdown", "keydown", "wheel", "touchstart", "drop"];

/** The drawing. `heard` is called when it begins and ends. */
export class Drawing {
  #asked = null;
  #heard;

  constructor(heard) {
    this.#heard = heard;
    for (const name of ACTS) document.addEventListener(name, () => this.stop(), { capture: true, passive: true });
  }

  get isOn() {
    return this.#asked !== null;
  }

  /** Draws a run of so many steps: `go(steps)` shows the state after so many. */
  start(length, go) {
    const begun = performance.now() + BEFORE;
    const turn = now => {
      const share = Math.max(0, Math.min(1, (now - begun) / DRAWING));
      go(Math.round(share * length));
      if (share < 1) this.#asked = requestAnimationFrame(turn);
      else this.stop();
    };
    this.stop();
    this.#asked = requestAnimationFrame(turn);
    this.#heard();
  }

  /** Ends it where it is. */
  stop() {
    if (!this.isOn) return;
    cancelAnimationFrame(this.#asked);
    this.#asked = null;
    this.#heard();
  }
}
