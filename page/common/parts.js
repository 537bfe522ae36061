// The parts of a panel. Those in sight are written at once, and the others a moment later: who goes from step to
// step need not wait for what is not seen.

/** Milliseconds after the last change at which parts out of sight are written. */
const LATER = 100;
/** How near to what is in sight a part is taken for it: the user may scroll meanwhile. */
const NEAR = "100px";

/** The parts of a panel that scrolls in a box. */
export class Parts {
  #writers;
  #far = new Set();
  #timer = 0;

  /** `writers` has for each part, an element, the function that writes it. */
  constructor(box, writers) {
    this.#writers = writers;
    const observer = new IntersectionObserver(found => {
      for (const { target, isIntersecting } of found) this.#move(target, isIntersecting);
    }, { root: box, rootMargin: NEAR });
    for (const part of writers.keys()) observer.observe(part);
  }

  #move(part, isNear) {
    if (!isNear) this.#far.add(part);
    else if (this.#far.delete(part)) this.#writers.get(part)();
  }

  /** Writes the parts; all of them at once where the panel is not in the page yet. */
  write() {
    for (const [part, write] of this.#writers) if (!part.isConnected || !this.#far.has(part)) write();
    clearTimeout(this.#timer);
    this.#timer = setTimeout(() => {
      for (const part of this.#far) this.#writers.get(part)();
    }, LATER);
  }
}
