// The search for the last step that moved a dot of the picture: after it the dot is drawn from another place of memory,
// as when a program turns to another page. The frame in which the dot was drawn stays the same. Of each state before,
// the adapter is asked from which place it would draw the dot in that frame if no other step came.
import { KIND } from "../script/steplist.js";
import { DotSearch, differingParts, partsOfDot } from "./dotsearch.js";
import { State } from "../run/state.js";
import { Layout } from "./holding.js";
import { dotAhead } from "./way.js";

const STEPS = [KIND.out, KIND.outw, KIND.int];
/** Ports that lead to no register on which the place of a dot hangs: those of the DAC. */
const DAC_PORTS = [0x3c6, 0x3c7, 0x3c8, 0x3c9];
/** What of a dot's parts tells its place. */
const PLACE = ["shown", "offset", "dot of its character"];

/** Where a dot comes from, in words: of a text also which line of the glyph it is. */
function placeOfDot(found) {
  const parts = partsOfDot(found?.source), kept = Object.fromEntries(PLACE.filter(name => name in parts)
    .map(name => [name, parts[name]]));
  return found?.source.isText ? { ...kept, "line of the glyph": String(found.beam.scan) } : kept;
}

/** Watches where the dot of a frame comes from, which begins after so many steps. */
class MoveWatch {
  looks = 0;
  #place;
  #frameBegin;
  #layout = new Layout();

  constructor(place, frameBegin) {
    this.#place = place;
    this.#frameBegin = frameBegin;
  }

  mayChange({ kind, place }) {
    return STEPS.includes(kind) && !(kind === KIND.out && DAC_PORTS.includes(place));
  }

  start(scout) {
    this.#layout.isOther(scout);
    this.old = this.#lookAt(scout);
  }

  isChanged(scout, { kind }) {
    // A call may set the same mode again, which begins a frame.
    if (!this.#layout.isOther(scout) && kind !== KIND.int) return false;
    const { old } = this;
    this.old = this.#lookAt(scout);
    this.differing = differingParts(old, this.old);
    this.isMoved = old.shown !== "no dot" && this.old.shown !== "no dot";
    return this.differing.length > 0;
  }

  #lookAt(scout) {
    this.looks++;
    return placeOfDot(dotAhead(State.of(scout.card), this.#place, scout.at >= this.#frameBegin));
  }
}

/** So many looks at a dot's place are made for who asks for its last change. */
const MOST_LOOKS = 400;

/**
 * The search for the last step that moved a dot to where it is. `take` goes on for some milliseconds: null while time
 * is over, else { steps, differing, isMoved, frameBegin, made }, or { ended: true, made }. `isMoved` tells whether a dot
 * was there before.
 */
export class MoveSearch extends DotSearch {
  #told;
  #mostLooks;

  /** See DotSearch. `mostLooks`: after so many looks at the dot's place it ends as if there were no such step. */
  constructor(session, place, steps, { isDrawn = false, told = null, mostLooks = Infinity } = {}) {
    super(session, place, steps, { isDrawn, told });
    this.#told = told;
    this.#mostLooks = mostLooks;
  }

  * lastChange(made, to) {
    const frameBegin = this.#told?.frameBegin ?? (made.isThisFrame ? (yield* this.back({ kind: "frame" }, to)) ?? 0
      : Infinity);
    const watch = new MoveWatch(this.place, frameBegin);
    let last = {};
    const point = { kind: "watch", watch: { mayChange: operation => watch.mayChange(operation),
      start: scout => watch.start(scout), isChanged: (scout, operation) => {
        const isChanged = watch.isChanged(scout, operation);
        if (isChanged) last = { differing: watch.differing, isMoved: watch.isMoved };
        return isChanged;
      } } };
    const turns = this.back(point, to);
    for (;;) {
      const { done, value } = turns.next();
      if (done) return value === undefined ? undefined : { steps: value, ...last, frameBegin, made };
      if (watch.looks > this.#mostLooks) return undefined;
      yield null;
    }
  }
}

/**
 * The search for the last step that changed a dot, and then for the one that moved it to where it is: told as DotSearch
 * does, with `moved`, which MoveSearch tells; null where none is found soon.
 */
export class TwofoldSearch extends DotSearch {
  #first = null;
  #second = null;

  get looked() {
    return this.#second?.looked ?? super.looked;
  }

  take(milliseconds) {
    this.#first ??= super.take(milliseconds);
    if (!this.#first?.made || this.#first.ended) return this.#first;
    this.#second ??= new MoveSearch(this.session, this.place, this.drawnBy === null ? this.steps : this.drawnBy - 1,
      { told: { made: this.made }, mostLooks: MOST_LOOKS });
    const told = this.#second.take(milliseconds);
    return told && { ...this.#first, moved: told.isMoved ? told : null };
  }
}
