// The scheduler of a run. It takes the steps of a session, brings its card to the step that is to
// be shown, and searches for breakpoints, a slice of time after the other, so that the page can
// draw and hear keys in between.
import { Pacer } from "./pacer.js";
import { Search } from "./points.js";
import { Trouble } from "../common/trouble.js";
import { grouped } from "../common/bytes.js";

/** The milliseconds of a slice, and between two pictures of a run that is followed. */
const SLICE_TIME = 14, FOLLOW_TIME = 250;

/** How far a run is. */
export const RUN = Object.freeze({
  /** There is no run. */
  none: "none",
  /** It takes steps. */
  running: "running",
  /** The user has stopped it, and steps are left. */
  halted: "halted",
  /** An error has ended it, and steps are left. */
  failed: "failed",
  /** All steps are taken. */
  done: "done",
});

/** What is done beside the run, to show a step. */
export const TASK = Object.freeze({ idle: "idle", seeking: "seeking", searching: "searching" });

const FRAME = Object.freeze({ kind: "frame" });

/**
 * Runs a session, and shows its steps.
 *
 * `clock` has `now()`, in milliseconds, `soon(does)`, which calls a function once the page has
 * heard what waits, and `later(does, milliseconds)`.
 *
 * `heard` has `shown(seen)`, a state to be drawn; `changed()`, after each slice and each order;
 * `finished(session)`, once all steps are taken; `ended({ points, isBack })`, a search that found
 * nothing; `stopped(steps)`, a step past the one at which a halted run stands was asked for;
 * `failed(error)`; and `frameTime(seen)`, which answers the milliseconds of a frame.
 */
export class Runner {
  session = null;
  run = RUN.none;
  /** What is shown, as `session.seen` tells it, and after how many steps that is. */
  seen = null;
  steps = 0;
  #clock;
  #heard;
  #goal = null;
  #isSlow = false;
  #search = null;
  #pacer = null;
  /** So many steps are shown once the run is there; Infinity follows the run to its end. */
  #awaited = null;
  #shownAt = 0;
  #isAwake = false;
  #isFinished = false;
  /** The session around the one that is run, and how far it is: { session, steps, run, isFinished }. */
  #around = null;

  constructor(clock, heard) {
    this.#clock = clock;
    this.#heard = heard;
  }

  /** Starts a session, which is closed with the next one. `awaited` steps are shown, or all. */
  start(session, awaited = Infinity) {
    this.close();
    this.#awaited = awaited;
    this.#begin(session);
  }

  #begin(session) {
    this.session = session;
    this.run = RUN.running;
    this.#shownAt = this.#clock.now();
    this.#isFinished = false;
    this.#wake();
    this.#heard.changed();
  }

  /** Ends everything, and closes the session unless its module is broken. */
  close(isBroken = false) {
    this.#drop();
    if (!isBroken) this.session?.close();
    if (!isBroken) this.#around?.session.close();
    this.session = this.#around = null;
    this.run = RUN.none;
    this.#heard.changed();
  }

  /** Whether the session that is run stands within another. */
  get isWithin() {
    return this.#around !== null;
  }

  /** The session that stands within no other, and after how many of its steps the page is. */
  get outer() {
    return this.#around ?? { session: this.session, steps: this.steps };
  }

  /** Runs a session within the one that is run, which waits until `leave` after so many steps. */
  enter(session, steps) {
    this.#drop();
    this.#around = { session: this.session, steps, run: this.run, isFinished: this.#isFinished };
    this.steps = this.#goal = 0;
    this.#begin(session);
  }

  /** Ends the session within another, which goes on, unless it is halted, after so many steps. */
  leave({ steps = this.outer.steps, isHalted = false } = {}) {
    if (!this.#around) return;
    const { session, run, isFinished } = this.#around;
    this.session.close();
    Object.assign(this, { session, run: isHalted && run === RUN.running ? RUN.halted : run });
    this.#isFinished = isFinished;
    this.#around = null;
    this.steps = steps;
    this.go(steps);
  }

  /** Goes a step forward, or back with -1; past either end of a session within another, out of it. */
  step(by) {
    const to = this.goal + by, { session } = this;
    if (!this.isWithin || (to >= 0 && to <= session.length)) return this.go(to);
    const { steps } = this.outer;
    return this.leave({ steps: to < 0 ? steps - 1 : steps });
  }

  /** Stops what is under way. The state that is shown stays. */
  halt() {
    this.#stopAt(RUN.halted);
  }

  /** Ends what is under way after an error. */
  fail() {
    this.#stopAt(RUN.failed);
  }

  #stopAt(run) {
    this.#drop();
    if (this.run === RUN.running || this.run === RUN.halted) this.run = run;
    this.#heard.changed();
  }

  #drop() {
    this.#goal = null;
    this.#isSlow = false;
    this.#search = null;
    this.#pacer = null;
    this.#awaited = null;
  }

  /** What is under way beside the run. */
  get task() {
    if (this.#search) return TASK.searching;
    return this.#goal === null ? TASK.idle : TASK.seeking;
  }

  get isPlaying() {
    return this.#pacer !== null;
  }

  /** Whether there is something to be stopped. */
  get isBusy() {
    return this.isPlaying || this.run === RUN.running || this.task === TASK.searching;
  }

  /** After so many steps is what is shown, or will be: orders may come faster than pictures. */
  get goal() {
    return this.#goal ?? this.steps;
  }

  /** After so many steps is what is to be shown of a text that is changed; Infinity for its end. */
  get wanted() {
    if (this.#awaited !== null) return this.#awaited;
    const { session, steps } = this.outer;
    return session && steps < session.length ? steps : Infinity;
  }

  /** The step that a search looks at, from 1; 0 if there is no search. */
  get searched() {
    return this.#search ? this.#search.search.looked + 1 : 0;
  }

  /** Whether the way to the goal, or the search, takes more than a slice. */
  get isSlow() {
    return this.#isSlow;
  }

  /** Whether what is shown is of the session that is run. */
  get isShown() {
    return this.session !== null && this.seen?.session === this.session;
  }

  get isAtEnd() {
    return this.run === RUN.done && this.goal >= this.session.length;
  }

  /** Shows the state after so many steps; a search, play and what was awaited end. */
  go(steps) {
    if (!this.session) return;
    this.#drop();
    this.#seek(Math.max(0, Math.min(steps, this.session.length)));
  }

  /** Shows the end, once the run is there. */
  toEnd() {
    this.resume();
    this.go(this.session?.length ?? 0);
  }

  /** A run that was stopped goes on. */
  resume() {
    if (this.run !== RUN.halted && this.run !== RUN.failed) return;
    this.run = RUN.running;
    this.#wake();
  }

  /** Stops the run, play and a search, and shows where they are. */
  stop() {
    const { session } = this, looked = this.#search?.search.looked;
    if (!session) return;
    if (this.run === RUN.running) this.run = RUN.halted;
    this.go(looked ?? (session.isDone ? this.steps : session.ran));
  }

  /** Goes to the next step that meets one of some breakpoints, or to the last one. */
  find(points, { isBack = false, isInclusive = false } = {}) {
    if (!this.session) return;
    if (!points.length) {
      throw new Trouble("There are no breakpoints: click a line's number, or use their tab.");
    }
    const from = this.goal;
    this.#awaited = null;
    this.#goal = null;
    this.#isSlow = false;
    this.#search = this.#searchFrom(from, points, isBack, isInclusive);
    this.#wake();
    this.#heard.changed();
  }

  /**
   * Goes back to the step that a search finds, and tells `heard` what that is, { steps }, or
   * { ended: true }: then the page stays where it is. The search has `take(milliseconds)`, which
   * answers that or null, and `looked`, the step at which it is.
   */
  findBy(search, heard) {
    if (!this.session) return;
    this.#drop();
    this.#search = { search, points: [], isBack: true, heard };
    this.#wake();
    this.#heard.changed();
  }

  #searchFrom(steps, points, isBack = false, isInclusive = false) {
    return { search: new Search(this.session, points, steps, isBack, isInclusive), points, isBack };
  }

  /** Shows frame after frame, at the pace of the mode, or stops. */
  play(isOn) {
    this.#pacer = null;
    if (isOn && this.session) {
      if (this.steps >= this.session.length) this.#seek(0);
      this.#pacer = new Pacer(this.#clock.now());
      this.#playOn(this.#pacer);
    }
    this.#heard.changed();
  }

  #playOn(pacer) {
    if (pacer !== this.#pacer) return;
    const now = this.#clock.now();
    if (this.task === TASK.idle && pacer.isDue(now)) {
      this.find([FRAME]);
      pacer.goOn(now, this.#heard.frameTime(this.seen));
    }
    this.#clock.later(() => this.#playOn(pacer), pacer.wait(now));
  }

  #seek(steps) {
    this.#goal = steps;
    this.#wake();
    this.#heard.changed();
  }

  #wake() {
    if (this.#isAwake) return;
    this.#isAwake = true;
    this.#clock.soon(() => this.#turn());
  }

  #turn() {
    this.#isAwake = false;
    if (!this.session) return;
    try {
      this.#work();
    } catch (error) {
      this.fail();
      this.#heard.failed(error);
      return;
    }
    if (this.run === RUN.running || this.task !== TASK.idle) this.#wake();
    this.#heard.changed();
  }

  /** Works for a slice of time. */
  #work() {
    if (this.run === RUN.running) this.#runOn();
    if (this.#search) this.#searchOn();
    else if (this.#goal !== null) this.#seekOn();
    if (this.run === RUN.done && !this.#isFinished) {
      this.#isFinished = true;
      this.#heard.finished(this.session);
    }
  }

  #runOn() {
    const { session } = this;
    session.runFor(SLICE_TIME);
    if (session.isDone) this.run = RUN.done;
    this.#follow();
  }

  /** Shows what is awaited of the run, if it has come there. */
  #follow() {
    const { session } = this, awaited = this.#awaited, now = this.#clock.now();
    if (awaited === null) return;
    if (session.isDone || awaited <= session.ran) {
      this.#goal = Math.min(awaited, session.length);
      this.#awaited = null;
    } else if (awaited === Infinity && now - this.#shownAt > FOLLOW_TIME) {
      this.#goal = session.ran;
      this.#shownAt = now;
    }
  }

  #seekOn() {
    const { session, seen } = this, goal = this.#goal;
    if (goal > session.ran) return this.#seekPast(session.ran);
    const isSeen = this.isShown && seen.steps === goal && session.at === goal;
    const isThere = isSeen || session.seek(Math.max(0, goal - 1), SLICE_TIME);
    this.#isSlow = !isThere;
    if (!isThere) return null;
    this.#goal = null;
    // Who waits for the step hears of it, also if it is shown already.
    return isSeen ? this.#heard.shown(this.seen) : this.#show(goal);
  }

  /** A step that the run has not taken yet is waited for, unless the run is stopped. */
  #seekPast(ran) {
    if (this.run === RUN.running) return;
    this.#goal = ran;
    this.#heard.stopped(ran);
  }

  #show(steps) {
    const { session } = this;
    this.seen = { ...session.seen(steps), session };
    this.steps = steps;
    this.#heard.shown(this.seen);
  }

  #searchOn() {
    const { search, points } = this.#search, found = search.take(SLICE_TIME);
    this.#isSlow = !found || Boolean(found.waiting);
    if (!found) return;
    if (found.waiting) {
      if (this.run !== RUN.running) this.#searchPast(this.session.ran);
    } else if (found.steps && this.#isLeftOut(found.steps)) {
      this.#search = this.#searchFrom(found.steps, points);
    } else {
      this.#endSearch(found, this.#search);
    }
  }

  /** A search comes to the place where the run is stopped. */
  #searchPast(ran) {
    this.#drop();
    this.#goal = ran;
    this.#heard.stopped(ran);
  }

  #isLeftOut(steps) {
    const pacer = this.#pacer;
    return pacer !== null && steps < this.session.length &&
      pacer.leavesOut(this.#clock.now(), this.#heard.frameTime(this.seen));
  }

  #endSearch(found, { points, isBack, heard }) {
    const { steps, ended } = found;
    this.#search = null;
    if (heard) {
      // A session whose search has found nothing is shown all the same.
      if (!ended) this.#goal = steps;
      else if (!this.isShown) this.#goal = this.steps;
      heard(found);
      return;
    }
    this.#goal = steps ?? (isBack ? 0 : this.session.length);
    if (!ended) return;
    this.#pacer = null;
    if (points[0].kind !== FRAME.kind) this.#heard.ended({ points, isBack });
  }
}

/**
 * What a runner does, in the words of the page's header. `bad` is the trouble of a line that is no
 * step, and `drawn` how many steps of a moving picture are drawn, while one is.
 */
export function stateText(runner, { bad = null, drawn = null } = {}) {
  const { session, run, task } = runner;
  if (bad) return `line ${bad.line} is no step: ${bad.message}`;
  if (run === RUN.none) return "no run";
  const { noun } = session, of = step => `${noun} ${grouped(step)} of ${grouped(session.length)}`;
  if (drawn !== null) return `drawing: step ${grouped(drawn)} of ${grouped(runner.outer.session.length)}`;
  const isSlow = runner.isSlow && !runner.isPlaying;
  if (task === TASK.searching && isSlow) return `looking at ${of(runner.searched)}`;
  if (run === RUN.running) return `running: ${of(session.ran)}`;
  if (task === TASK.seeking && isSlow) {
    return `going to ${noun} ${grouped(runner.goal)}: at ${grouped(Math.max(0, session.at))}`;
  }
  if (run !== RUN.done) return `stopped: ${of(session.ran)}`;
  return `${session.summary()} · ${timeText(session.time)}`;
}

/** Milliseconds in words. */
function timeText(time) {
  return `${time < 10 ? time.toFixed(1) : grouped(Math.round(time))} ms`;
}
