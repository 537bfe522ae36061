// The machine while it is paused: its last frames as a session of the page's debugger, and the ways back
// and on from there.
import { Recording, judgedRecording } from "./recording.js";
import { Session } from "../run/session.js";
import { Trouble } from "../common/trouble.js";
import { rebuildingLines } from "./rebuilt.js";

/** The cycles and frames that a window has at most, unless its last frame alone has more. */
const WINDOW_CYCLES = 200000, WINDOW_FRAMES = 70, MOST_WINDOW = 1000000;
const SECOND = 1e9;
/** The milliseconds of a run between two checkpoints. */
const SPACING = 16;

/** The last frames of a live machine, and how to go on from each of their steps. */
export class Paused {
  recording = null;
  /** The display's saved state after the last step; null where some of them are left out. */
  endState = null;
  #live;
  #adapter;
  #fonts;
  /** Cycles of the display and the time when the window begins; and the moment of its end: see Machine.moment. */
  #cycle = 0;
  #beginTime = 0;
  #end = { time: 0, cycles: 0, isAmid: false };

  constructor(live, adapter, fonts) {
    this.#live = live;
    this.#adapter = adapter;
    this.#fonts = fonts;
  }

  get #machine() {
    return this.#live.machine;
  }

  /** Seconds of the machine's time at the window's end. */
  get time() {
    return this.#end.time / SECOND;
  }

  /** The last frames before now, as a session. */
  session() {
    const machine = this.#machine;
    const frame = machine.frameBefore(WINDOW_CYCLES, WINDOW_FRAMES) ??
      machine.frameBefore(MOST_WINDOW, WINDOW_FRAMES);
    if (frame === null) {
      throw new Trouble("No frame has ended yet, or the last one has more than a million cycles.");
    }
    this.#end = machine.moment;
    // The window begins as its frame does; so a snapshot within that frame is too late.
    const { snapshots } = this.#live, before = snapshots.findLast(({ frames }) => frames < frame) ?? snapshots.first;
    const { state, time } = machine.runWindow(before, frame, this.#end);
    this.#beginTime = time;
    this.recording = new Recording(rebuildingLines(this.#adapter, this.#fonts, state), machine);
    this.#cycle = this.#end.cycles - this.recording.words.length / 4;
    this.endState = this.recording.leftOut ? null : machine.savedState().slice();
    const session = new Session(this.#adapter, this.#fonts, "", judgedRecording(this.#adapter, this.recording));
    // A program writes much of memory between two checkpoints, so that each is a copy of that.
    session.spacing = SPACING;
    return session;
  }

  /** The moment after so many cycles of the display, which came at a time: see Live.goTo. */
  #momentOf(cycles, time) {
    const end = this.#end.time;
    return { time, arrive: machine => {
      if (machine.cpu.cycles() < cycles) machine.runAgainToCycle(cycles, end);
    } };
  }

  /** The moment so many seconds before the window's end, or the start. */
  momentBack(seconds) {
    const time = Math.max(this.#live.snapshots.first.time, this.#end.time - seconds * SECOND);
    return { time, arrive: machine => machine.runAgain(time) };
  }

  /** Whether the machine ran before the window. */
  get hasEarlier() {
    return this.#cycle > this.#live.snapshots.first.cycles;
  }

  /** The moment at which the window begins. */
  get beginMoment() {
    return this.#momentOf(this.#cycle, this.#beginTime);
  }

  /** The moment at which a mode was set last before the window's end. */
  get modeMoment() {
    const set = this.#machine.modes.findLast(({ cycles }) => cycles < this.#end.cycles);
    if (!set) throw new Trouble("The video BIOS of this page set no mode before this moment.");
    return this.#momentOf(set.cycles, set.time);
  }

  /** Brings the machine to where it was paused. */
  seekEnd() {
    this.#machine.restore(this.#live.snapshots.last);
  }

  /** Brings the machine to the window's end: where it was paused, or what was asked for when it went back. */
  #seekLast() {
    const { snapshots } = this.#live, machine = this.#machine, end = this.#end;
    const before = snapshots.findLast(({ time }) => time <= end.time) ?? snapshots.first;
    machine.restore(before);
    machine.record(false);
    if (before.time !== end.time || before.cycles !== end.cycles) this.#unseen(() => machine.runAgainTo(end));
  }

  /** Runs the machine, and draws no frame of it. */
  #unseen(does) {
    const machine = this.#machine;
    machine.isShowing = false;
    does();
    machine.isShowing = true;
  }

  /**
   * Brings the machine to where it was after so many steps of the window. After the last one that is the window's end:
   * instructions that reach no display may lie between.
   */
  seekStep(steps) {
    if (steps === this.recording.length && !this.recording.leftOut) return this.#seekLast();
    const cycles = this.#cycle + (steps ? this.recording.recordsBefore(steps) : 0);
    const { snapshots } = this.#live, machine = this.#machine, { arrive } = this.#momentOf(cycles, 0);
    machine.restore(snapshots.findLast(one => one.cycles < cycles) ?? snapshots.first);
    machine.record(false);
    this.#unseen(() => arrive(machine));
  }
}
