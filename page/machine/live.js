// The machine as it runs in real time: its picture, its keys, and the snapshots on its way.
import { Machine, QUANTUM, SPEEDS, USUAL_SPEED } from "./machine.js";
import { bytesOfKey, placeOfKey } from "./pckeys.js";
import { Pace } from "./pace.js";
import { LivePicture } from "./livepicture.js";
import { Snapshot } from "./snapshot.js";
import { Snapshots } from "./snapshots.js";
import { isStateOf, stateOf } from "./keptstate.js";
import { missingText } from "./missing.js";
import { stopOf } from "./stops.js";
import { byId, setText } from "../common/dom.js";
import { grouped } from "../common/bytes.js";

const SECOND = 1e9, MILLISECOND = 1e6;
/** A state is kept of a run that is longer than this: another one is as soon back by running again. */
const WORTH = 5 * SECOND;
/** Milliseconds of a turn, and how late the machine may be: what is missed beyond is left out. */
const TURN = 12, MOST_LATE = 100;
/** Milliseconds of a turn while a run comes back, which is as fast as the machine can. */
const LONG_TURN = 30;
const OTHERWISE = "It ran otherwise than it did when it was kept: the page is another one since.";
/** A snapshot is made once in so many frames. */
const SNAPSHOT_FRAMES = 35;
/** A paused machine needs a snapshot so many nanoseconds before a moment, to show the frames until then. */
const WINDOW = 1.5 * SECOND;
/** From a snapshot so far before a moment it runs again at once, and from an earlier one in turns. */
const NEAR = 5 * SECOND;
/** On a way back it keeps the snapshots of so many nanoseconds before the moment: whoever goes on back needs them. */
const TRAIL = 10 * SECOND;
/** Milliseconds between two lines that tell how it runs. */
const TELLING = 500;
/** A window in which the picture has soft edges (machine.css), so that each of its dots counts. */
const NARROW = "(max-width: 860px)";
/** Milliseconds between two turns of a machine that rests. */
const REST = 50;
/** What is said of each reason why the machine stopped. */
const REASONS = { ended: "The program has ended.", watch: "The cycle that you asked for has come.",
  place: "The instruction that you asked for comes next.", mode: "A mode was set.",
  refusal: "A cycle was refused.", restarted: "The software asked for a restart.",
  halted: "The processor has halted with interrupts off, and nothing can wake it." };
/** Of these ends what the software lacked may be the cause. */
const ENDS = ["ended", "restarted", "halted"];
const NO_STOP = stopOf("nothing", "");
/**
 * A machine in real time. `heard` has `changed()`, when it begins, stops or ends, `failed(error)`, and may have
 * `told()`, from time to time as it runs.
 */
export class Live {
  /** "off", "running", "paused", or "failed" where the machine can't go on. */
  state = "off";
  /** Why it paused, where it did so by itself. */
  reason = "";
  /** Whether it paused since the program has ended: its screen stands there, whole. */
  isOver = false;
  /** Whether mode 13 has the colours that PCs' BIOSes load, in software that is started. */
  hasTheirColours = false;
  snapshots = null;
  #modules;
  #fonts;
  #heard;
  #mostBytes;
  #version;
  #machine = null;
  #lastTime = 0;
  #told = { at: 0, instructions: 0, frames: 0 };
  #asked = 0;
  #stop = NO_STOP;
  #speed = USUAL_SPEED;
  #drawn = -1;
  #pace = null;
  #sleep = 0;
  /** The moment at which a machine pauses that runs again: see goTo. */
  #goal = null;
  #canvas = byId("live");
  #picture = new LivePicture(this.#canvas);

  /**
   * Its snapshots take `mostBytes` at most: see Snapshots. `version` is that of the modules and the fonts: a state
   * that was kept under another one means nothing.
   */
  constructor(modules, fonts, heard, { mostBytes, version = "" } = {}) {
    this.#modules = modules;
    this.#fonts = fonts;
    this.#heard = heard;
    this.#mostBytes = mostBytes;
    this.#version = version;
    for (const type of ["keydown", "keyup"]) {
      this.#canvas.addEventListener(type, event => this.#key(event));
    }
    for (const type of ["pointermove", "pointerdown", "pointerup"]) {
      this.#canvas.addEventListener(type, event => this.#mouse(event));
    }
  }

  get machine() {
    return this.#machine;
  }

  /** Starts software: see Machine.boot. */
  start(software, name) {
    this.#boot(software, name);
    this.#machine.setSpeed(SPEEDS[this.#speed]);
    if (this.hasTheirColours) this.#machine.setPalette(true);
    this.#begin();
  }

  /** Whether it shows mode 13 in the adapter's own colours. */
  get hasOwnColours() {
    const { software, hasSet13, inputs } = this.#machine;
    return hasSet13 && !software.rom && !inputs.some(({ does }) => does === "set_palette");
  }

  /** Starts a run that was saved. What comes from outside comes again, until the user does something. */
  startSaved({ name, software, inputs }) {
    this.#boot(software, name);
    this.#takeInputs(inputs);
    this.#begin();
  }

  /**
   * Brings a run back to a moment, as fast as it can, and pauses there. From a state of it that was kept it runs a
   * short way, and else from the start.
   */
  comeBack(run) {
    const { name, software, inputs, moment, state } = run;
    this.#boot(software, name);
    this.#takeInputs(inputs);
    const first = this.#machine.snapshot(null), kept = this.#takenState(state, run, first);
    const arrive = machine => {
      machine.runAgainTo(moment);
      if (machine.cpu.cycles() === moment.cycles) return;
      // Running again from the start tells whether it is the state that was wrong.
      if (kept) this.comeBack({ ...run, state: null });
      else this.reason = OTHERWISE;
    };
    this.#goal = { time: moment.time, from: kept?.time ?? 0, trail: 0, isEarlier: false, arrive };
    this.#begin(first);
    if (kept) this.snapshots.add(kept);
  }

  /** The snapshot of a state that was kept, which the machine is then; null where it can't be. */
  #takenState(state, { software, inputs, moment, name }, first) {
    if (!isStateOf(state, { version: this.#version, inputs, until: moment.time - WINDOW })) return null;
    try {
      const snapshot = Snapshot.unpacked(state.packed, first);
      this.#machine.takeOver(snapshot, state.notes);
      return snapshot;
    } catch {
      this.#boot(software, name);
      this.#takeInputs(inputs);
      this.#machine.restore(first);
      return null;
    }
  }

  /** A state by which this run comes back soon: see keptstate.js. Null where that is of no use. */
  get keptState() {
    const { first, last } = this.snapshots, snapshot = this.snapshots.until(last.time - WINDOW);
    if (snapshot.time < WORTH || this.isComingBack) return null;
    return stateOf(snapshot, { first, machine: this.#machine, version: this.#version });
  }

  /**
   * Takes a paused machine to an earlier moment, { time, arrive(machine) }: `arrive` runs the machine to it from
   * shortly before that time. From a snapshot that is near this is done at once. From another one it runs in turns,
   * as fast as it can, and pauses there. Whether it is there.
   */
  goTo({ time, arrive }) {
    const machine = this.#machine, before = this.snapshots.until(time - WINDOW);
    const nearest = this.snapshots.until(time - 2 * QUANTUM), isNear = time - before.time <= NEAR;
    machine.restore(isNear ? nearest : before);
    machine.record(false);
    if (isNear) {
      machine.isShowing = false;
      arrive(machine);
      machine.isShowing = true;
      return true;
    }
    this.snapshots.release();
    this.#goal = { time, from: before.time, trail: time - TRAIL, isEarlier: true, arrive };
    this.#go();
    this.#canvas.focus();
    return false;
  }

  /** Whether a machine runs again to a moment, and is not there yet. */
  get isComingBack() {
    return this.#goal !== null;
  }

  #takeInputs(inputs) {
    this.#machine.inputs = inputs;
    const last = inputs.findLast(({ does }) => does === "set_instruction_time");
    this.#speed = Object.keys(SPEEDS).find(name => SPEEDS[name] === last?.values[0]) ?? this.#speed;
  }

  #boot(software, name) {
    this.name = name;
    this.reason = "";
    this.#goal = null;
    this.#machine ??= new Machine(this.#modules, this.#fonts);
    this.#machine.boot(software);
  }

  #begin(first = this.#machine.snapshot(null)) {
    this.snapshots = new Snapshots(first, this.#mostBytes);
    this.#told = { at: 0, instructions: 0, frames: 0 };
    setText(byId("livestate"), "");
    this.#machine.stopAt(this.isComingBack ? {} : this.#stop.machine);
    this.#go();
    this.#canvas.focus();
  }

  /** Starts the software again as it was; or, `isWarm`, with its disks and files as they are now. */
  restart(isWarm = false) {
    this.start(isWarm ? this.#machine.softwareNow : this.#machine.software, this.name);
  }

  /** Puts a floppy into drive 0 or 1. */
  changeFloppy(slot, bytes) {
    this.#machine.changeFloppy(slot, bytes);
    this.#canvas.focus();
  }

  /** Goes on from what the machine is now; what came later is forgotten. */
  goOn() {
    const machine = this.#machine, now = machine.cpu.now();
    this.reason = "";
    machine.forgetLater();
    this.snapshots.forgetAfter(now);
    this.snapshots.release();
    machine.record(false);
    machine.cpu.go_on();
    this.#arm();
    this.#endQuantum(now);
    this.#go();
    this.#canvas.focus();
  }

  /** Keys come at the end of a quantum alone, so that they can come there again. A stop may come before it. */
  #endQuantum(now) {
    const machine = this.#machine;
    while (machine.moment.isAmid && machine.stopped === "runs") {
      machine.run(now);
      if (this.#isPassed()) this.#goPast();
    }
  }

  /** What it stops at: see stopOf. */
  set stop(stop) {
    this.#stop = stop;
    if (this.state === "running" && !this.isComingBack) this.#arm();
  }

  /** What is to be said of a stop that can't come unless the machine goes back; nothing of another one. */
  get stopText() {
    const { frame } = this.#stop, now = this.#machine?.cpu.frames() ?? 0;
    if (!["running", "paused"].includes(this.state) || this.isComingBack || frame === null || frame > now) return "";
    return `Frame ${grouped(frame)} has passed: frame ${grouped(now)} is under way. The machine stops there when it ` +
      "starts again, or if you take it back before that frame.";
  }

  /** The machine stops at what was asked for, but not where it is now. */
  #arm() {
    this.#machine.stopAt(this.#stop.machine);
    this.#machine.cpu.pass_place();
  }

  #go() {
    this.state = "running";
    this.isOver = false;
    byId("liveway").value = 0;
    this.#lastTime = performance.now();
    this.#drawn = -1;
    const { cpu } = this.#machine;
    this.#machine.isDrawnOnce = !matchMedia(NARROW).matches;
    this.#pace = new Pace(cpu, this.#lastTime);
    this.#told = { at: this.#lastTime, instructions: cpu.instructions(), frames: cpu.frames() };
    this.#heard.changed();
    this.#askTurn();
  }

  /** One turn is asked for at a time. */
  #askTurn() {
    clearTimeout(this.#sleep);
    this.#sleep = 0;
    cancelAnimationFrame(this.#asked);
    this.#asked = requestAnimationFrame(() => this.#turn());
  }

  /** Asks for the next turn: later where the machine rests, and without a frame of the browser if it is seen. */
  #askNext() {
    if (!this.#pace.isResting || document.hidden) this.#askTurn();
    else this.#sleep = setTimeout(() => this.#turn(), REST);
  }

  /** Something was typed: the machine does not rest. */
  #wake() {
    this.#pace.wake(performance.now());
    if (this.#sleep) this.#askTurn();
  }

  pause() {
    if (this.state !== "running") return;
    const isEarlier = this.#goal?.isEarlier;
    this.state = "paused";
    this.#goal = null;
    this.#machine.stopAt();
    if (!isEarlier) this.#addSnapshot();
    if (this.isOver) this.#showEnd();
    this.#heard.changed();
  }

  /** Draws the screen of a program that has ended down to its last line. */
  #showEnd() {
    const machine = this.#machine;
    machine.drawRest();
    this.#draw();
    machine.restore(this.snapshots.last);
  }

  /** Switches it off. What `takeUp` needs to have it paused as it is now; null where there is nothing. */
  close() {
    const { name, snapshots, state } = this, machine = this.#machine;
    const isEarlier = this.#goal?.isEarlier, isWhole = state !== "failed" && (isEarlier || !this.isComingBack);
    if (isWhole && state === "running" && !isEarlier) this.#addSnapshot();
    if (isWhole) machine.stopAt();
    this.state = "off";
    this.snapshots = null;
    this.#machine = null;
    this.#goal = null;
    this.#heard.changed();
    return isWhole ? { name, machine, snapshots } : null;
  }

  /** Has a machine paused again as it was when it was switched off. */
  takeUp({ name, machine, snapshots }) {
    Object.assign(this, { name, snapshots, reason: "", isOver: false, state: "paused" });
    this.#machine = machine;
    machine.restore(snapshots.last);
    this.#heard.changed();
  }

  /** The processor whose speed it has: see SPEEDS. */
  get speed() {
    return this.#speed;
  }

  /** On its way back it has the speeds that it had. */
  set speed(name) {
    if (this.isComingBack) return;
    this.#speed = name;
    if (this.state === "running") this.#machine.setSpeed(SPEEDS[name]);
  }

  #turn() {
    this.#sleep = 0;
    if (this.state !== "running") return;
    try {
      if (this.isComingBack) this.#runBack();
      else this.#run();
      this.#draw();
      this.#tell();
    } catch (error) {
      this.state = "failed";
      this.#heard.failed(error);
      return;
    }
    if (this.state !== "running") return;
    if (this.reason) this.pause();
    else if (this.#machine.stopped !== "runs") this.#stopped();
    else this.#askNext();
  }

  /** Runs as long as the time that has passed, for at most a turn. */
  #run() {
    const machine = this.#machine, now = performance.now();
    const passed = Math.min(now - this.#lastTime, MOST_LATE);
    const until = machine.cpu.now() + passed * MILLISECOND, end = now + TURN;
    this.#lastTime = now;
    while (machine.cpu.now() < until && performance.now() < end && machine.stopped === "runs") {
      const frame = machine.cpu.frames();
      machine.isShowing = this.#pace.isFrameSeen(until);
      machine.runFrame(until);
      if (machine.cpu.frames() !== frame) this.#pace.passFrame();
      if (this.#isPassed()) this.#goPast();
      this.#keepSnapshot();
      if (this.#stop.frame !== null && frame < this.#stop.frame && machine.cpu.frames() >= this.#stop.frame) {
        this.reason = "The frame that you asked for has come.";
        return;
      }
    }
    this.#pace.passTurn(until, now);
  }

  /** Runs towards the moment at which it pauses; only the last frame of a turn is seen. */
  #runBack() {
    const machine = this.#machine, goal = this.#goal, end = performance.now() + LONG_TURN;
    const until = goal.time - 2 * QUANTUM;
    const isOnItsWay = () => machine.cpu.now() < until && machine.stopped === "runs";
    while (isOnItsWay()) {
      machine.isShowing = performance.now() >= end;
      machine.runFrame(until);
      if (machine.cpu.now() >= goal.trail) this.#keepSnapshot();
      if (machine.isShowing) break;
    }
    machine.isShowing = true;
    if (isOnItsWay()) return;
    goal.arrive(machine);
    // It may have begun anew.
    if (this.#goal === goal) this.pause();
  }

  /** Whether it stopped at what was asked for, but the conditions do not hold. */
  #isPassed() {
    return ["watch", "place"].includes(this.#machine.stopped) && !this.#stop.holds(this.#machine.processor);
  }

  #goPast() {
    this.#machine.cpu.pass_place();
    this.#machine.cpu.go_on();
  }

  #keepSnapshot() {
    const { cpu, latest } = this.#machine;
    if (cpu.frames() - latest.frames >= SNAPSHOT_FRAMES) this.#addSnapshot();
  }

  #addSnapshot() {
    const machine = this.#machine;
    if (machine.cpu.now() !== machine.latest.time) this.snapshots.add(machine.snapshot(), this.#goal?.isEarlier);
  }

  #stopped() {
    this.reason = REASONS[this.#machine.stopped] ?? "";
    const { missing, stopped } = this.#machine;
    if (ENDS.includes(stopped) && missing.length) this.reason += ` ${missingText(missing)}`;
    this.isOver = stopped === "ended" && !this.isComingBack;
    this.pause();
  }

  // What is seen.

  #draw() {
    if (this.#machine.shown === this.#drawn) return;
    this.#drawn = this.#machine.shown;
    this.#pace.passDrawing();
    this.#picture.draw(this.#machine);
  }

  #tell() {
    if (this.isComingBack) return setText(byId("livestate"), this.#wayText());
    const now = performance.now(), passed = now - this.#told.at, { cpu } = this.#machine;
    if (passed < TELLING) return;
    const instructions = cpu.instructions(), frames = cpu.frames();
    const mips = (instructions - this.#told.instructions) / passed / 1000;
    const rate = (frames - this.#told.frames) / passed * 1000;
    setText(byId("livestate"), this.#stateText(mips, rate));
    this.#heard.told?.();
    this.#told = { at: now, instructions, frames };
  }

  #wayText() {
    const come = this.#machine.cpu.now(), { from, time } = this.#goal, inSeconds = at => (at / SECOND).toFixed(1);
    byId("liveway").value = (come - from) / (time - from);
    return `It runs again as it ran: ${inSeconds(come)} of ${inSeconds(time)} s`;
  }

  #stateText(mips, rate) {
    const { machine } = this, { missing } = machine;
    const seconds = (machine.cpu.now() / SECOND).toFixed(1);
    const told = `${seconds} s · ${mips.toFixed(1)} million instructions and ${Math.round(rate)} frames a second`;
    const refused = machine.cpu.refusals();
    const more = (refused ? ` · ${grouped(refused)} cycles refused` : "") +
      (machine.isReplaying ? " · the saved keys come; a key of yours takes over" : "");
    return `${told}${more}${missing.length ? ` · ${missingText(missing)}` : ""}`;
  }

  // What the user does.

  #key(event) {
    if (this.state !== "running") return;
    if (["F12", "Pause"].includes(placeOfKey(event))) {
      event.preventDefault();
      if (event.type === "keydown") this.pause();
      return;
    }
    const bytes = event.metaKey ? [] : bytesOfKey(event);
    if (!bytes.length) return;
    event.preventDefault();
    this.send(bytes);
  }

  /** Sends bytes of the keyboard, each with the BIOS' word. */
  send(bytes) {
    if (this.state !== "running" || this.isComingBack) return;
    for (const [byte, word] of bytes) this.#machine.key(byte, word);
    this.#wake();
  }

  #mouse(event) {
    if (this.state !== "running" || this.isComingBack) return;
    // A pointer that passes by does not end a run that was saved, and is nothing to who does not ask for it.
    const isMoved = event.type === "pointermove" && !event.buttons;
    if (isMoved && (this.#machine.isReplaying || !this.#machine.cpu.uses_mouse())) return;
    const box = this.#canvas.getBoundingClientRect();
    const at = (place, from, length, most) =>
      Math.max(0, Math.min(most, Math.floor((place - from) / length * (most + 1))));
    const buttons = event.buttons & 1 | event.buttons & 2 | event.buttons & 4;
    this.#machine.mouse(at(event.clientX, box.left, box.width, 639),
      at(event.clientY, box.top, box.height, 199), buttons);
    this.#wake();
  }
}
