// The last frames of a machine as a trace of cycles with their times (docs/TRACES.md). A trace knows no calls of
// the BIOS: what one did becomes cycles that leave the same.
import { LEAST_PAUSE, TraceClock } from "../files/pauses.js";
import { Session } from "../run/session.js";
import { Trouble } from "../common/trouble.js";
import { grouped, hex } from "../common/bytes.js";
import { judgedRecording } from "./recording.js";
import { Operations } from "../run/scout.js";
import { cyclesOfCall, cyclesTo } from "./rebuilt.js";

/** The cursor and blinking text go by the number of a frame modulo this. */
const FRAMES = 32;
const MISC_READ = 0x3cc, LEAST = Number(LEAST_PAUSE), MILLION = 1000000;
/** Each call takes two states of the adapter, so there may be so many; and all may make so many cycles. */
const MOST_CALLS = 2000, MOST_CYCLES = 1000000;
const HEAD = ["; The last frames of a machine: TIME r|w p|m ADDRESS VALUE SIZE, of microseconds.",
  "; The first cycles make the state with which they begin. What the video BIOS did stands as cycles at one moment.",
  "; A read of port 3CC passes each frame in which nothing else happens.", ""];

/**
 * The times of cycles, such that who makes pauses of them (see pauses.js) comes to the same dots: what is owed to
 * him goes on to the next time.
 */
class CycleTimes {
  micros = 0;
  #clock;
  #last = 0;
  /** Dots that have passed, and dots that the pauses have until #last. */
  #dots = 0;
  #given = 0;

  constructor(clock) {
    this.#clock = clock;
  }

  get speed() {
    return this.#clock.speed;
  }

  /** So many dots pass. */
  pass(dots) {
    this.#dots += dots;
  }

  /** A cycle comes now: { name, isWord, address, value }. */
  take(step) {
    const { speed } = this;
    if (!speed) this.#given = this.#dots;
    else this.#advance(speed);
    this.#clock.take(step);
  }

  #advance({ dots, rate }) {
    const owed = Math.max(0, this.#dots - this.#given);
    // A whole frame is exact: a longer pause has its dots too.
    const micros = owed >= dots ? Math.ceil(dots * MILLION / rate) + 1 : Math.round(owed * MILLION / rate);
    this.micros = Math.max(this.micros, this.#last + micros);
    if (this.micros - this.#last < LEAST) return;
    this.#given += Math.min(dots, Math.trunc((this.micros - this.#last) * rate / MILLION));
    this.#last = this.micros;
  }
}

/** The cycle of a line of a script: { name, isPort, isWord, address, value }. */
function cycleOf(line) {
  const [name, address, value = "0"] = line.split(" "), isPort = /^(in|out)/.test(name);
  return { name: name.replace(/w$/, ""), isPort, isWord: name.endsWith("w"), address: parseInt(address, 16),
    value: parseInt(value, 16) };
}

/** Writes a trace. */
class TraceWriter {
  lines = [...HEAD];
  #times;

  constructor(clock) {
    this.#times = new CycleTimes(clock);
  }

  /** A cycle; `read` is what a read has answered. */
  add(line, read = "0") {
    const cycle = cycleOf(line), { name, isPort, isWord, address, value } = cycle;
    const isRead = name === "in" || name === "get";
    this.#times.take(cycle);
    const told = isRead ? read : hex(value, isWord ? 4 : 2);
    this.lines.push(`${this.#times.micros} ${isRead ? "r" : "w"} ${isPort ? "p" : "m"} ` +
      `${hex(address, isPort ? 3 : 5)} ${told} ${isWord ? 2 : 1}`);
  }

  /** Cycles at one moment: { line, read } each. */
  addAll(cycles) {
    for (const { line, read } of cycles) this.add(line, read);
  }

  passFrames(count, misc) {
    this.pass(count * (this.#times.speed?.dots ?? 0), misc);
  }

  /** Dots pass; of more than a frame's, each whole frame ends with a read that changes nothing. */
  pass(dots, misc) {
    const frame = this.#times.speed?.dots ?? Infinity;
    for (let left = dots; left > 0; left -= frame) {
      this.#times.pass(Math.min(left, frame));
      if (left >= frame) this.add(`in ${hex(MISC_READ, 3)}`, hex(misc, 2));
    }
  }
}

/** The steps of a recording from one on, each { step, entry }. */
function* stepsFrom(recording, first) {
  for (let step = first; step < recording.length; step++) yield { step, entry: recording.entryOf(step) };
}

function checkCalls(recording) {
  const calls = recording.blockOf.size;
  if (calls <= MOST_CALLS) return;
  throw new Trouble(`These frames have ${grouped(calls)} calls of the video BIOS, and a trace may have ` +
    `${grouped(MOST_CALLS)}. Go on, and pause it where it calls less.`);
}

function checkCycles(made) {
  if (made <= MOST_CYCLES) return;
  throw new Trouble(`The calls of the video BIOS in these frames make more than ${grouped(MOST_CYCLES)} cycles, ` +
    "and a trace may have no more of them. Go on, and pause it where it calls less.");
}

/** The cycles of the call that a step of a session makes. */
function called(session, step, before) {
  const script = session.pieces.bytes(session.outline.entryOf(step), 1, 1);
  return cyclesOfCall(before, new Operations(script, 1).call(0));
}

/** The trace of a recording whose session begins at power-on. */
export function traceOfRecording(recording, adapter, fonts) {
  checkCalls(recording);
  const session = new Session(adapter, fonts, "", judgedRecording(adapter, recording));
  const clock = new TraceClock(adapter), writer = new TraceWriter(clock);
  const stateAt = step => {
    session.seek(step);
    return session.state();
  };
  try {
    const first = recording.head.length, begin = stateAt(first);
    let { misc } = begin.registers, made = 0;
    writer.addAll(cyclesTo(adapter, fonts, begin.bytes));
    writer.passFrames(begin.beam.frame % FRAMES, misc);
    for (const { step, entry } of stepsFrom(recording, first)) {
      const name = recording.nameOf(entry), words = recording.wordsOf(entry);
      if (name === "advance") writer.pass(Number(words.slice(8)), misc);
      else if (name === "int") {
        const cycles = called(session, step, stateAt(step));
        checkCycles(made += cycles.length);
        writer.addAll(cycles);
        ({ misc } = stateAt(step + 1).registers);
      } else writer.add(words, recording.expectedOf(entry) ?? (name.endsWith("w") ? "FFFF" : "FF"));
      if (/^out 3C2/.test(words)) misc = parseInt(words.slice(8), 16);
    }
    return `${writer.lines.join("\n")}\n`;
  } finally {
    clock.close();
    session.close();
  }
}
