// Breakpoints: what they watch, and the search for the next or the last step that meets one.
import { AnyWatch, BiosWatch, BytesWatch, ColourWatch, PaletteWatch,
  RegisterWatch } from "./watching.js";
import { BeamWatch, DrawnWatch } from "./beamwatch.js";
import { GROUPS } from "../script/registers.js";
import { KIND } from "../script/steplist.js";
import { hex } from "../common/bytes.js";
import { isRefusal } from "../script/expecting.js";

const CHUNK = 20000, MOST_AHEAD = 4096;
const PORT_STEPS = { out: "written", outw: "written", in: "read", inw: "read" };
const MEMORY_STEPS = { put: "written", putw: "written", get: "read", getw: "read" };
/**
 * What is known of an entry of the script: nothing, or that it meets a point by its words, or may
 * do so.
 */
const KNOWN = 1, MET = 2, WATCHED = 4;
/** The kinds of steps that may take long begin with `int`. */
const SLOW = KIND.int;

/** Which planes a mask means, in words. */
export function planesText(planes) {
  const numbers = [0, 1, 2, 3].filter(plane => planes >> plane & 1);
  const noun = numbers.length > 1 ? "planes" : "plane";
  return numbers.length === 4 ? "all planes" : `${noun} ${numbers.join(" and ")}`;
}

function bytesText({ planes, from, to }) {
  const offsets = from === to ? hex(from, 4) : `${hex(from, 4)} to ${hex(to, 4)}`;
  return `${planesText(planes)} ${offsets}`;
}

/** A breakpoint in words. */
export function pointText(point) {
  const way = point.way === "either" ? "read or written" : point.way;
  switch (point.kind) {
    case "line": return `line ${point.line}`;
    case "port": return `port ${hex(point.place, 3)} ${way}`;
    case "address": return `address ${hex(point.place, 5)} ${way}`;
    case "register": return `${point.title} changes`;
    case "bytes": return `${bytesText(point)} changes`;
    case "colour": return `entry ${hex(point.index, 2)} of the DAC changes`;
    case "bios": return `${point.title} changes`;
    case "beam": return `the beam at line ${point.line}, dot ${point.dot}`;
    case "drawn": return `the beam draws dot ${point.dot} of line ${point.line}`;
    case "frame": return "the end of a frame";
    case "wrong": return "an answer that differs from what is expected";
    default: return "a refusal";
  }
}

/** Whether a step of these words, on a line, meets a breakpoint that needs no state. */
function meetsWords(point, words, line) {
  if (point.kind === "line") return point.line === line;
  const [name, place] = words.toLowerCase().split(" ");
  const ways = { port: PORT_STEPS, address: MEMORY_STEPS }[point.kind], way = ways[name];
  if (!way || (point.way !== "either" && point.way !== way)) return false;
  const first = parseInt(place, 16);
  return point.place === first || (name.endsWith("w") && point.place === first + 1);
}

/** The watch of registers: one, some fields of them, or all of a group. */
function registerWatch({ group, index, parts }) {
  if (group === "dac") return new PaletteWatch();
  if (parts) return new RegisterWatch(parts);
  const { registers } = GROUPS.find(({ id }) => id === group);
  const all = index === null ? [...registers.keys()] : [index];
  return new RegisterWatch(all.map(one => ({ group, index: one })));
}

/** What watches the card for a breakpoint; null for one that needs no state. */
export function watchOf(point) {
  switch (point.kind) {
    case "register": return registerWatch(point);
    case "bytes": return new BytesWatch(point.planes, point.from, point.to);
    case "colour": return new ColourWatch(point.index);
    case "bios": return new BiosWatch(point.name, point.page);
    case "beam": case "frame": return new BeamWatch(point);
    case "drawn": return new DrawnWatch(point);
    case "watch": return point.watch;
    default: return null;
  }
}

/**
 * A search among a session's steps. `take` goes on for some milliseconds, and tells what was found.
 */
export class Search {
  /**
   * From after `from` steps on, forward, or back from the step before; `isInclusive` has the last
   * step looked at too.
   */
  constructor(session, points, from, isBack, isInclusive = false) {
    this.session = session;
    this.looked = from;
    this.plain = points.filter(point => ["line", "port", "address"].includes(point.kind));
    const watches = points.map(watchOf).filter(watch => watch);
    this.watch = watches.length ? new AnyWatch(watches) : null;
    this.refuses = points.some(point => point.kind === "refusal");
    this.expects = points.some(point => point.kind === "wrong");
    this.known = new Uint8Array(session.outline.kinds.length);
    // Of each text of an answer whether it is a refusal: nothing, no, yes.
    this.refusals = [];
    this.turns = isBack ? this.back(isInclusive ? from : from - 1) : this.forward(from);
  }

  /**
   * { steps } found, { ended: true }, { waiting: true } for the run to come so far, or null where
   * time is over.
   */
  take(milliseconds) {
    const until = performance.now() + milliseconds;
    while (performance.now() < until) {
      const { done, value } = this.turns.next();
      if (done) return value === undefined ? { ended: true } : { steps: value };
      if (value?.waiting) return value;
    }
    return null;
  }

  /** What the words of an entry tell, some of KNOWN, MET and WATCHED. */
  knownOf(entry) {
    const { outline } = this.session;
    let found = KNOWN;
    const isMet = this.plain.length > 0 && this.plain.some(point =>
      meetsWords(point, outline.wordsOf(entry), outline.lineOf(entry)));
    if (isMet) found |= MET;
    if (this.watch?.mayChange(this.operation(entry))) found |= WATCHED;
    this.known[entry] = found;
    return found;
  }

  /** The kind of an entry, and its port, address or dots. */
  operation(entry) {
    const { operations } = this.session.scout;
    return { kind: operations.kind(entry), place: operations.place(entry) };
  }

  isRefused(step) {
    const { answers } = this.session, number = answers.numbers[step];
    this.refusals[number] ??= isRefusal(answers.get(step));
    return this.refusals[number];
  }

  /** Whether a step meets a point by its answer. */
  isAnswered(step) {
    if (this.refuses && this.isRefused(step)) return true;
    return this.expects && this.session.isWrong(step);
  }

  * forward(from) {
    for (let at = from; at < this.session.length;) {
      if (at >= this.session.ran) {
        yield { waiting: true };
        continue;
      }
      const to = Math.min(this.session.ran, at + CHUNK);
      for (const met of this.scan(at, to)) {
        if (met) return met;
        yield null;
      }
      at = to;
    }
    return undefined;
  }

  * back(to) {
    const { session } = this;
    for (let end = to; end > 0;) {
      const kept = session.checkpointBefore(end - 1).at;
      // A stretch that has to be walked begins at a checkpoint, however far that is.
      const begin = this.watch ? kept : Math.max(kept, end - CHUNK);
      let last = 0;
      for (const met of this.scan(begin, end)) {
        if (met) last = met;
        yield null;
      }
      if (last) return last;
      end = begin;
    }
    return undefined;
  }

  /**
   * Goes through steps, and yields after each that meets a breakpoint how many were taken; null now
   * and then.
   */
  * scan(from, to) {
    const { outline } = this.session;
    this.isStarted = false;
    for (let step = from; step < to;) {
      const run = outline.runOf(step), end = Math.min(to, run.first + run.count * run.size);
      let within = (step - run.first) % run.size;
      for (; step < end; step++) {
        const entry = run.from + within, known = this.known[entry] || this.knownOf(entry);
        if (++within === run.size) within = 0;
        const isFound = known & WATCHED ? yield* this.look(step, entry) : false;
        if (isFound || known & MET || this.isAnswered(step)) yield step + 1;
        if (step % MOST_AHEAD === 0) {
          this.looked = step;
          yield null;
        }
      }
    }
  }

  /** Takes a step on the scout; whether it changes what is watched. */
  * look(step, entry) {
    const { session: { scout }, watch } = this;
    while (scout.at !== step && !scout.seek(step, 8)) yield null;
    if (!this.isStarted) watch.start(scout);
    this.isStarted = true;
    const operation = this.operation(entry);
    scout.take(entry);
    this.looked = step;
    const isChanged = watch.isChanged(scout, operation);
    // Calls and dots take long, so the time is looked at.
    if (operation.kind >= SLOW) yield null;
    return isChanged;
  }
}
