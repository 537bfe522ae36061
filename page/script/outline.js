// Where the steps of a text stand: which line a step's number belongs to, with blocks taken so many
// times as they count. The text is one that the module has assembled, so its lines are known to be
// good.
import { KIND, StepList } from "./steplist.js";
import { expectedIn } from "./expecting.js";

const SEMICOLON = 59;
const isBlank = code => code === 32 || code === 9 || code === 13;

/** A list of numbers that grows. */
class Growing {
  constructor(Numbers) {
    this.numbers = new Numbers(1024);
    this.length = 0;
  }

  push(value) {
    if (this.length === this.numbers.length) {
      const longer = new this.numbers.constructor(2 * this.length);
      longer.set(this.numbers);
      this.numbers = longer;
    }
    this.numbers[this.length++] = value;
  }

  get taken() {
    return this.numbers.slice(0, this.length);
  }
}

/** The steps of a text. */
export class Outline extends StepList {
  hasExpected = false;

  constructor(text) {
    super();
    this.text = text;
    const starts = new Growing(Uint32Array), lines = new Growing(Uint32Array),
      kinds = new Growing(Uint8Array);
    const marked = new Growing(Uint8Array);
    this.block = null;
    this.plainFrom = 0;
    this.steps = { lines, kinds, marked };
    for (let at = 0, line = 0; at <= text.length; line++) {
      starts.push(at);
      at = this.take(at, line);
    }
    this.endPlain();
    this.starts = starts.taken;
    this.lines = lines.taken;
    this.kinds = kinds.taken;
    this.marked = marked.taken;
  }

  /** An outline of these `parts`, which that of the same text has had elsewhere. */
  static of(text, parts) {
    return Object.assign(Object.create(Outline.prototype), { text }, parts);
  }

  /** All of it but its text, in a form that can be sent. */
  get parts() {
    const { starts, lines, kinds, marked, runs, length, hasExpected } = this;
    return { starts, lines, kinds, marked, runs, length, hasExpected };
  }

  /** Takes the line that begins at a place, and tells where the next one does. */
  take(at, line) {
    const { text } = this;
    let begin = at;
    while (begin < text.length && isBlank(text.charCodeAt(begin))) begin++;
    let end = begin, code = text.charCodeAt(end);
    while (end < text.length && code > 32 && code !== SEMICOLON) code = text.charCodeAt(++end);
    const next = text.indexOf("\n", end), stop = next < 0 ? text.length : next;
    if (end > begin) this.takeStep(text.slice(begin, end).toLowerCase(), end, stop, line);
    return stop + 1;
  }

  takeStep(name, end, stop, line) {
    const { lines, kinds, marked } = this.steps;
    if (name === "version") return;
    if (name === "repeat") {
      this.endPlain();
      this.block = { count: parseInt(this.text.slice(end, stop), 10), from: kinds.length };
    } else if (name === "end") {
      this.addRun(this.block.count, this.block.from, kinds.length - this.block.from, true);
      this.plainFrom = kinds.length;
      this.block = null;
    } else {
      lines.push(line);
      kinds.push(KIND[name]);
      marked.push(this.hasMark(end, stop));
    }
  }

  /** Whether the comment between two places expects an answer. */
  hasMark(from, stop) {
    const rest = this.text.slice(from, stop), at = rest.indexOf(";");
    const isMarked = at >= 0 && expectedIn(rest.slice(at + 1)) !== null;
    this.hasExpected ||= isMarked;
    return isMarked ? 1 : 0;
  }

  /** Ends the steps outside blocks that stand before this place. */
  endPlain() {
    const count = this.steps.kinds.length - this.plainFrom;
    if (count && !this.block) this.addRun(1, this.plainFrom, count, false);
    this.plainFrom = this.steps.kinds.length;
  }

  /** A line as it stands, with its number from 1. */
  lineText(number) {
    const from = this.starts[number - 1], to = this.text.indexOf("\n", from);
    return this.text.slice(from, to < 0 ? undefined : to);
  }

  /** The words of an entry, with one blank between. */
  wordsOf(entry) {
    return this.lineText(this.lineOf(entry)).split(";", 1)[0].trim().split(/[ \t\r]+/).join(" ");
  }

  /** The answer that an entry expects, or null. */
  expectedOf(entry) {
    if (!this.marked[entry]) return null;
    const line = this.lineText(this.lineOf(entry));
    return expectedIn(line.slice(line.indexOf(";") + 1));
  }

  /** The text of entries that stand one after the other. */
  textOf(from, count) {
    const begin = this.starts[this.lines[from]], last = this.lines[from + count - 1];
    return this.text.slice(begin, this.starts[last + 1] ?? this.text.length);
  }
}
