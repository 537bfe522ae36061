// The steps of a script by their numbers: blocks are taken so many times as they count.

/** The steps by number: those of docs/SCRIPT.md, in the order of their opcodes from 1. */
export const STEP_NAMES = ["", "out", "outw", "in", "inw", "put", "putw", "get", "getw", "int",
  "advance", "frame", "show"];
/** The numbers of steps by name. */
export const KIND = Object.fromEntries(STEP_NAMES.map((name, kind) => [name, kind]));

/**
 * The steps of a script. An entry is a step as it stands there, and its number among them. Who knows
 * the entries gives `lines` (their lines, from 0) and `kinds`, and tells their text by `textOf(from,
 * count)`.
 */
export class StepList {
  /** Blocks and the steps between them: { first, count, from, size, isBlock }. */
  runs = [];
  /** How many steps are taken. */
  length = 0;

  addRun(count, from, size, isBlock) {
    if (!count || !size) return;
    this.runs.push({ first: this.length, count, from, size, isBlock });
    this.length += count * size;
  }

  /** The run that has a step; steps are counted from 0. */
  runOf(step) {
    let low = 0, high = this.runs.length - 1;
    while (low < high) {
      const middle = (low + high + 1) >> 1;
      if (this.runs[middle].first <= step) low = middle;
      else high = middle - 1;
    }
    return this.runs[low];
  }

  /** The entry of a step: its number among the steps as they stand in the text. */
  entryOf(step) {
    const run = this.runOf(step);
    return run.from + (step - run.first) % run.size;
  }

  /** The number of an entry's line, from 1. */
  lineOf(entry) {
    return this.lines[entry] + 1;
  }

  /** The dots that an `advance` lets pass. */
  dotsOf(entry) {
    return Number(this.wordsOf(entry).split(" ")[1]);
  }

  nameOf(entry) {
    return STEP_NAMES[this.kinds[entry]];
  }

  /** A text of the first steps, so many of them. */
  firstSteps(steps) {
    const parts = this.runs.some(run => run.isBlock) ? ["version 2"] : [];
    for (const { first, count, from, size } of this.runs) {
      const left = Math.min(count * size, steps - first);
      if (left <= 0) break;
      const turns = Math.floor(left / size), rest = left % size;
      if (turns > 1) parts.push(`repeat ${turns}`);
      if (turns) parts.push(this.textOf(from, size));
      if (turns > 1) parts.push("end");
      if (rest) parts.push(this.textOf(from, rest));
    }
    return parts.join("\n");
  }

  /** The first entry whose line is at or after this number; -1 where none is. */
  entryAtLine(number) {
    let low = 0, high = this.lines.length;
    while (low < high) {
      const middle = (low + high) >> 1;
      if (this.lines[middle] + 1 < number) low = middle + 1;
      else high = middle;
    }
    return low < this.lines.length ? low : -1;
  }

  /** The run that has an entry, or null. */
  runOfEntry(entry) {
    let low = 0, high = this.runs.length - 1;
    while (low < high) {
      const middle = (low + high + 1) >> 1;
      if (this.runs[middle].from <= entry) low = middle;
      else high = middle - 1;
    }
    const run = this.runs[low];
    return run && entry >= run.from && entry < run.from + run.size ? run : null;
  }

  /** The first step of an entry that is not before `from`; -1 where none is. */
  stepOfEntry(entry, from = 0) {
    const run = this.runOfEntry(entry);
    if (!run) return -1;
    const first = run.first + entry - run.from;
    const turns = Math.max(0, Math.ceil((from - first) / run.size));
    return turns < run.count ? first + turns * run.size : -1;
  }

  /** The last step of an entry that is before `to`; -1 where none is. */
  lastStepOfEntry(entry, to) {
    const run = this.runOfEntry(entry);
    if (!run) return -1;
    const first = run.first + entry - run.from, turns = Math.floor((to - 1 - first) / run.size);
    return turns < 0 ? -1 : first + Math.min(turns, run.count - 1) * run.size;
  }
}
