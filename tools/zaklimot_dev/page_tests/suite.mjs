// Runs the suite's scripts through a module, and compares each report with the program's:
//     suite.mjs MODULE CASES.json
// What differs is told, and how many cases each way has run.
import { createHash } from "node:crypto";
import { readFileSync } from "node:fs";
import { Library, STATUS } from "../../../javascript/zaklimot.js";
import { FAULT_NAMES } from "../../../page/script/faults.js";

const WITH_PLACE = [104, 105, 107, 111];
const ALL = 0xFFFFFFFF;
const SLICES = [7, 1];
// A slice passes over the steps before it, so short slices of a long script take the square of its length.
const MOST_PASSED = 30_000_000;
// The room for a report is so much larger than the one that is expected, that a longer one is seen as such.
const MARGIN = 4096;
// Of a report that comes in slices so much is kept, to tell where it differs.
const MOST_KEPT = 1 << 16;

const file = name => new Uint8Array(readFileSync(name));
// So much of a line is told.
const MOST_LINE = 60;

/** Bytes with their length and their sum. */
function sumOf(bytes) {
  return { length: bytes.length, sha256: createHash("sha256").update(bytes).digest("hex"), bytes };
}

/** Where bytes differ from those that are expected: the first line that does, as both have it. */
function difference(bytes, wanted) {
  let at = 0;
  while (at < bytes.length && bytes[at] === wanted[at]) at++;
  const begin = at ? wanted.lastIndexOf(10, at - 1) + 1 : 0;
  const shown = data => {
    const text = Buffer.from(data.subarray(begin, begin + MOST_LINE)).toString("latin1");
    return JSON.stringify(text.split("\n")[0]);
  };
  const line = wanted.subarray(0, begin).filter(byte => byte === 10).length + 1;
  return `line ${line} is ${shown(bytes)}, not ${shown(wanted)}`;
}

/** A fault as the program prints it. */
function faultLine(status, place) {
  const name = status === STATUS.FONT_SIZE ? "F1 FontSize" : FAULT_NAMES[status] ?? `status ${status}`;
  return new TextEncoder().encode(name + (WITH_PLACE.includes(status) ? `(${place})` : "") + "\n");
}

/** What work answers, or the line of the fault that it throws. */
function answered(work) {
  try {
    return { bytes: work(), fault: null };
  } catch (error) {
    if (!error.status) throw error;
    return { bytes: null, fault: faultLine(error.status, error.place ?? 0) };
  }
}

/** The report of a whole run, or the line of its fault. */
function byRun(library, script, fonts) {
  const { bytes, fault } = answered(() => library.run(script, { fonts }));
  return bytes ?? fault;
}

/** The length and the sum of the report of a script that is run slice by slice, and how many steps it has. */
function bySlices(library, script, fonts, slice, size) {
  const hash = createHash("sha256"), { bytes: card, fault } = answered(() => library.open(fonts));
  if (fault) return { steps: 0, ...sumOf(fault) };
  try {
    let steps = 0, length = 0, taken = slice;
    const parts = [];
    while (taken === slice) {
      const told = answered(() => card.runOn(script, { first: steps, most: slice, room: size }));
      if (told.fault) return { steps, ...sumOf(told.fault) };
      const { report } = told.bytes;
      hash.update(report);
      if (length < MOST_KEPT) parts.push(report);
      ({ taken } = told.bytes);
      steps += taken;
      length += report.length;
    }
    return { steps, length, sha256: hash.digest("hex"), bytes: Buffer.concat(parts) };
  } finally {
    card.close();
  }
}

/** The suite in a module: what differs, and how many cases each way has run. */
class Suite {
  constructor(module) {
    Object.assign(this, { module, ways: {}, wrong: [] });
  }

  async open() {
    this.library = await Library.of(this.module);
  }

  /** Holds what a way answers to what is expected: its length and its sum. */
  async hold(one, way, wanted, answer) {
    this.ways[way] = (this.ways[way] ?? 0) + 1;
    const told = await this.guarded(one, way, answer);
    if (!told || told.sha256 === wanted.sha256 && told.length === wanted.length) return;
    const expected = wanted.bytes ?? (wanted.report && file(wanted.report));
    const sums = `the sum ${told.sha256}, not ${wanted.length} with ${wanted.sha256}`;
    const reason = expected ? difference(told.bytes, expected) : `${told.length} bytes with ${sums}`;
    this.wrong.push({ name: one.name, way, reason });
  }

  /** What a way answers; nothing where it fails, which is told. */
  async guarded(one, way, answer) {
    try {
      return answer();
    } catch (error) {
      this.wrong.push({ name: one.name, way, reason: String(error) });
      // A module in which a call has trapped answers nothing more.
      await this.open();
      return null;
    }
  }

  /** Runs a case in each way. */
  async run(one) {
    const given = file(one.script), fonts = file(one.fonts);
    const whole = { bytes: given, fault: null };
    const made = one.isBytes ? whole : await this.guarded(one, "text", () => answered(() => this.library.assemble(given)));
    if (!made) return;
    const { bytes: script, fault } = made;
    if (!one.isBytes) await this.runText(one, script, fault, fonts);
    if (fault) return;
    await this.hold(one, "bytes", one, () => sumOf(byRun(this.library, script, fonts)));
    await this.runSlices(one, script, fonts);
  }

  /** The text's bytes, these printed, and the report: each as the program has it. */
  async runText(one, script, fault, fonts) {
    const wanted = one.assembled ? sumOf(file(one.assembled)) : one;
    await this.hold(one, "text to bytes", wanted, () => sumOf(fault ?? script));
    if (fault) return;
    const printed = sumOf(file(one.printed));
    await this.hold(one, "bytes to text", printed, () => sumOf(new TextEncoder().encode(this.library.print(script))));
    await this.hold(one, "text", one, () => sumOf(byRun(this.library, script, fonts)));
  }

  /** The steps all at once, and in slices of few; those of long scripts in eighths. */
  async runSlices(one, script, fonts) {
    let steps = ALL;
    await this.hold(one, "steps, all at once", one, () => {
      const answer = bySlices(this.library, script, fonts, ALL, one.length + MARGIN);
      ({ steps } = answer);
      return answer;
    });
    const isShort = slice => steps / slice * (steps + script.length) <= MOST_PASSED;
    const slices = SLICES.filter(isShort).map(slice => [slice, `steps, ${slice} at a time`]);
    if (slices.length < SLICES.length) slices.push([Math.ceil(steps / 8), "steps, an eighth at a time"]);
    for (const [slice, way] of slices) {
      await this.hold(one, way, one, () => bySlices(this.library, script, fonts, slice, one.length + MARGIN));
    }
  }
}

const [module, cases] = process.argv.slice(2), suite = new Suite(file(module));
await suite.open();
for (const one of JSON.parse(readFileSync(cases, "utf-8"))) await suite.run(one);
process.stdout.write(JSON.stringify({ ways: suite.ways, wrong: suite.wrong }));
