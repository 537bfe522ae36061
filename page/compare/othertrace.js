// A trace of other hardware (docs/TRACES.md), beside the run of the page: cycle by cycle, what was
// read there and what the adapter answers here.
import { STATUS_PORTS, cyclesOf } from "../files/trace.js";
import { counted, grouped, hex } from "../common/bytes.js";

const CHUNK = 4096, MOST_LISTED = 100000;
/** Steps that are no cycle of the bus. */
const NO_CYCLES = ["advance", "frame", "show"];
const HEX_ANSWER = /^(?:[0-9A-F]{2}|[0-9A-F]{4})$/;

/** A cycle of one byte, in the words of a trace; or a call. */
function cycleText({ isWrite, isPort, address, value, call }) {
  if (call) return call;
  const place = hex(address, isPort ? 3 : 5);
  return `${isWrite ? "w" : "r"} ${isPort ? "p" : "m"} ${place} ${hex(value, 2)}`;
}

/** The bytes of a cycle, each a cycle of its own, the lowest address first. */
function* bytesOf({ isWrite, isPort, address, value, size, call }) {
  if (call) yield { call };
  for (let at = 0; at < size; at++) {
    const byte = Number(value >> BigInt(8 * at) & 255n);
    yield { isWrite, isPort, address: address + at, value: byte };
  }
}

/** What the words of a step do on the bus: { isWrite, isPort, size, address, value }. */
function cycleOfWords(words) {
  const [name, place, given] = words.toLowerCase().split(" "), isWord = name.endsWith("w");
  const verb = isWord ? name.slice(0, -1) : name, isWrite = verb === "out" || verb === "put";
  return { isWrite, isPort: verb === "out" || verb === "in", size: isWord ? 2 : 1,
    address: parseInt(place, 16), value: isWrite ? parseInt(given, 16) : null };
}

/** A call's registers and block as one text, however its words are written. */
function callKey(words) {
  const [, block = ""] = words.match(/\bblock\s+([0-9a-f]+)/i) ?? [];
  const values = ["ax", "bx", "cx", "dx"].map(name =>
    parseInt(words.match(new RegExp(`\\b${name}=([0-9a-f]+)`, "i"))?.[1] ?? "0", 16));
  return `${values.join()} ${block.toLowerCase()}`;
}

/** Why the comparison ends at a BIOS call. */
function callNote(step) {
  return `Step ${grouped(step + 1)} is a BIOS call, whose cycles stand in no script: the trace is ` +
    "compared to there. Open it as the script to compare all.";
}

/** A trace of other hardware. */
export class OtherTrace {
  differences = [];
  count = 0;
  note = "";
  #text;
  #read = 0;
  #skipped = 0;

  /** `text`: the trace as it stands in its file. */
  constructor(name, text) {
    this.name = name;
    this.#text = text;
  }

  pictureAt() {
    return null;
  }

  /** Compares the trace with a run that is done; yields now and then. */
  * compare(session) {
    this.differences = [];
    this.count = this.#read = this.#skipped = 0;
    this.note = "";
    const cycles = this.#cycles(), known = new Map();
    for (let step = 0; step < session.length; step++) {
      if (step % CHUNK === CHUNK - 1) yield;
      const entry = session.outline.entryOf(step), name = session.outline.nameOf(entry);
      if (NO_CYCLES.includes(name)) continue;
      if (name === "int") {
        const { value: other } = cycles.next(), words = session.outline.wordsOf(entry);
        if (other?.call && callKey(other.call) === callKey(words)) continue;
        return this.#end(callNote(step));
      }
      if (!known.has(entry)) known.set(entry, cycleOfWords(session.outline.wordsOf(entry)));
      const why = this.#compareStep(known.get(entry), session.answers.get(step), cycles, step);
      if (why) return this.#end(why);
    }
    return this.#end(cycles.next().done ? "" : "The trace goes on behind the last step.");
  }

  * #cycles() {
    for (const cycle of cyclesOf(this.#text)) yield* bytesOf(cycle);
  }

  #end(note) {
    const count = grouped(this.#skipped), verb = this.#skipped === 1 ? "is" : "are";
    const skipped = `Reads of input status 1 hang on the moment: ${count} ${verb} not compared.`;
    this.note = [note, this.#skipped ? skipped : ""].filter(text => text).join(" ");
  }

  /** Compares the bytes of a step; why the comparison ends with it, or "". */
  #compareStep(own, answer, cycles, step) {
    const isRead = !own.isWrite, isHex = HEX_ANSWER.test(answer);
    const word = isRead ? (isHex ? parseInt(answer, 16) : null) : own.value;
    const here = [], there = [];
    for (let at = 0; at < own.size; at++) {
      const { done, value: other } = cycles.next(), address = own.address + at;
      if (done) return `The trace ends before step ${grouped(step + 1)}.`;
      const isSame = other.isWrite === own.isWrite && other.isPort === own.isPort &&
        other.address === address;
      if (!isSame) return this.#part(step, other);
      here.unshift(word === null ? null : word >> 8 * at & 255);
      there.unshift(other.value);
    }
    this.#note(own, answer, here, there, step);
    return "";
  }

  /** The cycles part at a step. */
  #part(step, other) {
    this.#add(step, `the trace has \`${cycleText(other)}\` there`);
    return `From step ${grouped(step + 1)} on the trace has other cycles.`;
  }

  #note({ isWrite, isPort, size, address }, answer, here, there, step) {
    if (!isWrite && isPort && size === 1 && STATUS_PORTS.includes(address)) {
      this.#skipped++;
      return;
    }
    if (!isWrite) this.#read++;
    if (here.every((byte, at) => byte === there[at])) return;
    const text = bytes => bytes.map(byte => hex(byte, 2)).join("");
    const own = here.includes(null) ? answer : text(here);
    this.#add(step, `${own} ${isWrite ? "written" : "read"} here, ${text(there)} there`);
  }

  #add(step, text) {
    this.count++;
    if (this.differences.length < MOST_LISTED) this.differences.push({ step, text });
  }

  get summary() {
    const read = counted(this.#read, "read");
    return this.count ? `${counted(this.count, "cycle")} differ${this.count === 1 ? "s" : ""}, ` +
      `${read} compared.` : `All cycles are the same, ${read} compared.`;
  }
}
