// What the machine has done as the steps of a script: lines that rebuild the display at the beginning,
// then the records, each with the dots before it. Their text is made where it is seen or saved.
import { BLOCK_BYTES, Encoder } from "./encoding.js";
import { KIND, StepList } from "../script/steplist.js";
import { MAGIC, Operations } from "../run/scout.js";
import { hex } from "../common/bytes.js";

// A record has four words: dots; kind (bits 28 to 31), refused (27) and address; code segment and value;
// offset. machine/pc/records.c has the same.
const WORDS = 4, KIND_SHIFT = 28, REFUSED = 1 << 27, ADDRESS = REFUSED - 1;
const CALL = 9, FRAME = 10;
const IS_READ = new Set([KIND.in, KIND.inw, KIND.get, KIND.getw]);
/** Fewer equal polls than this are told one by one, and no block is taken more often. */
const LEAST_TURNS = 3, MOST_TURNS = 65535;
const HEAD = 0xffffffff;
/** The most steps that a script has. */
const MOST_STEPS = 3000000;

/** The steps of a recording. */
export class Recording extends StepList {
  hasExpected = true;
  /** How many of the last records are left out, since a script has no room for more. */
  leftOut = 0;
  /** The bytes of the first lines' steps, an array each: judgedRecording has them made. */
  headBytes = [];
  #entries = { kinds: [], lines: [], records: [] };
  #line = 0;
  #plainFrom = 0;

  /**
   * `head` has the lines of steps that come first; `machine` has `records`, `blocks` (the blocks of
   * calls, in order), `instructionTexts` and `cpu.dots_due()`.
   */
  constructor(head, machine) {
    super();
    this.head = head;
    this.words = machine.records;
    this.blocks = machine.blocks;
    this.instructionAt = machine.instructionTexts;
    this.blockOf = new Map();
    this.hasBlocks = false;
    for (const line of head) this.#addEntry(KIND[line.split(" ", 1)[0]], HEAD);
    this.#addRecords();
    this.dotsDue = machine.cpu.dots_due();
    if (this.dotsDue) this.#addEntry(KIND.advance, this.words.length / WORDS);
    this.#endPlain();
    const { kinds, lines, records } = this.#entries, first = this.hasBlocks ? 1 : 0;
    this.kinds = Uint8Array.from(kinds);
    // A script with blocks has a line before all others.
    this.lines = Uint32Array.from(lines, line => line + first);
    this.records = Uint32Array.from(records);
    this.lineCount = this.#line + first;
    this.#entries = null;
  }

  #addEntry(kind, record) {
    const { kinds, lines, records } = this.#entries;
    kinds.push(kind);
    lines.push(this.#line++);
    records.push(record);
  }

  #endPlain() {
    const { kinds } = this.#entries;
    this.addRun(1, this.#plainFrom, kinds.length - this.#plainFrom, false);
    this.#plainFrom = kinds.length;
  }

  #addRecords() {
    const { words } = this, count = words.length / WORDS, calls = this.#firstCall();
    let call = calls;
    for (let at = 0; at < count;) {
      if (this.length + this.#entries.kinds.length > MOST_STEPS) {
        this.leftOut = count - at;
        return;
      }
      const kind = words[WORDS * at + 1] >>> KIND_SHIFT;
      if (kind === CALL) {
        if (!(words[WORDS * at + 1] & ADDRESS)) this.#addCall(at, call++);
        at += words[WORDS * at + 1] & ADDRESS ? 1 : 2;
      } else at += this.#addCycle(at, kind);
    }
  }

  /** The number of the first call's block: of more records than there is room for, the last are here. */
  #firstCall() {
    const { words } = this;
    let calls = 0;
    for (let at = 1; at < words.length; at += WORDS) {
      if (words[at] >>> KIND_SHIFT === CALL && !(words[at] & ADDRESS)) calls++;
    }
    return this.blocks.length - calls;
  }

  #addCall(at, number) {
    if (this.words[WORDS * at]) this.#addEntry(KIND.advance, at);
    this.blockOf.set(at, this.blocks[number] ?? new Uint8Array());
    this.#addEntry(KIND.int, at);
  }

  /** A cycle, or a block of polls that are alike; how many records these are. */
  #addCycle(at, kind) {
    const { words } = this, dots = words[WORDS * at];
    const turns = kind === KIND.in && dots ? this.#turns(at) : 1;
    if (kind === FRAME) {
      if (dots) this.#addEntry(KIND.advance, at);
      return 1;
    }
    if (turns < LEAST_TURNS) {
      if (dots) this.#addEntry(KIND.advance, at);
      this.#addEntry(kind, at);
      return 1;
    }
    this.#endPlain();
    this.hasBlocks = true;
    const from = this.#plainFrom;
    this.#line++;
    this.#addEntry(KIND.advance, at);
    this.#addEntry(kind, at);
    this.#line++;
    this.addRun(turns, from, 2, true);
    this.#plainFrom = from + 2;
    return turns;
  }

  /** How many records from one on are the same. */
  #turns(at) {
    const { words } = this;
    let turns = 1;
    for (let next = WORDS * (at + 1); next < words.length && turns < MOST_TURNS; next += WORDS) {
      for (let i = 0; i < WORDS; i++) if (words[next + i] !== words[WORDS * at + i]) return turns;
      turns++;
    }
    return turns;
  }

  dotsOf(entry) {
    const record = this.records[entry];
    return record === HEAD ? super.dotsOf(entry) : this.words[WORDS * record] ?? this.dotsDue;
  }

  /** The words of a step, as a script spells them. */
  wordsOf(entry) {
    const record = this.records[entry];
    if (record === HEAD) return this.head[entry];
    if (this.kinds[entry] === KIND.advance) {
      return `advance ${this.dotsOf(entry)}`;
    }
    return this.kinds[entry] === KIND.int ? this.#callWords(record) : this.#cycleWords(entry, record);
  }

  /** AX to DX of a call. */
  #registersOf(record) {
    const [first, second] = [this.words[WORDS * record + 2], this.words[WORDS * record + 6]];
    return [first >>> 16, first & 0xffff, second >>> 16, second & 0xffff];
  }

  #callWords(record) {
    const values = this.#registersOf(record);
    const named = ["ax", "bx", "cx", "dx"].map((name, i) => `${name}=${hex(values[i], 4)}`);
    const block = this.blockOf.get(record);
    const digits = Array.from(block, byte => hex(byte, 2)).join("");
    return `int ${named.join(" ")}${digits ? ` block ${digits}` : ""}`;
  }

  #cycleWords(entry, record) {
    const kind = this.kinds[entry], address = this.words[WORDS * record + 1] & ADDRESS;
    const step = `${this.nameOf(entry)} ${hex(address, kind <= KIND.inw ? 3 : 5)}`;
    return IS_READ.has(kind) ? step : `${step} ${this.#value(entry, record)}`;
  }

  #value(entry, record) {
    return hex(this.words[WORDS * record + 2] & 0xffff, this.kinds[entry] % 2 ? 2 : 4);
  }

  /** What a read has answered in the machine; null of other steps, and of a read that was refused. */
  expectedOf(entry) {
    const record = this.records[entry];
    if (record === HEAD || !IS_READ.has(this.kinds[entry])) return null;
    return this.words[WORDS * record + 1] & REFUSED ? null : this.#value(entry, record);
  }

  /** Where the instruction of a step stands: { segment, offset, text }; null of the first lines. */
  placeOf(entry) {
    const record = this.records[entry], { words } = this;
    if (record === HEAD || WORDS * record >= words.length) return null;
    const place = words[WORDS * record + 3];
    const isCall = this.kinds[entry] === KIND.int || words[WORDS * record + 1] >>> KIND_SHIFT === CALL;
    const segment = isCall ? place >>> 16 : words[WORDS * record + 2] >>> 16;
    const offset = isCall ? place & 0xffff : place;
    return { segment, offset, text: this.instructionAt(segment, offset) };
  }

  /** How many records there are until after so many steps. */
  recordsBefore(steps) {
    const step = steps - 1, { first, size, isBlock } = this.runOf(step), entry = this.entryOf(step);
    const record = this.records[entry];
    if (record === HEAD) return 0;
    if (this.kinds[entry] === KIND.advance) return Math.min(record, this.words.length / WORDS);
    // A call has two records.
    const width = this.kinds[entry] === KIND.int ? 2 : 1;
    return record + width + (isBlock ? Math.floor((step - first) / size) : 0);
  }

  /** A step's line: its words, what is expected, and the place of its instruction. */
  lineOfEntry(entry) {
    const expected = this.expectedOf(entry), place = this.placeOf(entry);
    const isCycle = this.kinds[entry] !== KIND.advance;
    const at = place && isCycle ? ` ; ${hex(place.segment, 4)}:${hex(place.offset, 4)}` : "";
    const text = at && place.text ? ` ${place.text}` : "";
    return `${this.wordsOf(entry)}${expected === null ? "" : ` ; = ${expected}`}${at}${text}`;
  }

  /** The text of entries that stand one after the other. */
  textOf(from, count) {
    const lines = [];
    for (let entry = from; entry < from + count; entry++) lines.push(this.lineOfEntry(entry));
    return `${lines.join("\n")}\n`;
  }

  /** How many bytes some entries have. */
  #sizeOf(from, count) {
    let size = 0;
    for (let entry = from; entry < from + count; entry++) {
      const kind = this.kinds[entry], record = this.records[entry];
      size += record === HEAD ? this.headBytes[entry].length
        : Encoder.size(kind, kind === KIND.int ? this.blockOf.get(record).length : 0);
    }
    return size;
  }

  #encode(encoder, from, count) {
    const { words } = this;
    for (let entry = from; entry < from + count; entry++) {
      const kind = this.kinds[entry], record = this.records[entry], at = WORDS * record;
      if (record === HEAD) encoder.raw(this.headBytes[entry]);
      else if (kind === KIND.advance) encoder.advance(words[at] ?? this.dotsDue);
      else if (kind === KIND.int) encoder.call(this.#registersOf(record), this.blockOf.get(record));
      else encoder.cycle(kind, words[at + 1] & ADDRESS, words[at + 2]);
    }
  }

  /** The bytes of entries, all of them taken so many times, as a script of their own. */
  bytesOf(from, count, turns = 1) {
    const isBlock = turns > 1, size = this.#sizeOf(from, count) + (isBlock ? BLOCK_BYTES : 0);
    const encoder = new Encoder(MAGIC + size, isBlock ? 2 : 1);
    if (isBlock) encoder.repeat(turns);
    this.#encode(encoder, from, count);
    if (isBlock) encoder.end();
    return encoder.bytes;
  }

  /** The bytes of the whole script. */
  get bytes() {
    const size = this.runs.reduce((sum, run) =>
      sum + this.#sizeOf(run.from, run.size) + (run.isBlock ? BLOCK_BYTES : 0), 0);
    const encoder = new Encoder(MAGIC + size, this.hasBlocks ? 2 : 1);
    for (const { count, from, size: entries, isBlock } of this.runs) {
      if (isBlock) encoder.repeat(count);
      this.#encode(encoder, from, entries);
      if (isBlock) encoder.end();
    }
    return encoder.bytes;
  }

  /** The whole text. */
  get text() {
    const parts = this.hasBlocks ? ["version 2\n"] : [];
    for (const { count, from, size, isBlock } of this.runs) {
      const steps = this.textOf(from, size);
      parts.push(isBlock ? `repeat ${count}\n${steps}end\n` : steps);
    }
    return parts.join("");
  }
}

/** The bytes of the first lines' steps, as the module reads them. */
function bytesOfHead(adapter, head) {
  const script = adapter.assemble(`${head.join("\n")}\n`), { starts } = new Operations(script, head.length);
  return Array.from(starts, (start, i) => script.slice(start, starts[i + 1] ?? script.length));
}

/** A recording as the page's sessions take it: { outline, script }; the bytes are made where needed. */
export function judgedRecording(adapter, recording) {
  let bytes = null;
  recording.headBytes = bytesOfHead(adapter, recording.head);
  return {
    outline: recording,
    get script() {
      bytes ??= recording.bytes;
      return bytes;
    },
  };
}
