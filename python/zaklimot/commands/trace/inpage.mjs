// Runs software on the page's machine without a browser: `node inpage.mjs REQUEST ANSWER`, two files of JSON, which
// inpage.py writes and reads. The trace goes to standard output, in the plain form of docs/TRACES.md, and each screen
// to a file. The same request gives the same bytes. The modules are the page's own; tests load them in the same way.
import { readFileSync, writeFileSync, writeSync } from "node:fs";
import { hex } from "../../../../page/common/bytes.js";
import { Trouble } from "../../../../page/common/trouble.js";
import { Machine, RECORD_BYTES, SPEEDS } from "../../../../page/machine/machine.js";
import { bytesOfKey } from "../../../../page/machine/pckeys.js";
import { isSavedRun, savedRunOf } from "../../../../page/machine/savedrun.js";
import { filesBeside, softwareIn, softwareOf } from "../../../../page/machine/software.js";
import { filesOfZip, isZip } from "../../../../page/machine/zip.js";
import { WIDEST } from "../../../../javascript/zaklimot.js";
import { FONTS, machineParts } from "./parts.mjs";

const SECOND = 1e9;
/** Nanoseconds that run at once, whose cycles there is room for; and that a key is held, and until the next one. */
const SLICE = 5e6, HELD = 5e7;
// Kinds of records, and how each cycle is called: see machine/pc/records.c and page/machine/recording.js.
const KIND_SHIFT = 28, ADDRESS = (1 << 27) - 1, CALL = 9, FRAME = 10, VIDEO = 0x10, WORDS = RECORD_BYTES / 4;
const NAMES = [, "w p", "w p", "r p", "r p", "w m", "w m", "r m", "r m"];

/** Writes all of a text, however slowly it is read. */
function write(text) {
  const bytes = Buffer.from(text);
  for (let at = 0; at < bytes.length;) {
    try {
      at += writeSync(1, bytes, at);
    } catch (error) {
      if (error.code !== "EAGAIN") throw error;
    }
  }
}

/** The line of a record, after its time. */
function lineOf(kind, address, value) {
  const isWord = kind % 2 === 0;
  return `${NAMES[kind]} ${hex(address, kind <= 4 ? 3 : 5)} ${hex(value, isWord ? 4 : 2)} ${isWord ? 2 : 1}\n`;
}

/** A machine that is recorded: its trace goes out as it runs. */
class Recorder {
  screens = [];
  said = [];
  refusals = 0;
  #machine;
  #request;
  #acted = 0;
  #cycles = 0;
  #last = 0;
  /** Dots after the last line; frames whose end is in the trace; those of them that were taken. */
  #dots = 0;
  #frames = 0;
  #taken = new Set();
  #isWanted = false;

  constructor(modules, request) {
    this.#request = request;
    this.#machine = new Machine(modules, FONTS, { frame: () => this.#frame(),
      missing: number => { this.refusals += number === VIDEO ? 1 : 0; } });
    this.#machine.isShowing = false;
  }

  /** Begins as the page does: at a speed, or with the inputs of a saved run. */
  boot({ software, inputs }) {
    this.#machine.boot(software, true);
    if (inputs) this.#machine.inputs = inputs;
    else this.#machine.setSpeed(SPEEDS[this.#request.speed]);
  }

  get #now() {
    return this.#machine.cpu.now();
  }

  get #runs() {
    return this.#machine.stopped === "runs";
  }

  /** Does all that is to be done; the last deed is a screen, which is taken at the end at the latest. */
  run() {
    const { deeds, seconds } = this.#request, end = seconds * SECOND;
    for (const [i, deed] of deeds.entries()) {
      const isDue = this.#wait(deed, end);
      if (!isDue && this.#runs) this.#sayLate(deed, i === deeds.length - 1);
      if (isDue && deed.keys.length) this.#press(deed.keys);
      else this.#takeScreen();
      if (!isDue || !this.#runs) break;
    }
    if (!this.#runs) this.said.push(`the machine stopped after ${this.#seconds} seconds: it ${this.#machine.stopped}`);
    this.refusals += this.#machine.cpu.refusals();
  }

  get #seconds() {
    return (this.#now / SECOND).toFixed(1);
  }

  #sayLate({ keys, told }, isLast) {
    const over = `${this.#request.seconds} seconds were over before it was time for ${told}`;
    this.said.push(isLast && !keys.length ? "the software was still busy when its screen was taken" :
      `${over}: the screen is taken now, and the rest left out`);
  }

  /** Runs until a deed is to be done; whether it came to that before the end. */
  #wait({ at }, end) {
    const isDue = () => (at === null ? this.#isQuiet : this.#now >= at * SECOND);
    while (!isDue()) {
      if (!this.#runs || this.#now >= end) return false;
      this.#step();
    }
    return this.#runs;
  }

  get #isQuiet() {
    const since = this.#now - Math.max(this.#acted, this.#last);
    return !this.#machine.isReplaying && since > this.#request.quiet * SECOND;
  }

  #step(until = this.#now + SLICE) {
    const { cpu } = this.#machine;
    this.#machine.runFrame(until);
    // The end of a frame counts as a cycle, too.
    const cycles = cpu.cycles() - cpu.frames();
    if (cycles !== this.#cycles) this.#last = this.#now;
    this.#cycles = cycles;
    this.#drain();
  }

  #runFor(nanoseconds) {
    const until = this.#now + nanoseconds;
    while (this.#runs && this.#now < until) this.#step(Math.min(until, this.#now + SLICE));
  }

  /** Presses keys one after the other; those of each are held together. */
  #press(keys) {
    for (const parts of keys) {
      const held = {};
      const send = (type, part) => {
        if (part.modifier) held[part.modifier] = type === "keydown";
        const key = held.shiftKey ? part.shifted : part.key;
        for (const [byte, word] of bytesOfKey({ type, code: part.code, key, ...held })) this.#machine.key(byte, word);
      };
      for (const part of parts) send("keydown", part);
      this.#runFor(HELD);
      for (const part of parts.slice().reverse()) send("keyup", part);
      this.#runFor(HELD);
    }
    this.#acted = this.#now;
  }

  /** Takes the screen as the frame under way ends; of a machine that has stopped, as it would end. */
  #takeScreen() {
    const { cpu } = this.#machine, taken = this.#taken.size;
    this.screens.push(this.#now / SECOND);
    this.#isWanted = this.#machine.isShowing = true;
    while (this.#runs && this.#taken.size === taken) this.#step();
    if (this.#taken.size === taken) {
      const dots = this.#machine.drawRest();
      this.#savePicture();
      write(`${Math.floor(cpu.now() / 1000)}+${this.#dots + dots} frame\n`);
    }
    this.#acted = this.#now;
  }

  #frame() {
    if (!this.#isWanted) return;
    this.#isWanted = this.#machine.isShowing = false;
    this.#taken.add(this.#machine.cpu.frames());
    this.#savePicture();
  }

  /** Saves the frame that was drawn last, if there is a picture of it. */
  #savePicture() {
    const { calls, pixels, width, height, shown } = this.#machine;
    if (!shown) return;
    const words = new Uint32Array(calls.memory.buffer, pixels, WIDEST * height), data = Buffer.alloc(3 * width * height);
    for (let y = 0; y < height; y++) {
      for (let x = 0; x < width; x++) data.writeUIntBE(words[WIDEST * y + x] & 0xffffff, 3 * (width * y + x), 3);
    }
    const path = `${this.#request.folder}/.dump.${this.screens.length - 1}.ppm`;
    writeFileSync(path, Buffer.concat([Buffer.from(`P6\n${width} ${height}\n255\n`), data]));
  }

  /** Writes the lines of what was done since. */
  #drain() {
    const machine = this.#machine, { records, blocks } = machine, lines = [];
    let call = 0;
    for (let at = 0; at < records.length; at += WORDS) {
      const [dots, what, value, time] = records.subarray(at, at + WORDS), kind = what >>> KIND_SHIFT;
      this.#dots += dots;
      if (kind === FRAME && !this.#taken.has(++this.#frames)) continue;
      lines.push(`${time}+${this.#dots} `);
      this.#dots = 0;
      if (kind === CALL) {
        const registers = [value, records[at + WORDS + 2]].map(pair => `${hex(pair >>> 16, 4)} ${hex(pair & 0xffff, 4)}`);
        const block = Buffer.from(blocks[call++]).toString("hex").toUpperCase();
        lines.push(`int ${registers.join(" ")}${block && " "}${block}\n`);
        at += WORDS;
      } else lines.push(kind === FRAME ? "frame\n" : lineOf(kind, what & ADDRESS, value & 0xffff));
    }
    this.#dots += machine.cpu.dots_due();
    machine.record(true, true);
    write(lines.join(""));
  }
}

/** What a file is as a run: { software, inputs }, the inputs of a run that was saved alone. */
async function runOf(bytes, { name, rom, chosen }) {
  if (isSavedRun(bytes)) return savedRunOf(bytes);
  if (isZip(bytes)) return { software: { ...await softwareOfZip(bytes, name, chosen), rom } };
  const software = softwareOf(bytes, name);
  if (!software || software.rom) throw new Trouble(`${name} is no program for DOS, and no disk that starts.`);
  return { software: { ...software, rom } };
}

async function softwareOfZip(bytes, name, chosen) {
  const files = await filesOfZip(bytes), found = softwareIn(files), names = found.map(one => one.name).join(", ");
  if (!found.length) throw new Trouble(`In ${name} nothing runs: no program for DOS, and no disk that starts.`);
  const [one, ...others] = chosen ? found.filter(each => each.name === chosen) : found;
  if (!one || others.length) throw new Trouble(`--start names what runs of ${name}: ${names}`);
  return { ...one.software, files: filesBeside(files, one.name) };
}

async function main([request, answer]) {
  const given = JSON.parse(readFileSync(request, "utf-8"));
  const [bytes, rom] = [given.file, given.rom].map(path => path && new Uint8Array(readFileSync(path)));
  const run = await runOf(bytes, { ...given, rom });
  if (run.inputs && given.isTyped) throw new Trouble(`${given.name} is a saved run, which has its keys, speed and ROM`);
  const recorder = new Recorder((await machineParts()).modules, given);
  recorder.boot(run);
  recorder.run();
  const { screens, said, refusals } = recorder;
  writeFileSync(answer, JSON.stringify({ screens, said, refusals }));
}

main(process.argv.slice(2)).catch(error => {
  process.stderr.write(error instanceof Trouble ? `${error.message}\n` : `${error.stack}\n`);
  process.exitCode = 1;
});
