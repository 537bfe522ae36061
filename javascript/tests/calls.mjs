// Every call answers what the C library answers, through the package for Python, on random calls.
//
// The library is what that package finds: the file of ZAKLIMOT_LIBRARY, for one, or the folder of
// ZAKLIMOT_DIR. PYTHONPATH leads to the package.
import assert from "node:assert/strict";
import test from "node:test";
import { createHash } from "node:crypto";
import { spawnSync } from "node:child_process";
import { fileURLToPath } from "node:url";
import { ZaklimotError, load } from "../zaklimot.js";
import { NAMES, randomCalls } from "./randomcalls.mjs";
import { Random } from "./random.mjs";

const CARDS = Number(process.env.ZAKLIMOT_CARDS ?? 24), CALLS = 300, SHORT = 64, MOST_OUTPUT = 1 << 28;
const PEER = fileURLToPath(new URL("peer.py", import.meta.url));
const PYTHON = process.env.ZAKLIMOT_PYTHON ?? "python3";

/** A value as both sides tell it. */
function told(value) {
  if (value instanceof Uint8Array || value instanceof Uint8ClampedArray) {
    const buffer = Buffer.from(value.buffer, value.byteOffset, value.length);
    return value.length <= SHORT ? buffer.toString("hex")
      : [value.length, createHash("sha1").update(buffer).digest("hex")];
  }
  if (typeof value === "boolean") return Number(value);
  if (ArrayBuffer.isView(value) || Array.isArray(value)) return Array.from(value, told);
  return value && typeof value === "object" ? Object.values(value).map(told) : value ?? null;
}

const fromHex = text => new Uint8Array(Buffer.from(text, "hex"));
const registersOf = ([ax, bx, cx, dx]) => ({ ax, bx, cx, dx });

/** The rows of a picture of words, as bytes. */
function rowsOf({ words, pitch, width, height }) {
  const rows = new Uint32Array(width * height);
  for (let y = 0; y < height; y++) rows.set(words.subarray(pitch * y, pitch * y + width), width * y);
  return told(new Uint8Array(rows.buffer));
}

const sizeOf = ({ width, height, across, down }) => [width, height, across, down];

/** A state with a byte of another value, or cut off; as it is for a damage of -1. */
function damaged(state, damage) {
  if (damage < 0) return state;
  if (damage % 5 === 0) return state.slice(0, damage % state.length);
  const bytes = state.slice();
  bytes[damage % state.length] ^= 0xFF;
  return bytes;
}

/** A card, and what it has saved. */
class Own {
  states = [];
  saved = [];
  beams = [];

  constructor(library) {
    this.library = library;
    this.card = library.open();
  }

  frame(once) {
    const picture = this.card.frame({ once });
    return [...sizeOf(picture), told(picture.pixels)];
  }

  frameWords(once, opaque) {
    const picture = this.card.frameWords({ once, opaque });
    return [...sizeOf(picture), rowsOf(picture)];
  }

  frameUpdate(once) {
    const picture = this.card.frameUpdate({ once });
    return [...sizeOf(picture), told(picture.pixels), picture.first, picture.count];
  }

  frameXrgb() {
    const picture = this.card.frameXrgb();
    return [picture.width, picture.height, rowsOf(picture)];
  }

  frameIndexed() {
    const { width, height, palette, numbers } = this.card.frameIndexed();
    return [width, height, Array.from(palette), told(numbers)];
  }

  line(opaque) {
    const { number, width, endsFrame, words } = this.card.line({ opaque });
    return [number, width, Number(endsFrame), told(new Uint8Array(words.slice().buffer))];
  }

  clock() {
    const { rate, rateDivisor, ...others } = this.card.clock();
    return [...Object.values(others), rate / rateDivisor];
  }

  beam() {
    this.beams.push(this.card.beam());
    return told(this.beams.at(-1));
  }

  biosData() {
    const { cursorPlaces, ...others } = this.card.biosData();
    return [Array.from(cursorPlaces), ...Object.values(others)];
  }

  save() {
    const into = new Uint8Array(this.card.saveSize());
    assert.equal(this.card.saveInto(into), into.length);
    assert.deepEqual(this.card.saveView(), into);
    this.states.push(into);
    return told(this.card.save());
  }

  restore(which, damage) {
    const state = damaged(this.states[which % this.states.length], damage), half = which % (state.length + 1);
    this.card.restore(state.subarray(0, half), state.subarray(half));
  }

  saveFixed(length) {
    this.saved.push(this.card.saveFixed(length));
    return told(this.saved.at(-1));
  }

  restoreFixed(which, damage) {
    this.card.restoreFixed(damaged(this.saved[which % this.saved.length], damage));
  }

  runOn(text, first, most) {
    const { taken, report } = this.card.runOn(text, { first, most });
    return [taken, told(report)];
  }

  explainStep(text) {
    return told(this.card.explainStep(text));
  }

  explainDot(which) {
    return told(this.card.explainDot(which < 0 ? null : this.beams[which % this.beams.length]));
  }

  getInto(address, count, down) {
    const into = new Uint8Array(count);
    return [this.card.getBytes(address, into, down), told(into)];
  }

  putBytes(address, text, down) {
    return this.card.putBytes(address, fromHex(text), down);
  }

  int10(registers, block) {
    return told(this.card.int10(registersOf(registers), fromHex(block)));
  }

  block(registers) {
    return told(this.card.block(registersOf(registers)));
  }

  cycles(registers, block) {
    return told(this.card.cycles(registersOf(registers), fromHex(block)));
  }

  print(text) {
    return this.library.print(fromHex(text));
  }

  version() {
    return Object.values(this.library.version);
  }

  /** What a call answers, or the number and the place of its error. */
  answer(name, words) {
    try {
      if (this[name]) return this[name](...words) ?? null;
      const owner = this.card[name] ? this.card : this.library;
      return told(owner[name](...words));
    } catch (error) {
      if (!(error instanceof ZaklimotError)) throw error;
      return ["error", error.status, error.place ?? null];
    }
  }
}

/** What the C library answers to a list of calls. */
function answersOfPeer(list) {
  const input = list.map(call => JSON.stringify(call)).join("\n");
  const done = spawnSync(PYTHON, ["-B", PEER], { input, encoding: "utf-8", maxBuffer: MOST_OUTPUT });
  if (done.status !== 0) throw new Error(`${PYTHON} ends with ${done.status ?? done.error}: ${done.stderr}`);
  return done.stdout.trim().split("\n");
}

/** Whether the package for Python finds a library. */
function whyNone() {
  const done = spawnSync(PYTHON, ["-B", "-c", "import zaklimot; zaklimot.library()"], { encoding: "utf-8" });
  const last = (done.stderr ?? "").trim().split("\n").at(-1);
  return done.status === 0 ? false : `no library is found by the package for Python: ${last}`;
}

test("random calls answer what the C library answers", { skip: whyNone() }, async () => {
  const library = await load(), done = new Set(), refused = new Set();
  for (let seed = 1; seed <= CARDS; seed++) {
    const list = randomCalls(new Random(seed), CALLS, seed % 3 === 0), wanted = answersOfPeer(list);
    assert.equal(wanted.length, list.length);
    let own = null;
    list.forEach(([name, ...words], i) => {
      if (name === "open") own = new Own(library);
      const answer = name === "open" ? null : own.answer(name, words);
      const said = `card ${seed}, call ${i}: ${JSON.stringify(list[i]).slice(0, 200)}`;
      assert.deepEqual(JSON.parse(JSON.stringify(answer)), JSON.parse(wanted[i]), said);
      (Array.isArray(answer) && answer[0] === "error" ? refused : done).add(name);
    });
    own.card.close();
  }
  assert.deepEqual(NAMES.filter(name => !done.has(name)), [], "calls that were never done");
  assert.ok(refused.size >= 20, `calls that were refused: ${[...refused].join(", ")}`);
});
