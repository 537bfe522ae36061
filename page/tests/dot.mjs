// Where the page says that a dot comes from, the adapter has told: the page finds the beam that draws
// it. Each dot of frames of random registers and memory, and of frames in which registers change,
// therefore has the colour of the adapter's own picture.
import assert from "node:assert/strict";
import test from "node:test";
import { Card } from "../../javascript/zaklimot.js";
import { State } from "../run/state.js";
import { addressOf } from "../explain/address.js";
import { bytesOfDot, kindOf, pixelOf } from "../explain/dotrows.js";
import { dotAhead, sourceAt } from "../explain/way.js";
import { differingParts, partsOfDot } from "../explain/dotsearch.js";
import { Random, stateOf } from "./randomly.mjs";
import { FONTS, loadAdapter } from "./loading.mjs";

const adapter = await loadAdapter(), FRAMES = 80;

/** Random values of registers that give frames of not too many dots. */
function giver(random, most = 60) {
  const mode = random.below(3), values = {
    "crtc 0": () => random.below(most), "crtc 1": () => random.below(most + 8),
    "crtc 6": () => random.below(200), "crtc 18": () => random.below(220),
    "crtc 7": () => random.byte() & random.one([0, 0x10, 0x10, 0x52]),
    "crtc 9": () => random.byte() & random.one([0x8f, 0x8f, 0xff]),
    "crtc 24": () => random.below(256), "attr 18": () => (random.below(3) ? 15 : random.byte()),
    "seq 1": () => random.below(2) | (random.below(12) ? 0 : 32) | random.byte() & 0x1c,
    "gfx 5": () => (mode === 2 ? 64 : 0) | random.byte() & (random.below(10) ? 0x1b : 0x7b),
    "gfx 6": () => (mode ? 1 : 0) | random.byte() & 14 };
  return (group, i) => (values[`${group} ${i}`] ?? (() => random.byte()))();
}

/** Has the dots of cells that matter stand at the cursor and in attributes now and then. */
function seasoned(bytes, random) {
  const cursor = random.below(65536);
  if (random.below(2)) [bytes[41 + 14], bytes[41 + 15]] = [cursor >> 8, cursor & 255];
  if (random.below(2)) [bytes[41 + 12], bytes[41 + 13]] = [bytes[41 + 14], bytes[41 + 15]];
  // Frames at which blinking and the cursor change, and a cursor that is high.
  if (random.below(2)) bytes[41 + 26] = random.one([0, 7, 8, 15, 16, 23, 24, 31]);
  if (random.below(2)) [bytes[41 + 10], bytes[41 + 11]] = [0, 31];
  for (let at = 0; at < 65536; at += 3) bytes[894 + 65536 + at] = [1, 9, 0x81, 0x80][at & 3];
  for (let at = 0; at < 65536; at += 4) bytes[894 + at] = 0xc0 + (at >> 2 & 31);
  return bytes;
}

/** Holds the dots of a frame to be drawn that are asked for to what is told of them; how many there are. */
function holdFrame(state, { widths, rgb }, isAsked) {
  let at = 0, count = 0;
  for (let line = 0; line < widths.length; line++) {
    const width = widths[line], drawn = state.drawnOf(line);
    for (let dot = 0; dot < width; dot++, at += 3) {
      if (dot < drawn || !isAsked(line)) continue;
      const made = dotAhead(state, { line, dot });
      assert.ok(made?.isThisFrame, `line ${line}, dot ${dot}`);
      assert.deepEqual(made.source.colour, [...rgb.subarray(at, at + 3)],
        `line ${line}, dot ${dot}, ${JSON.stringify(made.beam)}`);
      count++;
    }
    if (width && isAsked(line)) {
      assert.notEqual(dotAhead(state, { line, dot: width })?.isThisFrame, true, `line ${line} has ${width} dots`);
    }
  }
  return count;
}

/** Asks for some lines of a frame, the first and those about the beam among them. */
const someLines = (random, { beam }) => {
  const from = random.below(16);
  return line => line % 16 === from || line < 2 || Math.abs(line - beam.line) < 2;
};

test(`dots of ${FRAMES} random frames have the colour that is told`, () => {
  const card = new Card(adapter, FONTS), random = new Random(3), first = card.save(), kinds = {};
  for (let time = 0; time < FRAMES; time++) {
    card.restore(seasoned(stateOf(first, random, giver(random)), random));
    const state = State.of(card), picture = card.frameLines();
    const kind = kindOf(dotAhead(state, { line: 0, dot: 0 })?.source ?? { isText: 1 });
    kinds[kind] = (kinds[kind] ?? 0) + holdFrame(state, picture, someLines(random, state));
  }
  console.log(`dots: ${JSON.stringify(kinds)}`);
  assert.ok(Object.values(kinds).length === 3 && Object.values(kinds).every(count => count > 20000));
  card.close();
});

/** Writes registers by chance, as a program does in the midst of a frame. */
function disturb(card, random) {
  const { calls } = adapter;
  for (let i = random.below(4); i >= 0; i--) {
    const number = random.one([0, 1, 6, 7, 8, 9, 10, 11, 12, 13, 14, 15, 18, 19, 20, 23, 24]);
    const values = { 0: random.below(60), 1: random.below(68), 6: random.below(200),
      7: random.byte() & 0x10, 18: random.below(220), 20: random.byte() & 0x5f,
      23: 3 | random.byte() & 0x60 };
    const value = values[number] ?? random.byte();
    calls.zak_out_word(card.address, 0x3d4, number | value << 8);
  }
  calls.zak_out_word(card.address, 0x3c4, 0x0001 | (random.below(2) | (random.below(9) ? 0 : 32)) << 8);
  calls.zak_out(card.address, 0x3c6, random.below(2) ? 255 : random.byte());
  const out = adapter.room("cycle", 16);
  calls.zak_in(card.address, 0x3da, out.at);
  calls.zak_out(card.address, 0x3c0, 16 + random.below(5));
  calls.zak_out(card.address, 0x3c0, random.byte() & 0x3f);
  if (random.below(3)) calls.zak_out(card.address, 0x3c0, 0x20);
}

test("each dot of frames in which registers change has the colour of the state that drew it",
  () => {
  const card = new Card(adapter, FONTS), random = new Random(5), first = card.save();
  let dots = 0;
  for (let time = 0; time < 25; time++) {
    const bytes = stateOf(first, random, giver(random));
    bytes[40] |= 3;
    bytes[41 + 17] &= 127;
    card.restore(bytes);
    for (let part = 0; part < 12; part++) {
      disturb(card, random);
      const state = State.of(card), picture = card.frameLines();
      dots += holdFrame(state, picture, someLines(random, state));
      card.restore(state.bytes);
      adapter.calls.zak_advance(card.address, random.below(Math.ceil(card.clock().frameDots / 6)));
    }
  }
  console.log(`${dots} dots of frames that change`);
  assert.ok(dots > 100000);
  card.close();
});

test("the bytes that a dot is made of, and no others, change what is told of it", () => {
  const card = new Card(adapter, FONTS), random = new Random(9), first = card.save();
  let used = 0;
  for (let time = 0; time < 400; time++) {
    const bytes = seasoned(stateOf(first, random, giver(random)), random);
    card.restore(bytes);
    const state = State.of(card), made = dotAhead(state, { line: random.below(20), dot: random.below(40) });
    if (!made) continue;
    const { source, beam, registers } = made, plane = random.below(4);
    const offset = random.below(3) ? source.address : random.below(65536);
    const isUsed = bytesOfDot(source, registers.attr[18]).some(one =>
      one.plane === plane && one.offset === offset && one.bits);
    const other = bytes.slice();
    other[894 + 65536 * plane + offset] ^= 255;
    card.restore(other);
    const isOther = differingParts(partsOfDot(source), partsOfDot(sourceAt(card, beam))).length > 0;
    if (!isUsed) assert.equal(isOther, false, JSON.stringify({ plane, offset, source }));
    else if (!source.isText) assert.equal(isOther, true, JSON.stringify({ plane, offset, source }));
    if (isUsed) used++;
  }
  assert.ok(used > 50, String(used));
  card.close();
});

test("the address of a byte leads there, and none does where none is told", () => {
  const card = new Card(adapter, FONTS), random = new Random(11), first = card.save();
  let none = 0;
  for (let time = 0; time < 300; time++) {
    card.restore(stateOf(first, random, () => random.byte(), false));
    const state = State.of(card), plane = random.below(4), offset = random.below(65536);
    const address = addressOf(state, plane, offset);
    adapter.calls.zak_out_word(card.address, 0x3c4, 0x0f02);
    adapter.calls.zak_out_word(card.address, 0x3ce, 0xff08);
    const reaches = at => {
      const stages = card.tryExplainPut(at, 0);
      return stages !== null && stages.offset === offset && (stages.planes >> plane & 1) === 1;
    };
    if (address !== null) assert.ok(reaches(address), JSON.stringify({ plane, offset, address }));
    else for (let at = 0xa0000; at < 0xc0000; at += 0x4000) {
      none++;
      for (let more = -4; more < 5; more++) assert.ok(!reaches(at + (offset & 0x3fff) + more));
    }
  }
  assert.ok(none > 100);
  card.close();
});

test("pixels where the screen doubles dots and lines", () => {
  const registers = (nine, clocking) => ({ seq: [0, clocking],
    crtc: Uint8Array.from({ length: 25 }, (_, i) => (i === 9 ? nine : 0)) });
  assert.deepEqual(pixelOf(registers(0x41, 1), "256 colours", 101, 301),
    { x: 150, y: 50, across: 2, down: 2 });
  assert.deepEqual(pixelOf(registers(0x80, 1), "16 colours", 101, 301),
    { x: 301, y: 50, across: 1, down: 2 });
  assert.deepEqual(pixelOf(registers(0x0f, 0), "text", 101, 301),
    { x: 301, y: 101, across: 1, down: 1 });
});
