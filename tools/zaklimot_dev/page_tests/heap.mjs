// The module's heap at random, and where its memory is spent: heap.mjs MODULE SMALL
// MODULE has a memory that grows, and SMALL one of 16 MiB.
import { readFileSync } from "node:fs";
import { CARD_SIZE } from "../../../javascript/zaklimot.js";

const ROUNDS = 100_000;
const OK = 0, OUT_OF_MEMORY = 23, FONTS_SIZE = 9728;
// A script of bytes, version 1, with one step: `frame`.
const FRAME = [0x56, 0x47, 0x41, 0x53, 1, 0x0B];
const [module, small] = process.argv.slice(2);

/** The calls of a new instance. */
async function instanceOf(name) {
  const { instance } = await WebAssembly.instantiate(readFileSync(name), {});
  return instance.exports;
}

/** Numbers that only look random, so that each run has the same ones. */
function randomNumbers(seed) {
  let state = seed;
  return most => {
    state = Math.imul(state, 1103515245) + 12345 >>> 0;
    return Math.floor(state / 2 ** 32 * most);
  };
}

const assert = (holds, reason) => {
  if (!holds) throw new Error(reason);
};

/** A block's bytes, all of which have its number. */
function bytesOf(calls, block) {
  return new Uint8Array(calls.memory.buffer, block.at, block.size);
}

/** Blocks of random sizes, taken and given back: none overlaps another. Answers how large memory became. */
function tryBlocks(calls) {
  const random = randomNumbers(1), blocks = [];
  for (let round = 0; round < ROUNDS; round++) {
    if (random(100) < 52) {
      const size = random(20) ? random(300) : random(100_000), at = calls.page_take(size) >>> 0;
      assert(at && at % 16 === 0, `round ${round}: a block of ${size} bytes is at ${at}`);
      const block = { at, size, number: round & 255 };
      bytesOf(calls, block).fill(block.number);
      blocks.push(block);
    } else if (blocks.length) {
      const [block] = blocks.splice(random(blocks.length), 1);
      assert(bytesOf(calls, block).every(byte => byte === block.number), `round ${round}: blocks overlap`);
      calls.page_give(block.at);
    }
  }
  for (const size of [2 ** 32 - 1, 2 ** 32 - 65536]) {
    assert(!calls.page_take(size), `there is a block of ${size} bytes`);
  }
  for (const block of blocks) calls.page_give(block.at);
  return calls.memory.buffer.byteLength;
}

/** What zak_run answers to a script of one frame. */
function ran(calls, fonts, room) {
  new Uint8Array(calls.memory.buffer, room, FRAME.length).set(FRAME);
  const report = room + 64, told = room + 32;
  return calls.zak_run(room, FRAME.length, fonts, FONTS_SIZE, report, 4032, told, told + 8);
}

/** Opens cards until memory is spent, closes them, and does so again: as many open each time. */
function tryCards(calls) {
  const counts = [], fonts = calls.page_take(FONTS_SIZE), room = calls.page_take(4096);
  const block = calls.page_take(8 * CARD_SIZE);
  for (let round = 0; round < 3; round++) {
    new Uint8Array(calls.memory.buffer, block, 8 * CARD_SIZE).fill(0);
    assert(ran(calls, fonts, room) === OK, "a run is refused memory that is there");
    const places = Array.from({ length: 8 }, (_, number) => block + CARD_SIZE * number);
    const answers = places.map(card => calls.zak_open(card, fonts, FONTS_SIZE));
    const opened = answers.filter(status => status === OK).length;
    const expected = places.map((_, number) => number < opened ? OK : OUT_OF_MEMORY);
    assert(String(answers) === String(expected), `cards open with ${answers}`);
    assert(opened >= 1 && opened < 8, `${opened} cards fit`);
    assert(ran(calls, fonts, room) === OUT_OF_MEMORY, "a run has memory where none is left");
    for (const card of places.slice(0, opened)) assert(calls.zak_close(card) === OK, "a card does not close");
    counts.push(opened);
  }
  assert(counts.every(count => count === counts[0]), `cards that open: ${counts}`);
  return counts[0];
}

const grown = tryBlocks(await instanceOf(module)), cards = tryCards(await instanceOf(small));
process.stdout.write(JSON.stringify({ rounds: ROUNDS, grown, cards }));
