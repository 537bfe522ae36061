// Memory: ten thousand cards one after the other take as much as one, and cards that nobody closes are
// closed when they are collected, which the console tells.
import assert from "node:assert/strict";
import test from "node:test";
import { spawnSync } from "node:child_process";
import { Library, OutOfMemory, load } from "../zaklimot.js";

const CARDS = Number(process.env.ZAKLIMOT_LEAKED ?? 10_000);
const ENTRY = new URL("../zaklimot.js", import.meta.url).href;
/** How the module's memory is used by a card, from when it is opened until it is closed. */
function used(library, i) {
  const card = library.open();
  card.int10({ ax: 0x13 });
  card.put(0xA0000, i & 255);
  if (i % 100 === 0) {
    card.frameUpdate();
    card.restore(card.save());
    card.rebuild();
  }
  card.close();
}

test(`${CARDS} cards, one after the other, take as much memory as one`, async () => {
  const library = await load();
  used(library, 0);
  const size = library.calls.memory.buffer.byteLength;
  for (let i = 1; i < CARDS; i++) used(library, i);
  assert.equal(library.calls.memory.buffer.byteLength, size);
});

test("as many cards are open at once as memory has room for; then they say so, and go on", async () => {
  const { fonts, calls } = await load(), module = await WebAssembly.compile(await moduleBytes());
  const small = await Library.of(module, fonts), cards = [];
  assert.notEqual(small.calls, calls);
  // All the memory that four gibibytes have, in blocks that nothing is written into.
  const held = [];
  for (let size = 2 ** 30; size >= 2 ** 23; size /= 2) {
    try {
      for (;;) held.push(small.take(size));
    } catch (error) {
      assert.ok(error instanceof OutOfMemory, String(error));
    }
  }
  small.give(held.pop());
  try {
    for (;;) cards.push(small.open());
  } catch (error) {
    assert.ok(error instanceof OutOfMemory, String(error));
    assert.equal(error.statusName, "ZAK_OUT_OF_MEMORY");
  }
  assert.ok(cards.length >= 1, `${cards.length} cards`);
  cards[0].int10({ ax: 3 });
  const count = cards.length;
  for (const card of cards.splice(0)) card.close();
  for (let i = 0; i < count; i++) cards.push(small.open());
  assert.throws(() => small.open(), OutOfMemory);
});

async function moduleBytes() {
  const { readFile } = await import("node:fs/promises");
  return readFile(new URL("../zaklimot.wasm", import.meta.url));
}

/** What a program writes as a module, and on its console of errors. */
function ran(program) {
  const words = ["--expose-gc", "--input-type=module", "--eval", program];
  return spawnSync(process.execPath, words, { encoding: "utf-8", timeout: 300_000 });
}

test("a card that is forgotten is closed when it is collected, and the console says so", () => {
  const done = ran(`
    import { load } from ${JSON.stringify(ENTRY)};
    const library = await load();
    const sizes = [];
    for (let round = 0; round < 40; round++) {
      (() => library.open().frameUpdate())();
      for (let wait = 0; wait < 3; wait++) { gc(); await new Promise(done => setTimeout(done)); }
      sizes.push(library.calls.memory.buffer.byteLength);
    }
    console.log(sizes.at(-1) === sizes[5]);
  `);
  assert.equal(done.stdout, "true\n", done.stderr);
  assert.match(done.stderr, /^zaklimot: a card was not closed: call its close\(\), or open it by `using`\.$/m);
});

test("a card that is closed, or goes with its library, is collected without a word", () => {
  const done = ran(`
    import { load } from ${JSON.stringify(ENTRY)};
    const library = await load();
    let gone = 0;
    const registry = new FinalizationRegistry(() => gone++), kept = {};
    for (let round = 0; round < 10; round++) {
      (() => library.open().close())();
      kept.library = await load({});
      registry.register(kept.library, null);
      kept.cards = [kept.library.open(), kept.library.open()];
      // An engine keeps what was referred to weakly until its job is done.
      await new Promise(done => setTimeout(done));
      delete kept.library;
      delete kept.cards;
      await new Promise(done => setTimeout(done));
      for (let wait = 0; wait < 3; wait++) { gc(); await new Promise(done => setTimeout(done)); }
    }
    console.log(gone >= 8);
  `);
  assert.deepEqual([done.stdout, done.stderr], ["true\n", ""]);
});

test("a card that is forgotten by a module that has trapped ends no program", () => {
  const done = ran(`
    import { Library, load } from ${JSON.stringify(ENTRY)};
    const { calls, fonts } = await load();
    const trap = () => { throw new WebAssembly.RuntimeError("unreachable"); };
    const broken = new Library({ exports: { ...calls, zak_close: trap } }, fonts);
    for (let round = 0; round < 5; round++) {
      (() => { broken.open(); })();
      for (let wait = 0; wait < 3; wait++) { gc(); await new Promise(done => setTimeout(done)); }
    }
    console.log(broken.version.major);
  `);
  assert.deepEqual([done.status, done.stdout], [0, "1\n"], done.stderr);
  assert.match(done.stderr, /a card was not closed/);
});
