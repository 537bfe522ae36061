// The module's memory as the page has it: addresses of 32 bits without a sign, lengths of 8 bytes.
import assert from "node:assert/strict";
import test from "node:test";
import { checkedExamples } from "../run/checking.js";
import { FONTS, examples, loadAdapter } from "./loading.mjs";

test("memory above two GiB is used as that below", async () => {
  const adapter = await loadAdapter();
  // Nothing writes into these blocks, so the system gives them no memory.
  const held = [0, 1].map(() => adapter.take(2 ** 30));
  const all = examples().slice(0, 3), told = await checkedExamples(adapter, FONTS, all);
  const { at } = adapter.room("answer", 1);
  assert.ok(at > 2 ** 31, `the answers are at ${at}`);
  assert.deepEqual([told.agree, told.differ], [all.length, 0], told.lines.join("\n"));
  for (const block of held) adapter.give(block);
});

test("memory that is not there is told, and what was taken stays usable", async () => {
  const adapter = await loadAdapter();
  adapter.given("text", FONTS);
  for (const size of [2 ** 32 - 1, 2 ** 32 - 16, 2 ** 32 - 65536]) {
    assert.throws(() => adapter.room("large", size), /The module has no memory left for this/);
  }
  assert.deepEqual(adapter.copied(adapter.room("text", 1).at, FONTS.length), FONTS);
});

test("a length is read from all of its 8 bytes", async () => {
  const adapter = await loadAdapter();
  const words = [7, 0, 0xffffffff, 0, 0x80000001, 3];
  words.forEach((word, i) => adapter.view.setUint32(adapter.lengths + 4 * i, word, true));
  const numbers = [0, 1, 2].map(at => adapter.number(at));
  assert.deepEqual(numbers, [7, 0xffffffff, 3 * 2 ** 32 + 0x80000001]);
});
