// The page's check of its examples, over its own data where the page is built; and that it tells
// what differs.
import assert from "node:assert/strict";
import test from "node:test";
import { checkedExamples } from "../run/checking.js";
import { FONTS, examples, loadAdapter } from "./loading.mjs";

test("all examples agree", async () => {
  const all = examples(), told = await checkedExamples(await loadAdapter(), FONTS, all);
  assert.deepEqual([told.agree, told.differ], [all.length, 0], told.lines.join("\n"));
});

test("an example that expects another answer is told", async () => {
  const told = await checkedExamples(await loadAdapter(), FONTS, [{ name: "wrong", text: "in 3CC ; = 55\n" },
    { name: "right", text: "in 3CC ; = 00" }]);
  assert.deepEqual([told.agree, told.differ, told.expected], [1, 1, 2]);
});

test("fonts that are none are told", async () => {
  await assert.rejects(checkedExamples(await loadAdapter(), FONTS.subarray(1), examples().slice(0, 1)),
    /The font file does not have 9,728 bytes/);
});
