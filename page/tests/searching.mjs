// The search in a text and in the steps of a run: against plain ways to find the same.
import assert from "node:assert/strict";
import test from "node:test";
import { StepSearch, TextSearch } from "../editor/searching.js";
import { LongText, MOST_LINES, lineStarts, whyNotEdited } from "../editor/longtext.js";
import { Session } from "../run/session.js";
import { LONG } from "./jumps.mjs";
import { FONTS, examples, loadAdapter, runWhole } from "./loading.mjs";

/** All places of some words, as a search finds them in slices of no time. */
function placesOf(text, words) {
  const search = new TextSearch(text, words);
  let slices = 1;
  while (!search.take(0)) slices++;
  return { slices, search, places: Array.from({ length: search.length }, (_, i) => search.at(i)) };
}

test("all places of some words, in letters of either case", () => {
  const { places } = placesOf("out 3c4\nOUT 3C4 out\n; (out) 3.4\n", "out");
  assert.deepEqual(places, [0, 8, 16, 23]);
  // Words are no pattern.
  assert.deepEqual(placesOf("out 3c4\n; 3.4 (x) [\\", "3.4").places, [10]);
  assert.deepEqual(placesOf("a(b", "(").places, [1]);
  assert.deepEqual(placesOf("; é\u0130x É", "é").places, [2, 6]);
  for (const { text } of examples()) {
    for (const words of ["frame", "int ax=", "3c", "; ", "\n"]) {
      const plain = [], low = text.toLowerCase();
      for (let at = low.indexOf(words); at >= 0; at = low.indexOf(words, at + words.length)) plain.push(at);
      assert.deepEqual(placesOf(text, words).places, plain);
    }
  }
});

test("a long text is searched in slices, and the next find is told from any place", () => {
  const { slices, search, places } = placesOf("frame\n".repeat(200000), "frame");
  assert.ok(slices > 100 && places.length === 200000, `${slices} slices`);
  assert.deepEqual([0, 1, 6, 1199995].map(place => search.numberFrom(place)), [0, 1, 1, 0]);
  assert.deepEqual([0, 1, 6, 1199995].map(place => search.numberFrom(place, true)), [199999, 0, 0, 199999]);
  assert.equal(placesOf("frame", "x").search.numberFrom(0), -1);
});

/** What a search of the steps finds in slices of no time, and how many they are. */
function found(session, words, from, isBack = false) {
  const search = new StepSearch(session, words, from, isBack);
  for (let slices = 1; ; slices++) {
    const told = search.take(0);
    if (told) return { steps: told.steps, slices };
  }
}

test("the next step, and the last, whose words or answer have some words", async () => {
  const adapter = await loadAdapter();
  for (const { text } of examples()) {
    const session = runWhole(new Session(adapter, FONTS, text)), { outline, length } = session;
    for (const words of ["frame", "3d", "ok", "picture 7", "E1", "no such words"]) {
      const has = step => [outline.wordsOf(outline.entryOf(step)), session.answerOf(step)]
        .some(told => told.toLowerCase().includes(words.toLowerCase()));
      for (const from of [0, 1, length >> 1, length]) {
        const all = Array.from({ length }, (_, i) => i), after = i => (from + i) % length;
        const next = all.map(after).find(has), last = all.map(i => (2 * length + from - 2 - i) % length).find(has);
        assert.equal(found(session, words, from).steps, next === undefined ? 0 : next + 1);
        assert.equal(found(session, words, from, true).steps, last === undefined ? 0 : last + 1);
      }
    }
    session.close();
  }
});

test("three million steps are searched in slices that are short", async () => {
  const session = runWhole(new Session(await loadAdapter(), FONTS, `${LONG}show beam\n`));
  const search = new StepSearch(session, "show beam", 0), times = [];
  for (let told = null; !told;) {
    const begun = performance.now();
    told = search.take(8);
    times.push(performance.now() - begun);
    if (told) assert.equal(told.steps, 3000002);
  }
  assert.ok(times.sort((one, other) => one - other)[times.length >> 1] < 20, `${times.length} slices`);
  assert.equal(found(session, "nothing of this", 5).steps, 0);
});

test("which texts can't be edited, in a sentence; and the lines of a text that is shown", () => {
  assert.equal(whyNotEdited("frame\n".repeat(MOST_LINES - 1)), "");
  assert.match(whyNotEdited("frame\n".repeat(MOST_LINES)), /^This text has 300,001 lines, and the page edits/);
  assert.match(whyNotEdited("x".repeat(8000001)), /has 8,000,001 characters/);
  assert.match(whyNotEdited(`\n${"x".repeat(200001)}\nframe`), /has a line of 200,001 characters/);
  assert.equal(whyNotEdited(""), "");
  const text = "a\n\nbc\n", long = Object.assign(Object.create(LongText.prototype), { text, starts: lineStarts(text) });
  assert.deepEqual([1, 2, 3, 4].map(line => long.lineText(line)), ["a", "", "bc", ""]);
  assert.deepEqual([0, 1, 2, 3, 4, 6].map(place => long.lineAt(place)), [1, 1, 2, 3, 3, 4]);
});
