// What the page says of dots, cycles and subjects, in words, and what the watch list keeps.
import assert from "node:assert/strict";
import test from "node:test";
import { GROUPS } from "../script/registers.js";
import { MOST_WATCHES, Watches } from "../explain/watches.js";
import { Session } from "../run/session.js";
import { dotOfSeen } from "../explain/dotsearch.js";
import { lineOfDot, rowsOfDot } from "../explain/dotrows.js";
import { subjectOf } from "../explain/subjects.js";
import { tablesOfStep } from "../explain/cycletable.js";
import { FONTS, loadAdapter, runWhole } from "./loading.mjs";

const adapter = await loadAdapter();

/** What is seen after the last step of a text. */
function seenOf(text) {
  const session = runWhole(new Session(adapter, FONTS, text));
  session.seek(session.length - 1);
  const seen = session.seen(session.length);
  session.close();
  return seen;
}

const rows = (text, line, dot) => {
  const place = { line, dot };
  return Object.fromEntries(rowsOfDot(dotOfSeen(seenOf(text), place), place));
};

test("a dot of text is told", () => {
  const told = rows("int ax=3\nint ax=941 bx=1E cx=1\nadvance 8000", 3, 4);
  assert.deepEqual({ ...told, told: "" }, { dot: "4 of line 3, frame 0", pixel: "4, 3",
    "made by": "text",
    cell: "row 0, column 0, character 41 A, attribute 1E", address: "B8000, B8001",
    offset: "0000 of the planes, counter 0000",
    bytes: "plane 0 41 (character), plane 1 1E (attribute)", glyph: told.glyph,
      "it is": told["it is"],
    colour: told.colour, "DAC entry": told["DAC entry"], told: "" });
  assert.match(told.glyph, /^row 3 of map 0: plane 2 0823 is [0-9A-F]{2}, bit 3$/);
  assert.match(told.told, /last step drew it/);
});

test("a dot of each kind of graphics is told", () => {
  const planar = rows("int ax=12\nput A0028 80\nadvance 800", 0, 320);
  assert.equal(planar.bytes,
    "plane 0 80, bit 7, plane 1 80, bit 7, plane 2 80, bit 7, plane 3 80, bit 7");
  assert.deepEqual([planar.address, planar.colour, planar["DAC entry"]],
    ["A0028", "F → palette F = 3F → number 3F", "3F: 3F 3F 3F"]);
  const packed = rows("int ax=13\nput A0143 25\nout 3C6 0F", 2, 7);
  assert.deepEqual([packed.pixel, packed.bytes, packed.address, packed["DAC entry"].slice(0, 21)],
    ["3, 1, of 2 × 2 dots", "plane 3 25 (colour)", "A0143", "25 & mask 0F = 05: 2A"]);
  assert.match(packed.told, /not drawn yet/);
});

test("a dot in one line", () => {
  const line = (text, place) => lineOfDot(dotOfSeen(seenOf(text), place), place);
  assert.equal(line("int ax=12\nput A0028 80\nadvance 800", { line: 0, dot: 320 }),
    "offset 0028, planes 0:80 1:80 2:80 3:80 · F → palette 3F → DAC 3F");
  assert.equal(line("int ax=13\nput A0143 25", { line: 2, dot: 7 }),
    "pixel 3, 1 · offset 0140, planes 3:25 · byte → DAC 25");
  assert.match(line("int ax=3\nint ax=941 bx=1E cx=1", { line: 3, dot: 4 }),
    /^cell of row 0, column 0: character 41, attribute 1E · glyph row 3 at 0823 · .*palette/);
});

test("overscan and a screen that is off are told", () => {
  const off = rows("int ax=12\nout 3C4 1\nout 3C5 21", 0, 0);
  assert.match(off.colour, /screen is off/);
  assert.match(rows("int ax=12\nin 3DA\nout 3C0 11\nout 3C0 3\nout 3C0 0", 0, 0).colour,
    /^03: overscan/);
});

test("a write and a read as tables", () => {
  const state = seenOf("int ax=12\nput A0000 0F\nget A0000\noutw 3CE F008\noutw 3C4 0402").after;
  const [write] = tablesOfStep(state, { name: "put", place: 0xa0000, value: 0xaa });
  const { title, sentences, heads, rows: stages } = write;
  assert.equal(title, "Write of AA to A0000");
  assert.equal(sentences[0], "A0000 − A0000 = 0000 in the window A0000 to AFFFF: offset 0000 of each plane.");
  assert.equal(sentences[2], "By the map mask 4, plane 2 is written.");
  assert.deepEqual(heads.map(({ isUsed }) => isUsed), [false, false, true, false]);
  const after = stages.find(one => one.title === "byte after");
  assert.deepEqual(after.cells.map(({ bits }) => bits),
    ["0000 1111", "0000 1111", "1010 1111", "0000 1111"]);
  assert.equal(after.cells[2].marked, 0xa0);
  const [read] = tablesOfStep(state, { name: "get", place: 0xa0000, value: 0 });
  assert.match(read.sentences[1], /^Read mode 0: plane 0, by read map select: 0F\.$/);
  assert.deepEqual(tablesOfStep(state, { name: "put", place: 0xb8000, value: 0 }), []);
});

test("subjects: each that a panel names has a title, a value and a search", () => {
  const { after } = seenOf("int ax=3\nint ax=941 bx=1E cx=1");
  const value = words => subjectOf(words).value(after);
  assert.deepEqual(["byte 0 0000", "cell 0000", "register crtc 01", "field crtc 07 6,1",
    "bios columns",
    "colour 3F", "source", "dacmask", "field gfx 05 4"].map(value),
  ["41", "41 1E", "4F", "1", "0050", "3F 3F 3F", "20", "FF", "1"]);
  for (const group of GROUPS) {
    group.registers.forEach((register, i) => {
      for (const words of [`register ${group.id} ${i.toString(16)}`,
        ...register.fields.map(({ bits }) => `field ${group.id} ${i.toString(16)} ${bits}`)]) {
        assert.match(subjectOf(words).value(after), /^[0-9A-F]+$/, words);
      }
    });
  }
  for (const words of ["", "byte 4 0", "byte 0 10000", "register crtc 19", "register none 1",
    "colour 100",
    "field crtc 0 3", "bios none", "bios places 8", "constructor", "dot -1 0", "cell xyz"]) {
    assert.equal(subjectOf(words), null, words);
  }
});

test("a search for a field looks at the field's bits alone", () => {
  const text = "int ax=12\noutw 3CE 0105\noutw 3CE 0905\nout 3C6 0F\nin 3DA\nout 3C0 0\nout 3C0 20";
  const session = runWhole(new Session(adapter, FONTS, text));
  const last = words => {
    const search = subjectOf(words).search(session, session.length, null);
    for (let told = null; ; told = search.take(100)) if (told) return told.steps;
  };
  assert.deepEqual(["field gfx 05 1-0", "field gfx 05 3", "register gfx 05", "dacmask", "source",
    "bios mode"].map(last), [2, 3, 3, 4, 6, 1]);
  session.close();
});

test("the watch list keeps its words, and forgets bad ones", () => {
  const kept = new Map(), storage = { getItem: key => kept.get(key) ?? null,
    setItem: (key, value) => kept.set(key, value) };
  const first = new Watches(() => storage);
  assert.ok(first.add("byte 0 0000") && first.add("byte 0 0000") && first.add("register misc 0"));
  assert.equal(first.add("nonsense"), false);
  const again = new Watches(() => storage);
  assert.deepEqual(again.list.map(({ words }) => words), ["byte 0 0000", "register misc 0"]);
  again.remove("byte 0 0000");
  assert.deepEqual(new Watches(() => storage).list.map(({ words }) => words), ["register misc 0"]);
  for (const value of ["{", "7", "[1, \"colour 999\", \"colour 9\"]"]) {
    kept.set("zaklimot-watches", value);
    assert.ok(new Watches(() => storage).list.length <= 1);
  }
  for (let i = 0; i < 99; i++) again.add(`colour ${i.toString(16)}`);
  assert.equal(again.list.length, MOST_WATCHES);
  const forbidden = new Watches(() => { throw new Error("forbidden"); });
  assert.ok(forbidden.add("colour 1"));
});

test("a watch tells the value before the last step and after it", () => {
  const watches = new Watches(() => { throw new Error("none"); }),
    seen = seenOf("int ax=3\nput B8000 41");
  watches.add("byte 0 0000");
  watches.add("byte 1 0000");
  assert.deepEqual(watches.values(seen).map(({ was, is, isChanged }) => [was, is, isChanged]),
    [["20", "41", true], ["07", "07", false]]);
});
