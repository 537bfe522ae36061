// What is wrong is told, and changes nothing: closed cards, other types, numbers out of range, memory
// that grows under views, and bytes whose buffer went elsewhere.
import assert from "node:assert/strict";
import test from "node:test";
import { Card, Closed, Library, Refusal, STATUS, ScriptError, StateError, ZaklimotError, load } from "../zaklimot.js";

const library = await load();
const opened = () => library.open();
const NUMBERS = {
  out: [[0x3C4, 0xFFFF], [2, 0xFF]], outWord: [[0x3C4, 0xFFFF], [2, 0xFFFF]], in: [[0x3DA, 0xFFFF]],
  inWord: [[0x3C4, 0xFFFF]], put: [[0xA0000, 0xFFFFFFFF], [1, 0xFF]], putWord: [[0xA0000, 0xFFFFFFFF], [1, 0xFFFF]],
  get: [[0xA0000, 0xFFFFFFFF]], getWord: [[0xA0000, 0xFFFFFFFF]], advance: [[1, 0xFFFFFFFF]],
  tryOut: [[0x3C4, 0xFFFF], [2, 0xFF]], tryOutWord: [[0x3C4, 0xFFFF], [2, 0xFFFF]], tryIn: [[0x3DA, 0xFFFF]],
  tryInWord: [[0x3C4, 0xFFFF]], tryPut: [[0xA0000, 0xFFFFFFFF], [1, 0xFF]],
  tryPutWord: [[0xA0000, 0xFFFFFFFF], [1, 0xFFFF]], tryGet: [[0xA0000, 0xFFFFFFFF]],
  tryGetWord: [[0xA0000, 0xFFFFFFFF]], tryAdvance: [[1, 0xFFFFFFFF]],
  fillBytes: [[0xA0000, 0xFFFFFFFF], [1, 0xFF], [2, 0xFFFFFFFF]],
  moveBytes: [[0xA0000, 0xFFFFFFFF], [0xA1000, 0xFFFFFFFF], [2, 0xFFFFFFFF]], colour: [[1, 0xFF]],
  plane: [[0, 3], [0, 0xFFFF], [1, 65536]], cell: [[0, 0xFF], [0, 0xFF], [0, 0xFF]],
  pixel: [[0, 0xFFFF], [0, 0xFFFF], [0, 0xFF]], cursor: [[0, 0xFF]], showDac: [[1, 0xFF]],
  showPlane: [[0, 3], [0, 0xFFFF], [1, 256]], explainPut: [[0xA0000, 0xFFFFFFFF], [1, 0xFF]],
  explainGet: [[0xA0000, 0xFFFFFFFF]], saveFixed: [[7342978, 0xFFFFFFFF]],
};

test("a number out of range is never cut, and what is no number is told", () => {
  const card = opened();
  card.int10({ ax: 0x13 });
  const before = card.save();
  for (const [name, parameters] of Object.entries(NUMBERS)) {
    const right = parameters.map(([value]) => value);
    parameters.forEach(([, most], i) => {
      const wrong = value => () => card[name](...right.map((one, k) => (k === i ? value : one)));
      for (const value of [-1, most + 1, 0.5, NaN, Infinity]) {
        assert.throws(wrong(value), RangeError, `${name}, argument ${i}: ${value}`);
      }
      const others = ["1", null, true, {}, [1], { valueOf: () => 1 }];
      for (const value of others) assert.throws(wrong(value), TypeError, `${name}, argument ${i}: ${typeof value}`);
      assert.throws(wrong(1n), TypeError, name);
    });
  }
  for (const name of ["int10", "tryInt10", "block", "cycles", "tryCycles"]) {
    for (const registers of [undefined, null, 0x13, "ax", [0x13], { AX: 0x13 }, { ax: 3, es: 0 }]) {
      assert.throws(() => card[name](registers), /^TypeError: the registers are to be an object, as/);
    }
  }
  assert.equal(card.int10({ ...card.int10({ ax: 0x0F00 }), ax: 0x0F00 }).ax, 0x2813);
  for (const registers of [{ ax: 65536 }, { bx: -1 }, { cx: 1.5 }, { dx: NaN }]) {
    assert.throws(() => card.int10(registers), RangeError);
  }
  assert.throws(() => card.explainDot({ line: 65536 }), RangeError);
  assert.throws(() => card.runOn("frame", { first: -1 }), RangeError);
  assert.deepEqual(card.save(), before);
  card.close();
});

test("bytes are arrays of bytes", () => {
  const card = opened();
  card.int10({ ax: 0x13 });
  const state = card.save();
  for (const other of ["41", [1, 2], new Uint16Array(2), new ArrayBuffer(4), null, 3]) {
    for (const name of ["restore", "restoreFixed", "saveInto"]) {
      assert.throws(() => card[name](other), TypeError, `${name} ${other}`);
    }
    assert.throws(() => card.putBytes(0xA0000, other), TypeError);
    assert.throws(() => card.int10({ ax: 0x1300 }, other ?? {}), TypeError);
    assert.throws(() => library.print(other), TypeError);
    assert.throws(() => library.open(other), TypeError);
    if (typeof other !== "string") assert.throws(() => library.assemble(other), TypeError);
    if (typeof other !== "string") assert.throws(() => card.runOn(other), TypeError);
    if (typeof other !== "number") assert.throws(() => card.getBytes(0xA0000, other), TypeError);
  }
  assert.throws(() => new Library({ exports: {} }), TypeError);
  const spent = { ...library.calls, page_take: () => 0 }, older = { ...library.calls, zak_version: () => 0x10005 };
  assert.throws(() => new Library({ exports: spent }), RangeError);
  for (const none of [undefined, null, {}, 3]) assert.throws(() => new Card(none), /await Card\.open/);
  assert.throws(() => new Library({ exports: library.calls }).open(), /no fonts are given/);
  assert.throws(() => new Library({ exports: older }), TypeError);
  assert.equal(card.putBytes(0xA0000, Uint8ClampedArray.of(1, 2)), 2);
  assert.equal(card.putBytes(0xA0000, Buffer.from([3, 4])), 2);
  assert.deepEqual([...card.getBytes(0xA0000, 2)], [3, 4]);
  card.restore(state);
  card.close();
});

test("bytes whose buffer went elsewhere are told", () => {
  const card = opened(), bytes = new Uint8Array(8), empty = new Uint8Array(0);
  structuredClone(bytes.buffer, { transfer: [bytes.buffer] });
  assert.throws(() => card.putBytes(0xA0000, bytes), TypeError);
  assert.throws(() => card.restore(bytes), TypeError);
  assert.equal(card.putBytes(0xA0000, empty), 0);
  card.close();
});

test("pixels that were sent elsewhere are made anew", () => {
  const card = opened();
  card.int10({ ax: 0x13 });
  for (const name of ["frame", "frameUpdate"]) {
    const first = card[name](), { buffer } = first.pixels;
    assert.equal(first.pixels.length, 4 * 320 * 200);
    structuredClone(buffer, { transfer: [buffer] });
    const next = card[name]();
    assert.equal(next.pixels.length, 4 * 320 * 200, name);
    assert.deepEqual([...next.pixels.slice(0, 4)], [0, 0, 0, 255]);
    if (name === "frameUpdate") assert.deepEqual([next.first, next.count], [0, 200]);
  }
  card.close();
});

test("views of the module's memory end when it grows, and calls go on", async () => {
  const { fonts } = library, { readFile } = await import("node:fs/promises");
  const own = await Library.of(await readFile(new URL("../zaklimot.wasm", import.meta.url)), fonts);
  const card = own.open();
  card.int10({ ax: 0x13 });
  card.put(0xA0000, 0x0C);
  const kept = card.save(), { words } = card.frameWords(), [first] = words;
  const state = card.saveView();
  card.restore(kept);
  own.take(2 ** 27);
  assert.deepEqual([words.length, state.length], [0, 0]);
  assert.equal(card.get(0xA0000), 0x0C);
  assert.equal(card.tryGet(0xA0000), 0x0C);
  assert.equal(card.frameWords().words[0], first);
  card.restore(kept);
  assert.deepEqual(card.save(), kept);
  card.close();
});

test("a view of the module's memory may be given back to a call, also if memory grows for it", async () => {
  const own = await load({}), cards = [own.open(), own.open()], [card, other] = cards;
  card.int10({ ax: 0x13 });
  card.put(0xA0000, 0x0C);
  const kept = card.save();
  other.restore(card.saveView());
  assert.deepEqual(other.save(), kept);
  // So many bytes, from the state to the memory's end, have no room without growth.
  const { byteOffset } = card.saveView(), { length } = own.bytes;
  assert.equal(card.putBytes(0xA0000, own.bytes.subarray(byteOffset)), 65536);
  assert.ok(own.bytes.length > length, `${length} bytes are enough`);
  assert.deepEqual(card.getBytes(0xA0000, 60000), kept.slice(0, 60000));
  for (const one of cards) one.close();
});

test("a card that is closed says so, and stays closed", () => {
  const card = opened(), fixed = card.saveFixed(7342978), state = card.save();
  card.close();
  assert.equal(card.isOpen, false);
  card.close();
  card[Symbol.dispose]?.();
  const words = { saveInto: [new Uint8Array(8)], restore: [state], restoreFixed: [fixed], int10: [{ ax: 3 }],
    block: [{ ax: 3 }], cycles: [{ ax: 3 }], putBytes: [0xA0000, new Uint8Array(2)], getBytes: [0xA0000, 2 ** 31],
    runOn: ["frame"], explainStep: ["frame"] };
  const others = ["clock", "frame", "frameWords", "frameUpdate", "frameXrgb", "frameRgb", "frameIndexed", "line",
    "frameLines", "peek", "skipFrame", "registers", "beam", "latches", "biosData", "screen", "showRegs", "showBeam",
    "showLatches", "showBda", "showCells", "saveSize", "save", "saveView", "explainDot", "rebuild"];
  const all = { ...words, ...Object.fromEntries(others.map(name => [name, []])),
    ...Object.fromEntries(Object.entries(NUMBERS).filter(([name]) => !name.startsWith("try"))
      .map(([name, parameters]) => [name, parameters.map(([value]) => value)])) };
  for (const [name, given] of Object.entries(all)) assert.throws(() => card[name](...given), Closed, name);
  assert.equal(card.tryOut(0x3C4, 2), STATUS.NO_CARD);
  assert.equal(card.tryIn(0x3DA), -STATUS.NO_CARD);
  for (const name of ["tryFrame", "tryFrameUpdate", "tryExplainDot"]) {
    assert.equal(card[name](), null, name);
    assert.equal(card.status, STATUS.NO_CARD);
  }
  // Another card takes its memory, and nothing reaches it by the one that is closed.
  const next = opened(), before = next.save();
  assert.throws(() => card.int10({ ax: 0x13 }), Closed);
  assert.equal(card.tryPut(0xA0000, 1), STATUS.NO_CARD);
  assert.deepEqual(next.save(), before);
  next.close();
});

test("what is refused has its error, and changes nothing", () => {
  const card = opened();
  const before = card.save();
  for (const [work, kind, status] of [
    [() => card.in(0x123), Refusal, "NOT_DECODED"], [() => card.put(0xA0000, 1), Refusal, "NOT_DECODED"],
    [() => card.int10({ ax: 0x0E41 }), Refusal, "NO_MODE"], [() => card.int10({ ax: 4 }), Refusal, "BAD_MODE"],
    [() => card.advance(0xFFFFFFFF), Refusal, "TOO_FAR"], [() => card.cell(0, 0), ZaklimotError, "NO_SCREEN"],
    [() => card.putBytes(0xFFFFFFFF, new Uint8Array(2)), ZaklimotError, "BAD_ARGUMENT"],
    [() => card.getBytes(0xFFFFFFFF, 2 ** 31), ZaklimotError, "BAD_ARGUMENT"],
    [() => card.plane(3, 65535, 2), ZaklimotError, "BAD_ARGUMENT"],
    [() => card.restore(before.subarray(1)), StateError, "STATE_MAGIC"],
    [() => card.restore(before, new Uint8Array(1)), StateError, "STATE_LENGTH"],
    [() => card.restoreFixed(new Uint8Array(300000)), StateError, "STATE_CHECKSUM"],
    [() => card.saveFixed(5), ZaklimotError, "NO_ROOM"],
    [() => card.saveInto(new Uint8Array(5)), ZaklimotError, "NO_ROOM"],
    [() => library.assemble("frame\nfrme"), ScriptError, "BAD_LINE"],
    [() => library.print(new Uint8Array(3)), ScriptError, "BAD_MAGIC"],
    [() => card.runOn("frame\nfrme"), ScriptError, "BAD_LINE"],
    [() => library.open(new Uint8Array(3)), ZaklimotError, "FONT_SIZE"],
    [() => card.explainStep("frame", 1), ZaklimotError, "BAD_ARGUMENT"],
  ]) {
    assert.throws(work, error => {
      assert.ok(error instanceof kind && error instanceof ZaklimotError, String(error));
      assert.equal(error.status, STATUS[status], String(work));
      assert.equal(error.statusName, `ZAK_${status}`);
      assert.equal(`${error.statusName}: ${error.sentence}`, library.statusText(error.status));
      return true;
    });
  }
  assert.throws(() => library.assemble("frame\nfrme"), { place: 2, name: "ScriptError", message: /^line 2: / });
  assert.deepEqual(card.save(), before);
  assert.equal(card.tryPut(0xA0000, 1), STATUS.NOT_DECODED);
  assert.equal(card.tryInt10({ ax: 4 }), null);
  assert.equal(card.status, STATUS.BAD_MODE);
  card.close();
});

test("a report with less room than it needs says so; without a room it is as long as it is", async () => {
  // A library of its own, whose memory has no longer room from before.
  const card = (await load({})).open(), twice = `show beam\nint ax=3${"\nframe".repeat(14)}`;
  assert.throws(() => card.runOn(twice, { room: 100 }), { status: STATUS.NO_ROOM });
  const next = opened(), { report, taken } = next.runOn(twice);
  assert.equal(taken, 16);
  assert.ok(report.length > 14 * 720 * 400 * 3, `${report.length} bytes`);
  assert.equal(Buffer.compare(report, library.run(twice)), 0);
  for (const one of [card, next]) one.close();
});

test("cards of two libraries are apart, and so are those of one", async () => {
  const other = await load({}), cards = [opened(), opened(), other.open(), await Card.open()];
  assert.notEqual(other, library);
  assert.equal(cards[3].library, library);
  cards.forEach((card, i) => {
    card.int10({ ax: 0x13 });
    card.put(0xA0000, i);
  });
  assert.deepEqual(cards.map(card => card.get(0xA0000)), [0, 1, 2, 3]);
  const pictures = cards.map(card => card.frameUpdate().pixels);
  assert.equal(new Set(pictures).size, 4);
  assert.equal(new Set(pictures.map(pixels => pixels.subarray(0, 3).join())).size, 4);
  for (const card of cards) card.close();
});

test("a script that has gone elsewhere is not found, and a later load tries again", async () => {
  await assert.rejects(load({ module: new Uint8Array(3) }), WebAssembly.CompileError);
  await assert.rejects(load({ fonts: "none" }), TypeError);
  assert.equal(await load(), library);
});
