// The steps that rebuild a saved state from power-on lead to the same bytes. So do the cycles that stand in a trace:
// of a state but for its BIOS data, and of a call.
import assert from "node:assert/strict";
import test from "node:test";
import { State } from "../run/state.js";
import { Card } from "../../javascript/zaklimot.js";
import { cyclesOfCall, cyclesTo, rebuildingLines } from "../machine/rebuilt.js";
import { Session } from "../run/session.js";
import { FONTS, loadAdapter, runWhole } from "./loading.mjs";

const adapter = await loadAdapter();

/** The saved bytes after some lines of steps from power-on. */
function savedAfter(lines) {
  const session = runWhole(new Session(adapter, FONTS, lines.join("\n")));
  try {
    assert.equal(session.refused, 0);
    session.seek(session.length);
    return Buffer.from(session.card.save());
  } finally {
    session.close();
  }
}

const int = (ax, bx = 0, cx = 0, dx = 0) => `int ${Object.entries({ ax, bx, cx, dx })
  .map(([name, value]) => `${name}=${value.toString(16).padStart(4, "0")}`).join(" ")}`;
const set = mode => [int(mode), "frame"];

/** What a program may have done before a frame begins. */
const DONE = {
  "nothing": [],
  "a colour of which red and green are written": [...set(0x13), "out 3C8 05", "out 3C9 11", "out 3C9 22"],
  "a colour of which red is read": [...set(0x13), "out 3C7 05", "in 3C9"],
  "a mask of the DAC": [...set(0x13), "out 3C6 7F", "out 3C8 FF"],
  "latches that differ from memory": [...set(0x12), "outw 3C4 0502", "putw A0000 1234", "get A0000",
    "outw 3C4 0F02", "putw A0000 5678"],
  "latches, and chained memory": [...set(0x13), "putw A0004 1234", "get A0005"],
  "an index of the attribute controller": [...set(3), "in 3DA", "out 3C0 33"],
  "the attribute controller amid a palette": [...set(3), "in 3DA", "out 3C0 05", "out 3C0 3F", "out 3C0 31"],
  "memory that is switched off": [...set(0x12), "putw A1000 4321", "out 3C2 E1"],
  "registers that are protected": [...set(3), "outw 3D4 2A01", "outw 3D4 8E11", "out 3D4 0A"],
  "registers that are not": [...set(0x10), "outw 3D4 0E11", "outw 3D4 5A00", "out 3CE 05", "out 3C4 02"],
  "glyphs of eight rows, a page, and its cursor": [...set(3), int(0x1112), int(0x502), int(0x200, 0x200, 0, 0x507),
    int(0x100, 0, 0x407), "putw B8000 1E41", "frame"],
  "glyphs of its own in another table": [...set(3), "outw 3C4 0402", "outw 3C4 0704", "outw 3CE 0005", "outw 3CE 0406",
    "putw A4000 AA55", "outw 3C4 0302", "outw 3C4 0304", "outw 3CE 1005", "outw 3CE 0E06", "outw 3C4 0403"],
  "monochrome": [...set(7), "putw B0000 7041", "outw 3B4 0A0E", "frame", "frame", "frame"],
  "frames before": [...set(0xd), ...Array(37).fill("frame")],
  "writes by the graphics controller": [...set(0x12), "outw 3CE 0205", "outw 3CE F008", "outw 3CE 1803", "get A0100",
    "put A0100 05", "outw 3CE 0900", "outw 3CE 0501", "outw 3CE 0304", "outw 3CE 0A02", "outw 3CE 0B07"],
};

for (const [name, lines] of Object.entries(DONE)) {
  test(`a state is rebuilt: ${name}`, () => {
    const wanted = savedAfter([...lines, "frame"]);
    const found = savedAfter(rebuildingLines(adapter, FONTS, new Uint8Array(wanted)));
    const at = wanted.findIndex((byte, i) => byte !== found[i]);
    assert.equal(at, -1, `the byte ${at} is ${found[at]} and not ${wanted[at]}`);
    assert.equal(found.length, wanted.length);
  });
}

/** The bytes of a saved state but for BIOS data, beam and dots: registers, DAC, latches and planes. */
function held(bytes) {
  const all = Buffer.from(bytes).subarray(40, 263038);
  // The beam's place and its counters.
  all.fill(0, 41 + 26 - 40, 41 + 37 - 40);
  return all;
}

test("the cycles of a trace make a state but for its BIOS data, and tell what each read answers", () => {
  for (const [name, lines] of Object.entries(DONE)) {
    const wanted = savedAfter([...lines, "frame"]), cycles = cyclesTo(adapter, FONTS, new Uint8Array(wanted));
    assert.ok(cycles.every(({ line }) => /^(in|out|put|get)w? /.test(line)), name);
    assert.ok(cycles.every(({ line, read }) => (read !== undefined) === /^(in|get)/.test(line)), name);
    assert.deepEqual(held(savedAfter(cycles.map(({ line }) => line))), held(wanted), name);
  }
});

test("the cycles of a call make what the call leaves", () => {
  const card = new Card(adapter, FONTS), call = (ax, bx, cx, dx) =>
    ({ registers: { ax, bx, cx, dx }, block: new Uint8Array() });
  for (const [ax, bx, cx, dx] of [[0x0e41, 7, 0, 0], [0x0601, 0x1e00, 0, 0x184f], [0x1003, 0, 0, 0], [0x0200, 0, 0, 0x102]]) {
    const begin = savedAfter([...set(3), int(0x0e42, 7)]);
    card.restore(new Uint8Array(begin));
    const cycles = cyclesOfCall(State.of(card), call(ax, bx, cx, dx));
    const found = savedAfter([...set(3), int(0x0e42, 7), ...cycles.map(({ line }) => line)]);
    assert.ok(cycles.length > 0);
    assert.deepEqual(held(found), held(savedAfter([...set(3), int(0x0e42, 7), int(ax, bx, cx, dx)])), String(ax));
  }
  card.close();
});
