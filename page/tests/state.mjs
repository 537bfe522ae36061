// What the page reads in a saved state is what the module's own calls tell.
import assert from "node:assert/strict";
import test from "node:test";
import { Session } from "../run/session.js";
import { changedPlanes } from "../run/changes.js";
import { statusOne } from "../panels/registerpanel.js";
import { charactersOf, displayedBeams, shownBytes } from "../explain/frame.js";
import { State, characterWidth, dacEntry } from "../run/state.js";
import { partsOfSaved } from "./saved.mjs";
import { Random, stateOf } from "./randomly.mjs";
import { FONTS, examples, loadAdapter, runWhole } from "./loading.mjs";

const adapter = await loadAdapter();

/** A struct that a call writes, as bytes. */
function structOf(card, call, size, ...more) {
  const room = adapter.room("struct", 65536);
  assert.equal(adapter.calls[call](card.address, ...more, room.at), 0);
  return adapter.copied(room.at, size);
}

function registersOf(card) {
  const bytes = structOf(card, "zak_read_registers", 73), part = (from, count) =>
    bytes.slice(from, from + count);
  return { misc: bytes[0], seqIndex: bytes[1], seq: part(2, 5), crtcIndex: bytes[7], crtc: part(8, 25),
    gfxIndex: bytes[33],
    gfx: part(34, 9), attrIndex: bytes[43], attrIsData: bytes[44] === 1, attr: part(45, 21), dacIndex: bytes[66],
    dacComponent: bytes[67], dacMask: bytes[68], dacWaitingRed: bytes[69], dacWaitingGreen: bytes[70] };
}

function assertState(card) {
  const state = State.of(card), told = registersOf(card), saved = partsOfSaved(state.bytes);
  for (const [name, part] of Object.entries(saved)) assert.deepEqual(state[name], part, name);
  for (const [name, value] of Object.entries(told)) assert.deepEqual(state.registers[name], value, name);
  for (let index = 0; index < 256; index++) {
    assert.deepEqual(state.colour(index), [...structOf(card, "zak_read_colour", 3, index)]);
  }
  assert.deepEqual(state.latches, structOf(card, "zak_read_latches", 4));
  const beam = new DataView(structOf(card, "zak_read_beam", 16).buffer),
    word = at => beam.getUint16(at, true);
  assert.deepEqual(state.beam, { line: word(0), character: word(2), dot: word(4), base: word(6),
    scan: word(8),
    frame: beam.getUint8(12), half: beam.getUint8(13), split: beam.getUint8(14) });
  const bda = new DataView(structOf(card, "zak_read_bda", 32).buffer), data = at => bda.getUint16(at, true);
  assert.deepEqual(state.bda, { columns: data(0), size: data(2), start: data(4),
    places: [0, 1, 2, 3, 4, 5, 6, 7].map(page => data(6 + 2 * page)), type: data(22), crtc: data(24),
      height: data(26),
    mode: bda.getUint8(28), page: bda.getUint8(29), lastRow: bda.getUint8(30) });
  for (let plane = 0; plane < 4; plane++) {
    const room = adapter.room("plane", 65536);
    assert.equal(adapter.calls.zak_read_plane(card.address, plane, 0, room.at, 65536), 0);
    assert.deepEqual(state.plane(plane), adapter.copied(room.at, 65536));
  }
}

for (const { name, text } of examples()) {
  test(`states of ${name}`, () => {
    const session = runWhole(new Session(adapter, FONTS, text));
    for (const part of [0, 0.1, 0.5, 0.9, 1]) {
      session.seek(Math.floor(session.length * part));
      assertState(session.card);
    }
    session.close();
  });
}

test("dots drawn so far are those of the state", () => {
  const session = runWhole(new Session(adapter, FONTS, "int ax=3\nadvance 100000"));
  session.seek(2);
  const state = session.state();
  assert.equal(state.bytes.length, 265086 + 3 * state.drawn.reduce((sum, dots) => sum + dots, 0));
  assert.equal(state.isBegun, true);
  session.close();
});

const SHAPES = { 3: [720, 400, 900, 449], 7: [720, 400, 900, 449], 13: [320, 400, 400, 449],
  16: [640, 350, 800, 449],
  18: [640, 480, 800, 525], 19: [640, 400, 800, 449] };
for (const [mode, [width, height, dots, lines]] of Object.entries(SHAPES)) {
  test(`the window of mode ${Number(mode).toString(16)}`, () => {
    const session = runWhole(new Session(adapter, FONTS, `int ax=${Number(mode).toString(16)}\nframe`));
    session.seek(1);
    const state = session.state(), { registers } = state;
    assert.deepEqual([charactersOf(state) * characterWidth(registers), displayedBeams(state).length],
      [width, height]);
    const { lineDots, lines: count } = state.card.clock();
    assert.deepEqual([lineDots, count], [dots, lines]);
    session.close();
  });
}

/** The picture that a frame shows from here on, without the card's going on. */
function nextFrame(card) {
  const state = card.save(), { rgb } = card.frameLines();
  card.restore(state);
  return rgb;
}

for (const mode of ["3", "D", "12", "13"]) {
  test(`bytes that are shown in mode ${mode}, and no others, change the picture`, () => {
    const text = `int ax=${mode}\n${mode === "3" ? "int ax=100 cx=2000\n" : ""}frame`;
    const session = runWhole(new Session(adapter, FONTS, text)), { card } = session;
    session.seek(session.length);
    const state = card.save(), shown = shownBytes(State.of(card)), plain = nextFrame(card);
    for (let offset = 0; offset < 65536; offset += 251) {
      const other = state.slice();
      for (const plane of mode === "3" ? [1] : [0, 1, 2, 3]) {
        other[874 + 20 + 65536 * plane + offset] = mode === "3" ? 0x17 : 0xff;
      }
      card.restore(other);
      const isSame = Buffer.compare(nextFrame(card), plain) === 0;
      assert.equal(!isSame, shown[offset] === 1, `offset ${offset}`);
    }
    session.close();
  });
}

test("the entry of the DAC that a dot's four bits pick is that of the picture", () => {
  const text = "int ax=12\n" + Array.from({ length: 16 },
    (_, i) => `int ax=${(0x0c00 + i).toString(16)} cx=${i.toString(16)}\n`).join("");
  for (const more of ["", "out 3C6 2F\n", "int ax=1000 bx=1105\n",
    "in 3DA\nout 3C0 34\nout 3C0 3\nout 3C0 30\nout 3C0 81\n",
    "in 3DA\nout 3C0 32\nout 3C0 7\n"]) {
    const session = runWhole(new Session(adapter, FONTS, text + more + "frame"));
    session.seek(session.length - 1);
    const state = session.state(), { rgb } = session.card.frameLines();
    for (let four = 0; four < 16; four++) {
      assert.deepEqual([...rgb.slice(3 * four, 3 * four + 3)], state.colour(dacEntry(state.registers, four)),
        `${more} ${four}`);
    }
    session.close();
  }
});

test("input status 1 is what would be read", () => {
  const changed = "outw 3D4 0111\noutw 3D4 0210\noutw 3D4 0007\n";
  for (const [mode, change] of ["3", "7", "D", "12", "13"].flatMap(one => [[one, ""], [one, changed]])) {
    const port = mode === "7" ? "3BA" : "3DA", steps = `in ${port}\nadvance 2777\n`;
    const text = `version 2\nint ax=${mode}\n${mode === "7" ? "" : change}repeat 170\n${steps}end\n`;
    const session = runWhole(new Session(adapter, FONTS, text)), { outline } = session;
    let count = 0;
    for (let step = 1; step < session.length; step++) {
      if (outline.nameOf(outline.entryOf(step)) !== "in") continue;
      session.seek(step);
      assert.equal(statusOne(session.state()).slice(0, 2), session.answers.get(step),
        `mode ${mode}, step ${step}`);
      count++;
    }
    assert.equal(count, 170);
    session.close();
  }
});

test("the bytes of planes that a step changes are found, each of a word", () => {
  const puts = Array.from({ length: 9 }, (_, i) => `put A000${i} FF`).join("\n");
  const session = runWhole(new Session(adapter, FONTS, `int ax=12\n${puts}\nint ax=3`));
  for (let steps = 1; steps <= session.length; steps++) {
    session.seek(steps - 1);
    const { before, after } = session.seen(steps);
    changedPlanes(before, after).forEach((found, plane) => {
      const [old, now] = [before, after].map(state => state.plane(plane));
      assert.deepEqual(found, Array.from(now.keys()).filter(at => old[at] !== now[at]), `step ${steps}`);
    });
  }
  assert.deepEqual(changedPlanes(session.state(), session.state()), [[], [], [], []]);
  session.close();
});

/** A card with random registers, which give frames of at least a dot, after some dots. */
function randomCards(count, seed) {
  const session = new Session(adapter, FONTS, ""), { card } = session, random = new Random(seed);
  const first = card.save(), list = [];
  for (let i = 0; i < count; i++) {
    const bytes = stateOf(first, random, (group, at) =>
      (group === "misc" ? random.byte() & 0xf3 | random.below(2) << 2
        : random.byte() & (group === "crtc" &&
        at === 7 && random.below(2) ? 0 : 255)), false);
    card.restore(bytes);
    adapter.calls.zak_advance(card.address, random.below(200000));
    list.push(card.save());
  }
  return { session, card, random, list };
}

test("bytes that are shown by random registers, panned too, are those that change the picture",
  () => {
  const { session, card, random } = randomCards(0, 47), first = card.save();
  let shows = 0, hides = 0;
  for (let time = 0; time < 40; time++) {
    const bytes = stateOf(first, random, (group, at) => ({ "crtc 0": 40, "crtc 1": random.below(40),
      "crtc 6": 100, "crtc 7": random.byte() & 0x10, "crtc 18": random.below(90),
        "seq 1": random.below(2),
      "gfx 6": 1, "gfx 5": 0, "attr 18": 15 }[`${group} ${at}`] ?? random.byte()), false);
    for (let i = 0; i < 16; i++) bytes[78 + i] = i;
    bytes[78 + 21] = 0x20;
    bytes[101 + 772] = 255;
    for (let i = 0; i < 768; i++) bytes[101 + i] = i * 7 & 63;
    card.restore(bytes);
    const shown = shownBytes(State.of(card)), plain = nextFrame(card);
    for (let trial = 0; trial < 25; trial++) {
      const from = shown.indexOf(1, random.below(65536)),
        past = shown.indexOf(0, Math.max(0, from));
      // Anywhere, at a byte that is shown, or right behind such bytes.
      const offset = random.one([random.below(65536), from, past + random.below(3)]) & 65535;
      const other = bytes.slice();
      for (const plane of [0, 1, 2, 3]) other[894 + 65536 * plane + offset] = 255;
      card.restore(other);
      const isSame = Buffer.compare(nextFrame(card), plain) === 0;
      // A byte of which a part is beyond the picture's edges may show nothing.
      if (!isSame) assert.equal(shown[offset], 1, `offset ${offset}`);
      if (!isSame) shows++;
      else if (!shown[offset]) hides++;
    }
  }
  assert.ok(shows > 100 && hides > 200, `${shows} ${hides}`);
  session.close();
});
