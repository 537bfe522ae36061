// What the panel of writes shows of a step, before it is taken, is what the step then does: the bytes of
// each plane after a write, the value and the latches after a read, for random registers.
import assert from "node:assert/strict";
import test from "node:test";
import { Card } from "../../javascript/zaklimot.js";
import { State } from "../run/state.js";
import { tablesOfStep } from "../explain/cycletable.js";
import { Random, keptBits, stateOf } from "./randomly.mjs";
import { FONTS, loadAdapter } from "./loading.mjs";

const adapter = await loadAdapter(), NAMES = ["put", "putw", "get", "getw"], TRIALS = 2000;
/** The registers that the way of a byte depends on, with the bits that a port takes. */
const USED = { seq: [0, 0, 0x0f, 0, 0x0e], gfx: keptBits("gfx").map((kept, i) =>
  (i === 5 ? kept & ~0x20 : kept)) };
const CALLS = { put: "zak_put", putw: "zak_put_word", get: "zak_get", getw: "zak_get_word" };
const PLANES = [0, 1, 2, 3];

/** Writes some of the registers by chance; the others stay. */
function write(card, random) {
  if (!random.below(8)) card.tryOut(0x3c2, random.below(6) ? 3 | random.byte() : random.byte());
  for (const [group, port] of [["seq", 0x3c4], ["gfx", 0x3ce]]) {
    const i = random.below(USED[group].length);
    card.tryOut(port, i);
    card.tryOut(port + 1, random.byte() & USED[group][i]);
  }
}

function randomStep(random) {
  const name = random.one(NAMES), isWord = name.endsWith("w");
  const place = random.below(50) ? random.one([0xa0000, 0xb0000, 0xb8000, 0xa8000]) + random.below(0x8000)
    : random.one([0xbffff, 0xc0000, 0x9ffff, 0xb7fff, 0xafffe, 0xffffffff, 0]);
  return { name, place, value: isWord ? random.below(65536) : random.byte() };
}

const rowOf = ({ rows }, title) => rows.find(row => row.title === title).cells.map(({ byte }) => byte);
const offsetIn = ({ sentences: [address] }) => parseInt(address.match(/: offset ([0-9A-F]{4}) /)[1], 16);

/** Holds a step's tables to what the card has done. */
function hold(card, { name }, tables, told) {
  const said = JSON.stringify(tables), last = tables.at(-1);
  if (name.startsWith("put")) {
    const offset = offsetIn(last), found = PLANES.map(plane => card.plane(plane, offset, 1)[0]);
    return assert.deepEqual(rowOf(last, "byte after"), found, said);
  }
  const values = tables.map(({ sentences: [, sentence] }) => parseInt(sentence.match(/: ([0-9A-F]{2})\.$/)[1], 16));
  assert.deepEqual([...told].slice(0, tables.length), values, said);
  if (last.rows.some(({ title }) => title === "equal")) {
    const equal = last.rows.find(({ title }) => title === "equal").cells.map(cell => cell?.byte ?? 255);
    assert.equal(equal.reduce((bits, byte) => bits & byte, 255), values.at(-1), said);
  }
  return assert.deepEqual(rowOf(last, "latch after"), [...card.latches()], said);
}

test(`${TRIALS} random reads and writes do what is shown of them`, () => {
  const card = new Card(adapter, FONTS), random = new Random(7), out = adapter.room("cycle", 16), kinds = new Map();
  card.restore(stateOf(card.save(), random, () => 0));
  for (let trial = 0; trial < TRIALS; trial++) {
    write(card, random);
    const step = randomStep(random), tables = tablesOfStep(State.of(card), step), { name, place, value } = step;
    const status = adapter.calls[CALLS[name]](card.address, place, name.startsWith("put") ? value : out.at);
    assert.equal(status !== 0, tables.length === 0, JSON.stringify(step));
    if (!status) hold(card, step, tables, adapter.copied(out.at, 2));
    const kind = status ? "refused" : `${name}: ${tables[0].sentences[1].slice(0, 12)}`;
    kinds.set(kind, (kinds.get(kind) ?? 0) + 1);
  }
  // Four write modes and two read modes, each of byte and word; and refusals.
  assert.equal(kinds.size, 2 * (4 + 2) + 1, [...kinds.keys()].sort().join("\n"));
  card.close();
});

test("the tables of HOST-PATH.md: write mode 0 to 3 of the byte 81", () => {
  const wanted = [[0xff, 0x33, 0x65, 0xcf], [0x0f, 0x33, 0x55, 0xff], [0xff, 0x33, 0x55, 0xff],
    [0x3f, 0x33, 0x65, 0xff]];
  const card = new Card(adapter, FONTS), latches = [0x0f, 0x33, 0x55, 0xff];
  const set = (port, values) => values.forEach(([index, value]) => adapter.calls.zak_out_word(card.address, port,
    index | value << 8));
  card.tryOut(0x3c2, 0xe3);
  set(0x3c4, [[4, 6]]);
  set(0x3ce, [[5, 0], [6, 5], [8, 255]]);
  latches.forEach((byte, plane) => {
    set(0x3c4, [[2, 1 << plane]]);
    card.tryPut(0xa0000, byte);
  });
  card.tryGet(0xa0000);
  set(0x3c4, [[2, 15]]);
  set(0x3ce, [[0, 5], [1, 3], [3, 0x1b], [8, 0xf0]]);
  wanted.forEach((bytes, mode) => {
    set(0x3ce, [[5, mode]]);
    const [table] = tablesOfStep(State.of(card), { name: "put", place: 0xa0000, value: 0x81 });
    assert.deepEqual(rowOf(table, "byte after"), bytes);
  });
  card.close();
});
