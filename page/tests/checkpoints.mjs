// Checkpoints are kept in parts, which those that are alike share, and come out as they went in.
import assert from "node:assert/strict";
import test from "node:test";
import { joinedBytes } from "../common/bytes.js";
import { Checkpoints } from "../run/checkpoints.js";

const LENGTH = 300000;

function stateOf(...changes) {
  const state = new Uint8Array(LENGTH);
  for (const [at, byte] of changes) state[at] = byte;
  return state;
}

test("a state comes out as it went in, the last one before a step", () => {
  const saved = new Checkpoints(1 << 24), states = new Map();
  for (const at of [0, 10, 5, 30]) {
    const state = stateOf([at, 7], [LENGTH - 1 - at, at], [150000, at]);
    states.set(at, state.slice());
    saved.add(at, state);
    state.fill(99);
  }
  for (const [step, at] of [[0, 0], [4, 0], [5, 5], [9, 5], [10, 10], [29, 10], [30, 30], [1e9, 30]]) {
    const found = saved.before(step);
    assert.equal(found.at, at);
    assert.deepEqual(joinedBytes(found.parts), states.get(at));
  }
  assert.equal(saved.before(-1), undefined);
});

test("parts that are the same as before take no more memory", () => {
  const saved = new Checkpoints(1 << 24);
  saved.add(0, stateOf());
  const first = saved.size;
  assert.ok(first >= LENGTH);
  saved.add(1, stateOf([100000, 1]));
  // One part, and the last one, which is shorter.
  assert.ok(saved.size - first < 3 * 4096, String(saved.size - first));
  saved.add(1, stateOf([5, 5]));
  assert.equal(saved.length, 2);
});

test("states of other lengths are kept whole", () => {
  const saved = new Checkpoints(1 << 24), longer = new Uint8Array(LENGTH + 5000).fill(3, LENGTH);
  saved.add(0, stateOf());
  saved.add(1, longer);
  saved.add(2, stateOf([1, 1]));
  assert.deepEqual(saved.list.map(({ parts }) => joinedBytes(parts).length), [LENGTH, LENGTH + 5000, LENGTH]);
  assert.deepEqual(joinedBytes(saved.before(1).parts), longer);
});

test("where they become too many, every other one goes, and its memory", () => {
  const saved = new Checkpoints(1 << 20);
  for (let at = 0; at < 4 || !saved.isFull; at++) saved.add(at, new Uint8Array(LENGTH).fill(at + 1));
  const { length, size } = saved;
  saved.thin();
  assert.equal(saved.length, Math.ceil(length / 2));
  assert.ok(saved.size < 0.7 * size && !saved.isFull);
  assert.deepEqual(saved.list.map(({ at }) => at % 2), saved.list.map(() => 0));
  assert.deepEqual(joinedBytes(saved.before(2).parts), new Uint8Array(LENGTH).fill(3));
});
