// What jumps.mjs reads in a trace of the browser: what the page works, and what its user waits.
import assert from "node:assert/strict";
import test from "node:test";
import { MARKS, figuresOf, jumpsOf } from "./jumps.mjs";

const PAGE_THREAD = { pid: 7, tid: 7 };
const task = (ts, dur, thread = PAGE_THREAD) => ({ name: "RunTask", ph: "X", ts, dur, ...thread });

/**
 * The marks of a jump at some microseconds, with the processor time at the first and at the last.
 */
function marksAt(times, [first, last]) {
  return MARKS.map((name, i) => ({ name, ph: "I", ts: times[i], tts: i ? last : first, ...PAGE_THREAD }));
}

test("the wait for the frame alone is left out of the own work", () => {
  // Shown at 12 ms in a task that goes on to 13; another task from 14 to 15; the frame's task
  // begins at 20.
  const tasks = [task(0, 1000), task(4000, 9000), task(14000, 1000), task(20000, 5000)];
  const marks = marksAt([500, 12000, 21000, 26000], [100, 9100]);
  assert.deepEqual(jumpsOf([...marks, ...tasks]), [{ whole: 25.5, own: 19.5, processor: 9 }]);
});

test("a wait before the step is shown, or after the frame has begun, is the page's", () => {
  const marks = marksAt([0, 30000, 31000, 50000], [0, 2000]), tasks = [task(0, 100), task(29900, 1200)];
  assert.deepEqual(jumpsOf([...tasks, ...marks]), [{ whole: 50, own: 50, processor: 2 }]);
});

test("tasks of other threads are none of the page's", () => {
  const marks = marksAt([0, 1000, 11000, 12000], [0, 0]);
  const others = [task(0, 12000, { pid: 7, tid: 8 }), task(0, 12000, { pid: 8, tid: 7 })];
  assert.deepEqual(jumpsOf([...marks, ...others, task(0, 1000), task(10500, 1500)]),
    [{ whole: 12, own: 2.5, processor: 0 }]);
});

test("several jumps of a trace that is in no order, and their figures", () => {
  const jumps = Array.from({ length: 21 }, (_, i) => {
    const at = 100000 * i;
    return marksAt([at, at + 500, at + 500, at + 1000 * (i + 1)], [0, 1000]);
  });
  const found = jumpsOf([...jumps].reverse().flat());
  assert.deepEqual(found.map(jump => jump.own), Array.from({ length: 21 }, (_, i) => i + 1));
  assert.deepEqual(figuresOf(found, "own"), { average: 11, most95: 20, most: 21 });
});
