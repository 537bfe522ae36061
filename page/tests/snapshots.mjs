// The snapshots of a run: they never take more bytes than they may, the newest stand close together and the oldest far
// apart, and from them the machine comes to any moment of its run as it was.
import assert from "node:assert/strict";
import { createHash } from "node:crypto";
import test from "node:test";
import { setFlagsFromString } from "node:v8";
import { runInNewContext } from "node:vm";
import { Machine } from "../machine/machine.js";
import { Snapshots } from "../machine/snapshots.js";
import { FONTS, machineParts } from "./loading.mjs";

const SECOND = 1e9, MIB = 1 << 20, FRAMES = 35, GROUPS = ["ram", "store", "front", "back", "state"];
const { modules, programs } = await machineParts();
const { bytes: plasma } = programs.find(({ name }) => name === "plasma.com");
setFlagsFromString("--expose-gc");
const collect = runInNewContext("gc");

/** Bytes that hexadecimal digits spell. */
const code = digits => Uint8Array.from(digits.match(/[0-9A-F]{2}/gi), byte => parseInt(byte, 16));

/** A floppy whose boot sector writes a number that grows into a sector of 64 cylinders, by turns. */
function writingFloppy() {
  const image = Uint8Array.from({ length: 1474560 }, (_, i) => i >> 9 & 0xff);
  // xor si, si; l: mov ax, 0301; mov bx, 7E00; mov [bx], si; mov cx, si; and cl, 3F; mov ch, cl; mov cl, 2;
  // xor dx, dx; int 13; inc si; jmp l
  image.set(code("31F6 B80103 BB007E 8937 89F1 80E13F 88CD B102 31D2 CD13 46 EBE8"));
  image.set([0x55, 0xaa], 510);
  return image;
}

/** All that a machine's state is, as one text. */
function stateOf(machine) {
  const { cpu, bytes, ram } = machine, store = cpu.store_at(0);
  const registers = new Uint8Array(cpu.memory.buffer, cpu.registers(), 64);
  const sums = [ram, bytes.subarray(store, store + cpu.store_used()), registers, machine.savedState()]
    .map(part => createHash("sha256").update(part).digest("hex"));
  return `${cpu.cycles()} ${cpu.instructions()} ${cpu.now()} ${sums.join(" ")}`;
}

/** The bytes that snapshots hold: each part and each list once, without those that the software has. */
function heldBytes(snapshots, given) {
  const all = [...snapshots], lists = new Set(all.flatMap(one => GROUPS.map(name => one[name])));
  const parts = new Set([...lists].flat()), own = [...parts].filter(({ buffer }) => !given.includes(buffer));
  return own.reduce((sum, { length }) => sum + length, 0) + [...lists].reduce((sum, { length }) => sum + 8 * length, 0);
}

/** Runs software for some seconds with a snapshot in each 35 frames; `seen(machine, snapshots)` after each. */
function runFor(seconds, software, most, seen = () => {}) {
  const machine = new Machine(modules, FONTS);
  machine.isShowing = false;
  machine.boot(software);
  const snapshots = new Snapshots(machine.snapshot(null), most);
  while (machine.cpu.now() < seconds * SECOND) {
    machine.runFrame(seconds * SECOND);
    if (machine.cpu.frames() - snapshots.last.frames < FRAMES) continue;
    snapshots.add(machine.snapshot());
    seen(machine, snapshots);
    if (snapshots.last.frames % 140 < FRAMES) machine.key(0x2a, 0);
  }
  return { machine, snapshots };
}

const SOFTWARE = { "a program that draws": { program: plasma },
  "a boot sector that writes its floppy": { a: writingFloppy() } };

for (const [name, software] of Object.entries(SOFTWARE)) {
  test(`${name}: snapshots within a bound, and the way back to any moment`, () => {
    const most = 6 * MIB, states = new Map(), given = Object.values(software).map(({ buffer }) => buffer);
    const firsts = new Set();
    let peak = 0;
    const { machine, snapshots } = runFor(22, software, most, (one, all) => {
      const { bytes } = all, held = heldBytes(all, given);
      assert.ok(bytes <= most && held <= bytes, `${held} of ${bytes}`);
      assert.ok(bytes < 1.3 * held, `${bytes} of ${held}`);
      peak = Math.max(peak, bytes);
      firsts.add(all.first);
      states.set(one.cpu.now(), stateOf(one));
      assert.equal(all.last.time, one.cpu.now());
    });
    assert.ok(peak > 0.8 * most, `${peak} bytes at most`);
    assert.ok(snapshots.length < states.size / 2, `${snapshots.length} of ${states.size} are left`);
    assert.deepEqual([firsts.size, snapshots.first.frames], [1, 0]);
    const times = [...snapshots].map(({ time }) => time), gaps = times.slice(1).map((time, i) => time - times[i]);
    const last = FRAMES / 70 * SECOND;
    assert.ok(gaps.slice(-3).every(gap => gap < 1.2 * last), "the newest are close to each other");
    assert.ok(Math.max(...gaps.slice(0, 2)) > 3 * last, "the oldest are not");
    for (const [time, wanted] of [...states].filter((_, i) => i % 6 === 0 || i < 3).reverse()) {
      const from = snapshots.until(time);
      assert.ok(from.time <= time);
      machine.restore(from);
      machine.runAgain(time);
      assert.equal(stateOf(machine), wanted, `at ${time} from ${from.time}`);
    }
  });
}

test("what snapshots take is what they are counted for", () => {
  const seen = [];
  runFor(8, { a: writingFloppy() }, undefined, (_, { bytes }) => {
    collect();
    const { arrayBuffers, heapUsed } = process.memoryUsage();
    seen.push({ bytes, used: arrayBuffers + heapUsed });
  });
  const [first, last] = [seen[0], seen.at(-1)], counted = last.bytes - first.bytes, used = last.used - first.used;
  assert.ok(counted > 2 * MIB, `${counted} bytes`);
  assert.ok(Math.abs(used - counted) < 0.1 * counted, `${used} of ${counted} counted`);
});

test("a large disk costs its snapshots only what was written, and the same disk nothing", () => {
  const disk = new Uint8Array(16 * MIB).map((_, i) => i >> 12 & 0xff | 1);
  disk.set(code("F4EBFD"));
  disk.set([0x55, 0xaa], 510);
  const machine = new Machine(modules, FONTS);
  machine.boot({ c: disk });
  const snapshots = new Snapshots(machine.snapshot(null));
  assert.ok(snapshots.bytes < 1.5 * MIB, `${snapshots.bytes} at the start`);
  machine.run(SECOND / 100);
  const before = snapshots.bytes;
  snapshots.add(machine.snapshot());
  assert.ok(snapshots.bytes - before < 0.8 * MIB, `${snapshots.bytes - before} beside it`);
});

test("floppies that are put in by turns after a way back are told apart", () => {
  const floppy = first => Uint8Array.from({ length: 163840 }, (_, i) => first + (i >> 9) & 0xff);
  const machine = new Machine(modules, FONTS);
  machine.boot({ program: code("EBFE") });
  const begin = machine.snapshot(null), after = first => {
    machine.restore(begin);
    machine.forgetLater();
    machine.changeFloppy(1, floppy(first));
    machine.run(machine.cpu.now() + SECOND / 100);
    return [machine.snapshot(), stateOf(machine)];
  };
  const made = [10, 200, 10, 20].map(after);
  for (const [snapshot, wanted] of made) {
    machine.restore(snapshot);
    assert.equal(stateOf(machine), wanted);
  }
});

/** A snapshot of a time that takes so many bytes, of which it shares some with any other. */
const fake = (time, bytes, shared = 0) => ({ time, bytesBeside: other => bytes - (other ? shared : 0) });
const timesOf = snapshots => [...snapshots].map(({ time }) => time);

test("snapshots have their places by their times, and the bytes of those that are there", () => {
  const snapshots = new Snapshots(fake(0, 10), 1000);
  for (const time of [30, 10, 20]) snapshots.add(fake(time, 10, 4));
  assert.deepEqual([timesOf(snapshots), snapshots.bytes, snapshots.length], [[0, 10, 20, 30], 28, 4]);
  assert.deepEqual([-1, 0, 9, 10, 25, 99].map(time => snapshots.until(time).time), [0, 0, 0, 10, 20, 30]);
  snapshots.forgetAfter(20);
  assert.deepEqual([timesOf(snapshots), snapshots.bytes], [[0, 10, 20], 22]);
  snapshots.forgetAfter(-1);
  assert.deepEqual([timesOf(snapshots), snapshots.bytes, snapshots.first, snapshots.last],
    [[0], 10, snapshots.first, snapshots.first]);
});

test("the first, the last and those that are held stay as long as others can go", () => {
  const snapshots = new Snapshots(fake(0, 10), 55);
  for (let time = 100; time < 2000; time += 100) snapshots.add(fake(time, 10));
  const [first, ...others] = timesOf(snapshots);
  assert.deepEqual([first, others.length, others.at(-1), others.at(-2)], [0, 4, 1900, 1800]);
  for (const time of [310, 320]) snapshots.add(fake(time, 10), true);
  assert.deepEqual(timesOf(snapshots).filter(time => time < 400), [0, 310, 320]);
  snapshots.release();
  for (let time = 2000; time < 9000; time += 100) snapshots.add(fake(time, 10));
  assert.ok(!timesOf(snapshots).includes(310));
  // One alone that takes more than all may: it stays, and the first one.
  snapshots.add(fake(9000, 500));
  assert.deepEqual(timesOf(snapshots), [0, 9000]);
});
