// Software that only waits for a key costs little: its questions take longer, the page looks at it less often, and
// draws only what blinks.
import assert from "node:assert/strict";
import test from "node:test";
import { Machine } from "../machine/machine.js";
import { Pace } from "../machine/pace.js";
import { FONTS, machineParts } from "./loading.mjs";

const SECOND = 1e9, MILLISECOND = 1e6;
const { modules } = await machineParts();

/** Bytes that hexadecimal digits spell. */
const code = digits => Uint8Array.from(digits.match(/[0-9A-F]{2}/gi), byte => parseInt(byte, 16));
/** mov ax, 3; int 10h before each. */
const BEGIN = "B80300 CD10";
const POLLS = {
  // mov ah, 1; int 16h; jz
  "the BIOS": "B401 CD16 74FA",
  // mov ah, 11h; int 16h; jz
  "the BIOS, of a new keyboard": "B411 CD16 74FA",
  // mov ah, 0Bh; int 21h; test al, al; jz
  "DOS": "B40B CD21 84C0 74F8",
  // cli, or the BIOS takes the key; in al, 64h; test al, 1; jz
  "the keyboard's controller": "FA E464 A801 74FA",
  // mov ah, 6; mov dl, FFh; int 21h; jz
  "DOS, of its console": "B406 B2FF CD21 74F8",
};
const BUSY = {
  // mov ah, 1; int 16h; inc cx; jmp
  "it counts": "B401 CD16 41 EBF9",
  // in al, 64h; inc cx; test al, 1; jz
  "it counts at the keyboard's controller": "E464 41 A801 74F9",
  // mov ah, 1; int 16h; mov dx, 3DAh; in al, dx; mov al, 0; jmp
  "it reads the display": "B401 CD16 BADA03 EC B000 EBF4",
};
// int 20h
const END = "CD20";

function started(digits) {
  const machine = new Machine(modules, FONTS);
  machine.isShowing = false;
  machine.boot({ program: code(BEGIN + digits + END) });
  return machine;
}

/** How many instructions the next second takes. */
function secondOf(machine) {
  const before = machine.cpu.instructions();
  assert.ok(machine.run(machine.cpu.now() + SECOND));
  return machine.cpu.instructions() - before;
}

for (const [name, digits] of Object.entries(POLLS)) {
  test(`a program that asks ${name} for a key, over and over`, () => {
    const machine = started(digits), begin = machine.snapshot(null);
    machine.run(SECOND);
    const count = secondOf(machine);
    assert.ok(count < 200000, `${count} instructions`);
    machine.key(0x1e, 0x1e61);
    const typed = machine.cpu.now();
    machine.run(typed + 8 * MILLISECOND);
    assert.equal(machine.stopped, "ended", "a key is told at once");
    const end = [machine.cpu.now(), machine.cpu.instructions(), machine.cpu.cycles()];
    machine.restore(begin);
    machine.runAgain(typed + 8 * MILLISECOND);
    assert.deepEqual([machine.cpu.now(), machine.cpu.instructions(), machine.cpu.cycles()], end);
  });
}

for (const [name, digits] of Object.entries(BUSY)) {
  test(`a program that asks for a key is as quick as ever where ${name}`, () => {
    const machine = started(digits);
    machine.run(SECOND);
    const count = secondOf(machine);
    assert.ok(count > 3000000, `${count} instructions`);
  });
}

test("a program that asks the keyboard's controller is as quick as ever while a byte is there", () => {
  // cli; in al, 64h; jmp
  const machine = started("FA E464 EBFC");
  machine.run(SECOND);
  assert.ok(secondOf(machine) < 200000);
  machine.key(0x1e, 0x1e61);
  machine.run(machine.cpu.now() + 8 * MILLISECOND);
  assert.ok(secondOf(machine) > 3000000);
});

/** A processor of which a test tells what it has done. */
class Told {
  time = 0;
  done = 0;
  ended = 0;
  reached = 0;
  now = () => this.time;
  instructions = () => this.done;
  frames = () => this.ended;
  cycles = () => this.reached + this.ended;
}

const FRAME = 14.27 * MILLISECOND;

/** Lets turns of a length pass; how many frames are drawn. */
function drawnIn(cpu, pace, turns, length, does = () => {}) {
  let drawn = 0;
  for (let turn = 0; turn < turns; turn++) {
    const until = cpu.time + length * MILLISECOND;
    while ((cpu.ended + 1) * FRAME <= until) {
      const isSeen = pace.isFrameSeen(until);
      cpu.time = ++cpu.ended * FRAME;
      pace.passFrame();
      if (!isSeen) continue;
      drawn++;
      pace.passDrawing();
    }
    cpu.time = until;
    does(cpu);
    pace.passTurn(until, until / MILLISECOND);
  }
  return drawn;
}

test("ticks of the timer come while a program asks for a key", () => {
  const machine = started(POLLS["the BIOS"]), ticks = () => new DataView(machine.ram.buffer,
    machine.ram.byteOffset).getUint32(0x46c, true);
  machine.run(SECOND);
  const before = ticks();
  machine.run(11 * SECOND);
  assert.ok(Math.abs(ticks() - before - 182) <= 1, `${ticks() - before} ticks in ten seconds`);
});

test("a machine rests while it only waits, and a key ends that", () => {
  const cpu = new Told(), pace = new Pace(cpu, 0);
  drawnIn(cpu, pace, 10, 16);
  assert.ok(!pace.isResting, "not at once");
  drawnIn(cpu, pace, 20, 16);
  assert.ok(pace.isResting);
  const drawn = drawnIn(cpu, pace, 100, 50);
  assert.ok(drawn >= 5000 / (8 * 14.27) - 2 && drawn <= 5000 / (8 * 14.27) + 2, `${drawn} drawn: what blinks`);
  pace.wake(cpu.time / MILLISECOND);
  assert.ok(!pace.isResting && !pace.isQuiet);
  drawnIn(cpu, pace, 100, 16, () => cpu.reached++);
  assert.ok(!pace.isResting && !pace.isQuiet, "it draws");
  drawnIn(cpu, pace, 100, 16, () => { cpu.done += 100000; });
  assert.ok(!pace.isResting && pace.isQuiet, "it computes, and draws nothing");
});

test("of the frames of a turn the last is drawn, and all where the turn is too short", () => {
  const cpu = new Told(), pace = new Pace(cpu, 0), draws = () => cpu.reached++;
  drawnIn(cpu, pace, 2, 16, draws);
  const one = drawnIn(cpu, pace, 60, 16.7, draws);
  assert.ok(one >= 59 && one <= 61, `${one} drawn in 60 turns`);
  const three = drawnIn(cpu, pace, 60, 50, draws);
  assert.ok(three >= 59 && three <= 62, `${three} drawn in 60 long turns`);
  const before = cpu.ended;
  const late = () => { draws(); cpu.time -= MILLISECOND; };
  const all = drawnIn(cpu, pace, 60, 50, late);
  assert.ok(all >= cpu.ended - before - 3, `${all} of ${cpu.ended - before}`);
});
