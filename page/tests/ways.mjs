// The processor's short ways against its long ones: the loop of usual instructions, loops that wait for the display,
// and writes of memory that are handed over together. They leave the same memory, registers, flags, cycles and time,
// byte for byte, whatever a program does.
import assert from "node:assert/strict";
import { createHash } from "node:crypto";
import test from "node:test";
import { Machine } from "../machine/machine.js";
import { CARD_SIZE, WIDEST } from "../../javascript/zaklimot.js";
import { FONTS, machineParts } from "./loading.mjs";
import { Random, hostileProgram, word } from "./hostile.mjs";

const MILLISECOND = 1e6, INSTRUCTION = 160;
/** A place at which nothing runs: while the machine looks for one, each instruction goes the long way. */
const NOWHERE = { places: [0xffff_fffe] };
/** Behind all else lies the stack of the module's own functions, in which they leave what they have done with. */
const STACK = 65536;
const { modules, programs } = await machineParts();
const short = new Machine(modules, FONTS), long = new Machine(modules, FONTS);

/** All that the processor and its PC are. */
const bytesOf = ({ bytes, base }) => bytes.subarray(0, base - STACK);
const storeOf = ({ cpu, bytes }) => bytes.subarray(cpu.store_at(0), cpu.store_at(0) + cpu.store_used());

/** Fails where two machines are not the same. */
function compare(name) {
  assert.equal(short.cpu.instructions(), long.cpu.instructions(), `${name}: instructions`);
  assert.equal(short.cpu.cycles(), long.cpu.cycles(), `${name}: cycles`);
  const [a, b] = [short, long].map(bytesOf);
  if (Buffer.compare(a, b)) {
    const at = a.findIndex((byte, i) => byte !== b[i]), ram = short.cpu.ram();
    assert.fail(`${name}: byte ${at} is ${a[at]}, not ${b[at]}; the PC's memory begins at ${ram}`);
  }
  assert.equal(Buffer.compare(short.savedState(), long.savedState()), 0, `${name}: the display`);
  assert.equal(Buffer.compare(storeOf(short), storeOf(long)), 0, `${name}: drives and files`);
}

/** Runs software in both ways until a time, in parts; `between(machine, part)` is called before them and after each. */
function runBoth(software, end, name, parts = 4, between = () => {}) {
  for (const one of [short, long]) {
    one.isShowing = false;
    one.boot(software);
    one.setSpeed(INSTRUCTION);
    one.stopAt(NOWHERE);
    if (one === short) one.stopAt();
    between(one, 0);
    for (let part = 1; part <= parts && one.stopped === "runs"; part++) {
      one.run(end * part / parts);
      between(one, part);
    }
    one.stopAt();
  }
  compare(name);
}

test("the page's programs, at each speed", () => {
  for (const { name, bytes } of programs) {
    for (const nanoseconds of [60, 160, 3000]) {
      runBoth({ program: bytes }, 300 * MILLISECOND, `${name} at ${nanoseconds}`, 4,
        (one, part) => part === 1 && one.setSpeed(nanoseconds));
    }
  }
});

test("hostile programs", () => {
  for (let seed = 0; seed < 600; seed++) {
    const { kind, software } = hostileProgram(seed);
    runBoth(software, 20000 * INSTRUCTION, `seed ${seed}, ${kind}`);
  }
});

const range = (first, count) => Array.from({ length: count }, (_, i) => first + i);
/** First bytes of the most usual instructions, and of a few that are rare. */
const KNOWN = [...range(0, 64).filter(n => (n & 7) < 6), ...range(0x40, 32), ...range(0x70, 16), 0x80, 0x81, 0x83,
  ...range(0x84, 10), ...range(0x90, 10), ...range(0xa0, 6), ...range(0xa8, 6), ...range(0xb0, 16), 0xc0, 0xc1, 0xc6,
  0xc7, ...range(0xd0, 4), 0xd7, 0xe2, 0xe3, 0xf5, 0xf6, 0xf7, 0xf6, 0xf7, 0xf8, 0xf9, 0xfc, 0xfd, 0xfe, 0xff, 0x0f,
  0x0f, 0x68, 0x6a, 0x9e];
const LONG = [0x84, 0x85, 0x8c, 0xb6, 0xbe, 0xb7, 0xbf], PREFIXES = [0x26, 0x2e, 0x36, 0x3e, 0xf3, 0x66, 0x64];
const SEGMENTS = [0x1000, 0x2000, 0x4000, 0x9000, 0xa000, 0xa800, 0xb800, 0x9fff, 0xffff];
const PUSH_FLAGS = 0x9c;
/** A jump over what may be the end of an instruction. */
const LANDING = [0xeb, 4, 0x90, 0x90, 0x90, 0x90];

/** An instruction by chance, and the flags that it leaves pushed. Jumps go to what comes next. */
function instruction(random) {
  const operation = random.of(KNOWN), prefix = random.below(4) ? [] : [random.of(PREFIXES)];
  const isJump = operation >> 4 === 7 || operation === 0xe2 || operation === 0xe3;
  if (isJump) return [operation, 0];
  const more = operation === 0x0f ? [random.of(LONG), ...random.bytes(2)] : random.bytes(4);
  return [...prefix, operation, ...more, ...LANDING, PUSH_FLAGS];
}

/** A program of such instructions, with segments and registers by chance. */
function knownProgram(seed) {
  const random = new Random(seed), code = [];
  while (code.length < 3000) {
    if (!random.below(12)) code.push(0xb8, ...word(random.of(SEGMENTS)), 0x8e, random.of([0xd8, 0xc0, 0xd0]));
    if (!random.below(3)) code.push(0xb8 + random.of([0, 1, 2, 3, 5, 6, 7]), ...random.word());
    code.push(...instruction(random));
  }
  return Uint8Array.from(code);
}

test("instructions with operands by chance", () => {
  let done = 0;
  for (let seed = 0; seed < 1500; seed++) {
    runBoth({ program: knownProgram(seed) }, 4000 * INSTRUCTION, `seed ${seed}`, 2);
    done += short.cpu.instructions();
  }
  assert.ok(done > 1e6, String(done));
});

/** Bytes that hexadecimal digits spell. */
const code = digits => Uint8Array.from(digits.match(/[0-9A-F]{2}/gi), byte => parseInt(byte, 16));
const GO_ROUND = "EBFE";
/** What one instruction in many thousands does, or none by chance. */
const RARE = {
  "a word over two parts of memory": `C706FF1F3412 EBFE`,
  "a product whose low half is zero": "B010 B310 F6E3 9C B80001 BB0001 F7E3 9C EBFE",
  "a return that drops more than 255 bytes": `E80300 ${GO_ROUND} 90 C20002`,
  "flags that no calculation leaves": "B4C0 9E 9C 7401 90 7801 90 7A01 90 B444 9E 9C B440 9E 9C 7A02 90 90 EBFE",
  "code at the end of its segment": "B8E9FD A3F4FF C706F2FF9090 E9E3FE",
  "code in the display's window": "B81300 CD10 B800A0 8EC0 26C7060000B055 26C706020090EB 26C6060400FB EA000000A0",
  "strings up and down, over the end of their segment":
    "FC B90500 BFFBFF BEFAFF F3A4 B90500 BFFCFF F3AB FD B90700 BF0600 BE0500 F3A5 B90300 BF0400 66F3AB 26F2AD EBFE",
  "strings over the end of plain memory": "B8FF9F 8EC0 8ED8 FC BF0000 BE0800 B92000 F3A5 B91000 BF0600 F3AA 66A5 EBFE",
  "more turns than an instruction does": "B9FFFF 31FF F3AB B90401 31F6 66F3AD B98100 F3AE B90000 F3AA EBFE",
  "a fault in what serves a fault, in another segment":
    "31C0 8EC0 26C70634000002 26C70636000020 B80020 8EC0 26C6060002A1 26C7060102FFFF A1FFFF",
  "a stack of more than 64 KiB":
    "0F01161F01 0F20C0 0C01 0F22C0 B108 8ED1 66BC00800200 50 53 E80000 5A EBFE 0F00 25010100 " +
    "0000000000000000 FFFF00000092CF00",
  "protected mode with segments that end early":
    "0F01162A01 0F20C0 0C01 0F22C0 B80800 8ED8 A00F00 9C A11000 9C 8EC0 26C606100001 9C EBFE 90 90 0F00 30010100 " +
    "0000000000000000 0F00000001920000",
};

test("what is rare", () => {
  for (const [name, digits] of Object.entries(RARE)) {
    // After a snapshot the parts of memory are marked that are written.
    runBoth({ program: code(digits.replaceAll(" ", "")) }, 4000 * INSTRUCTION, name, 1,
      (one, part) => part || one.snapshot(null));
  }
});

test("code goes on at the beginning of its segment", () => {
  // INC AX at FFFF; then at 0000 the INT 20 of each program's prefix, which ends it.
  const first = code("C606FFFF40 B8FFFF FFE0");
  runBoth({ program: first }, MILLISECOND, "an instruction at the end", 1);
  for (const one of [short, long]) assert.deepEqual([one.stopped, one.processor.EAX & 0xffff], ["ended", 0]);
  // MOV AL of which the operand is the first byte of the prefix, CD; then a loop in its second byte's place.
  const second = code("C6060100EB C6060200FE C606FFFFB0 B8FFFF FFE0");
  runBoth({ program: second }, MILLISECOND, "an operand behind the end", 1);
  for (const { stopped, processor: { EAX, EIP } } of [short, long]) {
    assert.deepEqual([stopped, EAX & 0xff, EIP], ["runs", 0xcd, 1]);
  }
});

/** Loops that wait for a bit of input status 1, and such as look like one; each in mode 13. */
const WAITS = {
  "for a retrace, by test": "BADA03 EC A808 74FB",
  "for the end of one": "BADA03 EC A808 75FB",
  "by and, after a half carry": "BADA03 B00F 0401 EC 2401 74FB",
  "with the port in the loop": "BADA03 EC A801 75F8",
  "of another port": "BABA03 EC A808 74FB",
  "of a port that is not there": "BABA03 EC A808 75FB",
  "whose port is another one the next time": "BADA03 EB03 BABA03 EC A808 74F8",
  "that counts too": "BADA03 41 EC A808 74FA",
  "for nothing": "BADA03 EC A800 75FB",
  "for ever": "BADA03 EC A800 74FB",
  "from elsewhere": "BADA03 EB01 90 EC 90 EC A808 74FB",
};

const ENDLESS = ["for ever", "of a port that is not there"];

test("loops that wait for the display", () => {
  for (const [name, digits] of Object.entries(WAITS)) {
    // Waits, counts how often it has waited, and waits again.
    const wait = [...code(`${digits} FF060010`.replaceAll(" ", ""))], back = -(wait.length + 2);
    const program = Uint8Array.from([0xb8, 0x13, 0, 0xcd, 0x10, ...wait, 0xeb, back & 255]);
    for (const nanoseconds of [60, 160, 700, 3000]) {
      const told = `a loop ${name} at ${nanoseconds}`, seen = new Map([[short, []], [long, []]]);
      runBoth({ program }, 40 * MILLISECOND, told, 400, (one, part) => {
        if (part === 1) one.setSpeed(nanoseconds);
        seen.get(one).push(Object.values(one.processor).join(" "));
      });
      assert.deepEqual(seen.get(short), seen.get(long), told);
      const [count] = new Uint16Array(short.ram.slice(0x11000, 0x11002).buffer);
      assert.equal(count > 1, !ENDLESS.includes(name), `${told}: ${count}`);
    }
  }
});

test("a loop that waits for the display takes little time", () => {
  const program = code("B81300 CD10 BADA03 EC A808 74FB EC A808 75FB EBF4".replaceAll(" ", ""));
  const [few, many] = [short, long].map(one => {
    one.isShowing = false;
    one.boot({ program });
    one.setSpeed(10);
    if (one === long) one.stopAt(NOWHERE);
    const begin = performance.now();
    one.run(200 * MILLISECOND);
    one.stopAt();
    return performance.now() - begin;
  });
  assert.ok(3 * few < many, `${few} and ${many} milliseconds`);
});

test("a wait goes over the ends of frames, where nothing ever changes", () => {
  // Display end and retrace lie beyond the last line and the last dot.
  const never = "B81300 CD10 BAD403 B81100 EF B801FF EF B812FF EF B810FF EF B807FF EF BADA03 EC A808 74FB F4";
  for (const nanoseconds of [60, 700]) {
    runBoth({ program: code(never.replaceAll(" ", "")) }, 150 * MILLISECOND, `at ${nanoseconds}`, 5,
      (one, part) => part === 1 && one.setSpeed(nanoseconds));
    assert.ok(short.cpu.frames() > 3 && short.stopped === "runs", String(short.cpu.frames()));
  }
});

test("waits and repeated strings stop at a cycle, and are recorded one by one", () => {
  const program = code("B81300CD10BADA03ECA80874FBECA80875FBEBF4");
  const strings = code("B81300CD10B800A08EC08ED8B9FF7F31FF31F6F3ABB9FF7FF3A4EBF0");
  for (const cycle of [100, 1001, 5000, 5001, 5002]) {
    for (const software of [program, strings]) {
      runBoth({ program: software }, 10 * MILLISECOND, `until cycle ${cycle}`, 1, (one, part) => {
        if (!part) return;
        one.cpu.stop_at_cycle(one.cpu.cycles() + cycle);
        one.run(90 * MILLISECOND);
        assert.equal(one.stopped, "cycle");
        one.cpu.stop_at_cycle(Infinity);
      });
    }
  }
  for (const address of [0x3da, 0x3d9]) {
    runBoth({ program }, 20 * MILLISECOND, `until ${address.toString(16)} is reached`, 1,
      (one, part) => part || one.stopAt({ ...one === long ? NOWHERE : {}, addresses: [address] }));
    assert.equal(short.stopped, address === 0x3da ? "watch" : "runs");
  }
  const seen = [short, long].map(one => {
    one.boot({ program }, true);
    one.setSpeed(INSTRUCTION);
    if (one === long) one.stopAt(NOWHERE);
    one.run(20 * MILLISECOND);
    return one.records;
  });
  assert.ok(seen[0].length > 1e5, String(seen[0].length));
  assert.deepEqual(...seen);
});

/** What a record says: its dots, the kind of its cycle, whether that was refused, its address and its value. */
function recordsOf(machine) {
  const { records } = machine;
  return Array.from({ length: records.length / 4 }, (_, i) => {
    const [dots, what, value] = records.subarray(4 * i, 4 * i + 3);
    return { dots, kind: what >>> 28, isRefused: (what >>> 27 & 1) === 1, address: what & 0x7ffffff, value };
  });
}

const OUT = 1, OUT_WORD = 2, IN = 3, PUT = 5, PUT_WORD = 6, GET = 7, GET_WORD = 8, CALL = 9;

/** A card on which the cycles of a machine are made again, each as a call of its own. */
class Card {
  #machine = new Machine(modules, FONTS);

  /** Makes the cycles of records; fails where one is answered otherwise. */
  make(records, name) {
    const one = this.#machine, { calls, card, room } = one;
    one.boot({ program: Uint8Array.of(0xf4) });
    calls.zak_close(card);
    one.adapterBytes.fill(0, card, card + CARD_SIZE);
    assert.equal(calls.zak_open(card, one.font, one.fontBytes), 0);
    for (const [i, { dots, kind, isRefused, address, value }] of records.entries()) {
      calls.zak_advance(card, dots);
      const byte = value & 255, word = value & 0xffff;
      const does = { [OUT]: () => calls.zak_out(card, address, byte), [PUT]: () => calls.zak_put(card, address, byte),
        [OUT_WORD]: () => calls.zak_out_word(card, address, word), [IN]: () => calls.zak_in(card, address, room),
        [PUT_WORD]: () => calls.zak_put_word(card, address, word), [GET]: () => calls.zak_get(card, address, room),
        [GET_WORD]: () => calls.zak_get_word(card, address, room), [CALL]: () => this.#call(address, value) }[kind];
      assert.equal(Boolean(does?.()), isRefused, `${name}: record ${i}`);
      if (isRefused || (kind !== GET && kind !== GET_WORD)) continue;
      const found = one.adapterView.getUint16(room, true) & (kind === GET ? 255 : 0xffff);
      assert.equal(found, word, `${name}: record ${i}`);
    }
  }

  /** A call of interrupt 10 has two records: AX with BX, and CX with DX. */
  #call(part, value) {
    const { calls, card, room, block, table, adapterView: view } = this.#machine;
    view.setUint16(room + 4 * part, value >>> 16, true);
    view.setUint16(room + 4 * part + 2, value & 0xffff, true);
    return part ? calls.zak_int10(card, room, block, 0, table, 768, room + 16) : 0;
  }

  /** The state after so many dots more. */
  stateAfter(dots) {
    this.#machine.calls.zak_advance(this.#machine.card, dots);
    return this.#machine.savedState();
  }
}

const MODES = [3, 0x0d, 0x12, 0x13], WINDOWS = [0xa000, 0xa7f0, 0xafff, 0xb000, 0xb700, 0xb800, 0xbff0];
const REGISTERS = [[0x3ce, 0x05], [0x3ce, 0x06], [0x3ce, 0x08], [0x3ce, 0x03], [0x3c4, 0x02], [0x3c4, 0x04]];

/** String instructions, repeated and of doublewords too; moves, sums and exchanges of memory; both directions. */
const CYCLES = [[0xaa], [0xab], [0xac], [0xad], [0xa4], [0xa5], [0x66, 0xab], [0x66, 0xa5], [0xf3, 0xaa], [0xf3, 0xab],
  [0xf3, 0xa4], [0xf3, 0xa5], [0x66, 0xf3, 0xab], [0xf3, 0x66, 0xa5], [0xf3, 0xac], [0xaa, 0xaa, 0xab], [0x88, 0x05],
  [0x89, 0x05], [0x26, 0x88, 0x05], [0x26, 0x8a, 0x05], [0x26, 0x00, 0x05], [0x26, 0x87, 0x05], [0xfc], [0xfd]];

/** Writes and reads of memory in all sizes and orders, among writes of the registers that say what they do. */
function displayProgram(seed) {
  const random = new Random(seed), code = [0xb8, random.of(MODES), 0, 0xcd, 0x10];
  const cycles = () => random.of(CYCLES);
  while (code.length < 1500) {
    if (!random.below(4)) code.push(0xb8, ...word(random.of(WINDOWS)), 0x8e, random.of([0xc0, 0xc0, 0xd8]));
    if (!random.below(3)) code.push(random.of([0xbf, 0xbe]), ...random.word(), 0xb9, random.below(200), 0);
    if (!random.below(9)) {
      const [port, index] = random.of(REGISTERS);
      code.push(0xba, ...word(port), 0xb8, index, random.below(256), 0xef);
    }
    if (!random.below(40)) code.push(0xba, ...word(0x3c2), 0xb0, random.below(256), 0xee);
    code.push(...cycles(), ...cycles(), 0xb9, random.below(40), 0);
  }
  return Uint8Array.from([...code, 0xeb, 0xfe]);
}

test("writes of memory that are handed over together are single ones", () => {
  const card = new Card();
  let refused = 0, writes = 0;
  for (let seed = 0; seed < 300; seed++) {
    const program = displayProgram(seed), name = `seed ${seed}`;
    runBoth({ program }, 20000 * INSTRUCTION, name, 3, (one, part) => part === 1 && one.setSpeed(20 + seed % 200));
    short.boot({ program }, true);
    short.setSpeed(20 + seed % 200);
    short.run(20000 * INSTRUCTION);
    const records = recordsOf(short);
    card.make(records, name);
    assert.equal(Buffer.compare(card.stateAfter(short.cpu.dots_due()), short.savedState()), 0, name);
    refused += records.filter(({ isRefused }) => isRefused).length;
    writes += records.filter(({ kind }) => kind === PUT || kind === PUT_WORD).length;
  }
  assert.ok(refused > 100 && writes > 10000, `${refused} refused, ${writes} writes`);
});

/** The CRT controller's registers that say what the beam shows, and the others; each with some of its values. */
const SHOWING = [[0x3d4, 0x0c, [0, 1, 0x3e, 0x7f, 0xff]], [0x3d4, 0x0d, [0, 1, 0x80, 0xff]],
  [0x3d4, 0x13, [0, 1, 20, 40, 80, 255]], [0x3d4, 0x18, [0, 3, 60, 61, 150, 255]],
  [0x3d4, 0x07, [0x0f, 0x1f, 0x2f, 0x3e]], [0x3d4, 0x09, [0, 0x40, 0x41, 0xc1, 0x03]],
  [0x3d4, 0x17, [0xa3, 0xe3, 0xc3, 0x83]], [0x3d4, 0x14, [0, 0x40, 0x60]], [0x3d4, 0x12, [0x20, 0x8f, 0xdf]],
  [0x3d4, 0x01, [0x27, 0x4f, 0x5e]], [0x3d4, 0x08, [0, 0x20, 0x40, 3]], [0x3c4, 1, [0, 1, 9]],
  [0x3c4, 4, [2, 6, 0x0e]], [0x3ce, 6, [1, 5, 5, 5, 0x0d]], [0x3ce, 5, [0, 0x10, 0x40]], [0x3c4, 2, [1, 15, 15]]];

/** stosb and stosw, repeated and alone. */
const STORES = [[0xf3, 0xaa], [0xf3, 0xab], [0xaa], [0xab]];
const outWord = (port, index, value) => [0xba, ...word(port), 0xb8, index, value, 0xef];

function showing(random) {
  const [port, index, values] = random.of(SHOWING);
  return outWord(port, index, random.of(values));
}

/** The display begins anew at a line, where what is shown last of all memory comes first. */
function split(random) {
  return [[0x0c, 0x40], [7, 0x0f], [9, 1], [0x18, random.below(120)]].flatMap(one => outWord(0x3d4, ...one));
}

/** Dots are shown that lie to the right: input status 1, and the attribute controller's register 13. */
const panned = random => [0xba, 0xda, 3, 0xec, 0xba, 0xc0, 3, 0xb0, 0x33, 0xee, 0xb0, random.of([3, 6, 7]), 0xee];

/** mov ax, A000h; mov es, ax; mov cx, 100h; rep stosb */
const FILL = [0xb8, 0, 0xa0, 0x8e, 0xc0, 0xb9, 0, 1, 0xf3, 0xaa];

/** Sets a mode, and some of what the beam shows; ES is the display's memory. */
function displayOf(random, mode) {
  const code = [0xb8, mode, 0, 0xcd, 0x10];
  // Another mode is shown before, so that all is otherwise.
  if (!random.below(3)) code.unshift(0xb8, random.of(MODES), 0, 0xcd, 0x10, ...FILL);
  if (!random.below(3)) code.push(...split(random));
  if (!random.below(3)) code.push(...panned(random));
  for (let i = random.below(6); i > 0; i--) code.push(...showing(random));
  return [...code, 0xb8, ...word(0xa000), 0x8e, 0xc0];
}

/** Writes one byte over and over: inc ax; mov es:[di], al; jmp. */
const toggling = place => [0xbf, ...word(place & 0xffff), 0x40, 0x26, 0x88, 0x05, 0xeb, 0xfa];

/** One byte where a line or the picture begins or ends. */
function togglingEdge(random) {
  const code = displayOf(random, random.of(MODES.slice(1))), pitch = random.of([40, 80, 320]);
  if (!random.below(3)) code.push(...outWord(0x3d4, 0x0c, 1), ...outWord(0x3d4, 0x0d, 0));
  const edge = random.of([0, 0x100, 0x400, pitch * random.below(200), pitch * random.below(200)]);
  return Uint8Array.from([...code, ...toggling(edge + random.below(8) - 4)]);
}

/** Each line of a mode is a row, and a counter is a byte; under chain 4 four addresses have the place of the first. */
const BYTES = { 0x12: [], 0x13: [[0x09, 0], [0x17, 0xe3], [0x14, 0]].flatMap(one => outWord(0x3d4, ...one)) };

/** The byte right behind a line, whose first dots the panned line shows. */
function togglingPanned(random) {
  const isWide = random.below(2), mode = 0x12 + isWide, place = 80 * random.below(400) + isWide * random.below(4);
  return Uint8Array.from([0xb8, mode, 0, 0xcd, 0x10, ...BYTES[mode], ...panned(random),
    0xb8, ...word(0xa000), 0x8e, 0xc0, ...toggling(place)]);
}

/** The first byte of a picture that begins amid memory. */
function togglingStart(random) {
  const mode = random.of(MODES.slice(1)), place = (mode === 0x13 ? 0x2000 : 0x800) + random.below(3);
  return Uint8Array.from([0xb8, mode, 0, 0xcd, 0x10, ...outWord(0x3d4, 0x0c, 8), ...outWord(0x3d4, 0x0d, 0),
    0xb8, ...word(0xa000), 0x8e, 0xc0, ...toggling(place)]);
}

/** Writes memory over and over, below the beam and elsewhere, among writes of registers that say what it shows. */
function sweeping(random) {
  const code = displayOf(random, random.of(MODES.slice(1))), again = code.length;
  for (let i = 0; i < 12; i++) {
    if (!random.below(3)) code.push(0xbf, ...random.word());
    code.push(0xb9, random.below(256), random.below(8), 0xfe, 0xc0, ...random.of(STORES));
    if (!random.below(12)) code.push(...showing(random));
  }
  const back = again - code.length - 3;
  return Uint8Array.from([...code, 0xe9, ...word(back & 0xffff)]);
}

/** A mode set by the BIOS leaves another index than the program wrote; data behind it are text and graphics in turn. */
const INDEX_OF_BIOS = "BACE03 B008 EE B80300 CD10 BACF03 B005 EE B00E EE EBF8";

/** The pictures of the frames that a program shows until a time: their sizes and sums. */
function picturesOf(machine, heard, software, nanoseconds, isLong) {
  const found = [];
  heard.frame = () => {
    const { width, height, pixels, adapterBytes } = machine, sum = createHash("sha256");
    for (let y = 0; y < height; y++) {
      const row = pixels + 4 * WIDEST * y;
      sum.update(adapterBytes.subarray(row, row + 4 * width));
    }
    found.push(`${width} ${height} ${sum.digest("hex")}`);
  };
  machine.boot(software);
  machine.setSpeed(nanoseconds);
  if (isLong) machine.stopAt(NOWHERE);
  machine.run(70 * MILLISECOND);
  machine.stopAt();
  return found;
}

test("pictures where the beam comes to what is written, and where it doesn't", () => {
  const heard = [{}, {}], both = heard.map(one => new Machine(modules, FONTS, one)), all = new Set();
  for (let seed = 0; seed < 200; seed++) {
    const nanoseconds = 20 + seed * 7 % 300, random = new Random(seed);
    const program = seed ? [sweeping, togglingEdge, togglingPanned, togglingStart][seed % 4](random)
      : code(INDEX_OF_BIOS.replaceAll(" ", ""));
    const [one, other] = both.map((machine, i) => picturesOf(machine, heard[i], { program }, nanoseconds, i === 1));
    assert.deepEqual(one, other, `seed ${seed}`);
    one.forEach(picture => all.add(picture));
  }
  assert.ok(all.size > 150, `${all.size} pictures`);
});
