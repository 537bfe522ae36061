// The machine and hostile software: random programs, damaged images, and programs that ask for the
// most. None may trap or hang, each end has a reason, and the same program comes to the same end.
import assert from "node:assert/strict";
import test, { after } from "node:test";
import { fileURLToPath } from "node:url";
import { Worker } from "node:worker_threads";
import { softwareOf } from "../machine/software.js";
import { Random, hostileProgram, word } from "./hostile.mjs";

const PROGRAMS = 2000, MILLISECOND = 1e6, SECTOR = 512, MIB = 1 << 20;
/** Milliseconds in which a slice returns, however busy this computer is. */
const MOST_WAIT = 15000, LOOKING = 250;
const ENDS = ["runs", "waits", "ended", "restarted", "halted"];
const WORKER = fileURLToPath(new URL("fuzzworker.mjs", import.meta.url));
const MOST_MISSING = 64, AX = 0;

/** The thread that runs software; a new one where one hangs. */
class Runner {
  #progress = new Int32Array(new SharedArrayBuffer(8));
  #worker = null;
  #end = null;

  #start() {
    this.#worker = new Worker(WORKER, { workerData: this.#progress.buffer });
    this.#worker.on("error", error => this.#end({ error: String(error) }));
    this.#worker.on("message", told => this.#end(told));
  }

  /** What the thread answers; fails where it does not come back. */
  async ask(asked) {
    if (!this.#worker) this.#start();
    const told = new Promise(resolve => this.#end = resolve), timer = this.#watched();
    this.#worker.postMessage(asked);
    const { found, error } = await told;
    clearInterval(timer);
    if (error) throw new Error(error);
    return found;
  }

  /** Ends the thread once it has not come on for so long. */
  #watched() {
    let last = "", since = 0;
    return setInterval(() => {
      const at = this.#progress.join(), now = performance.now();
      if (at !== last) [last, since] = [at, now];
      if (now - since < MOST_WAIT) return;
      this.close();
      this.#end({ error: `A slice hangs; of the seeds ${this.#progress[0]} came last.` });
    }, LOOKING);
  }

  close() {
    this.#worker?.terminate();
    this.#worker = null;
  }
}

const runner = new Runner();
after(() => runner.close());

/** Bytes that hexadecimal digits spell. */
const code = digits => Uint8Array.from(digits.match(/[0-9A-F]{2}/gi), byte => parseInt(byte, 16));

/** An image of so many bytes whose first sector is some code, with its mark. */
function image(length, start) {
  const made = new Uint8Array(length);
  made.set(start.subarray(0, Math.min(length, SECTOR - 2)));
  if (length >= SECTOR) made.set([0x55, 0xaa], SECTOR - 2);
  return made;
}

/** How software ends, which must be one of the ends there are. */
async function runOne(software, more = {}) {
  const found = await runner.ask({ software, ...more });
  assert.ok(ENDS.includes(found.end), found.end);
  return found;
}

/** Runs a program of DOS that hexadecimal digits spell. */
const runCode = (digits, more) => runOne({ program: code(digits) }, more);

test("random programs do not trap or hang, and end the same again and from snapshots", async () => {
  const all = await runner.ask({ from: 0, to: PROGRAMS });
  assert.equal(all.length, PROGRAMS);
  const named = ({ seed, kind }) => `seed ${seed}, ${kind}`;
  for (const one of all) {
    assert.equal(one.error, undefined, named(one));
    assert.ok(ENDS.includes(one.end), `${named(one)}: ${one.end}`);
    const differs = one.again || one.back;
    assert.ok(!differs, `${named(one)}: another ${differs}`);
  }
  const count = wanted => all.filter(wanted).length;
  assert.equal(count(({ again }) => again === ""), PROGRAMS / 20);
  assert.ok(count(({ back }) => back === "") >= PROGRAMS / 150);
  assert.deepEqual([...new Set(all.map(({ end }) => end))].sort(), [...ENDS].sort());
});

test("the same seed makes the same program", () => {
  for (const seed of [1, 77]) assert.deepEqual(hostileProgram(seed), hostileProgram(seed));
  assert.notDeepEqual(hostileProgram(1), hostileProgram(2));
});

test("images of odd sizes are refused with a sentence, or are none", () => {
  for (const length of [0, 1, 511]) {
    assert.throws(() => softwareOf(image(length, code("F4")), "x.img"), /ends with 55 AA/);
    assert.equal(softwareOf(image(length, code("F4")), "x"), null);
  }
  assert.deepEqual(Object.keys(softwareOf(image(513, code("F4")), "x")), ["a"]);
  assert.throws(() => softwareOf(image(65 * MIB, code("F4")), "large.img"),
    /large\.img has 68,157,440 bytes, and a disk may have 67,108,864/);
  assert.equal(softwareOf(new Uint8Array(), "empty.com"), null);
  assert.equal(softwareOf(new Uint8Array(), "empty.exe"), null);
  assert.throws(() => softwareOf(new Uint8Array(65281), "large.com"), /may have 65,280/);
  assert.deepEqual(Object.keys(softwareOf(new Uint8Array(65280), "large.com")), ["program"]);
  assert.throws(() => softwareOf(exe({ length: 589825 }), "large.exe"), /may have 589,824/);
  assert.deepEqual(Object.keys(softwareOf(exe({ length: 100000 }), "large.exe")), ["program"]);
});

test("disks of odd sizes run, and sectors behind their end are not found", async () => {
  // mov ax, 0203; mov bx, 7E00; mov cx, 2; xor dh, dh; int 13; hlt
  const start = code("B80302BB007EB9020030F6CD13F4EBFD");
  for (const length of [0, 1, 511, 512, 513, 1025, 368641]) {
    for (const drive of ["a", "b", "c"]) {
      const software = { [drive]: image(length, start) };
      const { end, registers } = await runOne(software, { nanoseconds: 1e7 });
      // Three sectors behind the first one, or as many as there are.
      const moved = Math.max(0, Math.min(3, (length >> 9) - 1));
      if (length < SECTOR) continue;
      assert.equal(registers[AX], moved === 3 ? 3 : 0x400 | moved, `${length} ${drive}`);
      assert.equal(end, "waits");
    }
  }
});

test("a floppy that was cut short, and boot sectors of random bytes", async () => {
  // A boot sector that reads its root directory: mov ax, 020E; mov cx, 2; mov dx, 0100; int 13.
  const floppy = image(5000, code("EB3C904D53444F53352E30000201010002E000400BF0090012000200"));
  floppy.set(code("B80E02BB007EB90200BA0001CD13F4EBFD"), 0x3e);
  const { end, registers } = await runOne({ a: floppy });
  assert.deepEqual([end, registers[AX]], ["waits", 0x0400]);
  const random = new Random(5);
  for (let i = 0; i < 20; i++) {
    await runOne({ a: image(1474560, Uint8Array.from(random.bytes(SECTOR))) });
  }
});

/** An .EXE: words of its head by their names; the rest is code that halts. */
function exe({ length = 600, last = 0, pages = 2, relocations = 0, head = 4, stack = 0,
  pointer = 0x100, entry = 0, segment = 0, table = 0x1c }) {
  const made = new Uint8Array(length).fill(0xf4);
  const words = [0x5a4d, last, pages, relocations, head, 0, 0xffff, stack, pointer, 0, entry,
    segment, table, 0];
  made.set(words.flatMap(word).slice(0, length));
  return made;
}

test("programs of no bytes and of the most, and damaged heads of .EXE", async () => {
  await runOne({ program: new Uint8Array() });
  const most = new Uint8Array(65280).fill(0x90);
  most.set(code("FBF4EBFD"), 10000);
  // All of it is there, but for what the stack has overwritten at its end.
  const { end, looked } = await runOne({ program: most }, { look: [0x1fe00, 0x1e0] });
  assert.equal(end, "waits");
  assert.ok(looked.every(byte => byte === 0x90));
  const odd = [0, 1, 0x7fff, 0x8000, 0xffff];
  const heads = [{ length: 2 }, { length: 27 }, { relocations: 0xffff, table: 0xfff0 },
    { relocations: 0xffff },
    ...["last", "pages", "head", "stack", "pointer", "entry", "segment", "table"]
      .flatMap(name => odd.map(value => ({ [name]: value }))),
    { pages: 0, last: 1 }, { pages: 0, last: 0xffff }, { length: 589824, pages: 0xffff, head: 0 },
    { entry: 0xffff, segment: 0xffff }];
  for (const one of heads) await runOne({ program: exe(one) });
  assert.equal((await runOne({ program: exe({}) })).end, "waits");
});

test("a program that fills all memory", async () => {
  for (const value of ["00", "90", "CC", "F4", "FF", "CD"]) {
    // xor ax, ax; l: mov es, ax; xor di, di; mov cx, 8000; push ax; mov ax, value; rep stosw;
    // pop ax; add ax, 1000; jmp l
    await runCode(`31C08EC031FFB9008050B8${value}${value}F3AB58050010EBED`, { nanoseconds: 4e7 });
  }
});

test("a program that overwrites the BIOS' data, and then asks the BIOS", async () => {
  const calls = ["B401CD16", "B405B94141CD16", "B80C00B40CCD21", "B8410ECD10", "B400CD1A",
    "B80102B90100CD13", "B80300CD10", "B002B406CD21", "B400CD16"];
  for (let value = 0; value < 256; value += 15) {
    const byte = value.toString(16).padStart(2, "0");
    // mov ax, 40; mov es, ax; xor di, di; mov cx, 100; mov al, value; rep stosb
    await runCode(`B840008EC031FFB90001B0${byte}F3AA${calls.join("")}FBF4EBFD`);
  }
});

test("every number of a mode of interrupt 10", async () => {
  // xor cx, cx; l: mov ax, cx; xor ah, ah; push cx; int 10; pop cx; inc cl; jnz l; mov ax, 3;
  // int 10; sti; h: hlt; jmp h
  const { end, last, looked } = await runCode("31C989C830E451CD1059FEC175F4B80300CD10FBF4EBFD",
    { nanoseconds: 1e7, isShowing: true, look: [0x449, 2] });
  assert.equal(end, "waits");
  assert.equal(last.number, 0x10);
  assert.deepEqual([...looked], [3, 80]);
});

/** Writes of a program to every register of the display's ports, each with a read behind it. */
function everyRegister(value) {
  const made = [];
  for (let index = 0; index < 256; index++) {
    for (const port of [0x3c4, 0x3ce, 0x3d4, 0x3b4]) {
      made.push(0xba, ...word(port), 0xb8, index, value, 0xef, 0xec, 0x42, 0xec);
    }
    // The attribute controller: in al, 3DA; its index and its value at 3C0.
    made.push(0xba, ...word(0x3da), 0xec, 0xba, ...word(0x3c0), 0xb0, index, 0xee, 0xb0, value,
      0xee, 0x42, 0xec);
    made.push(0xba, ...word(0x3b0 + index % 48), 0xb0, value ^ index, 0xee, 0xef, 0xec, 0xed);
    // Bytes of memory at A000 and B800: mov ax, segment; mov es, ax; xchg es:[index], al.
    made.push(...[0xa0, 0xb8].flatMap(segment =>
      [0xb8, 0, segment, 0x8e, 0xc0, 0x26, 0x86, 0x06, index, 0]));
  }
  return Uint8Array.from([...made, 0xfb, 0xf4, 0xeb, 0xfd]);
}

test("every register of every port of the display, with every index", async () => {
  for (const value of [0x00, 0x55, 0xff, 0x08]) {
    const program = everyRegister(value);
    const { end } = await runOne({ program }, { nanoseconds: 2e7, isShowing: true });
    assert.equal(end, "waits", value);
  }
});

test("calls of DOS and of the BIOS that went on without end", async t => {
  await t.test("keys are forgotten where their place was moved", async () => {
    // xor ax, ax; mov ds, ax; mov word [41A], 1F; mov ax, 0C00; int 21; sti; hlt
    assert.equal((await runCode("31C08ED8C7061A041F00B8000CCD21FBF4EBFD")).end, "waits");
  });
  await t.test("blocks of memory are joined whose sizes are the most", async () => {
    // At 2000:0 a free block of no paragraphs, behind it one of FFFF; the first is given back.
    const { end } = await runCode("B800208EC026C60600004D26C7060100000026C70603000000" +
      "26C60610004D26C7061100000026C7061300FFFF" + "B801208EC0B449CD21FBF4EBFD");
    assert.equal(end, "waits");
  });
  await t.test("the longest wait, with the fastest timer", async () => {
    const { end, now } = await runCode("B034E643B001E640B000E640B486B9FFFFBAFFFFCD15FBF4EBFD");
    assert.ok(end === "waits" || end === "runs", end);
    assert.ok(now < 4 * MILLISECOND, now);
  });
  await t.test("a wait ends in its time", async () => {
    // mov ah, 86; mov cx, 0; mov dx, 3E8 (1,000 microseconds); int 15; mov byte [200], 1; sti; hlt
    for (const [nanoseconds, wanted] of [[0.9 * MILLISECOND, 0], [1.2 * MILLISECOND, 1]]) {
      const { looked } = await runCode("B486B90000BAE803CD15C606000201FBF4EBFD",
        { nanoseconds, look: [0x10200, 1] });
      assert.equal(looked[0], wanted);
    }
  });
  await t.test("a file is written behind its most bytes", async () => {
    // Creates A, seeks, and writes 200h bytes.
    for (const place of ["00FF", "F0F7", "FFFF"]) {
      const { end, registers } = await runCode((`B43C31C9BA3001CD2189C3B80042B9FFFFBA${place}CD21` +
        "B440B90002BA3001CD21FBF4EBFD").padEnd(0x60, "90") + "4100");
      assert.deepEqual([end, registers[AX]], ["waits", 0], place);
    }
  });
  await t.test("the processor halts with interrupts off", async () => {
    assert.equal((await runCode("FAF4EBFD")).end, "halted");
    assert.equal((await runCode("FBF4EBFD")).end, "waits");
  });
});

test("what takes long ends a slice soon", async () => {
  // l: mov ax, 027F; mov cx, 1; mov dx, 80; mov bx, 8000; mov es, bx; xor bx, bx; int 13; jmp l
  const disk = image(MIB, code("B87F02B90100BA8000BB00808EC331DBCD13EBEC"));
  // An interrupt lasts 127 sectors of two milliseconds.
  assert.ok((await runOne({ c: disk })).now < 300 * MILLISECOND);
  // l: mov ah, 87; mov cx, 8000; xor si, si; int 15; jmp l. A call moves 32,768 words in 6.5 ms.
  const { now, instructions } = await runCode("B487B9008031F6CD15EBF5");
  assert.ok(now < 20 * MILLISECOND && instructions < 100, `${now} ${instructions}`);
});

test("calls without end keep no more and more", async () => {
  // l: mov ax, FF00; int 10; mov ax, FF00; int 21; jmp l
  const { missing, blocks } = await runCode("B800FFCD10B800FFCD21EBF4");
  assert.deepEqual([missing, blocks], [MOST_MISSING, 0]);
});

test("a table of interrupt 10 does not overwrite the BIOS", async () => {
  const look = [0xf0000, 0x700], { looked } = await runCode("FBF4EBFD", { look });
  // The colours to F000:0 and to F000:0400: mov ax, F000; mov es, ax; mov ax, 1017; xor bx, bx;
  // mov cx, 100; mov dx, offset; int 10.
  for (const offset of ["0000", "0004"]) {
    const found = await runCode(`B800F08EC0B8171031DBB90001BA${offset}CD10FBF4EBFD`, { look });
    assert.equal(found.end, "waits");
    assert.deepEqual(found.looked, looked);
  }
});

test("software sees nothing of what ran before it", async () => {
  // mov al, 32; out 70, al; mov ah, 1A; mov dx, 1234; int 21; mov ax, 7; mov cx, 5; mov dx, 9;
  // int 33; sti; h: hlt; jmp h
  await runCode("B032E670B41ABA3412CD21B80700B90500BA0900CD33FBF4EBFD");
  // in al, 71; push ax; mov ah, 2F; int 21; push es; push bx; mov ah, 62; int 21; push bx;
  // mov ah, 48; mov bx, 10; int 21; push ax; push bx; mov ah, 4F; int 21; push ax; mov ax, 5;
  // int 33; sti; h: hlt; jmp h
  const start = code("E47150B42FCD210653B462CD2153B448BB1000CD215053B44FCD2150B80500CD33FBF4EBFD");
  const software = { a: image(SECTOR, start) };
  const found = [];
  for (const isFresh of [false, true]) {
    found.push(await runOne(software, { isFresh, look: [0, 16 * MIB] }));
  }
  const [used, fresh] = found;
  assert.deepEqual(used.registers, fresh.registers);
  assert.equal(Buffer.compare(used.looked, fresh.looked), 0);
});
