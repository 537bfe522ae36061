// The tests that software of the machine's time makes before it begins: which processor there is, whether there is a
// coprocessor, the 21st address line, and what the BIOS tells of the machine.
import assert from "node:assert/strict";
import { execFileSync } from "node:child_process";
import { mkdtempSync, readFileSync, rmSync, writeFileSync } from "node:fs";
import { tmpdir } from "node:os";
import { join } from "node:path";
import test from "node:test";
import { Machine } from "../machine/machine.js";
import { missingText } from "../machine/missing.js";
import { FONTS, machineParts } from "./loading.mjs";

const SECOND = 1e9, PREFIX = 0x10000, ANSWERS = 0x8000;
const { modules } = await machineParts();

/** The bytes of a program, of the lines of its source. */
function assembled(...lines) {
  const folder = mkdtempSync(join(tmpdir(), "zaklimot-assembled-"));
  try {
    writeFileSync(join(folder, "made.asm"), ["org 100h", ...lines].join("\n"));
    execFileSync("nasm", ["-f", "bin", "-o", join(folder, "made.com"), join(folder, "made.asm")]);
    return new Uint8Array(readFileSync(join(folder, "made.com")));
  } finally {
    rmSync(folder, { recursive: true });
  }
}

function started(software) {
  const machine = new Machine(modules, FONTS);
  machine.isShowing = false;
  machine.boot(software);
  return machine;
}

/** Runs lines of assembler to their end; the words that they left from DS:8000 on, and the machine. */
function answered(count, ...lines) {
  const machine = started({ program: assembled(...lines, "mov ax, 4C00h", "int 21h") });
  machine.run(SECOND);
  assert.equal(machine.stopped, "ended");
  const at = PREFIX + ANSWERS, words = Array.from({ length: count }, (_, i) =>
    machine.ram[at + 2 * i] | machine.ram[at + 2 * i + 1] << 8);
  return { words, machine };
}

/** The bits of the flags that stay after these were given, by pushf or by pushfd: low word, high word. */
const flagsAfter = (given, by) => answered(2, ...by === "popfd" ?
  [`push dword ${given}`, "popfd", "pushfd", "pop dword [8000h]"] :
  [`push word ${given}`, by, "pushf", "pop word [8000h]", "mov word [8002h], 0"]).words;

test("the flags of a 386 in real mode: bits 12 to 14 are kept, bit 15, AC and ID are not", () => {
  const kept = given => flagsAfter(given, "popf")[0] & 0xf000;
  assert.deepEqual([0xf000, 0x7000, 0x4000, 0x3000, 0x1000, 0].map(kept), [0x7000, 0x7000, 0x4000, 0x3000, 0x1000, 0]);
  assert.deepEqual(flagsAfter("0x247002", "popfd"), [0x7002, 0], "neither AC, by which a 486 is known, nor ID");
  // By iret as well.
  const { words } = answered(1, "push word 0F202h", "push cs", "push word back", "iret", "back: pushf",
    "pop word [8000h]");
  assert.equal(words[0], 0x7202);
  assert.deepEqual(flagsAfter("0x0ad7", "popf"), [0x0ad7, 0]);
});

/** Tells 0 to 4 for an 8086 to a 486, as Intel's manual of 1993 does, and 5 where there is CPUID. */
const PROCESSOR = ["pushf", "pop ax", "mov cx, ax", "and ax, 0FFFh", "push ax", "popf", "pushf", "pop ax",
  "and ax, 0F000h", "cmp ax, 0F000h", "mov bx, 0", "je told", "or cx, 0F000h", "push cx", "popf", "pushf", "pop ax",
  "and ax, 0F000h", "mov bx, 2", "jz told", "mov bx, 3", "mov dx, sp", "and sp, ~3", "pushfd", "pop eax",
  "mov ecx, eax", "xor eax, 40000h", "push eax", "popfd", "pushfd", "pop eax", "mov sp, dx", "xor eax, ecx",
  "jz told", "mov bx, 4", "mov eax, ecx", "xor eax, 200000h", "push eax", "popfd", "pushfd", "pop eax",
  "xor eax, ecx", "jz told", "mov bx, 5", "told: mov [8000h], bx"];

test("the processor is a 386 to who asks by its flags, by a shift, and by the stack", () => {
  assert.deepEqual(answered(1, ...PROCESSOR).words, [3]);
  // From a 186 on a shift is by five bits of CL; from a 286 on SP is pushed as it was.
  const { words } = answered(3, "mov ax, 0FFFFh", "mov cl, 33", "shl ax, cl", "mov [8000h], ax", "mov bx, sp",
    "push sp", "pop ax", "sub ax, bx", "mov [8002h], ax", "smsw ax", "and ax, 1Fh", "mov [8004h], ax");
  assert.deepEqual(words, [0xfffe, 0, 0], "nor does it run in protected mode, or have a coprocessor's bit");
});

test("control register 0 has the bits of a 386: it is in real mode, and what it lacks reads as 1", () => {
  const { words } = answered(5, "mov eax, cr0", "mov [8000h], eax", "smsw ax", "mov [8004h], ax", "smsw [8006h]",
    "mov ax, 0Eh", "lmsw ax", "mov eax, cr0", "and ax, 1Fh", "mov [8008h], ax");
  assert.deepEqual(words, [0xffe0, 0x7fff, 0xffe0, 0xffe0, 0x0e]);
  // As Debian's loadlin asks whether a monitor keeps the processor in virtual mode: IOPL stays, or CR0 is 0.
  const asked = answered(1, "mov bx, 4", "mov ah, 40h", "push ax", "popf", "pushf", "pop ax", "and ah, 30h", "jnz told",
    "mov eax, cr0", "or eax, eax", "jz told", "mov bx, 2", "test al, 1", "jnz told", "mov bx, 1", "told: mov [8000h], bx");
  assert.deepEqual(asked.words, [1]);
  // LMSW leads into protected mode, and not out of it.
  const { words: [mode] } = answered(1, "mov ax, 1", "lmsw ax", "mov ax, 0", "lmsw ax", "smsw dx", "mov ebx, cr0",
    "and bl, 0FEh", "mov cr0, ebx", "and dx, 1", "mov [8000h], dx");
  assert.equal(mode, 1);
});

test("there is no coprocessor: the questions are answered, and nothing is lacking", () => {
  const { words, machine } = answered(5, "mov word [8000h], 5A5Ah", "fninit", "fnstsw [8000h]", "mov word [8002h], 0",
    "fnstcw [8002h]", "mov ax, 5A5Ah", "fnclex", "fnstsw ax", "mov [8004h], ax", "int 11h", "mov [8006h], ax",
    "mov eax, cr0", "mov [8008h], ax");
  const [status, control, inAx, equipment, control0] = words;
  // Intel's test: a coprocessor's status is 0 and its control word 037F after fninit.
  assert.notEqual(status & 0xff, 0);
  assert.notEqual(inAx & 0xff, 0);
  assert.notEqual(control & 0x103f, 0x003f);
  assert.deepEqual([equipment & 2, control0 & 0x10], [0, 0]);
  assert.deepEqual(machine.missing, []);
  // Who uses one all the same is told of.
  const other = started({ program: assembled("fninit", "fld1", "jmp $") });
  other.run(SECOND / 10);
  assert.deepEqual(other.missing.map(({ number, value }) => [number, value]), [[7, 0x10000102]]);
  assert.equal(missingText(other.missing), "It uses a coprocessor, which this machine lacks (1000:0102).");
});

test("software that does a coprocessor's work itself gets interrupt 7 for each of its instructions", () => {
  // CR0.EM; interrupt 7 counts, and passes over the instruction's two bytes.
  const { words } = answered(1, "mov word [8000h], 0", "xor ax, ax", "mov es, ax", "mov word [es:1Ch], seven",
    "mov [es:1Eh], cs", "mov eax, cr0", "or al, 4", "mov cr0, eax", "fninit", "fld1", "fnstsw ax", "jmp over",
    "seven: push bp", "mov bp, sp", "add word [bp+2], 2", "pop bp", "inc word [cs:8000h]", "iret", "over: nop");
  assert.equal(words[0], 3);
});

/** Whether FFFF:0510 and 0000:0500 are one byte: writes both, and leaves what the lower one is. */
const wraps = at => ["xor ax, ax", "mov ds, ax", "dec ax", "mov es, ax", "mov byte [500h], 11h",
  "mov byte [es:510h], 22h", "mov al, [500h]", "push cs", "pop ds", `mov [${at}], al`, `mov byte [${at} + 1], 0`];
/** Opens and closes the 21st address line, in the ways that software knows. */
const WAYS = {
  "port 92": [["in al, 92h", "and al, 0FDh", "out 92h, al"], ["in al, 92h", "or al, 2", "out 92h, al"]],
  "the keyboard's controller": [["mov al, 0D1h", "out 64h, al", "mov al, 0DDh", "out 60h, al"],
    ["mov al, 0D1h", "out 64h, al", "mov al, 0DFh", "out 60h, al"]],
  "its short commands": [["mov al, 0DDh", "out 64h, al"], ["mov al, 0DFh", "out 64h, al"]],
  "interrupt 15": [["mov ax, 2400h", "int 15h"], ["mov ax, 2401h", "int 15h"]],
};

test("the 21st address line is open at first; it is closed and opened, and software sees that it is", () => {
  for (const [name, [close, open]] of Object.entries(WAYS)) {
    const { words } = answered(6, ...wraps("8000h"), ...close, ...wraps("8002h"), "in al, 92h", "mov ah, 0",
      "mov [8004h], ax", "mov ax, 2402h", "int 15h", "mov [8006h], ax", ...open, ...wraps("8008h"),
      "mov al, 0D0h", "out 64h, al", "in al, 60h", "mov ah, 0", "and al, 2", "mov [800Ah], ax");
    assert.deepEqual(words, [0x11, 0x22, 0, 0, 0x11, 2], name);
  }
  const { words } = answered(4, "mov ax, 2402h", "int 15h", "mov [8000h], ax", "mov ax, 2403h", "int 15h",
    "mov [8002h], bx", "mov ax, 2404h", "int 15h", "mov [8004h], ax", "sbb ax, ax", "mov [8006h], ax");
  assert.deepEqual(words, [1, 3, 0x8604, 0xffff]);
});

test("a closed address line is kept in snapshots, and opens when the machine starts again", () => {
  const program = assembled(...WAYS["port 92"][0], "again: ", ...wraps("8000h"), "inc word [8002h]", "jmp again");
  const machine = started({ program }), lower = () => machine.ram[PREFIX + ANSWERS];
  machine.run(SECOND / 100);
  const snapshot = machine.snapshot(null);
  assert.equal(lower(), 0x22);
  machine.boot({ program: assembled("again: ", ...wraps("8000h"), "jmp again") });
  machine.run(SECOND / 100);
  assert.equal(lower(), 0x11);
  machine.boot({ program });
  machine.restore(snapshot);
  machine.run(2 * SECOND / 100);
  assert.equal(lower(), 0x22);
});

test("port 92 and the keyboard's controller restart the PC", () => {
  for (const lines of [["mov al, 3", "out 92h, al"], ["mov al, 0D1h", "out 64h, al", "mov al, 0DEh", "out 60h, al"],
    ["mov al, 0FEh", "out 64h, al"]]) {
    const machine = started({ program: assembled(...lines, "jmp $") });
    machine.run(SECOND / 100);
    assert.equal(machine.stopped, "restarted", lines.join("; "));
  }
});

test("the BIOS tells its date, its model, its equipment and its memory, and one place says what the other does", () => {
  const read = index => [`mov al, ${index}`, "out 70h, al", "in al, 71h"];
  const { words, machine } = answered(8, "int 11h", "mov [8000h], ax", "xor ax, ax", "mov es, ax", "mov ax, [es:410h]",
    "mov [8002h], ax", ...read("14h"), "mov ah, 0", "mov [8004h], ax", "int 12h", "mov [8006h], ax", "mov ah, 88h",
    "int 15h", "mov [8008h], ax", ...read("18h"), "mov ah, al", ...read("17h"), "mov [800Ah], ax", ...read("31h"),
    "mov ah, al", ...read("30h"), "mov [800Ch], ax", "mov ah, 0C0h", "int 15h", "mov ax, [es:bx+2]",
    "mov [800Eh], ax");
  // A floppy, and a display of 80 columns with colours; no coprocessor, and one drive.
  assert.deepEqual(words.slice(0, 3), [0x21, 0x21, 0x21]);
  assert.deepEqual(words.slice(3), [640, 15360, 15360, 15360, 0x01fc]);
  const text = Buffer.from(machine.ram.subarray(0xffff5, 0xffffd)).toString();
  assert.match(text, /^\d\d\/\d\d\/\d\d$/);
  assert.equal(machine.ram[0xffffe], 0xfc);
  const two = started({ program: assembled("int 11h", "mov [8000h], ax", "jmp $"), b: new Uint8Array(737280) });
  two.run(SECOND / 100);
  assert.equal(two.ram[PREFIX + ANSWERS], 0x61, "two drives");
});

test("the instructions that come next: of the BIOS those of one stub, and none is told to be lacking", () => {
  const machine = started({ program: assembled("mov ah, 0", "int 16h", "jmp $") });
  machine.run(SECOND / 10);
  const { CS, EIP } = machine.processor, listed = machine.disassembled(CS, EIP, 24);
  assert.deepEqual([CS, EIP], [0xf000, 0x58]);
  assert.deepEqual(listed.map(({ text }) => text.split(" ")[0]), ["out", "iret"]);
  assert.deepEqual(machine.missing, []);
  // Elsewhere what looks like an end is none, and what is no instruction stands there as that.
  const other = machine.disassembled(0x1000, 0x100, 8);
  assert.equal(other.length, 8);
  machine.disassembled(0xf000, 0x680, 24);
  const data = started({ program: assembled("jmp $", "db 0Fh, 0FFh, 0FFh, 0FFh, 0CFh, 0CFh, 90h") });
  data.run(SECOND / 100);
  assert.match(data.disassembled(0x1000, 0x102, 6).map(({ text }) => text).join(), /illegal.*iret.*iret.*nop/);
  assert.deepEqual([...machine.missing, ...data.missing], []);
});

test("what is missing is told by its place, with a colon, or by its call", () => {
  const text = (number, value) => missingText([{ number, value }]);
  assert.equal(text(6, 0xf000005d), "It has an instruction that this processor lacks (F000:005D).");
  assert.equal(text(0x106, 0x102345), "It has an instruction that this processor lacks (00102345).");
  assert.equal(text(0x107, 0x102345), "It uses a coprocessor, which this machine lacks (00102345).");
  assert.equal(text(0, 0x10000103), "It divides by zero (1000:0103).");
  assert.equal(text(0x21, 0x4b00), "It asks for a function of DOS that is missing (AX 4B00).");
  assert.equal(missingText([{ number: 6, value: 1 }, { number: 6, value: 2 }]),
    "It has an instruction that this processor lacks (0000:0001).");
});
