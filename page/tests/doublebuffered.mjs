// Who wrote this dot, in software that runs? Three programs for DOS, in modes 13, X and D, draw into a hidden page and
// turn to it in the retrace. Each keeps a list in its own memory: by which write each dot became what it is. The page
// explains the picture of the paused machine, and finds the same writes.
import assert from "node:assert/strict";
import { execFileSync } from "node:child_process";
import { mkdtempSync, readFileSync, rmSync, writeFileSync } from "node:fs";
import { tmpdir } from "node:os";
import { join } from "node:path";
import test from "node:test";
import { DotSearch } from "../explain/dotsearch.js";
import { Machine, SPEEDS } from "../machine/machine.js";
import { Recording, judgedRecording } from "../machine/recording.js";
import { rebuildingLines } from "../machine/rebuilt.js";
import { Session } from "../run/session.js";
import { KIND } from "../script/steplist.js";
import { Random } from "./randomly.mjs";
import { FONTS, TOP, loadAdapter, machineParts, runWhole } from "./loading.mjs";

const { modules } = await machineParts(), adapter = await loadAdapter();
/** Where a program has its numbers and its list, in bytes of the machine's memory. */
const NUMBERS = 0x18000, LIST = 0x40000, ENTRY = 4, SIDE = 16;
/** Every so many cells are asked about, and of so many at least these frames tell. */
const STRIDE = 3, LEAST = 60;
const MILLISECOND = 1e6, SETTLED = 800, WAITED = 5, MOST_FRAMES = 40, MOST_CYCLES = 250000, DISPLAY = 0xa0000;

/**
 * Sets the mode, and then draws 40 cells of a page at random, turns to the page, and waits for the retrace. Numbers lie at
 * DS:8000: how many writes were made, whether it waits, which page is hidden, and the seed. The list has four bytes for
 * each of 16 by 16 cells of both pages: the colour, and by which write the cell became so.
 */
const SHELL = `%include "video.inc"
        cpu 386
COUNT   equ 8000h
WAITS   equ 8002h
HIDDEN  equ 8004h
SEED    equ 8006h
        setup
        mov word [COUNT], 0
        mov word [WAITS], 0
        mov word [HIDDEN], 1
        mov word [SEED], 1234h
        mov ax, 4000h
        mov es, ax
        mov fs, ax
        xor di, di
        xor ax, ax
        mov cx, 1024
        cld
        rep stosw
        mov ax, 0A000h
        mov es, ax

frame:  mov word [WAITS], 0
        mov cx, 40
draw:   push cx
        call random
        mov [cell], ax
        call random
        and ax, 3
        mov bx, ax
        mov al, [colours + bx]
        call pixel
        pop cx
        loop draw
        mov bx, [HIDDEN]
        shl bx, 1
        mov bx, [begins + bx]
        mov dx, CONTROLLER
        mov al, 0Ch
        mov ah, bh
        out dx, ax
        mov al, 0Dh
        mov ah, bl
        out dx, ax
        xor word [HIDDEN], 1
        mov word [WAITS], 1
        mov dx, STATUS
during: in al, dx
        test al, RETRACE
        jnz during
before: mov cx, 40                      ; about a line: it looks seldom, and misses no retrace
        loop $
        in al, dx
        test al, RETRACE
        jz before
        jmp frame

random: mov ax, [SEED]
        imul ax, ax, 25173
        add ax, 13849
        mov [SEED], ax
        shr ax, 8
        ret

; SI: the cell's entry in the list. DI: the cell's row and column in the page.
place:  movzx bx, byte [cell]
        mov si, [HIDDEN]
        shl si, 8
        add si, bx
        shl si, 2
        mov di, bx
        shr di, 4
        imul di, di, 6 * ROW
        and bx, 15
        mov dx, [HIDDEN]
        imul dx, dx, SIZE
        add di, dx
        ret

; A write comes that makes the cell's colour AL.
note:   inc word [COUNT]
        cmp [fs:si], al
        je same
        mov [fs:si], al
        mov dx, [COUNT]
        mov [fs:si + 2], dx
same:   ret

colours: db 0, 3, 9, 0Fh
begins: dw 0, BEGIN
cell:   dw 0
`;

/** By their modes: the assembler's lines of each program, and how many dots and lines a cell is apart and wide. */
const MODES = {
  "13": { across: 2, wide: 2, lines: `ROW equ 320
SIZE equ 32000
BEGIN equ 8000
%macro setup 0
        mode 13h
%endmacro
${SHELL}
pixel:  push ax
        call place
        add di, bx
        pop ax
        call note
        mov [es:di], al
        ret` },
  "X": { across: 2, wide: 2, lines: `ROW equ 80
SIZE equ 4000h
BEGIN equ 4000h
%macro setup 0
        mode 13h
        register SEQUENCER, 4, 06h
        register CONTROLLER, 14h, 00h
        register CONTROLLER, 17h, 0E3h
%endmacro
${SHELL}
pixel:  push ax
        call place
        mov cl, bl
        and cl, 3
        mov ah, 1
        shl ah, cl
        shr bx, 2
        add di, bx
        mov al, 2
        mov dx, SEQUENCER
        out dx, ax
        pop ax
        call note
        mov [es:di], al
        ret` },
  "D": { across: 8, wide: 8, lines: `ROW equ 40
SIZE equ 2000h
BEGIN equ 2000h
%macro setup 0
        mode 0Dh
%endmacro
${SHELL}
; First the planes of the colour get ones, and then the others zeros.
pixel:  mov cx, ax
        call place
        add di, bx
        mov al, [fs:si]
        or al, cl
        call note
        mov ah, cl
        mov bl, 0FFh
        call planes
        mov al, [fs:si]
        and al, cl
        call note
        mov ah, cl
        not ah
        and ah, 0Fh
        mov bl, 0
planes: mov al, 2
        mov dx, SEQUENCER
        out dx, ax
        mov [es:di], bl
        ret` },
};

function assembled(text) {
  const folder = mkdtempSync(join(tmpdir(), "zaklimot-assembled-"));
  try {
    writeFileSync(join(folder, "made.asm"), text);
    execFileSync("nasm", ["-f", "bin", "-I", `${TOP}examples/machine/`, "-o", join(folder, "made.com"),
      join(folder, "made.asm")]);
    return new Uint8Array(readFileSync(join(folder, "made.com")));
  } finally {
    rmSync(folder, { recursive: true });
  }
}

const word = ({ ram }, at) => ram[at] | ram[at + 1] << 8;

/** A program that has drawn for a while, and waits amid a frame: { machine, snapshot }. */
function waiting(program) {
  const machine = new Machine(modules, FONTS);
  machine.isShowing = false;
  machine.boot({ program });
  machine.setSpeed(SPEEDS["286"]);
  const snapshot = machine.snapshot(null);
  let time = SETTLED * MILLISECOND, waited = 0;
  machine.run(time);
  while (waited < WAITED) {
    machine.run(time += MILLISECOND);
    waited = word(machine, NUMBERS + 2) ? waited + 1 : 0;
    assert.ok(time < 3 * SETTLED * MILLISECOND, "it never waits");
  }
  return { machine, snapshot };
}

/** The steps of its last frames. */
function sessionOf({ machine, snapshot }) {
  const frame = machine.frameBefore(MOST_CYCLES, MOST_FRAMES), { state } = machine.runWindow(snapshot, frame, machine.moment);
  const recording = new Recording(rebuildingLines(adapter, FONTS, state), machine);
  return { recording, session: runWhole(new Session(adapter, FONTS, "", judgedRecording(adapter, recording))) };
}

/** Of each step the number of the program's last write until then; `count` writes were made in all. */
function writesOf(recording, count) {
  const numbers = new Array(recording.length + 1).fill(count);
  for (let step = recording.length; step > 0; step--) {
    const entry = recording.entryOf(step - 1);
    const isWrite = recording.kinds[entry] === KIND.put && step > recording.head.length;
    numbers[step - 1] = numbers[step] - (isWrite ? 1 : 0);
  }
  return numbers;
}

/** What a search finds. */
function found(search) {
  for (;;) {
    const told = search.take(1000);
    if (told) return told;
  }
}

for (const [mode, { across, wide, lines }] of Object.entries(MODES)) {
  test(`who wrote each dot of a program that turns pages in mode ${mode}`, () => {
    const paused = waiting(assembled(lines)), { machine } = paused, { recording, session } = sessionOf(paused);
    const count = word(machine, NUMBERS), page = word(machine, NUMBERS + 4), numbers = writesOf(recording, count);
    const random = new Random(mode.charCodeAt(0)), first = recording.head.length;
    let told = 0, older = 0;
    assert.equal(session.wrong, 0);
    for (let cell = random.below(STRIDE); cell < SIDE * SIDE; cell += STRIDE) {
      const at = LIST + ENTRY * (SIDE * SIDE * page + cell), wanted = word(machine, at + 2);
      const place = { line: 12 * (cell >> 4), dot: across * (cell & 15) + random.below(wide) };
      const { steps } = found(new DotSearch(session, place, session.length, { isDrawn: true }));
      if (wanted <= numbers[first]) {
        assert.ok(steps <= first, `cell ${cell}: write ${wanted} came before these frames, and not in step ${steps}`);
        older++;
        continue;
      }
      assert.ok(steps > first, `cell ${cell}: no write was found, and write ${wanted} is its`);
      assert.equal(recording.nameOf(recording.entryOf(steps - 1)), "put");
      assert.equal(numbers[steps], wanted, `cell ${cell}: step ${steps}, ${recording.wordsOf(recording.entryOf(steps - 1))}`);
      told++;
    }
    console.log(`mode ${mode}: ${told} dots, and ${older} of before these ${recording.length - first} steps`);
    assert.ok(told > LEAST, `${told} dots`);
    session.close();
  });
}
