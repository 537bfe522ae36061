// The colours of mode 13 that PCs' BIOSes load, where the user asks for them: by cycles, in running software alone,
// again in a run that is saved; and the screen of a program that has ended.
import assert from "node:assert/strict";
import { createHash } from "node:crypto";
import test from "node:test";
import { Live } from "../machine/live.js";
import { Machine } from "../machine/machine.js";
import { Paused } from "../machine/paused.js";
import { savedRunOf, savedRunText } from "../machine/savedrun.js";
import { FakePage } from "./fakepage.mjs";
import { FONTS, loadAdapter, machineParts } from "./loading.mjs";

// Of the 768 bytes that SeaBIOS loads, which are those of IBM's.
const THEIRS = "4cd8087a865dc27ef4dad0d045f32424";
const SECOND = 1e9, page = new FakePage(), { modules, programs } = await machineParts(), adapter = await loadAdapter();
const code = digits => Uint8Array.from(digits.match(/[0-9A-F]{2}/gi), byte => parseInt(byte, 16));
/** Sets modes, or makes other calls, by the values of AX and BX; then it goes on for ever. */
const calls = (...pairs) => ({ program: code(pairs.map(([ax, bx = 0]) => [0xb8, ax & 255, ax >> 8, 0xbb, bx & 255, bx >> 8,
  0xcd, 0x10].map(byte => byte.toString(16).padStart(2, "0")).join("")).join("") + "EBFE") });

/** The DAC of a machine: 768 bytes. */
function coloursOf(machine) {
  const found = [];
  for (let entry = 0; entry < 256; entry++) {
    machine.calls.zak_read_colour(machine.card, entry, machine.room);
    found.push(...machine.adapterBytes.subarray(machine.room, machine.room + 3));
  }
  return Uint8Array.from(found);
}

/** The colours that some software leaves. */
function coloursAfter(software, isTheirs) {
  const machine = new Machine(modules, FONTS);
  machine.boot(software);
  if (isTheirs) machine.setPalette(true);
  machine.run(SECOND / 10);
  return { machine, colours: coloursOf(machine) };
}

const sumOf = bytes => createHash("md5").update(bytes).digest("hex");

test("mode 13 begins with the colours that PCs' BIOSes load, where they are asked for; 237 are others here", () => {
  const own = coloursAfter(calls([0x13]), false).colours, theirs = coloursAfter(calls([0x13]), true).colours;
  assert.equal(sumOf(theirs), THEIRS);
  const differing = Array.from({ length: 256 }, (_, entry) => 3 * entry)
    .filter(at => [0, 1, 2].some(part => own[at + part] !== theirs[at + part]));
  assert.equal(differing.length, 237);
  assert.equal(sumOf(coloursAfter(calls([0x93]), true).colours), THEIRS, "with the memory kept");
});

test("other modes keep theirs, and so does software that wants no palette, or greys", () => {
  for (const software of [calls([0x03]), calls([0x12]), calls([0x1201, 0x31], [0x13]), calls([0x1200, 0x33], [0x13])]) {
    assert.deepEqual(coloursAfter(software, true).colours, coloursAfter(software, false).colours);
  }
  assert.equal(sumOf(coloursAfter(calls([0x1201, 0x31], [0x1200, 0x31], [0x13]), true).colours), THEIRS);
});

test("the colours are cycles of the run: the adapter answers its frames alike, and a saved run has them", async () => {
  page.turns.clear();
  const live = new Live(modules, FONTS, { changed() {}, failed: error => { throw error; } }, { version: "this" });
  live.hasTheirColours = true;
  live.start(calls([0x13]), "thirteen");
  page.turnUntil(() => live.machine.cpu.now() > SECOND / 2);
  assert.equal(live.hasOwnColours, false);
  live.pause();
  const session = new Paused(live, adapter, FONTS).session();
  while (session.runFor(100));
  assert.deepEqual([session.wrong, session.refused, session.compared()], [0, 0, ""]);
  const { outline } = session, words = Array.from({ length: session.length }, (_, step) => outline.wordsOf(outline.entryOf(step)));
  assert.equal(words.filter(one => one.startsWith("out 3C9")).length >= 768, true);
  session.close();
  const { machine } = live, text = await savedRunText("thirteen", machine.software, machine.inputs);
  const { software, inputs } = await savedRunOf(new TextEncoder().encode(text)), again = new Machine(modules, FONTS);
  again.boot(software);
  again.inputs = inputs;
  again.runAgain(SECOND / 10);
  assert.equal(sumOf(coloursOf(again)), THEIRS);
  const damaged = text.replace('"set_palette",1', '"set_palette",2');
  await assert.rejects(savedRunOf(new TextEncoder().encode(damaged)), /an input is damaged/);
  live.close();
});

test("a program that has ended shows its screen, down to its last line, and its frames are to be had all the same", () => {
  page.turns.clear();
  page.byId("live").listeners.clear();
  const live = new Live(modules, FONTS, { changed() {}, failed: error => { throw error; } }, { version: "this" });
  // mov ah, 2; mov dl, 'A'; int 21h; mov ax, 4C00h; int 21h
  live.start({ program: code("B402B241CD21 B8004CCD21") }, "prints");
  page.turnUntil(() => live.state === "paused");
  const { machine } = live, [shown, moment] = [machine.shown, machine.moment];
  assert.deepEqual([live.isOver, live.reason], [true, "The program has ended."]);
  assert.ok(shown > 0 && machine.height === 400);
  const last = live.snapshots.last;
  assert.deepEqual([last.time, last.cycles], [moment.time, moment.cycles]);
  const session = new Paused(live, adapter, FONTS).session();
  while (session.runFor(100));
  assert.equal(session.compared(), "");
  session.close();
  live.restart();
  assert.equal(live.isOver, false);
  live.close();
  // One that is stopped by the user has not ended.
  live.start({ program: programs.find(one => one.name === "bars.com").bytes }, "bars");
  page.turnUntil(() => live.machine.cpu.now() > SECOND / 4);
  live.pause();
  assert.equal(live.isOver, false);
  live.close();
});
