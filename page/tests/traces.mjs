// Traces that are dropped on the page, against the text that zaklimot trace makes of them.
import assert from "node:assert/strict";
import test from "node:test";
import { execFileSync } from "node:child_process";
import { readFileSync, writeFileSync } from "node:fs";
import { textOfTrace as textBy, traceForm } from "../files/trace.js";
import { TOP, loadAdapter, written } from "./loading.mjs";

const adapter = await loadAdapter(), textOfTrace = trace => textBy(trace, adapter);
const EXAMPLE = readFileSync(TOP + "examples/typed-line.trace", "utf-8");
// A frame of 100 characters of 8 dots and 449 lines, at 28,322,000 dots a second, and protected.
const FRAME = ["3C2 67", "3D4 5F00", "3D4 BF06", "3D4 1F07", "3C4 0101", "3D4 8E11"];

/** The text that the tool makes of a trace. */
function toolText(trace, ...options) {
  return written(folder => {
    writeFileSync(folder + "/trace", trace);
    const files = [folder + "/trace", folder + "/out"];
    const words = ["convert", ...files, "--text", "--no-repeat", ...options];
    execFileSync("./zaklimot", ["trace", ...words], { cwd: TOP, stdio: "ignore" });
  }).toString();
}

/** Writes to ports, so many microseconds apart, as a trace. */
function cyclesOf(writes, from, pause) {
  const line = (words, i) => `${from + pause * i} w p ${words} ${words.length > 6 ? 2 : 1}\n`;
  return writes.map(line).join("");
}

/** Numbers at random, the same ones each time: below the bound that is asked for. */
function random(seed) {
  let state = seed;
  return bound => {
    state = (Math.imul(state, 1664525) + 1013904223) >>> 0;
    return Math.floor(state / 2 ** 32 * bound);
  };
}

/** A trace of writes to the ports on which frames hang, of reads and of memory, with all pauses. */
function randomTrace(seed, count) {
  const below = random(seed), pick = list => list[below(list.length)], lines = [];
  const hex = (bound, from = 0) => (from + below(bound)).toString(16);
  let time = 10n ** BigInt(below(18));
  for (let i = 0; i < count; i++) {
    time += BigInt(pick([0, 0, 1, 7, 29, 30, 31, 900, 16000, 10 ** 7, -40]));
    const cycle = pick([
      () => `w p ${pick(["3C2", "3C4", "3C5", "3B4", "3B5", "3D4", "3D5", "3C0"])} ${hex(256)} 1`,
      () => `w p 3D4 ${hex(256)}${pick(["00", "06", "07", "11", "27"])} 2`,
      () => `w p 3C4 ${hex(256)}01 2`,
      () => `w p 3C2 ${pick(["67", "63", "6F", "e3"])} 1`,
      () => `w m ${hex(64, 0xb8000)} ${hex(256)} 1`,
      () => `r m ${hex(64, 0xb8000)} ${hex(65536)} 2`, () => "r p 3DA 9 1"]);
    lines.push(`${i && below(9) === 0 ? "-" : time} ${cycle()}`);
  }
  return lines.join("\n") + "\n";
}

test("a trace with times is the text that zaklimot makes of it with --time", () => {
  assert.equal(traceForm(EXAMPLE), "plain");
  const text = textOfTrace(EXAMPLE);
  assert.equal(text, toolText(EXAMPLE, "--time"));
  assert.equal(text.match(/^advance \d+$/gm).length, 51);
  assert.match(text, /\nframe\nframe\n$/);
});

test("a trace without times is the text that zaklimot makes of it", () => {
  const trace = EXAMPLE.replace(/^\d+/gm, "-"), text = textOfTrace(trace);
  assert.equal(text, toolText(trace));
  assert.doesNotMatch(text, /advance|frame\nframe/);
  // Where the first step has none, the tool refuses --time, and the page passes over the others.
  const late = `- w p 3C2 67 1\n${cyclesOf(FRAME, 5, 100)}`;
  assert.equal(textOfTrace(late), toolText(late));
});

test("a pause is a frame at most, less than a line waits, and time that runs back is none", () => {
  const pauses = times => {
    const trace = cyclesOf(FRAME, 1050, 0) + times.map(time => `${time} w p 3C8 1 1\n`).join("");
    const text = textOfTrace(trace);
    assert.equal(text, toolText(trace, "--time"));
    return text.match(/advance \d+/g) ?? [];
  };
  const line = `advance ${28.322 * 30 | 0}`;
  assert.deepEqual(pauses([1050, 1059]), []);
  assert.deepEqual(pauses([1080, 1109]), [line]);
  assert.deepEqual(pauses([1065, 1080, 1094, 1110, 1109]), [line, line]);
  assert.deepEqual(pauses([1050, 99999999]), ["advance 359200"]);
  assert.deepEqual(pauses([1050, 1, 31]), [line]);
});

test("traces at random are the texts that zaklimot makes of them", () => {
  let advances = 0;
  for (let seed = 1; seed <= 6; seed++) {
    const trace = randomTrace(seed, 600), text = textOfTrace(trace);
    assert.equal(text, toolText(trace, "--time"), `seed ${seed}`);
    advances += text.match(/^advance/gm)?.length ?? 0;
  }
  assert.ok(advances > 500, `${advances} advances`);
});

test("calls, dots and frames that were kept are those of zaklimot", () => {
  const calls = ["int 0003 0 0 0", "int 1301 0007 0003 0000 41624D", "int 13 0 0 0 ; mode 13", "int 0012 1 2 3"];
  const trace = `0+0 ${calls[0]}\n4+122 ${calls[1]}\n9+5 w m B8000 41 1\n9+0 w m B8001 07 1\n` +
    `900+20000 frame\n99999+40000000 r p 3DA 9 1\n99999+0 w p 3C2 63 1\n99999+7 r m A0000 1122334455667788 8\n`;
  assert.equal(traceForm(trace), "plain");
  const text = textOfTrace(trace);
  assert.equal(text, toolText(trace, "--time"));
  // Each dot passes, in steps that a script may have; bytes with dots between them stay bytes.
  const passed = text.match(/(?<=advance )\d+/g).map(Number);
  assert.deepEqual(passed, [122, 5, 16777216, 16777216, 6465568, 7]);
  assert.match(text, /^int ax=1301 bx=0007 cx=0003 dx=0000 block 41624D$/m);
  assert.match(text, /^put B8000 41\nput B8001 07$/m);
  // Without dots the time between calls is that of the modes that they set.
  const micros = calls.map((call, i) => `${100 + i * 40} ${call}\n${120 + i * 40} w p 3C4 ${i}02 2\n`).join("") +
    "99999999 w p 3D4 6300 2\n199999999 w p 3C8 1 1\n" +
    // A split screen writes overflow, which is protected first: the others stay as the mode has them.
    "200000000 w p 3D4 0C11 2\n200000000 w p 3D4 2E07 2\n299999999 w p 3C8 1 1\n";
  assert.equal(textOfTrace(micros), toolText(micros, "--time"));
  assert.equal(textOfTrace(micros).match(/advance/g).length, 6);
  assert.throws(() => textOfTrace("0 w p 3C2 67 1\n1 int 0003 0 0\n"), /Line 2 of the trace/);
});

/** A line of qemu's log; the time is in seconds. */
function event(kind, address, value, size, region, front = "7@1.000001:") {
  return `${front}memory_region_ops_${kind} cpu 0 mr 0x55 ` +
    `addr 0x${address} value 0x${value} size ${size} name '${region}'`;
}

test("a log of qemu is the text that zaklimot makes of it, with its times and without", () => {
  const logOf = front => [event("write", "3c2", "67", 1, "vga", front(0)), "other",
    ...FRAME.map((words, i) => event("write", ...words.toLowerCase().split(" "),
      words.length > 6 ? 2 : 1, "vga", front(i))),
    event("read", "3cc", "67", 1, "vga", front(600)),
    event("read", "1", "2", 1, "ide", front(5)),
    event("write", "b8000", "41", 1, "vga-lowmem", front(900)),
    event("write", "b8001", "7", 1, "vga-lowmem", front(980)),
    event("write", "a0000", "1122334455667788", 8, "vga-chain4", front(990)),
    event("read", "3da", "9", 1, "vga", front(2000)),
    event("read", "b8003", "9", 1, "vga-lowmem", front(2010)),
    event("write", "1ce", "9", 2, "vbe", front(9000)),
    "memory_region_ops_read cpu 0 mr"].join("\n") + "\n";
  const plain = logOf(() => "");
  const timed = logOf(micros => `7@1700000000.00${String(micros).padStart(4, "0")}:`);
  assert.equal(traceForm(timed), "qemu");
  assert.equal(textOfTrace(timed), toolText(timed, "--time"));
  assert.equal(textOfTrace(timed).match(/advance/g).length, 4);
  assert.equal(textOfTrace(plain), toolText(plain));
});

test("what is no trace", () => {
  assert.equal(traceForm("frame\nin 3DA\n"), null);
  assert.throws(() => textOfTrace("1 w p 3C2 67 1\nfoo\n"), /Line 2 of the trace/);
});
