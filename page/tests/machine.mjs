// The machine that runs software: that a run can be done again from any snapshot, that a window is a
// script which answers as the machine did, and that no software makes it hang.
import assert from "node:assert/strict";
import { execFileSync } from "node:child_process";
import { createHash } from "node:crypto";
import { existsSync, mkdirSync, mkdtempSync, readFileSync, rmSync, writeFileSync } from "node:fs";
import { tmpdir } from "node:os";
import { dirname, join } from "node:path";
import test from "node:test";
import { Machine, SPEEDS } from "../machine/machine.js";
import { Card, WIDEST } from "../../javascript/zaklimot.js";
import { Recording, judgedRecording } from "../machine/recording.js";
import { Session, judgedText } from "../run/session.js";
import { bytesOfKey } from "../machine/pckeys.js";
import { rebuildingLines } from "../machine/rebuilt.js";
import { isSavedRun, savedRunOf, savedRunText } from "../machine/savedrun.js";
import { stopOf } from "../machine/stops.js";
import { traceOfRecording } from "../machine/windowtrace.js";
import { filesBeside, softwareIn, softwareOf } from "../machine/software.js";
import { Trouble } from "../common/trouble.js";
import { packed } from "../files/share.js";
import { filesOfZip, isZip } from "../machine/zip.js";
import { FONTS, TOP, loadAdapter, machineParts, runWhole, written } from "./loading.mjs";

const SECOND = 1e9, HALF = SECOND / 2;
const { modules, programs } = await machineParts();

function started(software) {
  const machine = new Machine(modules, FONTS);
  machine.isShowing = false;
  machine.boot(software);
  return machine;
}

/** All that a machine's state is, as one text. */
function stateOf(machine) {
  const sums = [machine.ram, machine.savedState()]
    .map(bytes => createHash("sha256").update(bytes).digest("hex"));
  return `${machine.cpu.cycles()} ${machine.cpu.instructions()} ${machine.cpu.now()} ${sums.join(" ")}`;
}

/** Bytes that hexadecimal digits spell. */
const code = digits => Uint8Array.from(digits.match(/[0-9A-F]{2}/gi), byte => parseInt(byte, 16));

for (const { name, bytes } of programs) {
  test(`${name} runs again as it ran, with its keys`, () => {
    const machine = started({ program: bytes }), begin = machine.snapshot(null);
    machine.run(HALF);
    machine.key(0x2a, 0);
    machine.run(SECOND);
    const middle = machine.snapshot(), wanted = [stateOf(machine)];
    machine.key(0xaa, 0);
    machine.run(SECOND + HALF);
    wanted.push(stateOf(machine));
    for (const snapshot of [begin, middle, begin]) {
      machine.restore(snapshot);
      if (snapshot === begin) machine.runAgain(SECOND);
      assert.equal(stateOf(machine), wanted[0]);
      machine.runAgain(SECOND + HALF);
      assert.equal(stateOf(machine), wanted[1]);
    }
    assert.equal(machine.cpu.refusals(), 0);
  });
}

const adapter = await loadAdapter();

/** The last frames of a machine that has run on from a snapshot, as a recording. */
function recordingOf(machine, snapshot, cycles) {
  const frame = machine.frameBefore(cycles, 70), { moment } = machine;
  assert.ok(frame !== null && frame >= snapshot.frames, `frame ${frame}`);
  const { state } = machine.runWindow(snapshot, frame, moment);
  return new Recording(rebuildingLines(adapter, FONTS, state), machine);
}

for (const { name, bytes } of programs) {
  test(`the last frames of ${name} are a script that answers the same`, () => {
    const machine = started({ program: bytes });
    machine.run(HALF);
    const snapshot = machine.snapshot(null);
    machine.run(2 * SECOND);
    const live = Buffer.from(machine.savedState()), cycles = machine.cpu.cycles();
    const recording = recordingOf(machine, snapshot, 100000);
    assert.equal(machine.cpu.cycles(), cycles);
    const session = runWhole(new Session(adapter, FONTS, "", judgedRecording(adapter, recording)));
    assert.equal(session.wrong, 0);
    assert.equal(session.refused, 0);
    session.seek(session.length);
    assert.equal(Buffer.compare(Buffer.from(session.card.save()), live), 0, "the state at its end");
    session.close();
    // The text that is saved means the same steps.
    const { outline, script } = judgedText(adapter, recording.text);
    assert.equal(outline.length, recording.length);
    assert.equal(Buffer.compare(Buffer.from(script), Buffer.from(judgedRecording(adapter, recording).script)), 0);
    for (let entry = 0; entry < recording.kinds.length; entry += 7) {
      assert.equal(outline.lineOf(entry), recording.lineOf(entry));
      assert.equal(outline.wordsOf(entry), recording.wordsOf(entry));
      assert.equal(outline.expectedOf(entry), recording.expectedOf(entry));
    }
  });
}

/** The script that zaklimot trace makes of a trace with times, as a session that has run. */
function convertedTrace(trace) {
  const text = written(folder => {
    writeFileSync(join(folder, "trace"), trace);
    execFileSync("./zaklimot", ["trace", "convert", join(folder, "trace"), join(folder, "out"), "--text", "--time"],
      { cwd: TOP, stdio: "ignore" });
  }).toString();
  return { session: runWhole(new Session(adapter, FONTS, text)) };
}

/** The pictures of the last two frames of a session: the one under way where its cycles end, and a whole one. */
function lastPictures(session) {
  return [session.length - 1, session.length].map(steps => {
    session.seek(steps - 1);
    const { width, height, rgb } = session.seen(steps).picture;
    return { size: `${width} by ${height}`, rgb: Buffer.from(rgb) };
  });
}

/** The share of dots that differ. */
function differing({ rgb: one }, { rgb: other }) {
  let count = 0;
  for (let at = 0; at < one.length; at += 3) {
    if (Buffer.compare(one.subarray(at, at + 3), other.subarray(at, at + 3))) count++;
  }
  return count / one.length * 3;
}

/** Mode 13; then it writes E3 and 63 to port 3C2 by turns, some frames apart. */
const TURNS = { name: "turns.com", bytes: code("B81300 CD10 BAC203 B0E3 EE BB1400 31C9 E2FE 4B 75F9" +
  "BAC203 B063 EE BB1400 31C9 E2FE 4B 75F9 EBDE") };

for (const { name, bytes } of [...programs, TURNS]) {
  test(`the last frames of ${name} are a trace, of which zaklimot makes the same pictures`, () => {
    const machine = started({ program: bytes });
    machine.run(HALF);
    const snapshot = machine.snapshot(null);
    machine.run(1.5 * SECOND);
    const recording = recordingOf(machine, snapshot, 60000);
    const { session } = convertedTrace(traceOfRecording(recording, adapter, FONTS));
    assert.equal(session.wrong, 0, String(session.differing.slice(0, 3)));
    assert.equal(session.refused, 0);
    const own = runWhole(new Session(adapter, FONTS, `${recording.text}frame\nframe\n`));
    const [[amid, last], [ownAmid, ownLast]] = [session, own].map(lastPictures);
    assert.equal(last.size, ownLast.size);
    assert.equal(differing(last, ownLast), 0);
    // What changes while the beam draws comes up to a line sooner or later: zaklimot adds up times below 30
    // microseconds. Bars have a colour of their own on each line.
    assert.equal(amid.size, ownAmid.size);
    const share = differing(amid, ownAmid);
    assert.ok(share < (name === "bars.com" ? 0.06 : 0.01), `${share} of the dots differ`);
    for (const one of [own, session]) one.close();
  });
}

test("each step has its instruction, and the machine comes to it", () => {
  const { bytes } = programs.find(({ name }) => name === "lines.com");
  const machine = started({ program: bytes });
  machine.run(HALF);
  const snapshot = machine.snapshot(null);
  machine.run(SECOND);
  const end = machine.cpu.now(), cycles = machine.cpu.cycles();
  const recording = recordingOf(machine, snapshot, 100000);
  const first = cycles - recording.words.length / 4;
  const names = new Set();
  for (let step = recording.head.length; step < recording.length; step += 5003) {
    const entry = recording.entryOf(step), place = recording.placeOf(entry);
    if (recording.nameOf(entry) === "advance") continue;
    names.add(place.text.split(" ")[0]);
    machine.restore(snapshot);
    machine.cpu.stop_at_cycle(first + recording.recordsBefore(step + 1));
    machine.runAgain(end);
    machine.cpu.stop_at_cycle(Infinity);
    machine.cpu.go_on();
    // The instruction after this one comes next.
    const [segment, offset] = [new Uint32Array(machine.cpu.memory.buffer, machine.cpu.registers(), 16)]
      .flatMap(words => [words[11], words[8]]);
    assert.equal(segment, place.segment);
    assert.ok(offset > place.offset && offset < place.offset + 8, `${offset} after ${place.offset}`);
  }
  assert.ok(names.size >= 2, [...names].join(" "));
});

/** Runs to a time past each stop; how many there were, by their reasons. */
function runPast(machine, until) {
  const stops = {};
  while (!machine.run(until) && machine.stopped !== "ended") {
    stops[machine.stopped] = (stops[machine.stopped] ?? 0) + 1;
    machine.cpu.pass_place();
    machine.cpu.go_on();
  }
  return stops;
}

for (const { name, bytes } of programs) {
  test(`${name} with stops runs as it does without`, () => {
    const machine = started({ program: bytes }), begin = machine.snapshot(null);
    machine.run(HALF);
    const wanted = stateOf(machine), { moment } = machine;
    // The instruction that reaches one of these is one to stop at, too.
    const addresses = [0x3da, 0x3c9, 0x3d5, 0xa0140, 0xa7d00, 0xb8010];
    machine.restore(begin);
    machine.stopAt({ addresses, isMode: true, isRefusal: true });
    machine.run(HALF);
    const { CS, EIP } = machine.processor, amid = machine.moment;
    assert.notEqual(machine.stopped, "runs");
    machine.stopAt({ addresses, places: [CS << 16 | EIP], isMode: true });
    machine.cpu.pass_place();
    machine.cpu.go_on();
    const stops = runPast(machine, HALF);
    assert.equal(stateOf(machine), wanted, JSON.stringify(stops));
    machine.restore(begin);
    machine.runAgainTo(moment);
    assert.equal(stateOf(machine), wanted);
    machine.restore(begin);
    machine.runAgainTo(amid);
    assert.equal(machine.cpu.cycles(), amid.cycles);
  });
}

test("stops: at each of several places, by segment and offset, and not where the machine is", () => {
  // es = A000; again: inc ax; nop; or a byte of memory that text has not; again
  const program = code("B800A0 8EC0 40 90 EBFC"), machine = started({ program });
  machine.run(HALF / 100);
  const { CS } = machine.processor, at = offset => CS * 0x10000 + offset, until = () => machine.cpu.now() + HALF / 100;
  const next = () => {
    const goes = machine.run(until());
    machine.cpu.go_on();
    return goes ? "runs" : `${machine.processor.EIP.toString(16)} ${machine.processor.EAX & 1}`;
  };
  machine.stopAt({ places: [at(0x105), at(0x106)] });
  const seen = new Set([next(), next(), next(), next()].map(told => told.split(" ")[0]));
  assert.deepEqual([...seen].sort(), ["105", "106"]);
  // The same offset in another segment is another place.
  machine.stopAt({ places: [at(0x106) + 0x10000] });
  assert.equal(next(), "runs");
  // Where it is now it does not stop, but there the next time round.
  machine.stopAt({ places: [at(0x106)] });
  next();
  machine.stopAt({ places: [at(0x106)] });
  machine.cpu.pass_place();
  const before = machine.cpu.instructions();
  assert.match(next(), /^106/);
  assert.equal(machine.cpu.instructions() - before, 3);
  // Nothing is left of a stop that was taken away.
  machine.stopAt({ addresses: [0x3da], places: [at(0x106)] });
  machine.stopAt();
  assert.equal(next(), "runs");
});

test("stops: at a refused cycle, at either byte of a word, and at none when they are taken away", () => {
  // A read of 3DA; a word to 3D4; a byte of A0000, which text has not; again
  const program = code("B800A0 8EC0 BADA03 EC BAD403 B80E00 EF 26C6060000 01 EBED".replaceAll(" ", ""));
  const stopsAt = stop => {
    const machine = started({ program });
    machine.stopAt(stop);
    machine.run(HALF / 100);
    return [machine.stopped, machine.processor.EIP & 0xffff];
  };
  assert.deepEqual(stopsAt({ addresses: [0x3da] }), ["watch", 0x109]);
  assert.deepEqual(stopsAt({ addresses: [0x3d4] }), ["watch", 0x110]);
  assert.deepEqual(stopsAt({ addresses: [0x3d5] }), ["watch", 0x110]);
  assert.deepEqual(stopsAt({ isRefusal: true }), ["refusal", 0x116]);
  const machine = started({ program });
  machine.stopAt({ addresses: [0x3da], isRefusal: true });
  machine.stopAt();
  assert.ok(machine.run(HALF / 100));
});

test("a run that is saved runs as it ran, at each of its speeds", async () => {
  const { bytes } = programs.find(({ name }) => name === "plasma.com");
  const machine = started({ program: bytes }), begin = machine.snapshot(null);
  machine.setSpeed(SPEEDS["386"]);
  machine.run(HALF / 4);
  // Shift, at which the program does not end.
  machine.key(0x2a, 0);
  machine.run(HALF / 2);
  machine.setSpeed(SPEEDS[8088]);
  machine.run(HALF);
  const wanted = stateOf(machine);
  machine.restore(begin);
  machine.runAgain(HALF);
  assert.equal(stateOf(machine), wanted);
  const text = await savedRunText("plasma.com", machine.software, machine.inputs);
  assert.ok(isSavedRun(Buffer.from(text)));
  const { software, inputs, name } = await savedRunOf(Buffer.from(text)), other = started(software);
  other.inputs = inputs;
  while (other.cpu.now() < HALF && other.stopped === "runs") other.runFrame(HALF);
  assert.equal(name, "plasma.com");
  assert.equal(stateOf(other), wanted);
  assert.ok(!other.isReplaying);
});

/** A ZIP as `zip` makes it, of files in a folder. */
function zipped(files, ...words) {
  const folder = mkdtempSync(join(tmpdir(), "zaklimot-zip-"));
  try {
    for (const [name, bytes] of Object.entries(files)) {
      mkdirSync(join(folder, dirname(name)), { recursive: true });
      writeFileSync(join(folder, name), bytes);
    }
    execFileSync("python3", ["-m", "zipfile", "-c", "made.zip", ...new Set(Object.keys(files).map(name => name.split("/")[0])),
      ...words], { cwd: folder });
    return new Uint8Array(readFileSync(join(folder, "made.zip")));
  } finally {
    rmSync(folder, { recursive: true });
  }
}

test("a ZIP: what runs in it, and the files beside it", async () => {
  const text = Buffer.from("hello ".repeat(1000));
  // Opens IN.TXT, reads five bytes, and makes OUT.TXT of them.
  const program = code("B8003DBA2F01CD2189C3B43FB90500BA4001CD21B43C31C9BA3701CD2189C3B440B90500BA4001CD21B8004CCD2190" +
    "494E2E54585400" + "90" + "4F55542E54585400");
  const zip = zipped({ "game/run.com": program, "game/in.txt": text, "game/deep/more.txt": "x" });
  assert.ok(isZip(zip) && !isZip(text));
  const files = await filesOfZip(zip);
  assert.deepEqual(files.map(({ name, bytes }) => [name, bytes.length]).sort(),
    [["game/deep/more.txt", 1], ["game/in.txt", 6000], ["game/run.com", program.length]]);
  const [{ name, software }, ...others] = softwareIn(files);
  assert.deepEqual([name, others.length], ["game/run.com", 0]);
  // A video ROM runs nothing by itself, and one program that is too large keeps no other from running.
  const rom = new Uint8Array(512), large = { name: "large.com", bytes: new Uint8Array(0xff01) };
  rom.set([0x55, 0xaa, 1]);
  rom.set([0x55, 0xaa], 510);
  assert.deepEqual(softwareIn([{ name: "video.rom", bytes: rom }]), []);
  assert.deepEqual(softwareIn([large, ...files]).map(one => one.name), ["game/run.com"]);
  assert.throws(() => softwareIn([large]), /large\.com has 65,281 bytes/);
  const machine = started({ ...software, files: filesBeside(files, name) });
  machine.run(HALF);
  assert.deepEqual(machine.changedFiles().map(file => [file.name, Buffer.from(file.bytes).toString()]),
    [["OUT.TXT", "hello"]]);
  const saved = await savedRunOf(Buffer.from(await savedRunText(name, machine.software, machine.inputs)));
  assert.deepEqual(saved.software.files.map(file => file.name).sort(), ["deep/more.txt", "in.txt", "run.com"]);
  for (let length = 31; length < zip.length; length += 7) {
    await assert.rejects(() => filesOfZip(zip.slice(0, length)), /is damaged/, `${length} bytes`);
  }
  for (let at = 0; at < zip.length; at++) {
    const other = zip.slice();
    other[at] ^= 0xff;
    // It is read as it is, or refused with a reason.
    await filesOfZip(other).catch(error => assert.ok(error instanceof Trouble, String(error)));
  }
});

/** What a few lines of Python write, with a ZipFile `made` of memory. */
function zipOf(...lines) {
  const script = ["import io, sys, zipfile", "held = io.BytesIO()",
    "with zipfile.ZipFile(held, 'w', zipfile.ZIP_DEFLATED) as made:", ...lines.map(line => `    ${line}`), "sys.stdout.buffer.write(held.getvalue())"];
  return new Uint8Array(execFileSync("python3", ["-c", script.join("\n")]));
}

test("a ZIP with comments and fields of their own, and with figures that are wrong", async () => {
  const zip = zipOf("made.comment = b'words behind'", "one = zipfile.ZipInfo('one.txt')", "one.comment = b'a comment'",
    "one.extra = bytes([9, 9, 2, 0, 1, 2])", "made.writestr(one, 'first')", "made.writestr('two.txt', 'second ' * 99)",
    "made.writestr('folder/', '')");
  const files = await filesOfZip(zip);
  assert.deepEqual(files.map(({ name, bytes }) => [name, Buffer.from(bytes).toString().slice(0, 6)]),
    [["one.txt", "first"], ["two.txt", "second"]]);
  const central = Buffer.from(zip).indexOf(Buffer.from("PK\x01\x02", "latin1"));
  const second = Buffer.from(zip).indexOf(Buffer.from("PK\x01\x02", "latin1"), central + 4);
  const end = Buffer.from(zip).indexOf(Buffer.from("PK\x05\x06", "latin1"));
  const changed = (...changes) => {
    const other = Buffer.from(zip);
    for (const [at, value, bytes] of changes) other.writeUIntLE(value, at, bytes);
    return new Uint8Array(other);
  };
  const refused = (reason, ...changes) => assert.rejects(() => filesOfZip(changed(...changes)), reason);
  await refused(/one\.txt in this ZIP is encrypted/, [central + 8, 1, 2]);
  await refused(/by a method that this page lacks/, [central + 10, 12, 2]);
  // The lengths that the directory tells: of a stored file, and of a packed one.
  for (const [at, length] of [[central, 4], [central, 6], [second, 692], [second, 694]]) {
    await refused(/is damaged/, [at + 24, length, 4]);
  }
  await refused(/have more than 67,108,864 bytes/, [central + 24, 40 << 20, 4], [second + 24, 40 << 20, 4]);
  await refused(/has 513 files, and drive C has room for 512/, [end + 10, 513, 2]);
});

test("a run that is damaged is refused with a reason", async () => {
  const good = JSON.parse(await savedRunText("a.com", { program: code("CD20") }, [
    { time: 10, does: "key", values: [0x1e, 0x1e61] }]));
  const refused = async (change, reason) => {
    const text = JSON.stringify({ ...good, ...change });
    await assert.rejects(() => savedRunOf(Buffer.from(text)), reason, text.slice(0, 200));
  };
  await savedRunOf(Buffer.from(JSON.stringify(good)));
  await assert.rejects(() => savedRunOf(Buffer.from('{"is":"zaklimot run"')), /no JSON/);
  await refused({ version: 2 }, /another version/);
  await refused({ software: null }, /damaged/);
  await refused({ software: {} }, /no software/);
  await refused({ software: { program: "AAAA" } }, /software in this run is damaged/);
  await refused({ inputs: {} }, /damaged/);
  for (const input of [null, [], [-1, "key", 1, 2], [1, "key", 1], [1, "key", 1, 1.5], [1, "boot", 1, 2],
    [1, "set_instruction_time", 0], [1, "toString"], [1, "mouse", 1, 2, 70000]]) {
    await refused({ inputs: [input] }, /an input is damaged/);
  }
  await refused({ inputs: [[20, "key", 1, 1], [10, "key", 1, 1]] }, /an input is damaged/);
  for (const input of [[1e16, "key", 1, 1], [1, "change", 0, 0], [1, "change", 2, 0], [1, "change", 0]]) {
    await refused({ inputs: [input] }, /an input is damaged/);
  }
  const large = await packed(new Uint8Array(0x90001)), program = await packed(code("CD20"));
  await refused({ software: { program: large } }, /software in this run is damaged/);
  const half = await packed(new Uint8Array(40 << 20));
  await refused({ software: { program, files: [["a", half], ["b", half]] } }, /software in this run is damaged/);
  for (const files of [[[5, program]], [["a", 5]], ["a"], {}, Array(513).fill(["a", program])]) {
    await refused({ software: { program, files } }, /damaged/);
  }
  for (const media of [5, [5], ["AAAA"], Array(33).fill(program)]) {
    await refused({ software: { program, media } }, /damaged/);
  }
});

test("a run keeps all of its software", async () => {
  const part = first => Uint8Array.from({ length: 512 }, (_, i) => first + i & 0xff);
  const given = { program: part(1), a: part(2), b: part(3), c: part(4), rom: part(5),
    files: [{ name: "deep/x.txt", bytes: part(6) }], media: [part(7)] };
  const text = await savedRunText("all", given, [{ time: 1, does: "change", values: [1, 0] }]);
  const { software } = await savedRunOf(Buffer.from(text));
  assert.deepEqual(software, given);
});

test("the tutorial's program has the mistake that it tells of, and is mended as it says", () => {
  const { bytes } = programs.find(({ name }) => name === "broken.com"), card = new Card(adapter, FONTS);
  /** Of each line of the first box the dots that any plane has: those of its second byte, and of its last one. */
  const boxOf = program => {
    const machine = started({ program });
    machine.run(2 * SECOND);
    card.restore(machine.savedState());
    const planes = [0, 1, 2, 3].map(plane => card.plane(plane));
    const dots = offset => planes.reduce((sum, plane) => sum | plane[offset], 0);
    return Array.from({ length: 40 }, (_, line) => [dots(80 * line + 1), dots(80 * line + 7)]);
  };
  const [first, ...others] = boxOf(bytes);
  assert.deepEqual(first, [0xff, 0xf8]);
  assert.ok(others.every(([inside, last]) => inside === 0xf8 && last === 0xf8), String(others[20]));
  // dec bp; jnz .row: the label goes above the four lines that write the bit mask, which have eight bytes.
  const at = Buffer.from(bytes).indexOf(Buffer.from("4D75", "hex")), mended = bytes.slice();
  mended[at + 2] -= 8;
  assert.ok(boxOf(mended).every(([inside, last]) => inside === 0xff && last === 0xf8));
});

test("a window can begin where the machine does, and end at a stop", () => {
  const { bytes } = programs.find(({ name }) => name === "plasma.com");
  const machine = started({ program: bytes }), begin = machine.snapshot(null);
  machine.stopAt({ isMode: true });
  machine.run(HALF);
  assert.equal(machine.stopped, "mode");
  assert.deepEqual(machine.modes.map(({ cycles }) => cycles), [machine.cpu.cycles()]);
  machine.stopAt();
  const recording = recordingOf(machine, begin, 100000);
  const session = runWhole(new Session(adapter, FONTS, "", judgedRecording(adapter, recording)));
  assert.equal(session.wrong, 0);
  const last = recording.entryOf(recording.length - 1);
  assert.match(recording.wordsOf(last), /^int ax=0?0?13/);
  session.close();
});

test("what a machine stops at, as it is typed", () => {
  const registers = { EAX: 0x12345678, EBX: 0, ECX: 0, EDX: 0, ESI: 0, EDI: 0xffff0007, EBP: 0, ESP: 0,
    EIP: 0x103, CS: 0x1010, DS: 0xa000, ES: 0, SS: 0, FS: 0, GS: 0 };
  const holds = words => stopOf("an instruction", `1010:103 if ${words}`).holds(registers);
  assert.deepEqual(stopOf("a port or an address", "3da").machine, { addresses: [0x3da] });
  assert.deepEqual(stopOf("a port or an address", " A000:0140 ").machine, { addresses: [0xa0140] });
  assert.deepEqual(stopOf("an instruction", "1010:0103").machine, { places: [0x10100103] });
  assert.deepEqual(stopOf("a port or an address", "B800:8010").machine, { addresses: [0xc0010] });
  assert.throws(() => stopOf("a port or an address", "FFFF:FFFF"), /no port or address/);
  assert.equal(stopOf("a frame", "350").frame, 350);
  assert.deepEqual([stopOf("a mode that is set", ""), stopOf("a refused cycle", "")].map(({ machine }) => machine),
    [{ isMode: true }, { isRefusal: true }]);
  for (const words of ["AX=5678", "al=78 and AH=56", "EAX=12345678", "DI<8", "DI>6", "ds!=0", "IP=103"]) {
    assert.ok(holds(words), words);
  }
  for (const words of ["AX=5679", "AX=5678 and DI=8", "DI<7", "CS!=1010"]) assert.ok(!holds(words), words);
  for (const words of ["AX", "AX=G", "XX=1", "SL=1", "AX==1", ""]) {
    assert.throws(() => holds(words), /is no condition/, words);
  }
  assert.throws(() => stopOf("a port or an address", "100000"), /no port or address/);
  assert.throws(() => stopOf("an instruction", "1010"), /no instruction's place/);
  assert.throws(() => stopOf("a frame", "-1"), /no number of a frame/);
});

test("a program of DOS writes a file, which snapshots keep", () => {
  // Creates OUT.TXT, writes "hello" into it, waits for a key, and ends.
  const program = code("B43C31C9BA2201CD2189C3B440B90500BA2A01CD21B43ECD2131C0CD16B8004CCD21" +
    "4F55542E54585400" + "68656C6C6F");
  program.set([0x22, 0x01], 5);
  const machine = started({ program, files: [{ name: "in.txt", bytes: code("4142") }] });
  const before = machine.snapshot(null);
  machine.run(HALF);
  const files = () => machine.changedFiles().map(({ name, bytes }) => [name, Buffer.from(bytes).toString()]);
  assert.deepEqual(files(), [["OUT.TXT", "hello"]]);
  const after = machine.snapshot();
  machine.restore(before);
  assert.deepEqual(files(), []);
  machine.restore(after);
  assert.deepEqual(files(), [["OUT.TXT", "hello"]]);
  machine.key(0x1c, 0x1c0d);
  machine.run(SECOND);
  assert.equal(machine.stopped, "ended");
});

test("two searches for files of DOS go on by turns, each in its own transfer area", () => {
  // Looks for *.TXT and for DEEP\\A?.* by turns, five times each, and writes what is found into OUT.TXT.
  const program = code("BFE601BE9001BA7801E83500BEBB01BA7E01E82C00B90400BE9001E83200BEBB01E82C00E2F2B43C31C9BA8801" +
    "CD2189C3B440BAE60189F929D1CD21B8004CCD2152E82C005AB44E5131C9CD2159EB07E81E00B44FCD21720D51" +
    "5683C61EB90D00F3A45E59C3C6052DC645010083C70DC389F2B41ACD21C32A2E74787400646565705C613F2E2A" +
    "004F55542E54585400");
  const names = ["a.txt", "deep/a1.txt", "b.txt", "deep/a2.c", "longername.txt", "deep/abc.txt", "c.dat",
    "deep/deeper/a3.txt", "deep/a", "d.txt"];
  const software = { program, files: names.map(name => ({ name, bytes: code("4142") })) };
  const machine = started(software), found = () => {
    const [{ bytes }] = machine.changedFiles(), text = Buffer.from(bytes).toString("latin1");
    return Array.from({ length: text.length / 13 }, (_, i) => text.slice(13 * i, 13 * i + 13).split("\0")[0]);
  };
  machine.run(HALF);
  const wanted = ["A.TXT", "A1.TXT", "B.TXT", "A2.C", "D.TXT", "A", "-", "-", "-", "-"];
  assert.deepEqual(found(), wanted);
});

test("a boot sector writes its floppy", () => {
  const image = new Uint8Array(1474560);
  // mov ax, 0301h; mov bx, 7C00h; mov cx, 2; mov dx, 0; int 13; hlt
  image.set(code("B80103BB007CB90200BA0000CD13F4"));
  image.set([0x55, 0xaa], 510);
  const machine = started({ a: image }), before = machine.snapshot(null);
  machine.run(HALF);
  const sector = () => Buffer.from(machine.bytes.subarray(machine.cpu.store_at(512), machine.cpu.store_at(1024)));
  assert.equal(Buffer.compare(sector(), Buffer.from(image.subarray(0, 512))), 0);
  const [{ name, bytes }] = machine.changedDisks();
  assert.deepEqual([name, bytes.length], ["disk-a.img", image.length]);
  assert.equal(Buffer.compare(bytes.subarray(512, 1024), image.subarray(0, 512)), 0);
  machine.restore(before);
  assert.deepEqual(machine.changedDisks(), []);
  assert.ok(sector().every(byte => byte === 0));
});

test("a ROM is begun, serves interrupt 10, sets mode 3, and may make cycles that are refused", () => {
  const rom = new Uint8Array(512);
  // It has interrupt 10 note AX from 500 on, and reads a port that is not decoded.
  rom.set(code("55AA011E5031C08ED8C706400020008C0E4200C706FE040005BAD403EC581FCB1E535031DB8EDB8B1EFE048907" +
    "8306FE0402585B1FCF"));
  // The video BIOS' letter B, DOS' letter A, and the end.
  const machine = started({ program: code("B8420E CD10 B241 B402 CD21 B8004C CD21"), rom });
  machine.run(HALF);
  const noted = new Uint16Array(machine.ram.slice(0x500, 0x508).buffer);
  assert.deepEqual([...noted].map(word => word.toString(16)), ["3", "e42", "e41", "0"]);
  assert.equal(machine.stopped, "ended");
  assert.equal(machine.cpu.refusals(), 1);
});

/** The ROMs of Debian's packages seabios and vgabios, as far as they are installed. */
const ROMS = ["seabios/vgabios-stdvga.bin", "seabios/vgabios-isavga.bin", "vgabios/vgabios.bin"]
  .map(name => `/usr/share/${name}`).filter(existsSync);
const MODES = { "hello.com": [3, 720, 400], "lines.com": [0x12, 640, 480], "plasma.com": [0x13, 640, 400] };

for (const path of ROMS) {
  test(`${path} sets modes 3, 12 and 13, and shows text`, () => {
    for (const [name, wanted] of Object.entries(MODES)) {
      const { bytes } = programs.find(one => one.name === name);
      const machine = started({ program: bytes, rom: new Uint8Array(readFileSync(path)) });
      machine.run(HALF);
      machine.isShowing = true;
      machine.runFrame(SECOND);
      assert.deepEqual([machine.ram[0x449], machine.width, machine.height], wanted, name);
      assert.deepEqual([machine.cpu.refusals(), machine.missing], [0, []], name);
      if (name !== "hello.com") continue;
      // Each letter by its glyph: DOS' line stands in the first row, the video BIOS' in the fifth.
      const words = new Uint32Array(machine.calls.memory.buffer, machine.pixels, WIDEST * machine.height);
      const lit = row => Array.from({ length: 16 }, (_, y) => words.subarray(WIDEST * (16 * row + y),
        WIDEST * (16 * row + y) + machine.width).filter((word, x, all) => word !== all[0]).length);
      assert.ok(Math.max(...lit(0)) > 15, "a line by DOS");
      assert.ok(Math.max(...lit(4)) > 100, "a line by the ROM");
    }
  });
}

test("floppies are put in and changed while software runs, and come again as they came", async () => {
  // Reads the second sector of drive B, keeps the status, and writes what it read into the third one; again.
  const program = code("B80102BB0002B90200BA0100CD1388260003B80103BB0002B90300BA0100CD13EBDE");
  const floppy = first => Uint8Array.from({ length: 163840 }, (_, i) => first + (i >> 9) & 0xff);
  const machine = started({ program }), begin = machine.snapshot(null);
  const seen = () => {
    const from = 16 * machine.processor.DS;
    return [machine.ram[from + 0x200], machine.ram[from + 0x300]];
  };
  machine.run(HALF);
  assert.equal(seen()[1], 0x80, "no disk");
  assert.equal(machine.ram[0x410] & 0x40, 0);
  const wanted = [];
  for (const [i, first] of [10, 20, 10].entries()) {
    machine.changeFloppy(1, floppy(first));
    machine.run((i + 2) * HALF);
    assert.deepEqual(seen(), [first + 1, 0]);
    wanted.push([machine.snapshot(), stateOf(machine)]);
  }
  assert.equal(machine.ram[0x410] & 0x40, 0x40);
  assert.equal(machine.software.media.length, 2, "the same floppy is kept once");
  const disks = () => machine.changedDisks().map(({ name, bytes }) => [name, bytes[1024]]);
  const all = [["disk-b.img", 11], ["disk-b-2.img", 21], ["disk-b-3.img", 11]];
  assert.deepEqual(disks(), all);
  machine.restore(begin);
  assert.deepEqual(disks(), []);
  machine.runAgain(3 * HALF);
  assert.equal(stateOf(machine), wanted[1][1]);
  assert.deepEqual(disks(), all.slice(0, 2));
  machine.restore(wanted[2][0]);
  assert.equal(stateOf(machine), wanted[2][1]);
  assert.deepEqual(disks(), all);
  const text = await savedRunText("b", machine.software, machine.inputs);
  const { software, inputs } = await savedRunOf(Buffer.from(text)), other = started(software);
  other.inputs = inputs;
  while (other.cpu.now() < 4 * HALF && other.stopped === "runs") other.runFrame(4 * HALF);
  assert.equal(stateOf(other), wanted[2][1]);
  // A restart finds the disk that is in the drive, as it is now.
  assert.deepEqual([machine.softwareNow.b[1024], machine.softwareNow.program], [11, program]);
  // Whoever goes another way from an earlier moment has the disks of that one.
  machine.restore(wanted[0][0]);
  machine.key(0x1e, 0x1e61);
  assert.deepEqual(disks(), all.slice(0, 1));
});

test("random programs end, go on or wait, and never hang", () => {
  let seed = 1;
  const random = () => seed = Math.imul(seed, 1103515245) + 12345 >>> 0;
  const machine = new Machine(modules, FONTS), stops = new Map();
  machine.isShowing = false;
  for (let i = 0; i < 400; i++) {
    const length = 16 + (random() >>> 16) % 2000;
    const program = Uint8Array.from({ length }, () => random() >>> 24);
    machine.boot({ program });
    const begun = performance.now();
    machine.run(0.02 * SECOND);
    assert.ok(performance.now() - begun < 5000, `program ${i}`);
    stops.set(machine.stopped, (stops.get(machine.stopped) ?? 0) + 1);
  }
  assert.ok(stops.size >= 2, [...stops].join(" "));
});

test("damaged images, memory full of prefixes, and what is no software", () => {
  for (const fill of [0x66, 0xf3, 0x00, 0xff, 0xcd]) {
    const machine = started({ program: new Uint8Array(60000).fill(fill) });
    machine.run(0.05 * SECOND);
  }
  const short = new Uint8Array(700);
  short.set(code("B80102BB007EB90300BA0000CD13F4"));
  short.set([0x55, 0xaa], 510);
  started({ a: short }).run(HALF);
  assert.equal(softwareOf(code("0102"), "a.txt"), null);
  assert.throws(() => softwareOf(new Uint8Array(737280), "empty.img"), /ends with 55 AA/);
  assert.throws(() => softwareOf(new Uint8Array(1 << 20).fill(0x90), "large.com"), /may have/);
  assert.deepEqual(Object.keys(softwareOf(short, "short")), ["a"]);
  assert.deepEqual(Object.keys(softwareOf(code("55AA0100").slice(), "x.rom") ?? {}), []);
});

test("the shift keys that the BIOS tells are those that are held", () => {
  // mov ah, 12h; int 16h; mov [0200h], ax; jmp to the start
  const machine = started({ program: code("B412 CD16 A30002 EBF7") });
  const told = () => {
    machine.run(machine.cpu.now() + SECOND / 50);
    return machine.ram[0x10200] | machine.ram[0x10201] << 8;
  };
  assert.equal(told(), 0);
  machine.key(0x38, 0);
  assert.equal(told(), 0x0208, "Alt");
  machine.key(0xb8, 0);
  machine.key(0x1d, 0);
  assert.equal(told(), 0x0104, "Ctrl");
  machine.key(0x9d, 0);
  assert.equal(told(), 0);
});

test("an instruction that the processor lacks is told once, though the software has a handler", () => {
  // Interrupt 6 goes to 0117: add the instruction's length, and iret. Then 0F FF, again and again.
  const machine = started({ program: code("31C0 8EC0 26C7061800 1701 268C0E1A00 0FFF EBFC 9090 90" +
    "55 89E5 83460202 5D CF") });
  const begin = machine.snapshot(null), told = () => machine.missing.map(({ number, value }) => [number, value]);
  machine.run(SECOND);
  assert.equal(machine.stopped, "runs");
  assert.deepEqual(told(), [[6, 0x10000110]]);
  machine.restore(begin);
  machine.runAgain(SECOND / 10);
  assert.deepEqual(told(), [[6, 0x10000110]], "not again where it runs again");
  machine.restore(begin);
  machine.forgetLater();
  assert.deepEqual(told(), [], "it has not come yet");
});

test("keys: by their place, and by what is typed", () => {
  const keys = [
    [{ type: "keydown", code: "KeyA", key: "a" }, [[0x1e, 0x1e61]]],
    [{ type: "keydown", code: "KeyQ", key: "a" }, [[0x10, 0x1061]]],
    [{ type: "keydown", code: "KeyA", key: "A", shiftKey: true }, [[0x1e, 0x1e41]]],
    [{ type: "keydown", code: "KeyC", key: "c", ctrlKey: true }, [[0x2e, 0x2e03]]],
    [{ type: "keydown", code: "KeyX", key: "x", altKey: true }, [[0x2d, 0x2d00]]],
    [{ type: "keyup", code: "KeyA", key: "a" }, [[0x9e, 0]]],
    [{ type: "keydown", code: "ArrowUp", key: "ArrowUp" }, [[0xe0, 0], [0x48, 0x48e0]]],
    [{ type: "keyup", code: "ArrowUp", key: "ArrowUp" }, [[0xe0, 0], [0xc8, 0]]],
    [{ type: "keydown", code: "Enter", key: "Enter" }, [[0x1c, 0x1c0d]]],
    [{ type: "keydown", code: "F1", key: "F1" }, [[0x3b, 0x3b00]]],
    [{ type: "keydown", code: "F1", key: "F1", shiftKey: true }, [[0x3b, 0x5400]]],
    [{ type: "keydown", code: "ShiftLeft", key: "Shift" }, [[0x2a, 0]]],
    [{ type: "keydown", code: "", key: "b" }, [[0x30, 0x3062]]],
    [{ type: "keydown", code: "KeyE", key: "€" }, [[0x12, 0]]],
    [{ type: "keydown", code: "Lang1", key: "Lang1" }, []],
  ];
  for (const [event, wanted] of keys) assert.deepEqual(bytesOfKey(event), wanted, JSON.stringify(event));
});
