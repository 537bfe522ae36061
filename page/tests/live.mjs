// The machine as it runs in the page, without a browser: how it comes back, goes back over moments of which few
// snapshots are left, with its way told and stopped, and goes on.
import assert from "node:assert/strict";
import { createHash } from "node:crypto";
import test from "node:test";
import { Live } from "../machine/live.js";
import { Machine, QUANTUM, SPEEDS } from "../machine/machine.js";
import { Paused } from "../machine/paused.js";
import { sumOfState } from "../machine/keptstate.js";
import { stopOf } from "../machine/stops.js";
import { FakePage } from "./fakepage.mjs";
import { FONTS, loadAdapter, machineParts, runWhole } from "./loading.mjs";

const SECOND = 1e9, MIB = 1 << 20, SECONDS = 60, MOST = 2 * MIB;
const page = new FakePage(), { modules, programs } = await machineParts(), adapter = await loadAdapter();
const software = name => ({ program: programs.find(one => one.name === `${name}.com`).bytes });

/** Bytes that hexadecimal digits spell. */
const code = digits => Uint8Array.from(digits.match(/[0-9A-F]{2}/gi), byte => parseInt(byte, 16));

/** All that a machine's state is, as one text. */
function stateOf(machine) {
  const sums = [machine.ram, machine.savedState()].map(bytes => createHash("sha256").update(bytes).digest("hex"));
  return `${machine.cpu.cycles()} ${machine.cpu.instructions()} ${machine.cpu.now()} ${sums.join(" ")}`;
}

/** What a machine is at some times of a run with these keys: { inputs, moment, states }. */
function ran(name, times, keys = []) {
  const machine = new Machine(modules, FONTS), states = [];
  machine.isShowing = false;
  machine.boot(software(name));
  for (const time of times) {
    machine.run(time);
    states.push(stateOf(machine));
    if (keys.length) machine.key(keys.shift(), 0);
  }
  return { inputs: [...machine.inputs], moment: machine.moment, states };
}

/** A live machine that has come back to a moment of a run. */
function cameBack(name, { inputs, moment }, mostBytes) {
  const { live, changes } = made(mostBytes);
  live.comeBack({ name, software: software(name), inputs, moment });
  page.turnUntil(() => live.state === "paused");
  return { live, changes };
}

/** A live machine that is off. */
function made(mostBytes) {
  page.byId("live").listeners.clear();
  page.turns.clear();
  const changes = [], live = new Live(modules, FONTS, { changed: () => changes.push(live.state),
    failed: error => { throw error; } }, { mostBytes, version: "this" });
  return { live, changes };
}

const windowOf = live => {
  const paused = new Paused(live, adapter, FONTS);
  paused.session().close();
  return paused;
};

test("a run comes back as it was, and tells its way; a stop leaves it where it is", () => {
  const run = ran("plasma", [SECOND, 2 * SECOND, 3 * SECOND], [0x2a, 0xaa]);
  const { live, changes } = cameBack("plasma", run);
  assert.deepEqual([changes.at(-1), live.reason, stateOf(live.machine)], ["paused", "", run.states[2]]);
  live.comeBack({ name: "plasma", software: software("plasma"), ...run });
  assert.ok(live.isComingBack && live.machine.isReplaying);
  page.turnUntil(() => live.machine.cpu.now() > 1.1 * SECOND);
  const { value } = page.byId("liveway"), { text } = page.byId("livestate");
  assert.ok(value > 0.2 && value < 1, String(value));
  assert.ok(live.isComingBack, text);
  live.send([[0x1e, 0x1e61]]);
  live.speed = "fastest";
  assert.equal(live.machine.inputs.length, run.inputs.length, "nothing comes on the way");
  assert.notEqual(live.speed, "fastest");
  live.pause();
  assert.deepEqual([live.state, live.isComingBack], ["paused", false]);
  assert.ok(live.machine.cpu.now() < 3 * SECOND);
  assert.equal(live.snapshots.last.time, live.machine.cpu.now());
  // Another machine than the one that was kept.
  live.comeBack({ name: "plasma", software: software("plasma"), ...run, moment: { ...run.moment, cycles: 5 } });
  page.turnUntil(() => live.state === "paused");
  assert.match(live.reason, /ran otherwise/);
});

const times = Array.from({ length: SECONDS }, (_, i) => (i + 1) * SECOND);
// It waits for a key, which costs little; Shift is none.
const long = ran("hello", times, [0x2a, 0xaa, 0x2a, 0xaa]), { live } = cameBack("hello", long, MOST);

const many = ran("plasma", [1, 2, 9].map(second => second * SECOND), [0x2a, 0xaa]);

/** Takes a machine to a moment. */
const arriveIn = (one, moment) => one.goTo(moment) || page.turnUntil(() => one.state === "paused");

/** Takes the machine to a moment; what its way was told to be, nothing where it is there at once. */
function arriveAt(moment) {
  const ways = [];
  if (live.goTo(moment)) return ways;
  assert.deepEqual([live.state, live.isComingBack], ["running", true]);
  page.turnUntil(() => ways.push(page.byId("liveway").value) && live.state === "paused");
  assert.ok(live.snapshots.bytes <= MOST, `${live.snapshots.bytes} bytes`);
  return ways;
}

test("back over moments of which few snapshots are left: in turns, with the way told, and as it was", () => {
  const { machine, snapshots } = live;
  assert.ok(snapshots.bytes <= MOST && snapshots.length < SECONDS, `${snapshots.length} snapshots`);
  // What is near to a snapshot is there at once.
  let paused = windowOf(live), far = 0;
  assert.deepEqual(arriveAt(paused.momentBack(1 + 1e-6)), []);
  assert.equal(stateOf(machine), long.states.at(-2));
  for (let second = SECONDS - 7; second > 0; second -= 7) {
    // Shortly before, since it runs whole quanta of 50 microseconds.
    const ways = arriveAt(paused.momentBack(paused.time - second + 1e-6));
    far += Number(ways.length > 0);
    assert.ok(ways.every((way, i) => way <= 1 && way >= (ways[i - 1] ?? 0)), ways.join(" "));
    assert.equal(stateOf(machine), long.states[second - 1], `${second} s`);
    paused = windowOf(live);
    assert.ok(Math.abs(paused.time - second) < 1e-4, `${paused.time} s`);
    assert.equal(stateOf(machine), long.states[second - 1], "its window shows the frames until then");
  }
  assert.ok(far > 0, "some are far from a snapshot");
  arriveAt(paused.momentBack(100));
  assert.equal(machine.cpu.frames(), 0);
  paused.seekEnd();
  assert.equal(stateOf(machine), long.states.at(-1), "the end is there as it was");
  assert.equal(snapshots.last.time, machine.cpu.now());
});

test("back to where a mode was set, and to where the frames begin", () => {
  const { machine } = live, [set] = machine.modes, cycles = () => machine.cpu.cycles();
  windowOf(live).seekEnd();
  const last = windowOf(live), { recording } = last, step = recording.length - 3;
  const first = live.snapshots.last.cycles - recording.words.length / 4;
  arriveAt(last.beginMoment);
  // An instruction is done whole, which may make a cycle as the frame ends.
  assert.ok(cycles() - first <= 1 && cycles() >= first, `${cycles()} is not ${first}`);
  const begin = stateOf(machine);
  last.seekStep(step);
  assert.equal(cycles(), first + recording.recordsBefore(step));
  last.seekStep(recording.head.length);
  assert.equal(stateOf(machine), begin);
  arriveAt(last.modeMoment);
  assert.equal(cycles(), set.cycles);
  const before = new Paused(live, adapter, FONTS), session = runWhole(before.session());
  assert.equal(session.wrong, 0);
  assert.match(before.recording.wordsOf(before.recording.entryOf(before.recording.length - 1)), /^int ax=00/);
  session.close();
});

test("a way back is stopped, and whoever goes on from there leaves what came later", () => {
  const { machine, snapshots } = live, goTo = time => live.goTo({ time, arrive: one => one.runAgain(time) });
  const gaps = [...snapshots].map(({ time }, i, all) => ({ time, gap: (all[i + 1]?.time ?? time) - time }));
  const { time: from, gap } = gaps.reduce((one, other) => (other.gap > one.gap ? other : one));
  assert.ok(gap > 5 * SECOND, `${gap / SECOND} s`);
  const wanted = Math.floor((from + gap - 1) / SECOND) * SECOND, end = snapshots.last;
  assert.ok(!goTo(wanted));
  page.turn();
  live.pause();
  assert.ok(machine.cpu.now() > from && machine.cpu.now() < wanted, `${machine.cpu.now()}`);
  assert.equal(snapshots.last, end, "what was paused is there");
  // It is switched off on its way, and taken up again as it was paused.
  assert.ok(!goTo(wanted));
  page.turn();
  live.takeUp(live.close());
  assert.equal(stateOf(live.machine), long.states.at(-1));
  assert.ok(!goTo(wanted));
  page.turnUntil(() => live.state === "paused");
  assert.equal(stateOf(machine), long.states[wanted / SECOND - 1]);
  live.goOn();
  assert.deepEqual([live.state, live.isComingBack], ["running", false]);
  assert.ok(live.snapshots.last.time <= machine.cpu.now());
  page.turn();
  live.pause();
  assert.equal(live.snapshots.last.time, machine.cpu.now());
  live.close();
});

/** A machine that runs a program, which hexadecimal digits spell. */
function running(digits) {
  const { live } = made();
  live.start({ program: code(digits) }, "made.com");
  return live;
}

const turns = count => Array.from({ length: count }).forEach(() => page.turn());
/** Waits for a key by interrupt 16, and writes it by interrupt 10; again. */
const ECHO = "B400CD16B40ECD10EBF6";

test("it runs as time passes, makes snapshots on its way, and leaves out what it missed", () => {
  const live = running("EBFE"), { machine } = live, begun = page.time;
  turns(100);
  const late = () => (page.time - begun) - machine.cpu.now() / 1e6;
  assert.ok(Math.abs(late()) < 40, `${late()} ms late`);
  const { length } = live.snapshots, frames = machine.cpu.frames();
  assert.ok(frames > 100 && length >= Math.floor(frames / 37) && length <= 1 + frames / 35, `${length} of ${frames}`);
  page.time += 5000;
  turns(10);
  assert.ok(late() > 4800 && late() < 5000, `${late()} ms late`);
  live.close();
});

test("keys that came after the moment from which it goes on come no more, and new ones come as in any run", () => {
  const live = running(ECHO), { machine } = live, press = keyCode => page.byId("live").send("keydown",
    { code: `Key${keyCode.toUpperCase()}`, key: keyCode });
  turns(30);
  press("a");
  turns(30);
  press("b");
  turns(30);
  page.byId("live").send("keydown", { code: "F12", key: "F12" });
  assert.deepEqual([live.state, machine.inputs.filter(({ does }) => does === "key").length], ["paused", 2]);
  const paused = windowOf(live), [a, b] = machine.inputs.filter(({ does }) => does === "key");
  const amid = (a.time + b.time) / 2 / SECOND;
  assert.ok(live.goTo(paused.momentBack(paused.time - amid)));
  assert.ok(machine.isReplaying);
  live.goOn();
  assert.ok(!machine.isReplaying, "b is forgotten");
  turns(5);
  page.byId("live").send("keydown", { code: "KeyX", key: "x", metaKey: true });
  press("c");
  turns(30);
  assert.deepEqual(machine.inputs.filter(({ does }) => does === "key").map(({ values }) => values[1] & 0xff),
    [..."ac"].map(letter => letter.charCodeAt(0)));
  live.pause();
  const wanted = stateOf(machine), { inputs, moment } = machine;
  live.comeBack({ name: "again", software: machine.software, inputs: [...inputs], moment });
  page.turnUntil(() => live.state === "paused");
  assert.deepEqual([stateOf(live.machine), live.reason], [wanted, ""]);
  live.close();
});

test("it stops at a cycle amid a quantum, goes on, and all of it comes again", () => {
  const { live } = made(), program = code("40 40 BADA03 EC EBF9");
  const comesAgain = () => {
    const { machine } = live, wanted = stateOf(machine), { moment } = machine;
    live.comeBack({ name: "again", software: machine.software, inputs: [...machine.inputs], moment });
    page.turnUntil(() => live.state === "paused");
    assert.deepEqual([stateOf(live.machine), live.reason], [wanted, ""]);
  };
  live.stop = stopOf("a port or an address", "3DA");
  live.start({ program }, "polls.com");
  page.turnUntil(() => live.state === "paused");
  assert.equal(live.reason, "The cycle that you asked for has come.");
  assert.ok(live.machine.moment.isAmid);
  comesAgain();
  live.stop = stopOf("nothing", "");
  live.goOn();
  assert.ok(!live.machine.moment.isAmid, "keys come at the end of a quantum alone");
  live.send([[0x1e, 0x1e61]]);
  turns(5);
  live.pause();
  comesAgain();
  live.close();
});

test("it stops at an instruction only where the conditions hold, and at a frame", () => {
  const live = running("40 EBFD"), { machine } = live, { CS } = machine.processor;
  live.stop = stopOf("an instruction", `${CS.toString(16)}:0101 if AX=1234`);
  page.turnUntil(() => live.state === "paused");
  assert.deepEqual([machine.processor.EAX & 0xffff, machine.processor.EIP & 0xffff, live.reason],
    [0x1234, 0x101, "The instruction that you asked for comes next."]);
  live.stop = stopOf("a frame", String(machine.cpu.frames() + 9));
  const wanted = machine.cpu.frames() + 9;
  live.goOn();
  page.turnUntil(() => live.state === "paused");
  assert.deepEqual([machine.cpu.frames(), live.reason], [wanted, "The frame that you asked for has come."]);
  live.close();
  const ending = running("B402B241CD21 B8004CCD21");
  page.turnUntil(() => ending.state === "paused");
  assert.equal(ending.reason, "The program has ended.");
  ending.close();
});

test("each condition is kept to, also after a stop, amid a quantum, and at a cycle", () => {
  // again: inc cx; jmp again
  const live = running("41 EBFD"), { machine } = live, { CS } = machine.processor, at = `${CS.toString(16)}:0101`;
  const stopsAt = wanted => {
    live.stop = stopOf("an instruction", `${at} if CX=${wanted}`);
    if (live.state === "paused") live.goOn();
    page.turnUntil(() => live.state === "paused");
    return (machine.processor.ECX & 0xffff).toString(16);
  };
  for (const wanted of ["500", "7", "6", "8", "500", "ffff"]) assert.equal(stopsAt(wanted), wanted);
  live.close();
  // again: inc cx; in al, dx; jmp again
  const polls = running("BADA03 41 EC EBFC"), seen = [];
  for (const wanted of ["30", "5", "6", "700"]) {
    polls.stop = stopOf("a port or an address", `3DA if CX=${wanted}`);
    if (polls.state === "paused") polls.goOn();
    page.turnUntil(() => polls.state === "paused");
    seen.push((polls.machine.processor.ECX & 0xffff).toString(16));
  }
  assert.deepEqual(seen, ["30", "5", "6", "700"]);
  polls.close();
});

test("after a window's last step the processor is where it was paused, or where the window ends", () => {
  // Mode 3's picture, then inc cx alone: no cycle of the display lies between the stop and the last one.
  const live = running("41 EBFD"), { machine } = live, { CS } = machine.processor;
  page.turnUntil(() => machine.cpu.frames() > 3);
  live.stop = stopOf("an instruction", `${CS.toString(16)}:0101 if CX=500`);
  page.turnUntil(() => live.state === "paused");
  const wanted = stateOf(machine), paused = windowOf(live), { length } = paused.recording;
  const after = steps => {
    paused.seekStep(steps);
    return [machine.processor.ECX & 0xffff, machine.processor.EIP & 0xffff];
  };
  assert.deepEqual(after(length), [0x500, 0x101]);
  assert.equal(stateOf(machine), wanted);
  assert.notDeepEqual(after(length - 1), [0x500, 0x101]);
  // An earlier window's last step is its own end.
  assert.ok(live.goTo(paused.momentBack(paused.time / 2)));
  const earlier = stateOf(machine), other = windowOf(live);
  other.seekStep(0);
  other.seekStep(other.recording.length);
  assert.equal(stateOf(machine), earlier);
  live.close();
});

test("a frame that has passed is told, while it runs and while it is paused; one that comes is not", () => {
  const live = running("EBFE"), { machine } = live;
  const told = typed => {
    live.stop = stopOf("a frame", typed);
    return live.stopText;
  };
  page.turnUntil(() => machine.cpu.frames() >= 9);
  const now = machine.cpu.frames(), next = String(now + 1);
  assert.match(told("5"), new RegExp(`^Frame 5 has passed: frame ${now} is under way`));
  assert.match(told("0"), /^Frame 0 has passed/);
  assert.equal(told(next), "");
  page.turnUntil(() => live.state === "paused");
  assert.equal(machine.cpu.frames(), now + 1);
  assert.match(told(next), new RegExp(`^Frame ${next} has passed: frame ${next}`));
  assert.equal(told(String(now + 2)), "");
  live.stop = stopOf("nothing", "");
  assert.equal(live.stopText, "");
  // It starts again, and that frame comes.
  told("5");
  live.close();
  live.start({ program: code("EBFE") }, "made.com");
  assert.equal(live.stopText, "");
  page.turnUntil(() => live.state === "paused");
  assert.equal(live.machine.cpu.frames(), 5);
  live.close();
});

test("software that gives up says why, if something was lacking", () => {
  // Interrupt 6 leads to: cli; hlt. Then fld1.
  const lacks = "31C0 8EC0 26C70618001301 268C0E1A00 D9E8 FA F4";
  const live = running(lacks);
  page.turnUntil(() => live.state === "paused");
  assert.equal(live.reason, "The processor has halted with interrupts off, and nothing can wake it. " +
    "It uses a coprocessor, which this machine lacks (1000:0110).");
  live.close();
  const other = running("FA F4");
  page.turnUntil(() => other.state === "paused");
  assert.equal(other.reason, "The processor has halted with interrupts off, and nothing can wake it.");
  other.close();
});

test("a saved run has its speed and its keys, until somebody does something", () => {
  const { live } = made(), inputs = [{ time: 0, does: "set_instruction_time", values: [SPEEDS[8088]] },
    { time: SECOND / 10, does: "key", values: [0x1e, 0x1e61] },
    { time: 30 * SECOND, does: "key", values: [0x1e, 0x1e61] }];
  live.startSaved({ name: "saved.com", software: { program: code(ECHO) }, inputs });
  assert.equal(live.speed, "8088");
  turns(40);
  assert.ok(live.machine.isReplaying && live.machine.cpu.inputs() === 2);
  assert.match(page.byId("livestate").text, /the saved keys come/);
  const send = (type, buttons, clientX, clientY) => page.byId("live").send(type, { buttons, clientX, clientY });
  // A pointer that passes by is nothing; one that presses takes over.
  send("pointermove", 0, 5, 5);
  assert.ok(live.machine.isReplaying);
  send("pointerdown", 7, 320, 199.5);
  assert.ok(!live.machine.isReplaying);
  assert.deepEqual(live.machine.inputs.at(-1).values, [320, 199, 7]);
  send("pointerup", 2, -50, 1000);
  assert.deepEqual(live.machine.inputs.at(-1).values, [0, 199, 2]);
  send("pointermove", 0, 9, 9);
  assert.deepEqual(live.machine.inputs.at(-1).values, [0, 199, 2], "this program has no use for a mouse");
  live.speed = "fastest";
  assert.deepEqual(live.machine.inputs.at(-1).values, [SPEEDS.fastest]);
  // One that asks for the mouse, by interrupt 33: a pointer that passes by ends no saved run of it, either.
  live.startSaved({ name: "mouse.com", software: { program: code("31C0 CD33 EBFE") }, inputs: inputs.slice(-1) });
  turns(5);
  send("pointermove", 0, 9, 9);
  assert.ok(live.machine.isReplaying);
  send("pointerdown", 1, 9, 9);
  send("pointermove", 0, 8, 7);
  assert.deepEqual(live.machine.inputs.map(({ values }) => values), [[9, 9, 1], [8, 7, 0]]);
  live.close();
});

test("a run comes back from a state that was kept, byte for byte as from its start", () => {
  const { live } = cameBack("plasma", many), wanted = stateOf(live.machine), state = structuredClone(live.keptState);
  const run = { name: "plasma", software: software("plasma"), ...many };
  assert.equal(wanted, many.states.at(-1));
  const size = Object.values(state.packed.groups).reduce((sum, { bytes }) => sum + bytes.length, 0);
  assert.ok(state.packed.time > 5 * SECOND && size < MIB, `${size} bytes at ${state.packed.time}`);
  const modes = [...live.machine.modes];
  /** Brings the run back; whether it began at the state. */
  const comesBack = (given, other = live) => {
    other.comeBack({ ...run, state: given });
    const isSoon = other.machine.cpu.now() > 5 * SECOND;
    page.turnUntil(() => other.state === "paused");
    assert.deepEqual([stateOf(other.machine), other.reason, other.machine.modes], [wanted, "", modes]);
    return isSoon;
  };
  assert.ok(comesBack(state));
  // The same in a page that was just loaded.
  const { live: other } = made();
  assert.ok(comesBack(state, other));
  const paused = windowOf(other);
  arriveIn(other, paused.momentBack(paused.time - 1 + 1e-6));
  assert.equal(stateOf(other.machine), many.states[0], "back before the state");
  paused.seekEnd();
  assert.equal(stateOf(other.machine), wanted);
  // What is damaged, or another run's, is left out.
  const changed = change => {
    const given = structuredClone(state);
    change(given);
    return given;
  };
  for (const [name, change] of Object.entries({
    "nothing": () => null, "a text": () => "state", "another form": one => { one.form = 2; },
    "another page": one => Object.assign(one, { version: "other" }, { sum: sumOfState({ ...one, version: "other" }) }),
    "a byte": one => { one.packed.groups.ram.bytes[9] ^= 1; },
    "a byte of the display": one => { one.packed.groups.state.bytes[100] ^= 1; },
    "no bytes": one => { one.packed.groups.front.bytes = null; }, "no group": one => { delete one.packed.groups.back; },
    "its place": one => { one.packed.groups.ram.numbers[0] += 1; }, "its time": one => { one.packed.time -= 1; },
    "its notes": one => { one.notes.modes = []; }, "its inputs": one => { one.inputs.count = 1; } })) {
    const given = name === "nothing" || name === "a text" ? change() : changed(change);
    live.comeBack({ ...run, state: given });
    assert.ok(live.machine.cpu.now() < SECOND / 100, name);
  }
  // Where its sum is right, what a state lacks is seen when it is taken: then it runs from the start.
  const short = changed(one => { one.packed.groups.store = { size: 5, numbers: [], bytes: new Uint8Array() }; });
  const { form, sum, ...parts } = short;
  assert.ok(form && sum && !comesBack({ ...short, sum: sumOfState(parts) }));
});

test("a state of another run, or of a later moment, is left out; and so is one that leads elsewhere", () => {
  const { live } = cameBack("plasma", many), state = live.keptState;
  const wrong = { ...many, moment: { ...many.moment, time: state.packed.time + SECOND } };
  const begin = given => {
    live.comeBack({ name: "plasma", software: software("plasma"), state, ...given });
    return live.machine.cpu.now() > 5 * SECOND;
  };
  assert.ok(begin(many));
  assert.ok(!begin(wrong), "a window before its end has no room");
  assert.ok(!begin({ ...many, inputs: [...many.inputs, { time: 2 * SECOND, does: "key", values: [0x2a, 0] }]
    .sort((one, other) => one.time - other.time) }), "a key that came before it");
  assert.ok(!begin({ ...many, inputs: [] }), "a key that did not come");
  assert.ok(begin({ ...many, inputs: [...many.inputs, { time: many.moment.time, does: "key", values: [0x2a, 0] }] }));
  // It leads to another number of cycles: the run comes back from its start, and what that leads to is told.
  assert.ok(begin({ ...many, moment: { ...many.moment, cycles: 5 } }));
  page.turnUntil(() => live.machine.cpu.now() < SECOND);
  page.turnUntil(() => live.state === "paused");
  assert.match(live.reason, /ran otherwise/);
  live.close();
});

test("a run whose floppies were changed comes back from a state, and is soon back after a short run by itself", () => {
  // Reads the second sector of drive B, and writes what it read into the third one; again.
  const program = code("B80102BB0002B90200BA0100CD1388260003B80103BB0002B90300BA0100CD13EBDE");
  const floppy = first => Uint8Array.from({ length: 163840 }, (_, i) => first + (i >> 9) & 0xff);
  const { live } = made();
  live.start({ program }, "disks.com");
  const pass = seconds => page.turnUntil(() => live.machine.cpu.now() > seconds * SECOND);
  pass(0.5);
  live.changeFloppy(1, floppy(10));
  pass(3);
  live.pause();
  assert.equal(live.keptState, null, "a short run needs none");
  live.goOn();
  pass(4);
  live.changeFloppy(1, floppy(20));
  pass(8);
  live.pause();
  const { machine } = live, wanted = stateOf(machine), disks = machine.changedDisks();
  const run = { name: "disks.com", software: structuredClone(machine.software), inputs: [...machine.inputs],
    moment: machine.moment, state: structuredClone(live.keptState) };
  assert.deepEqual(disks.map(({ name }) => name), ["disk-b.img", "disk-b-2.img"]);
  live.close();
  const { live: other } = made();
  other.comeBack(run);
  assert.ok(other.machine.cpu.now() > 5 * SECOND);
  page.turnUntil(() => other.state === "paused");
  assert.equal(stateOf(other.machine), wanted);
  assert.deepEqual(other.machine.changedDisks(), disks);
  assert.deepEqual(other.machine.softwareNow.b, disks[1].bytes);
  other.close();
});
