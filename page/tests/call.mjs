// A call that is stepped into: its cycles lead from the state before the call to the state that the call
// leaves, whatever the call is; what has no cycles is told; a search goes on to the very cycle.
import assert from "node:assert/strict";
import { readFileSync, readdirSync } from "node:fs";
import test from "node:test";
import { Card } from "../../javascript/zaklimot.js";
import { Finder } from "../explain/finder.js";
import { RUN, Runner, TASK } from "../run/runner.js";
import { Session } from "../run/session.js";
import { State } from "../run/state.js";
import { isCallAt, openCall } from "../run/call.js";
import { isRefusal } from "../script/expecting.js";
import { subjectOf } from "../explain/subjects.js";
import { Random } from "./randomly.mjs";
import { FONTS, TOP, loadAdapter, runWhole } from "./loading.mjs";

const adapter = await loadAdapter(), CASES = `${TOP}crates/vga_suite/data/services/`;
/** Where the BIOS data end in a saved state, and what stands before them. */
const HEAD = 9, AFTER_BIOS = 40;
/** So many calls of a kind are looked at, of one case and of all. */
const OF_A_KIND = 6;
/** A call of 300,000 cycles opens within so many milliseconds of the processor. */
const MOST_TIME = 1000;

const sessionOf = text => runWhole(new Session(adapter, FONTS, text));

/** A state of a session's card after so many steps. */
function stateAfter(session, steps) {
  assert.ok(session.seek(steps));
  return session.state();
}

const entered = (session, step) => openCall(session, step, stateAfter(session, step - 1));

/** A saved state without the BIOS data, as text. */
const withoutBios = bytes => Buffer.concat([bytes.subarray(0, HEAD), bytes.subarray(AFTER_BIOS)]).toString("latin1");

/** What a call's words ask for: AH, and AL where it has functions. */
function kindOf(words) {
  const ax = parseInt(words.match(/ax=(\w+)/i)?.[1] ?? "0", 16), ah = ax >> 8;
  return [0, 0x10, 0x11, 0x12, 0x13].includes(ah) ? ax : ah << 8;
}

test("the last cycle leaves what the call leaves, for the calls of the suite's cases", () => {
  const seen = new Map(), count = { calls: 0, cycles: 0, refused: 0, empty: 0 };
  for (const name of readdirSync(CASES).filter(one => one.endsWith(".vga"))) {
    const session = sessionOf(readFileSync(CASES + name, "utf-8"));
    for (let step = 1; step <= session.length; step++) {
      if (!isCallAt(session, step)) continue;
      const kind = kindOf(session.outline.wordsOf(session.outline.entryOf(step - 1)));
      seen.set(kind, (seen.get(kind) ?? 0) + 1);
      if (seen.get(kind) <= OF_A_KIND) holdCall(session, step, count, name);
    }
    session.close();
  }
  assert.ok(seen.size >= 60 && count.calls >= 140, `${seen.size} kinds, ${JSON.stringify(count)}`);
  assert.ok(count.refused >= 5 && count.empty >= 20 && count.cycles > 1e6, JSON.stringify(count));
});

/** Holds a call's cycles to the call. */
function holdCall(session, step, count, name) {
  const isRefused = isRefusal(session.answers.get(step - 1)), at = `${name}, step ${step}`;
  let call = null;
  try {
    call = entered(session, step);
  } catch (trouble) {
    const reason = isRefused ? /is refused, so it makes no cycle\. ./ : /makes no cycle: it takes/;
    assert.match(trouble.message, reason, at);
    count[isRefused ? "refused" : "empty"]++;
    // Then the call has changed BIOS data alone.
    const [before, after] = [step - 1, step].map(steps => withoutBios(stateAfter(session, steps).bytes));
    assert.ok(before === after, at);
    return;
  }
  assert.ok(!isRefused, at);
  runWhole(call);
  const after = stateAfter(session, step).bytes;
  assert.ok(withoutBios(call.ahead.save()) === withoutBios(after), at);
  assert.ok(call.isTrue, at);
  assert.ok(call.seek(call.length) && withoutBios(call.card.save()) === withoutBios(after), at);
  count.calls++;
  count.cycles += call.length;
  call.close();
}

test("cycles are the steps that lead there: each state is that of the same steps on a card", () => {
  const session = sessionOf("int ax=12\nput A0000 FF\nint ax=0C05 cx=9 dx=7\nint ax=0D00 cx=9 dx=7");
  const call = runWhole(entered(session, 3)), card = new Card(adapter, FONTS);
  assert.ok(call.length > 5);
  card.restore(stateAfter(session, 2).bytes);
  const [first] = Array.from({ length: call.length }, (_, i) => call.outline.wordsOf(i));
  assert.match(first, /^(out|in) 3C/);
  for (let steps = 0; steps <= call.length; steps++) {
    if (steps) {
      card.runOn(call.outline.wordsOf(steps - 1), { most: 1 });
    }
    assert.ok(call.seek(steps));
    assert.ok(Buffer.compare(call.card.save(), card.save()) === 0, `after cycle ${steps}`);
    assert.ok(call.scout.seek(steps) && Buffer.compare(call.scout.card.save(), card.save()) === 0);
  }
  card.close();
  call.close();
  session.close();
});

test("a call in a repeat: each turn's own", () => {
  const session = sessionOf("version 2\nint ax=3\nrepeat 5\nint ax=0E41 bx=7\nadvance 100\nend");
  const addresses = [2, 4, 6, 8, 10].map(step => {
    const call = runWhole(entered(session, step));
    assert.ok(call.isTrue);
    const words = call.outline.wordsOf(0);
    call.close();
    return words;
  });
  assert.deepEqual(addresses.map(words => words.split(" ")[1]), ["B8000", "B8002", "B8004", "B8006", "B8008"]);
  session.close();
});

test("why a call has no cycles is told", () => {
  const session = sessionOf("int ax=55\nint ax=3\nint ax=0F00\nput B8000 41\n" +
    `int ax=1300 bx=7 cx=0400 dx=1800 block ${"0A".repeat(0x400)}`);
  const told = step => {
    try {
      entered(session, step).close();
      return "";
    } catch (trouble) {
      return trouble.message;
    }
  };
  assert.match(told(1), /^Step 1 is refused, so it makes no cycle\. .*mode 55/);
  assert.equal(told(2), "");
  assert.equal(told(3), "Step 3 makes no cycle: it takes and changes BIOS data alone.");
  assert.equal(told(4), "Step 4 is no BIOS call.");
  assert.equal(told(5), "Step 5 makes too many cycles: the list of them may have 16,777,216 bytes, " +
    "which are about 2,800,000 cycles.");
  session.close();
});

test("a call of 300,000 cycles opens within a second", () => {
  const session = sessionOf(`int ax=3\nint ax=1300 bx=7 cx=0028 dx=1800 block ${"0A".repeat(0x28)}`);
  const before = stateAfter(session, 1), times = [1, 2, 3].map(() => {
    const begun = process.cpuUsage(), call = openCall(session, 2, before);
    call.runFor(14);
    assert.ok(call.length > 300000, `${call.length}`);
    call.seek(0);
    call.seen(0);
    const { user, system } = process.cpuUsage(begun), time = (user + system) / 1000;
    assert.ok(runWhole(call).isTrue);
    call.close();
    return time;
  });
  assert.ok(Math.min(...times) < MOST_TIME, `${times}`);
  session.close();
});

// The search that goes on inside a call.

/** A runner whose clock turns at once, and a finder over it. */
function made(text) {
  const waiting = [], told = [], nothing = () => {};
  const runner = new Runner({ now: () => performance.now(), soon: does => waiting.push(does), later: nothing },
    { shown: nothing, changed: nothing, finished: nothing, ended: nothing, stopped: nothing,
      failed: error => { throw error; }, frameTime: () => 1 });
  const settle = () => {
    while (waiting.length) waiting.shift()();
  };
  runner.start(new Session(adapter, FONTS, text));
  settle();
  const heard = { tell: words => told.push(words), hasEarlier: () => false };
  return { runner, settle, told, finder: new Finder(runner, heard) };
}

/** Goes on inside the call to which a search has led; after how many cycles it ends. */
function goWithin({ runner, settle, finder }) {
  const { session, steps, seen } = runner;
  assert.ok(finder.leadsWithin(session, steps));
  runner.enter(openCall(session, steps, seen.before), steps);
  finder.findWithin();
  settle();
  assert.equal(runner.session.isCall && runner.isShown && runner.task, TASK.idle);
  return runner.steps;
}

test("a search ends at the cycle, and goes on before it and before the call", () => {
  const all = made("int ax=3\nint ax=0941 bx=1F cx=2\nint ax=0941 bx=1F cx=2\nint ax=0942 bx=1F cx=4\nadvance 9");
  const { runner, settle, finder, told } = all, byte = subjectOf("byte 0 0002");
  finder.find(byte);
  settle();
  const cycle = goWithin(all), { session } = runner;
  assert.equal(runner.outer.steps, 4);
  assert.equal(session.outline.wordsOf(cycle - 1), "put B8002 42");
  assert.equal(finder.textAt(session, cycle), "This cycle changed plane 0 0002.");
  finder.find(byte);
  settle();
  assert.match(told.at(-1), /^No earlier cycle of this call changed plane 0 0002: it is as before the call\./);
  assert.ok(runner.isWithin && runner.steps === cycle);
  finder.find(byte);
  settle();
  assert.deepEqual([runner.isWithin, runner.steps], [false, 2]);
  assert.ok(finder.leadsWithin(runner.session, 2));
  runner.close();
});

test("the cycle that is found is the last that changes the subject, at random", () => {
  const random = new Random(11), SUBJECTS = ["register seq 02", "register gfx 05", "register crtc 0C",
    "register attr 10", "colour 07", "colour 3F", "byte 0 0000", "byte 2 0021", "dacmask", "source",
    "dot 40 20", "dot 3 3", "cell 0000"];
  let count = 0;
  for (let turn = 0; turn < 40; turn++) {
    const mode = random.one(["3", "13", "12", "D"]);
    const script = `int ax=${random.one(["3", "13", "12"])}\nadvance ${random.below(90000)}\n` +
      `${random.one(["", "outw 3C4 0102\nput A0000 55\n", "out 3C8 7\nout 3C9 1\nout 3C9 2\nout 3C9 3\n"])}` +
      `int ax=${mode}\nadvance ${random.below(90000)}`;
    const words = random.one(SUBJECTS), all = made(script), subject = subjectOf(words);
    all.finder.find(subject);
    all.settle();
    if (all.finder.leadsWithin(all.runner.session, all.runner.steps)) {
      holdLast(all, subject);
      count++;
    }
    all.runner.close();
  }
  assert.ok(count > 15, `${count}`);
});

/** Holds the cycle that is found to the values after each cycle behind it. */
function holdLast(all, subject) {
  const cycle = goWithin(all), { session } = all.runner, values = new Set();
  const valueAt = steps => subject.value(stateAfter(session, steps)), what = `${subject.words}, cycle ${cycle}`;
  assert.match(all.finder.textAt(session, cycle), /^This cycle changed /);
  // A dot's value is what it would be in the frame under way; the search knows its frame.
  if (subject.isDot) return;
  assert.notEqual(valueAt(cycle - 1), valueAt(cycle), what);
  for (let steps = cycle; steps <= session.length; steps += steps > cycle + 50 ? 997 : 1) values.add(valueAt(steps));
  values.add(valueAt(session.length));
  assert.equal(values.size, 1, what);
}

// Into a call and out of it.

test("the session around waits, and is shown again as it was", () => {
  const { runner, settle } = made("int ax=3\nint ax=0E41 bx=7\nadvance 5000\nframe");
  const { session } = runner;
  runner.go(2);
  settle();
  const { seen } = runner, picture = Buffer.from(seen.after.bytes).toString("latin1");
  runner.enter(openCall(session, 2, seen.before), 2);
  assert.deepEqual([runner.isWithin, runner.goal, runner.outer.session, runner.outer.steps], [true, 0, session, 2]);
  settle();
  assert.deepEqual([runner.steps, runner.run, runner.seen.session], [0, RUN.done, runner.session]);
  assert.equal(Buffer.compare(runner.seen.after.bytes, seen.before.bytes), 0);
  assert.equal(runner.wanted, 2);
  runner.toEnd();
  settle();
  assert.equal(runner.steps, runner.session.length);
  runner.step(-1);
  settle();
  assert.equal(runner.steps, runner.session.length - 1);
  runner.leave();
  settle();
  assert.deepEqual([runner.isWithin, runner.session, runner.steps, runner.run], [false, session, 2, RUN.done]);
  assert.equal(Buffer.from(runner.seen.after.bytes).toString("latin1"), picture);
  runner.leave();
  assert.equal(runner.session, session);
  runner.close();
});

test("a step past either end leads out, behind the call and before it", () => {
  const { runner, settle } = made("int ax=3\nint ax=0E41 bx=7\nadvance 5000");
  for (const [by, wanted] of [[1, 2], [-1, 1]]) {
    runner.go(2);
    settle();
    runner.enter(openCall(runner.session, 2, runner.seen.before), 2);
    if (by > 0) runner.toEnd();
    settle();
    runner.step(by);
    settle();
    assert.deepEqual([runner.isWithin, runner.steps], [false, wanted]);
  }
  runner.close();
});

test("the end of a run closes both sessions", () => {
  const { runner, settle } = made("int ax=3"), closed = [];
  const noted = session => {
    const { close } = session;
    session.close = () => {
      closed.push(session.noun);
      close.call(session);
    };
    return session;
  };
  noted(runner.session);
  runner.enter(noted(openCall(runner.session, 1, runner.seen.before)), 1);
  settle();
  runner.start(new Session(adapter, FONTS, "frame"));
  assert.deepEqual(closed, ["cycle", "step"]);
  settle();
  assert.deepEqual([runner.isWithin, runner.steps], [false, 1]);
  runner.close();
});

test("a run that goes on waits meanwhile, and one that is halted stays so", () => {
  const text = `version 2\nint ax=3\nrepeat 60000\nput B8000 1\nint ax=0E41 bx=7\nend`;
  for (const isHalted of [false, true]) {
    const waiting = [], nothing = () => {};
    const runner = new Runner({ now: () => performance.now(), soon: does => waiting.push(does), later: nothing },
      { shown: nothing, changed: nothing, finished: nothing, ended: nothing, stopped: nothing,
        failed: error => { throw error; }, frameTime: () => 1 });
    runner.start(new Session(adapter, FONTS, text), 1);
    while (!runner.isShown) waiting.shift()();
    assert.equal(runner.run, RUN.running);
    const { session } = runner;
    runner.enter(openCall(session, 1, runner.seen.before), 1);
    const { ran } = session;
    while (waiting.length) waiting.shift()();
    assert.equal(runner.run, RUN.done);
    assert.equal(session.ran, ran);
    runner.leave({ isHalted });
    assert.equal(runner.run, isHalted ? RUN.halted : RUN.running);
    runner.close();
  }
});

/** What the page shows of a state is that of the module's readers. */
test("the state inside is that of a card", () => {
  const session = sessionOf("int ax=3"), call = runWhole(entered(session, 1));
  assert.ok(call.seek(9));
  const state = call.state();
  assert.ok(state instanceof State && state.hasMode === false);
  assert.deepEqual([call.summary(), call.outline.lineOf(0), call.outline.expectedOf(0)],
    [`${call.length.toLocaleString("en")} cycles`, 0, null]);
  call.close();
  session.close();
});
