// The scheduler of a run, without a document: its states, and the words of the page's header for
// each. The test gives the clock, and takes the turns one by one.
import assert from "node:assert/strict";
import test from "node:test";
import { Pacer } from "../run/pacer.js";
import { RUN, Runner, TASK, stateText } from "../run/runner.js";
import { Session } from "../run/session.js";
import { FONTS, loadAdapter } from "./loading.mjs";

const adapter = await loadAdapter(), FRAME_TIME = 14;

/** Time that the test lets pass, and functions that it has called. */
class TestClock {
  time = 0;
  waiting = [];
  timers = [];

  now() {
    return this.time;
  }

  soon(does) {
    this.waiting.push(does);
  }

  later(does, milliseconds) {
    this.timers.push({ does, at: this.time + milliseconds });
  }

  /** Takes a turn; whether there was one. */
  turn() {
    this.waiting.shift()?.();
    return this.waiting.length > 0;
  }

  /** Takes turns until nothing is left to do, at most so many. */
  settle(most = 100000) {
    for (let turns = 0; this.waiting.length; turns++) {
      assert.ok(turns < most, "it never ends");
      this.turn();
    }
  }

  /** Lets time pass, and does what is due. */
  pass(milliseconds) {
    this.time += milliseconds;
    const due = this.timers.filter(({ at }) => at <= this.time);
    this.timers = this.timers.filter(({ at }) => at > this.time);
    for (const { does } of due) does();
    this.settle();
  }
}

/** A session that runs and seeks so many steps in a slice, and fails where the test says so. */
class SlowSession {
  noun = "step";
  ran = 0;
  at = 0;
  time = 3.14;
  runs = 10;
  seeks = 5;
  failure = null;
  isClosed = false;

  constructor(length) {
    this.length = length;
  }

  get isDone() {
    return this.ran === this.length;
  }

  runFor() {
    if (this.failure) throw this.failure;
    this.ran = Math.min(this.length, this.ran + this.runs);
  }

  seek(steps) {
    if (this.at > steps) this.at = 0;
    this.at = Math.min(steps, this.at + this.seeks);
    return this.at === steps;
  }

  seen(steps) {
    this.at = steps;
    return { steps };
  }

  summary() {
    return `${this.length} steps`;
  }

  close() {
    this.isClosed = true;
  }
}

/** A runner, its clock, and what it has told. */
function made() {
  const clock = new TestClock(), log = [], texts = [];
  const runner = new Runner(clock, {
    shown: ({ steps }) => log.push(`shown ${steps}`),
    changed: () => {
      const text = stateText(runner);
      if (text !== texts.at(-1)) texts.push(text);
    },
    finished: () => log.push("finished"),
    ended: ({ isBack }) => log.push(`nothing ${isBack ? "before" : "after"}`),
    stopped: steps => log.push(`stopped at ${steps}`),
    failed: error => log.push(`failed: ${error.message}`),
    frameTime: () => FRAME_TIME,
  });
  return { runner, clock, log, texts };
}

/** A runner that has run a text to its end. */
function ranText(text, awaited) {
  const all = made(), session = new Session(adapter, FONTS, text);
  all.runner.start(session, awaited);
  all.clock.settle();
  return { ...all, session };
}

test("a run goes to its end, which is shown, and is then finished", () => {
  const { runner, clock, log, texts } = made();
  assert.equal(runner.run, RUN.none);
  assert.equal(stateText(runner), "no run");
  runner.start(new SlowSession(25));
  assert.equal(runner.run, RUN.running);
  assert.ok(runner.isBusy);
  clock.settle();
  assert.equal(runner.run, RUN.done);
  assert.equal(runner.task, TASK.idle);
  assert.equal(runner.steps, 25);
  assert.deepEqual(log, ["finished", "shown 25"]);
  assert.deepEqual(texts, ["no run", "running: step 0 of 25", "running: step 10 of 25",
    "running: step 20 of 25", "going to step 25: at 5", "going to step 25: at 10",
    "going to step 25: at 15", "going to step 25: at 20", "25 steps · 3.1 ms"]);
  assert.ok(!runner.isBusy && runner.isAtEnd);
});

test("an empty script is done, and power-on is shown", () => {
  const { runner, clock, log } = made();
  runner.start(new SlowSession(0));
  clock.settle();
  assert.equal(runner.run, RUN.done);
  assert.deepEqual(log, ["shown 0", "finished"]);
});

test("a step that is awaited is shown once the run is there, and the run goes on", () => {
  const { runner, clock, log } = made();
  runner.start(new SlowSession(100), 15);
  clock.turn();
  assert.deepEqual(log, []);
  for (let turn = 0; turn < 4; turn++) clock.turn();
  assert.deepEqual(log, ["shown 15"]);
  assert.equal(runner.run, RUN.running);
  clock.settle();
  assert.deepEqual(log, ["shown 15", "finished"]);
  assert.equal(runner.steps, 15);
});

test("a run that takes its time is followed now and then", () => {
  const { runner, clock, log } = made(), session = new SlowSession(1000);
  session.seeks = 1000;
  runner.start(session);
  for (let turn = 0; turn < 90; turn++) {
    clock.time += 14;
    clock.turn();
  }
  const shown = log.filter(text => text.startsWith("shown"));
  assert.ok(shown.length >= 4 && shown.length <= 5, log.join());
});

test("a run is stopped, and goes on", () => {
  const { runner, clock, log } = made(), session = new SlowSession(100);
  session.seeks = 1000;
  runner.start(session);
  clock.turn();
  clock.turn();
  runner.stop();
  clock.settle();
  assert.equal(runner.run, RUN.halted);
  assert.equal(stateText(runner), "stopped: step 20 of 100");
  assert.equal(runner.steps, 20);
  assert.ok(!runner.isBusy && !runner.isAtEnd);
  // What lies behind is shown, what lies ahead is not taken without an order.
  runner.go(7);
  clock.settle();
  runner.go(50);
  clock.settle();
  assert.deepEqual(log, ["shown 20", "shown 7", "stopped at 20", "shown 20"]);
  runner.toEnd();
  assert.equal(runner.run, RUN.running);
  clock.settle();
  assert.equal(runner.run, RUN.done);
  assert.equal(runner.steps, 100);
});

test("an error amid a run ends it, and never leaves it running in the header", () => {
  const { runner, clock, log, texts } = made(), session = new SlowSession(100);
  runner.start(session);
  clock.turn();
  session.failure = new Error("no memory");
  clock.turn();
  assert.equal(runner.run, RUN.failed);
  assert.deepEqual(log, ["failed: no memory"]);
  assert.equal(texts.at(-1), "stopped: step 10 of 100");
  assert.equal(clock.waiting.length, 0);
  session.failure = null;
  runner.toEnd();
  clock.settle();
  assert.equal(runner.run, RUN.done);
});

test("an error while a step is shown ends what is under way", () => {
  const { runner, clock, log } = made(), session = new SlowSession(100);
  runner.start(session);
  clock.settle();
  session.seek = () => { throw new Error("trap"); };
  runner.go(3);
  clock.settle();
  assert.deepEqual(log.slice(-1), ["failed: trap"]);
  assert.equal(runner.run, RUN.done);
  assert.equal(runner.task, TASK.idle);
  assert.equal(stateText(runner), "100 steps · 3.1 ms");
});

test("an order from elsewhere that fails stops a run, too", () => {
  const { runner, clock } = made();
  runner.start(new SlowSession(100));
  clock.turn();
  runner.fail();
  clock.settle();
  assert.equal(stateText(runner), "stopped: step 10 of 100");
  runner.close(true);
  assert.equal(stateText(runner), "no run");
});

test("another session closes the one before; a bad line is told before all else", () => {
  const { runner, clock } = made(), old = new SlowSession(100);
  runner.start(old);
  clock.turn();
  runner.halt();
  clock.settle();
  assert.equal(runner.run, RUN.halted);
  const bad = { line: 3, message: "there is no step 'x'" };
  assert.equal(stateText(runner, { bad }), "line 3 is no step: there is no step 'x'");
  assert.equal(stateText(runner, { drawn: 4 }), "drawing: step 4 of 100");
  runner.start(new SlowSession(5));
  assert.ok(old.isClosed);
  clock.settle();
  assert.equal(runner.steps, 5);
});

test("orders that come faster than pictures go on from the step that will be shown", () => {
  const { runner, clock, log } = made(), session = new SlowSession(100);
  session.seeks = 1000;
  runner.start(session);
  clock.settle();
  log.length = 0;
  for (let press = 0; press < 10; press++) runner.go(runner.goal - 1);
  clock.settle();
  assert.deepEqual(log, ["shown 90"]);
});

test("a search goes to the breakpoint before and after, and tells that there is none", () => {
  const text = "int ax=3\nin 3DA\nin 3CC\nin 3DA\nframe\n", point = { kind: "line", line: 3 };
  const { runner, clock, log, session } = ranText(text);
  runner.find([point], { isBack: true });
  assert.equal(runner.task, TASK.searching);
  assert.ok(runner.isBusy);
  clock.settle();
  assert.equal(runner.steps, 3);
  runner.find([point]);
  clock.settle();
  assert.deepEqual(log.slice(-3), ["shown 3", "nothing after", "shown 5"]);
  assert.throws(() => runner.find([]), /There are no breakpoints/);
  session.close();
});

test("a search waits for the run, and ends where the run is stopped", () => {
  const { runner, clock, log, texts } = made();
  const text = "version 2\nint ax=3\nrepeat 60\nint ax=E41\nframe\nend\nin 3CC\n";
  runner.start(new Session(adapter, FONTS, text));
  runner.find([{ kind: "line", line: 7 }]);
  clock.turn();
  assert.equal(runner.task, TASK.searching);
  assert.match(texts.at(-1), /^looking at step \d+ of 122$/);
  runner.halt();
  runner.find([{ kind: "line", line: 7 }]);
  clock.settle();
  assert.match(log.at(-2), /^stopped at \d+$/);
  assert.equal(runner.task, TASK.idle);
  runner.resume();
  runner.find([{ kind: "line", line: 7 }]);
  clock.settle();
  assert.equal(runner.steps, 122);
  runner.close();
});

test("play shows each frame at its time, and ends at the last one", () => {
  const { runner, clock, log } = ranText("version 2\nint ax=3\nrepeat 4\nframe\nin 3DA\nend\n", 0);
  log.length = 0;
  runner.play(true);
  assert.ok(runner.isPlaying && runner.isBusy);
  for (let time = 0; time < 100; time++) clock.pass(1);
  assert.deepEqual(log, ["shown 2", "shown 4", "shown 6", "shown 8", "shown 9"]);
  assert.ok(!runner.isPlaying);
  // At the end it begins anew.
  runner.play(true);
  clock.pass(1);
  runner.play(false);
  for (let time = 0; time < 50; time++) clock.pass(1);
  assert.equal(runner.steps, 0);
  runner.close();
});

test("an order ends play", () => {
  const { runner, clock } = ranText("version 2\nint ax=3\nrepeat 9\nframe\nend\n", 0);
  runner.play(true);
  clock.pass(5);
  runner.go(9);
  clock.settle();
  assert.ok(!runner.isPlaying);
  assert.equal(runner.steps, 9);
  runner.close();
});

test("frames are left out while the machine is late, some at most", () => {
  const pacer = new Pacer(0);
  assert.ok(pacer.isDue(0));
  pacer.goOn(0, 10);
  assert.ok(!pacer.isDue(9) && pacer.isDue(10));
  assert.equal(pacer.wait(8), 2);
  assert.equal(pacer.wait(0), 4);
  assert.equal(pacer.leavesOut(19, 10), false);
  const left = Array.from({ length: 7 }, () => pacer.leavesOut(1000, 10));
  assert.deepEqual(left, [true, true, true, true, true, false, true]);
  // What is owed is forgotten beyond a fifth of a second.
  pacer.goOn(1000, 10);
  assert.ok(pacer.isDue(800) && !pacer.isDue(799));
});

/** A search that looks at some steps a slice each, and then tells what it has found. */
class SlowSearch {
  looked = 9;

  constructor(slices, told) {
    this.slices = slices;
    this.told = told;
  }

  take() {
    this.looked--;
    return this.slices-- > 0 ? null : this.told;
  }
}

test("a search that is handed in is taken slice by slice, and what it finds is heard and shown", () => {
  const { runner, clock, log, texts, session } = ranText("int ax=3\n".repeat(9)), heard = [];
  log.length = 0;
  runner.findBy(new SlowSearch(3, { steps: 4 }), told => heard.push(told));
  assert.ok(runner.isBusy && runner.task === TASK.searching);
  clock.settle();
  assert.deepEqual([heard, log, runner.steps], [[{ steps: 4 }], ["shown 4"], 4]);
  assert.ok(texts.includes("looking at step 8 of 9"), texts.join());
  // One that finds nothing leaves the page where it is, and one that is stopped shows where it was.
  runner.findBy(new SlowSearch(1, { ended: true }), told => heard.push(told));
  clock.settle();
  assert.deepEqual([heard.length, runner.steps, runner.task], [2, 4, TASK.idle]);
  runner.findBy(new SlowSearch(99, { ended: true }), told => heard.push(told));
  clock.turn();
  runner.stop();
  clock.settle();
  assert.deepEqual([heard.length, runner.steps], [2, 8]);
  session.close();
});

test("a search begins at the step that was asked for, though another is still shown", () => {
  const { runner, clock, session } = ranText("out 3C4 2\nout 3C5 1\nout 3C5 2\nout 3C5 3");
  runner.go(0);
  clock.settle();
  runner.toEnd();
  runner.find([{ kind: "port", place: 0x3c5, way: "written" }], { isBack: true });
  clock.settle();
  assert.equal(runner.steps, 3);
  session.close();
});
