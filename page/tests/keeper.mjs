// That the run which is under way is kept as it goes on, and what becomes of it when it ends: nothing is lost.
import assert from "node:assert/strict";
import test from "node:test";
import { DEAD, Keeper } from "../machine/keeper.js";
import { Runs } from "../machine/runs.js";
import { FakePage } from "./fakepage.mjs";
import { Shelf, Storage } from "./storages.mjs";

const page = new FakePage(), SECOND = 1e9;
const key = (time, letter) => ({ time, does: "key", values: [letter, letter] });

/** A machine that has run for some time with some inputs, of which so many have come. */
function machineOf(software) {
  const machine = { software, inputs: [], come: null, time: 0, isAmid: false,
    cpu: { inputs: () => machine.come ?? machine.inputs.length } };
  return Object.defineProperty(machine, "moment", { get: () =>
    ({ time: machine.time, cycles: machine.time / 10, isAmid: machine.isAmid }) });
}

/** A keeper of what runs: `pass(seconds)` lets the machine run. */
function made(storage = new Storage(), shelf = new Shelf()) {
  let now = 1000;
  const told = [], runs = new Runs(() => storage, shelf, () => now++);
  const live = { state: "running", name: "echo.com", isComingBack: false, snapshots: { last: {} },
    machine: machineOf({ program: Uint8Array.of(0xcd, 0x20) }) };
  // What another test has on does not hear of this page.
  for (const target of [page.window, page.document]) target.listeners.clear();
  const keeper = new Keeper(runs, () => live.state === "off" ? null : live, text => told.push(text));
  const pass = seconds => { live.machine.time += seconds * SECOND; };
  return { keeper, live, runs, told, storage, shelf, pass };
}

const settled = () => new Promise(done => setImmediate(done));
const kept = async (runs, i = 0) => runs.read(runs.list()[i]?.id);

test("a run is kept as it goes on, with the inputs that have come", async () => {
  const { keeper, live, runs, shelf, pass } = made();
  pass(1);
  live.machine.inputs = [key(5, 1), key(6, 2), key(7, 3)];
  live.machine.come = 2;
  assert.equal(keeper.note(), null);
  await settled();
  const { id, inputs, moment, software } = await kept(runs);
  assert.deepEqual([inputs.length, moment.time, software], [2, SECOND, live.machine.software]);
  // By itself, and under the same name.
  live.machine.come = 3;
  pass(1);
  page.turn();
  await settled();
  const later = await kept(runs);
  assert.deepEqual([later.id, later.inputs.length, later.moment.time], [id, 3, 2 * SECOND]);
  assert.deepEqual([runs.list().length, shelf.map.size], [1, 1]);
  // What comes back is not noted until it is there, and waits for that.
  Object.assign(live, { isComingBack: true });
  pass(1);
  page.turn();
  assert.equal((await kept(runs)).moment.time, 2 * SECOND);
  live.isComingBack = false;
  page.turn();
  assert.equal((await kept(runs)).moment.time, 3 * SECOND);
});

test("whoever looks at steps of a paused machine changes nothing of what is kept", async () => {
  const { keeper, live, runs, pass } = made();
  live.machine.inputs = [key(5, 1)];
  pass(3);
  live.state = "paused";
  keeper.note();
  await settled();
  // Back to an earlier moment.
  live.machine.come = 0;
  pass(-2);
  assert.equal(keeper.note(), null);
  assert.deepEqual([(await kept(runs)).inputs.length, (await kept(runs)).moment.time], [1, 3 * SECOND]);
  // The page's own look, too: nothing of a paused machine is kept by itself.
  page.turn();
  assert.equal((await kept(runs)).moment.time, 3 * SECOND);
  // It has gone on, and is paused elsewhere.
  live.machine.come = null;
  pass(4);
  live.snapshots.last = {};
  keeper.note();
  assert.equal((await kept(runs)).moment.time, 5 * SECOND);
});

test("keys that are in the run no longer make another one of it, and the old one is told", async () => {
  for (const storage of [new Storage(), new Storage(0)]) {
    const { keeper, live, runs, pass } = made(storage), isKept = storage.most > 0;
    live.machine.inputs = [key(5, 1), key(6, 2)];
    pass(2.26);
    keeper.note();
    const [old] = runs.list();
    live.machine.inputs = [key(5, 1)];
    pass(-1);
    const told = keeper.note();
    assert.deepEqual([told.title, told.name, told.hasKeys], ["echo.com, 2.3 s", "echo.com", true]);
    if (isKept) assert.deepEqual([told.id, runs.list().length], [old.id, 2]);
    assert.deepEqual((await keeper.read(told.id)).inputs.length, 2, "it is there even where nothing is kept");
    assert.equal(keeper.note(), null, "told once");
    if (isKept) assert.deepEqual(keeper.list().map(({ id, title }) => [id, title]), [[old.id, "echo.com, 2.3 s"]]);
  }
  // A speed is none of the keys.
  const { keeper, live, runs, pass } = made();
  live.machine.inputs = [{ time: 5, does: "set_instruction_time", values: [160] }];
  pass(1);
  keeper.note();
  live.machine.inputs = [];
  assert.equal(keeper.note(), null);
  assert.equal(runs.list().length, 1);
});

test("a run that ends is told, and comes back as the same run", async () => {
  const { keeper, live, runs, shelf, pass } = made();
  live.machine.inputs = [key(5, 1)];
  pass(1.5);
  keeper.note();
  await settled();
  pass(0.5);
  const told = keeper.end();
  assert.deepEqual([told.title, told.hasKeys], ["echo.com, 2.0 s", true]);
  assert.deepEqual(keeper.list().map(({ id }) => id), [told.id]);
  const run = await keeper.read(told.id);
  assert.equal(run.moment.time, 2 * SECOND);
  live.state = "off";
  assert.equal(keeper.end(), null);
  page.turn();
  assert.equal(runs.list().length, 1);
  // After a reload: the same run under its own name, and its software stands there once.
  const other = made(runs.storage(), shelf), found = await other.keeper.read(told.id);
  other.keeper.begin(found);
  assert.deepEqual(other.keeper.list(), [], "the run that is on is in no list");
  Object.assign(other.live.machine, { software: found.software, inputs: found.inputs, time: 3 * SECOND });
  assert.equal(other.keeper.note(), null);
  await settled();
  assert.deepEqual([other.runs.list().map(({ id, seconds }) => [id, seconds]), shelf.map.size], [[[told.id, 3]], 1]);
});

test("a state is kept when it pauses, and every half minute; and none of a run that is not kept", async () => {
  const { keeper, live, runs, shelf, pass } = made(), states = [], keepState = runs.keepState.bind(runs);
  Object.defineProperty(live, "keptState", { get: () => ({ at: live.machine.time / SECOND }) });
  runs.keepState = (id, state) => {
    states.push(state.at);
    return keepState(id, state);
  };
  for (let i = 0; i < 13; i++) {
    pass(5);
    keeper.note();
  }
  assert.deepEqual(states, [30, 60]);
  live.state = "paused";
  keeper.note();
  keeper.note();
  await settled();
  assert.deepEqual(states, [30, 60, 65]);
  const { id, state } = await kept(runs);
  assert.equal(state.at, 65);
  // A run that has gone on has it, too.
  keeper.end();
  assert.deepEqual((await keeper.read(id)).state, { at: 65 });
  assert.ok(shelf.map.has(`state ${id}`));
  // From a moment before, it is kept as soon.
  const other = made(new Storage(50));
  Object.defineProperty(other.live, "keptState", { get: () => assert.fail("it would lie beside nothing") });
  other.pass(40);
  other.keeper.note();
});

test("software is kept once, and again with each floppy that is put in", async () => {
  const { keeper, live, runs, shelf, pass } = made(), puts = [], put = shelf.put.bind(shelf);
  shelf.put = (id, software) => {
    puts.push(software.media?.length ?? 0);
    return put(id, software);
  };
  const noteAll = async count => {
    for (let i = 0; i < count; i++) {
      pass(1);
      keeper.note();
      await settled();
    }
  };
  await noteAll(3);
  live.machine.software.media = [Uint8Array.of(1)];
  await noteAll(2);
  live.machine.software.media.push(Uint8Array.of(2));
  await noteAll(2);
  assert.deepEqual(puts, [0, 1, 2]);
  // Other software is another one.
  keeper.end();
  live.machine = machineOf({ program: Uint8Array.of(0xc3) });
  live.machine.inputs = [key(1, 1)];
  await noteAll(1);
  assert.equal(shelf.map.size, new Set(runs.list().map(({ softwareId }) => softwareId)).size);
});

test("the run that is on when the page is left is offered once", async () => {
  const { keeper, live, runs, pass } = made();
  live.machine.inputs = [key(5, 1)];
  pass(1);
  keeper.note();
  assert.equal(keeper.left(), null);
  pass(1);
  page.document.hidden = true;
  page.document.send("visibilitychange");
  assert.equal(runs.list()[0].seconds, 2);
  pass(1);
  page.window.send("pagehide");
  assert.deepEqual(runs.list().map(({ isLeft, seconds }) => [isLeft, seconds]), [[true, 3]]);
  // The browser has kept the page for Back.
  page.window.send("pageshow", { persisted: true });
  assert.equal(keeper.left(), null);
  page.window.send("pagehide");
  const next = made(runs.storage());
  const { title, id } = next.keeper.left();
  assert.deepEqual([title, id], ["echo.com, 3.0 s", runs.list()[0].id]);
  assert.equal(next.keeper.left(), null);
});

test("a run that was on in a page which was killed is offered once it is sure, and in its own tab at once", async () => {
  globalThis.sessionStorage = new Storage();
  const { keeper, live, runs, storage, shelf, pass } = made();
  pass(2);
  keeper.note();
  await settled();
  const [{ id }] = runs.list();
  // It is on there as long as that page notes it, also while it is paused.
  assert.equal(made(storage, shelf).keeper.left(), null);
  performance.getEntriesByType = () => [{ type: "reload" }];
  assert.equal(new Keeper(runs, () => null, () => {}).left().id, id);
  keeper.note();
  page.turn();
  delete performance.getEntriesByType;
  const later = new Runs(() => storage, shelf, () => 1000 + DEAD + 60000), other = new Keeper(later, () => null, () => {});
  const found = other.left();
  assert.deepEqual([found.id, found.title], [id, "echo.com, 2.0 s"]);
  assert.equal(other.left(), null);
  // One that was switched off is none of these.
  live.state = "paused";
  keeper.note();
  page.turn();
  keeper.end();
  assert.equal(new Keeper(later, () => null, () => {}).left(), null);
  assert.deepEqual(runs.beats(), []);
  // A paused one is left as it is, too.
  live.state = "paused";
  page.document.hidden = false;
});

test("what the browser keeps nothing of is told once, with the reason", async () => {
  const forbidden = new Runs(() => { throw new Error(); }), { live, pass } = made(), told = [];
  const keeper = new Keeper(forbidden, () => live, text => told.push(text));
  for (let i = 0; i < 3; i++) {
    pass(1);
    keeper.note();
  }
  await settled();
  assert.equal(told.length, 1);
  assert.match(told[0], /keeps nothing for the page/);
  const large = made();
  large.live.machine.software = { c: new Uint8Array((1 << 25) + 1) };
  large.pass(1);
  large.keeper.note();
  await settled();
  assert.equal(large.told.length, 1);
  assert.match(large.told[0], /32 MiB at most/);
  const full = made(new Storage(50));
  full.keeper.note();
  assert.match(full.told[0], /storage is full/);
  const long = made();
  long.live.machine.inputs = Array(30000).fill(key(5, 0x1e61));
  long.keeper.note();
  assert.match(long.told[0], /more keys than the browser keeps/);
});
