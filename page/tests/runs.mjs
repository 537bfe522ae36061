// The runs that the browser keeps: in its storage how far each has come, and in its database the software.
import assert from "node:assert/strict";
import test from "node:test";
import { Runs } from "../machine/runs.js";
import { Shelf, Storage } from "./storages.mjs";

function made(storage = new Storage()) {
  let now = 1000;
  const shelf = new Shelf();
  return { runs: new Runs(() => storage, shelf, () => now++), storage, shelf };
}

const KEY = { time: 5, does: "key", values: [0x1e, 0x1e61] };
const run = (id, more = {}) => ({ id, name: `${id}.com`, softwareId: `of ${id}`, hasKeys: true, inputs: [KEY],
  moment: { time: 2e9, cycles: 70, isAmid: false }, ...more });
const software = { program: Uint8Array.of(0xcd, 0x20), files: [{ name: "A.TXT", bytes: Uint8Array.of(1) }] };

test("a run is read as it was kept", async () => {
  const { runs } = made(), given = run("one", { moment: { time: 3e9, cycles: 71, isAmid: true } });
  assert.equal(runs.keep(given), "");
  assert.equal(await runs.read("one"), null, "without its software");
  assert.equal(await runs.keepSoftware("of one", software), "");
  const found = await runs.read("one");
  assert.deepEqual([found.name, found.inputs, found.moment, found.software],
    ["one.com", [KEY], given.moment, software]);
  assert.deepEqual(runs.list().map(({ id, seconds, isLeft }) => [id, seconds, isLeft]), [["one", 3, false]]);
  assert.equal(await runs.read("two"), null);
});

test("the last six are kept, and of one name no second without keys", async () => {
  const { runs, shelf } = made();
  for (let i = 0; i < 9; i++) {
    runs.keep(run(`run${i}`));
    await runs.keepSoftware(`of run${i}`, software);
  }
  assert.deepEqual(runs.list().map(({ id }) => id), ["run8", "run7", "run6", "run5", "run4", "run3"]);
  // What no run names is dropped.
  assert.deepEqual([...shelf.map.keys()].sort(), ["of run3", "of run4", "of run5", "of run6", "of run7", "of run8"]);
  for (const id of ["plain", "other", "third"]) runs.keep(run(id, { name: "x.com", hasKeys: id === "other" }));
  assert.deepEqual(runs.list().map(({ id }) => id).slice(0, 3), ["third", "other", "run8"]);
});

test("a state lies beside its run, and goes with it", async () => {
  const { runs, shelf } = made(), state = { form: 1 };
  runs.keep(run("one"));
  await runs.keepSoftware("of one", software);
  assert.equal((await runs.read("one")).state, null);
  await runs.keepState("one", state);
  assert.deepEqual([(await runs.read("one")).state, await runs.stateOf("one"), await runs.stateOf("two")],
    [state, state, null]);
  for (let i = 0; i < 6; i++) runs.keep(run(`run${i}`));
  await runs.keepState("run5", state);
  assert.deepEqual([...shelf.map.keys()], ["state run5"]);
  const forbidden = new Runs(() => new Storage(), { keys: () => Promise.reject(new Error()),
    get: () => Promise.reject(new Error()) });
  await forbidden.keepState("one", state);
  assert.equal(await forbidden.stateOf("one"), null);
});

test("long runs make place for the newest, and one that is too long is told", () => {
  const { runs } = made(), many = count => Array(count).fill(KEY);
  for (const id of ["a", "b", "c"]) assert.equal(runs.keep(run(id, { inputs: many(13000) })), "");
  assert.deepEqual(runs.list().map(({ id }) => id), ["c", "b"]);
  assert.equal(runs.keep(run("d", { inputs: many(30000) })), "long");
  assert.deepEqual(runs.list().map(({ id }) => id), ["c", "b"]);
});

test("a storage that is full, or forbidden", async () => {
  const { runs } = made(new Storage(500));
  for (const id of ["a", "b", "c", "d"]) assert.equal(runs.keep(run(id)), "");
  assert.equal(runs.list()[0].id, "d");
  assert.ok(runs.list().length < 4);
  assert.equal(made(new Storage(50)).runs.keep(run("a")), "full");
  const forbidden = new Runs(() => { throw new Error(); }, { keys: () => Promise.reject(new Error()) });
  assert.equal(forbidden.keep(run("a")), "forbidden");
  assert.equal(await forbidden.keepSoftware("of a", software), "forbidden");
  assert.deepEqual([forbidden.list(), await forbidden.read("a")], [[], null]);
  assert.equal(await runs.keepSoftware("of a", { c: new Uint8Array((1 << 25) + 1) }), "large");
});

test("what was left is told until it is forgotten; what is damaged is no run", async () => {
  const { runs, storage } = made();
  runs.keep(run("one"), true);
  runs.keep(run("two"));
  assert.deepEqual(runs.list().map(({ id, isLeft }) => [id, isLeft]), [["two", false], ["one", true]]);
  runs.forgetLeft();
  assert.deepEqual(runs.list().map(({ isLeft }) => isLeft), [false, false]);
  const good = JSON.parse(storage.getItem("zaklimot-run-one"));
  for (const wrong of [{ moment: null }, { moment: {} }, { inputs: 1 }, { name: 5 }, { softwareId: null },
    { time: "x" }, { moment: { time: -1, cycles: 1 } }, { moment: { time: 1 } }]) {
    storage.setItem("zaklimot-run-one", JSON.stringify({ ...good, ...wrong }));
    assert.deepEqual(runs.list().map(({ id }) => id), ["two"], JSON.stringify(wrong));
  }
  await runs.keepSoftware("of two", software);
  storage.setItem("zaklimot-run-two", JSON.stringify({ ...good, softwareId: "of two", inputs: [[5, "boot", 1]] }));
  assert.equal(await runs.read("two"), null);
  for (const other of [{}, { program: [1] }, { program: new Uint8Array(0x90001) },
    { ...software, files: [{ name: 1 }] }]) {
    storage.setItem("zaklimot-run-two", JSON.stringify({ ...good, softwareId: "of two" }));
    await runs.keepSoftware("of two", other);
    assert.equal(await runs.read("two"), null);
  }
});
