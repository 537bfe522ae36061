// Runs software on machines in a thread of its own, which the test ends where a slice hangs.
import { parentPort, workerData } from "node:worker_threads";
import { Machine } from "../machine/machine.js";
import { hostileProgram } from "./hostile.mjs";
import { FONTS, machineParts } from "./loading.mjs";

/** Nanoseconds of machine time that a program has: 20,000 instructions of a 386. */
const BUDGET = 20000 * 160;
const SLICES = 4, AGAIN = 20, BACK = 50, SHOWN = 40, RETURN = [0x1c, 0x1c0d];
const { modules } = await machineParts();
const progress = new Int32Array(workerData);
const machine = new Machine(modules, FONTS), other = new Machine(modules, FONTS);

/** All that software can see of a machine: numbers and bytes by their names. */
function stateOf(one) {
  const { cpu, ram, bytes, stopped } = one, store = cpu.store_at(0);
  return {
    stopped, cycles: cpu.cycles(), instructions: cpu.instructions(), time: cpu.now(),
    registers: new Uint8Array(cpu.memory.buffer, cpu.registers(), 64), memory: ram,
    store: bytes.subarray(store, store + cpu.store_used()), display: one.savedState(),
  };
}

/** A copy of a state, which stays as it is when the machine runs on. */
const kept = state => Object.fromEntries(Object.entries(state)
  .map(([name, part]) => [name, part instanceof Uint8Array ? part.slice() : part]));

/** The name of the first part in which two states differ; "" where there is none. */
function difference(one, wanted) {
  const differs = name => wanted[name] instanceof Uint8Array
    ? Buffer.compare(one[name], wanted[name]) !== 0 : one[name] !== wanted[name];
  return Object.keys(wanted).find(differs) ?? "";
}

/** Runs software from its start; `inMiddle` is called when half of its slices are over. */
function runWhole(one, software, nanoseconds, inMiddle = () => {}) {
  one.boot(software);
  for (let slice = 1; slice <= SLICES && one.stopped === "runs"; slice++) {
    one.run(nanoseconds * slice / SLICES);
    Atomics.add(progress, 1, 1);
    if (slice === 1) one.key(...RETURN);
    if (slice === SLICES / 2) inMiddle();
  }
}

/** How software ended, in a word: why the machine stopped, that it waits, or that it runs. */
const endOf = one => one.stopped === "runs" && one.cpu.is_idle() ? "waits" : one.stopped;

/**
 * Runs the program of a seed. Some run once more on another machine (`again`), and some from a
 * snapshot of their middle (`back`): each tells what differs then.
 */
function runSeed(seed) {
  const { kind, software } = hostileProgram(seed);
  let snapshot = null;
  machine.isShowing = other.isShowing = seed % SHOWN === 0;
  runWhole(machine, software, BUDGET, () => {
    if (seed % BACK === 0) snapshot = machine.snapshot(null);
  });
  const found = { seed, kind, end: endOf(machine), again: null, back: null };
  if (seed % AGAIN === 0) {
    runWhole(other, software, BUDGET);
    found.again = difference(stateOf(other), stateOf(machine));
  }
  if (snapshot) {
    const wanted = kept(stateOf(machine));
    machine.restore(snapshot);
    machine.runAgain(wanted.time);
    found.back = difference(stateOf(machine), wanted);
  }
  return found;
}

/** Runs the programs of seeds; what traps is told by its seed. */
function runSeeds({ from, to }) {
  const found = [];
  for (let seed = from; seed < to; seed++) {
    Atomics.store(progress, 0, seed);
    try {
      found.push(runSeed(seed));
    } catch (error) {
      found.push({ seed, kind: hostileProgram(seed).kind, error: String(error.stack) });
    }
  }
  return found;
}

/** Runs one software, and tells of its end. `isFresh` takes a new machine. */
function runOne({ software, nanoseconds = BUDGET, isShowing = false, isFresh = false,
  look = [0, 0] }) {
  const one = isFresh ? new Machine(modules, FONTS) : machine;
  one.isShowing = isShowing;
  runWhole(one, software, nanoseconds);
  return { end: endOf(one), now: one.cpu.now(), missing: one.missing.length,
    last: one.missing.at(-1), blocks: one.blocks.length, instructions: one.cpu.instructions(),
    registers: [...new Uint32Array(one.cpu.memory.buffer, one.cpu.registers(), 16)],
    looked: one.ram.slice(look[0], look[0] + look[1]) };
}

parentPort.on("message", asked => {
  try {
    parentPort.postMessage({ found: asked.software ? runOne(asked) : runSeeds(asked) });
  } catch (error) {
    parentPort.postMessage({ error: String(error.stack) });
  }
});
