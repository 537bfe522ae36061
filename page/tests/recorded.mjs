// What zaklimot trace records of the page's machine is what the page's own window says of the same run.
import assert from "node:assert/strict";
import { execFileSync } from "node:child_process";
import { mkdtempSync, readFileSync, rmSync, writeFileSync } from "node:fs";
import { tmpdir } from "node:os";
import { join } from "node:path";
import test from "node:test";
import { Machine, SPEEDS, USUAL_SPEED } from "../machine/machine.js";
import { Recording } from "../machine/recording.js";
import { rebuildingLines } from "../machine/rebuilt.js";
import { savedRunText } from "../machine/savedrun.js";
import { textOfTrace } from "../files/trace.js";
import { FONTS, PAGE, TOP, loadAdapter, machineParts } from "./loading.mjs";

const SECOND = 1e9, SECONDS = 0.3;
const { modules, programs } = await machineParts(), adapter = await loadAdapter();

/** What the recorder writes of a file: its trace, and what it tells. */
function recorded(name, bytes, given = {}) {
  const folder = mkdtempSync(join(tmpdir(), "zaklimot-recorded-"));
  try {
    const file = join(folder, name), paths = ["request", "answer"].map(one => join(folder, one));
    writeFileSync(file, bytes);
    writeFileSync(paths[0], JSON.stringify({ file, name, folder, quiet: 3, seconds: SECONDS, speed: USUAL_SPEED,
      deeds: [{ at: null, keys: [], told: "a screen" }], ...given }));
    const trace = execFileSync("node", [TOP + "python/zaklimot/commands/trace/inpage.mjs", ...paths],
      { encoding: "utf-8", maxBuffer: 1 << 28, env: { ...process.env, ZAKLIMOT_PAGE: PAGE } });
    return { trace, told: JSON.parse(readFileSync(paths[1], "utf-8")), screen: readFileSync(join(folder, ".dump.0.ppm")) };
  } finally {
    rmSync(folder, { recursive: true });
  }
}

/** Steps without what stands behind them, and advances that follow one another as one. */
function joined(lines) {
  const found = [];
  for (const line of lines.map(words => words.split(" ;")[0])) {
    const [, dots] = line.match(/^advance (\d+)$/) ?? [], [, before] = found.at(-1)?.match(/^advance (\d+)$/) ?? [];
    if (dots && before) found[found.length - 1] = `advance ${Number(dots) + Number(before)}`;
    else found.push(line);
  }
  return found;
}

/** The steps of the page's window from the start on, with what each read has answered. */
function windowOf(software, seconds) {
  const machine = new Machine(modules, FONTS);
  machine.isShowing = false;
  machine.boot(software);
  machine.setSpeed(SPEEDS[USUAL_SPEED]);
  const begin = machine.snapshot(null);
  machine.run(seconds * SECOND);
  const { state } = machine.runWindow(begin, 0, machine.moment);
  const recording = new Recording(rebuildingLines(adapter, FONTS, state), machine), lines = [], answers = [];
  for (let step = recording.head.length; step < recording.length; step++) {
    const entry = recording.entryOf(step), expected = recording.expectedOf(entry);
    lines.push(recording.wordsOf(entry));
    if (expected !== null) answers.push(expected);
  }
  return { lines: joined(lines), answers, machine };
}

for (const { name, bytes } of programs) {
  test(`${name} is recorded as the page's window shows it`, () => {
    const { trace, told } = recorded(name, bytes), own = windowOf({ program: bytes }, SECONDS);
    // The mode that the machine begins with is none of the window's.
    const [first, ...lines] = joined(textOfTrace(trace, adapter).trim().split("\n"));
    assert.equal(first, "int ax=0003 bx=0000 cx=0000 dx=0000");
    assert.ok(own.lines.length > 20, `${own.lines.length} steps`);
    // Dots after the last cycle go on to the next one there.
    const count = own.lines.length - 1;
    assert.deepEqual(lines.slice(0, count), own.lines.slice(0, count));
    const answers = [...trace.matchAll(/ r [pm] \S+ (\S+) /g)].map(([, value]) => value);
    assert.deepEqual(answers.slice(0, own.answers.length), own.answers);
    const times = [...trace.matchAll(/^(\d+)\+/gm)].map(([, micros]) => Number(micros));
    assert.ok(times.every((time, i) => i === 0 || time >= times[i - 1]), "times never run back");
    assert.ok(times.at(-1) >= SECONDS * 1e6 && times.at(-1) < SECONDS * 1e6 + 40000, `it ends at ${times.at(-1)}`);
    assert.equal(told.refusals, 0);
  });
}

test("keys of a request, and those of a saved run, come at their times", async () => {
  // Waits for a key, and puts its letter into memory of the display; again and again.
  const program = Uint8Array.from("B800B88EC0 30E4CD16 26A20000 EBF6".replaceAll(" ", "").match(/../g), two => parseInt(two, 16));
  const key = (code, letter, modifier = "") =>
    ({ code, key: letter, shifted: letter.toUpperCase(), modifier });
  const deeds = [{ at: 0.05, keys: [[key("KeyA", "a")], [key("ShiftLeft", "ShiftLeft", "shiftKey"), key("KeyB", "b")]] },
    { at: 0.28, keys: [] }];
  const { trace, screen } = recorded("keys.com", program, { deeds });
  const letters = ({ trace: text }) => [...text.matchAll(/^(\d+)\+\d+ w m B8000 (..) 1$/gm)].map(found => found.slice(1));
  const found = letters({ trace });
  assert.deepEqual(found.map(([, value]) => value), ["61", "42"]);
  assert.ok(found[0][0] >= 50000 && found[0][0] < 56000 && found[1][0] >= 150000 && found[1][0] < 160000, found.join());
  assert.match(screen.subarray(0, 15).toString(), /^P6\n720 400\n255\n/);
  const inputs = [[5e7, 0x1e, 0x1e61], [2e8, 0x30, 0x3062]].map(([time, ...values]) => ({ time, does: "key", values }));
  const saved = recorded("keys.run.json", await savedRunText("keys.com", { program }, inputs));
  assert.deepEqual(letters(saved).map(([, value]) => value), ["61", "62"]);
});
