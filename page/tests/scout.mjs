// A scout comes to the same states by single calls as a session by zak_run_on, forward and back.
import assert from "node:assert/strict";
import test from "node:test";
import { Search } from "../run/points.js";
import { Session } from "../run/session.js";
import { Random } from "./randomly.mjs";
import { FONTS, examples, loadAdapter, runWhole } from "./loading.mjs";

const adapter = await loadAdapter();

/** Holds the states of a text after some steps, as a scout finds them, to those of the session. */
function holdStates(text, parts) {
  const session = runWhole(new Session(adapter, FONTS, text)), { scout } = session;
  for (const part of parts) {
    const steps = Math.floor(session.length * part);
    assert.ok(session.seek(steps));
    assert.ok(scout.seek(steps));
    assert.equal(scout.at, steps);
    assert.ok(Buffer.compare(session.card.save(), scout.card.save()) === 0, `after step ${steps}`);
  }
  session.close();
}

for (const { name, text } of examples()) {
  test(`states of ${name}`, () => holdStates(text, [0, 0.1, 0.35, 0.5, 0.9, 1, 0.2, 0.21, 1]));
}

/** The functions that are called. */
const CALLS = [0xe41, 0x200, 0x941, 0x601, 0x1000, 0x1010, 0x1017, 0xf00, 0x1301];
/** What is shown. */
const SHOWN = ["regs", "dac 5", "beam", "latches", "plane 1 20 16", "bda", "cells"];

/** A random step, as text. */
function randomStep(random) {
  const digits = (count, value) => value.toString(16).padStart(count, "0"), byte = () =>
    digits(2, random.byte());
  const port = () => digits(3,
    random.one([0x3c0, 0x3c2, 0x3c4, 0x3c5, 0x3c8, 0x3c9, 0x3ce, 0x3cf, 0x3d4, 0x3d5, 0x3da]));
  const address = () => digits(5, 0xa0000 + random.below(0x20000));
  const call = () =>
    `int ax=${digits(4, random.one(CALLS))} ` +
    `bx=${byte()} cx=${digits(2, random.below(9))} dx=${digits(2, random.below(20))}` +
      (random.below(3) ? "" : ` block ${byte().repeat(8)}`);
  return random.one([() => `out ${port()} ${byte()}`, () => `outw ${port()} ${byte()}${byte()}`,
    () => `in ${port()}`,
    () => `inw ${port()}`, () => `put ${address()} ${byte()}`, () =>
      `putw ${address()} ${byte()}${byte()}`,
    () => `get ${address()}`, () => `getw ${address()}`, call, () =>
      `advance ${random.below(50000)}`, () => "frame",
    () => `show ${random.one(SHOWN)}`])();
}

test("the last step may be of any kind", () => {
  for (const step of ["frame", "show beam", "int ax=F00", "advance 7", "get A0000", "out 3C4 2"]) {
    const session = runWhole(new Session(adapter, FONTS, `int ax=3\n${step}`));
    const search = new Search(session, [{ kind: "beam", line: 0, dot: 3 },
      { kind: "colour", index: 9 }], 2, true, true);
    let told = null;
    while (!told) told = search.take(100);
    assert.equal(told.steps, step === "frame" || step === "advance 7" ? 2 : 1, step);
    session.close();
  }
});

test("states of random scripts with every kind of step, in blocks too", () => {
  const random = new Random(21);
  for (let time = 0; time < 30; time++) {
    const steps = Array.from({ length: 60 }, () => randomStep(random)),
      lines = ["version 2", `int ax=${random.one(["3", "d", "12", "13"])}`];
    lines.push(...steps.slice(0, 20), `repeat ${1 + random.below(9)}`, ...steps.slice(20, 40),
      "end", ...steps.slice(40));
    holdStates(lines.join("\n"), [1, 0.5, 0.51, 0.9, 0.3, 1]);
  }
});
