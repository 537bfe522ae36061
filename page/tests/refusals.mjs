// Refusals are told in words, with a link; and breakpoints are found, forward and back.
import assert from "node:assert/strict";
import test from "node:test";
import { readFileSync } from "node:fs";
import { Search, pointText } from "../run/points.js";
import { Session } from "../run/session.js";
import { changesOf } from "../run/changes.js";
import { whyRefused } from "../explain/refusals.js";
import { FONTS, TOP, loadAdapter, runWhole } from "./loading.mjs";

const adapter = await loadAdapter();

function sessionOf(text) {
  return runWhole(new Session(adapter, FONTS, text));
}

// The refusals with their words, which the tests of the tools read too: so both tell the
// same.
const REFUSED = JSON.parse(readFileSync(TOP + "tools/tests/refusals.json", "utf-8"));

for (const { text, answer, told, anchor } of REFUSED) {
  test(`${text.split("\n").at(-1)} is refused`, () => {
    const session = sessionOf(text), last = session.length - 1;
    assert.equal(session.answers.get(last), answer);
    session.seek(last);
    const found = whyRefused(session, last, session.state());
    assert.equal(found.text, told);
    assert.equal(found.link.anchor, anchor);
    session.close();
  });
}

/** The steps at which a search stops, all of them in their order. */
function stops(session, points, isBack) {
  const found = [];
  let from = isBack ? session.length + 1 : 0;
  for (;;) {
    const search = new Search(session, points, from, isBack);
    let told = null;
    while (!told) told = search.take(1000);
    if (told.ended) return found;
    found.push(from = told.steps);
  }
}

const SCRIPT = `version 2
int ax=3
repeat 3
outw 3D4 0A0A
putw B8001 4142
advance 1000
in 3DA
end
out 3B4 0
get B8002 ; = 00
outw 3D4 200A
frame
advance 900000
out 3C8 1
repeat 3
out 3C9 3F
end
`;
// Steps: 1 int; 2..5, 6..9, 10..13 the block; 14 out 3B4, 15 get, 16 outw, 17 frame, 18 advance, 19
// out, 20..22 out 3C9
const POINTS = [
  [{ kind: "line", line: 5 }, [3, 7, 11]],
  [{ kind: "port", place: 0x3da, way: "read" }, [5, 9, 13]],
  [{ kind: "port", place: 0x3da, way: "written" }, []],
  [{ kind: "port", place: 0x3d5, way: "either" }, [2, 6, 10, 16]],
  [{ kind: "address", place: 0xb8002, way: "either" }, [3, 7, 11, 15]],
  [{ kind: "address", place: 0xb8002, way: "read" }, [15]],
  [{ kind: "register", group: "crtc", index: 10, title: "cursor start" }, [1, 2, 16]],
  [{ kind: "register", group: "misc", index: null, title: "miscellaneous output" }, [1]],
  [{ kind: "register", group: "dac", index: null, title: "the DAC" }, [1, 22]],
  [{ kind: "beam", line: 0, dot: 0 }, [4, 18]],
  [{ kind: "beam", line: 1, dot: 200 }, [8, 18]],
  [{ kind: "beam", line: 400, dot: 0 }, [17, 18]],
  [{ kind: "frame" }, [17, 18]],
  [{ kind: "refusal" }, [14]],
  [{ kind: "wrong" }, [15]],
  [{ kind: "bytes", planes: 1, from: 2, to: 2 }, [1, 3]],
  [{ kind: "bytes", planes: 15, from: 0, to: 1 }, [1, 3]],
  [{ kind: "colour", index: 1 }, [1, 22]],
  [{ kind: "drawn", line: 1, dot: 200 }, [8, 18]],
];
for (const [point, wanted] of POINTS) {
  test(`breakpoint: ${pointText(point)}`, () => {
    const session = sessionOf(SCRIPT);
    assert.equal(session.length, 22);
    assert.deepEqual(stops(session, [point], false), wanted);
    assert.deepEqual(stops(session, [point], true), [...wanted].reverse());
    session.close();
  });
}

test("several breakpoints at once", () => {
  const session = sessionOf(SCRIPT), points = [POINTS[0][0], POINTS[13][0], POINTS[6][0]];
  assert.deepEqual(stops(session, points, false), [1, 2, 3, 7, 11, 14, 16]);
  assert.deepEqual(stops(session, points, true), [16, 14, 11, 7, 3, 2, 1]);
  session.close();
});

test("a search waits for the run", () => {
  const session = new Session(adapter, FONTS, SCRIPT),
    search = new Search(session, [{ kind: "refusal" }], 0, false);
  assert.deepEqual(search.take(10), { waiting: true });
  runWhole(session);
  assert.deepEqual(search.take(1000), { steps: 14 });
  session.close();
});

test("what a step has changed is told", () => {
  const session = sessionOf(SCRIPT);
  for (const [steps, told] of [
    [2, ["CRT controller A, cursor start 0D → 0A", "CRT controller index 18 → 0A"]],
    [3, ["plane 0 0002: 20 → 41", "plane 1 0000: 07 → 42"]],
    [4, ["the beam"]],
    [15, ["latches 41 07 00 00"]],
    [22, ["red is next of the DAC", "DAC entry 01"]],
  ]) {
    session.seek(steps - 1);
    const before = session.state();
    session.seek(steps);
    const found = changesOf(before, session.state());
    for (const one of told) assert.ok(found.includes(one), `${steps}: ${JSON.stringify(found)}`);
  }
  session.close();
});
