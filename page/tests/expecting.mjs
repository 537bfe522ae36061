// Expected answers are met in the page where the tools say that they are met.
import assert from "node:assert/strict";
import test from "node:test";
import { createHash } from "node:crypto";
import { execFileSync } from "node:child_process";
import { expectedIn, isAsExpected, isPlainAnswer, isRefusal, shortAnswer, answerText } from "../script/expecting.js";
import { md5 } from "../files/md5.js";
import { readReport } from "../run/report.js";
import { TOP } from "./loading.mjs";

const REPORT =
  "1 ok\n2 55\n3 1E41\n4 ax=0003 bx=0001 cx=0D0E dx=0000\n5 E1 NotDecoded\n6 E1\n7 seq 00: 01\ncrtc 05\n" +
  "8 ragged\n9 picture 37\nP6\n9 1\n63\n" + "\0".repeat(27) + "\n10 E12 TooFar\n";
const NAMES = ["out", "get", "getw", "int", "out", "in", "show", "frame", "frame", "advance"];
const EXPECTED = ["ok", "OK", "55", "*", "5", "55...", "...", "e1", "E1", "E1 NotDecoded", "e1 notdecoded",
  "E12", "cx=0D0E", "dx=0000 ax=3",
  "dx=0000 ax=0003", "picture", "picture 9x1", "picture 9x1 1...", "2 lines", "2 lines...", "ragged", "",
    "1E41", "seq 00: 01",
  `picture 9x1 ${createHash("md5").update("P6\n9 1\n63\n" + "\0".repeat(27)).digest("hex")}`,
  `2 lines ${createHash("md5").update("seq 00: 01\ncrtc 05\n").digest("hex")}`];

test("MD5 of bytes of any length", () => {
  for (let length = 0; length < 300; length++) {
    const bytes = Uint8Array.from({ length }, (_, i) => 7 * i + length);
    assert.equal(md5(bytes), createHash("md5").update(bytes).digest("hex"), `${length} bytes`);
  }
});

test("each answer against each expectation, as Python judges", () => {
  const source = `
import io, json, sys
sys.path.insert(0, "python")
from zaklimot.commands.report.expecting import is_as_expected
from zaklimot.commands.report.report import Report
report, names, expected = json.load(sys.stdin)
steps = list(Report(io.BufferedReader(io.BytesIO(report.encode("latin1"))), "report").steps())
print(json.dumps([[is_as_expected(step, one, name) for one in expected] for step,
  name in zip(steps, names)]))`;
  const told = JSON.parse(execFileSync("python3", ["-c", source],
    { cwd: TOP, input: JSON.stringify([REPORT, NAMES, EXPECTED]) }));
  assert.equal(told.length, 10);
  let met = 0;
  readReport(Buffer.from(REPORT, "latin1"), 1, 10, (i, answer, picture) => EXPECTED.forEach((one, j) => {
    const is = isAsExpected(answer, picture, one, NAMES[i]);
    assert.equal(is, told[i][j], `${answer}, expected ${one}`);
    met += is;
  }));
  assert.ok(met >= 20, `${met} are met`);
});

test("refusals, and what is read that looks like one", () => {
  assert.deepEqual(["E1 NotDecoded", "E12 TooFar", "E1", "ok", "E1E1"].map(isRefusal),
    [true, true, false, false, false]);
  assert.equal(answerText("55", null), "55");
});

test("expectations in comments", () => {
  for (const [comment, expected] of [[" = 55", "55"], ["=  cx=1   dx=2 ; why", "cx=1 dx=2"], [" 55", null],
    ["", null], ["=", ""]]) {
    assert.equal(expectedIn(comment), expected);
  }
});

test("a report that is damaged is told", () => {
  assert.throws(() => readReport(Buffer.from("2 ok\n"), 1, 1, () => {}), /no answer of step 1/);
  assert.throws(() => readReport(Buffer.from("1 ok\n2 ok\n"), 1, 1, () => {}), /goes on/);
});

test("answers of calls in short", () => {
  for (const [words, answer, short] of [
    ["int ax=E41", "ax=0E41 bx=0000 cx=0000 dx=0000", ""],
    ["INT bx=1", "ax=5003 bx=0001 cx=0000 dx=0000", "ax=5003"],
    ["int ax=1017 cx=1", "ax=1017 bx=0000 cx=0001 dx=0000 block 010203", "block 010203"],
    ["frame", "picture 37", "picture 37"],
    ["int ax=5", "E5 BadMode", "E5 BadMode"],
  ]) {
    assert.equal(shortAnswer(answer, words), short);
    assert.equal(isPlainAnswer(answer, words), short === "");
  }
  assert.equal(isPlainAnswer("ok", "frame"), true);
});
