// Another run beside the page's own, without a document: reports of examples in which differences
// are planted, traces, and pictures dot by dot.
import assert from "node:assert/strict";
import test from "node:test";
import { readFileSync } from "node:fs";
import { DotDifference, pictureOfBytes, wideningNote, wordsOfDifference, wordsOfPicture }
  from "../compare/dots.js";
import { OtherReport } from "../compare/otherreport.js";
import { OtherTrace } from "../compare/othertrace.js";
import { sizeOfPng } from "../compare/otherpicture.js";
import { Session } from "../run/session.js";
import { contentsOf } from "../files/share.js";
import { crcOf, pngOf, widened } from "../picture/png.js";
import { FONTS, TOP, examples, loadAdapter, runWhole } from "./loading.mjs";

const adapter = await loadAdapter();
const sessionOf = text => runWhole(new Session(adapter, FONTS, text));
const bytesOfRun = session => adapter.run(session.script, { fonts: FONTS, room: session.reported });
const example = name => examples().find(one => one.name === name).text;

/** The report of some bytes, read to its end. */
function reportOf(bytes, name = "a.txt") {
  const other = new OtherReport(name);
  for (const turn of other.read(bytes)) assert.equal(turn, undefined);
  return other;
}

/** Compares another run with a session: what it has found. */
function compared(other, session) {
  let turns = 0;
  for (const turn of other.compare(session)) turns += turn === undefined ? 1 : 0;
  return { turns, steps: other.differences.map(({ step }) => step), ...other };
}

for (const { name, text } of examples()) {
  test(`${name} is the same as its own report`, () => {
    const session = sessionOf(text), other = reportOf(bytesOfRun(session));
    const { count, note } = compared(other, session);
    assert.deepEqual([count, note, other.summary], [0, "", "All answers are the same."]);
    session.close();
  });
}

test("answers that were changed in a report are found, each at its step", () => {
  const session = sessionOf(example("driver-test.vga")), report = bytesOfRun(session);
  const text = Buffer.from(report).toString("latin1");
  const planted = text.replace(/^2 .*$/m, "2 5A").replace(/^34 .*$/m, "34 E1 NotDecoded");
  const other = reportOf(Buffer.from(planted, "latin1"));
  const { steps, differences } = compared(other, session);
  assert.deepEqual(steps, [1, 33]);
  assert.match(differences[0].text, / here, 5A there$/);
  assert.equal(other.summary, "2 answers differ.");
  session.close();
});

test("a dot that was changed in a picture of a report is found, and no other", () => {
  const session = sessionOf(example("raster-bands.vga")), report = bytesOfRun(session).slice();
  const step = session.length - 1, old = reportOf(report).pictureAt(step);
  assert.ok(session.isFrame(step) && old);
  const dot = 100 * old.width + 17;
  report[old.rgb.byteOffset - report.byteOffset + 3 * dot + 1] ^= 1;
  const other = reportOf(report);
  assert.deepEqual(compared(other, session).steps, [step]);
  session.seek(step);
  const { picture } = session.seen(step + 1);
  const difference = new DotDifference(picture, other.pictureAt(step));
  assert.deepEqual([difference.count, difference.places, difference.note],
    [1, [{ x: 17, y: 100 }], ""]);
  const [here, there] = difference.coloursAt({ x: 17, y: 100 });
  assert.deepEqual([here[0], here[1] ^ 1, here[2]], there);
  session.close();
});

test("reports of other lengths are compared as far as both go", () => {
  const short = sessionOf("int ax=3\nin 3CC\n");
  const long = sessionOf("int ax=3\nin 3CC\nframe\nin 3DA\n");
  const other = reportOf(bytesOfRun(long));
  assert.equal(compared(other, short).note, "It has 4 answers, and this run 2.");
  assert.equal(other.count, 0);
  assert.equal(compared(reportOf(bytesOfRun(short)), long).note,
    "It has 2 answers, and this run 4.");
  for (const session of [short, long]) session.close();
});

test("a long report is compared in turns, and the first differences are listed", () => {
  const session = sessionOf("version 2\nrepeat 60000\nin 3CC\nin 3C4\nend\n");
  const changed = Buffer.from(bytesOfRun(session)).toString("latin1").replaceAll(/ 00$/gm, " 01");
  const other = reportOf(Buffer.from(changed, "latin1"));
  const { turns, count, differences } = compared(other, session);
  assert.ok(turns >= 20 && count === 120000 && differences.length === 100000,
    `${turns}, ${count}, ${differences.length}`);
  session.close();
});

test("what is cut off or none is told", () => {
  const session = sessionOf("int ax=3\nin 3CC\nframe\n"), report = bytesOfRun(session);
  for (const bytes of ["1 ok\n3 ok\n", "1 ok\nx\n", "2 ok\n"]) {
    assert.throws(() => reportOf(Buffer.from(bytes)), /has no answer of step/);
  }
  for (const length of [report.length - 1000, report.length - 1, 10]) {
    assert.throws(() => reportOf(report.slice(0, length)), /cut off/);
  }
  const broken = Buffer.from(report).toString("latin1").replace("720 400", "999 999");
  assert.throws(() => reportOf(Buffer.from(broken, "latin1")),
    /The picture of step 3 in this report is none, or is cut off/);
  session.close();
});

const CYCLES = `out 3C4 02
out 3C5 0F
inw 3C4
in 3CC
in 3DA
frame
advance 100
put A0000 12
get A0000
putw A0002 3456
`;
const TRACE = "- w p 3C4 02 1\n- w p 3C5 0F 1\n- r p 3C4 0F02 2\n- r p 3CC 00 1\n- r p 3DA 31 1\n" +
  "- w m A0000 12 1\n- r m A0000 00 1\n- w m A0002 3456 2\n";

test("a trace is compared cycle by cycle; what was read is told where it differs", () => {
  const session = sessionOf(CYCLES);
  const own = TRACE.replace("0F02", session.answers.get(2))
    .replace("CC 00", `CC ${session.answers.get(3)}`);
  const read = session.answers.get(8);
  const isRead = /^[0-9A-F]{2}$/.test(read);
  const other = new OtherTrace("a.trace", isRead ? own.replace("A0000 00", `A0000 ${read}`) : own);
  const { steps, note } = compared(other, session);
  assert.deepEqual(steps, isRead ? [] : [8]);
  assert.equal(note, "Reads of input status 1 hang on the moment: 1 is not compared.");
  const planted = new OtherTrace("b.trace", own.replace(/CC (.)./, "CC 5$1"));
  assert.ok(compared(planted, session).steps.includes(3));
  assert.match(planted.differences.find(({ step }) => step === 3).text, /^.. read here, 5. there$/);
  session.close();
});

test("calls of a trace are those of the run, or the comparison ends at them", () => {
  const session = sessionOf("int ax=3\nint ax=1301 bx=7 cx=2 block 4142\nput B8000 43\n");
  const trace = (first, second, byte) =>
    new OtherTrace("a.trace", `0+0 int ${first}\n5+9 int ${second}\n7+2 w m B8000 ${byte} 1\n`);
  const same = trace("0003 0 0 0", "1301 0007 0002 0000 4142", "43");
  assert.deepEqual([compared(same, session).steps, same.note], [[], ""]);
  assert.deepEqual(compared(trace("3 0 0 0", "1301 7 2 0 4142", "44"), session).steps, [2]);
  for (const other of [trace("0013 0 0 0", "1301 7 2 0 4142", "43"), trace("3 0 0 0", "1301 7 2 0 4143", "43"),
    trace("3 0 0 0", "1301 7 2 0", "43"), trace("3 0 0 0", "1301 7 3 0 4142", "43")]) {
    assert.match(compared(other, session).note, /is a BIOS call/);
  }
  // A cycle here, a call there.
  const parted = new OtherTrace("b.trace", "0 int 3 0 0 0\n1 int 1301 7 2 0 4142\n2 int 0012 0 0 0\n");
  assert.match(compared(parted, session).note, /From step 3 on the trace has other cycles/);
  assert.match(parted.differences[0].text, /int ax=0012/);
  session.close();
});

test("bytes of a word may be cycles of their own, and the other way round", () => {
  const session = sessionOf("outw 3C4 0F02\nout 3CE 04\nout 3CF 01\n");
  const other = new OtherTrace("a.trace",
    "- w p 3C4 02 1\n- w p 3C5 0F 1\n- w p 3CE 0104 2\n");
  assert.deepEqual([compared(other, session).steps, other.note], [[], ""]);
  const written = new OtherTrace("b.trace", "- w p 3C4 0E02 2\n- w p 3CE 0104 2\n");
  assert.deepEqual(compared(written, session).steps, [0]);
  assert.equal(written.differences[0].text, "0F02 written here, 0E02 there");
  session.close();
});

test("where the cycles part, the comparison ends and says so", () => {
  const session = sessionOf("out 3C4 02\nout 3C5 0F\nin 3CC\nin 3CC\n");
  const other = new OtherTrace("a.trace", "- w p 3C4 02 1\n- w p 3CE 05 1\n- r p 3CC 00 1\n");
  assert.deepEqual(compared(other, session).steps, [1]);
  assert.equal(other.differences[0].text, "the trace has `w p 3CE 05` there");
  assert.equal(other.note, "From step 2 on the trace has other cycles.");
  const short = new OtherTrace("b.trace", "- w p 3C4 02 1\n");
  assert.equal(compared(short, session).note, "The trace ends before step 2.");
  const long = new OtherTrace("c.trace", "- w p 3C4 02 1\n".repeat(9));
  const one = sessionOf("out 3C4 02\n");
  assert.equal(compared(long, one).note, "The trace goes on behind the last step.");
  const call = sessionOf("out 3C4 02\nint ax=3\n");
  assert.match(compared(long, call).note, /^Step 2 is a BIOS call/);
  for (const all of [session, one, call]) all.close();
});

test("a trace that was opened as the script is compared with itself", async () => {
  const file = readFileSync(`${TOP}examples/typed-line.trace`);
  const { text, trace } = await contentsOf(file, adapter);
  const session = sessionOf(text), other = new OtherTrace("a.trace", trace);
  assert.deepEqual(compared(other, session).steps, session.differing);
  session.close();
});

/** A PNG whose head tells another size. */
function withSize(png, width, height) {
  const made = png.slice(), view = new DataView(made.buffer);
  view.setUint32(16, width);
  view.setUint32(20, height);
  view.setUint32(29, crcOf(made.subarray(12, 29)));
  return made;
}

/** A picture of random dots that are always the same. */
function pictureOf(width, height, seed = 1) {
  const rgb = Uint8Array.from({ length: 3 * width * height }, () => {
    seed = Math.imul(seed, 1103515245) + 12345 >>> 0;
    return seed >>> 26;
  });
  return { width, height, rgb };
}

/** The bytes of a picture as an ImageData has them, each dot so many times as wide and high. */
function bytesOf({ width, rgb, height }, widen, [wide, high] = [1, 1]) {
  const bytes = new Uint8ClampedArray(4 * width * height * wide * high);
  for (let y = 0, to = 0; y < height * high; y++) {
    for (let x = 0; x < width * wide; x++, to += 4) {
      const from = 3 * (Math.floor(y / high) * width + Math.floor(x / wide));
      bytes.set([...Array.from(rgb.subarray(from, from + 3), widen), 255], to);
    }
  }
  return pictureOfBytes(width * wide, height * high, bytes);
}

test("eight bits are compared with six, however the other adapter widens them", () => {
  const own = pictureOf(40, 30);
  for (const [widen, rule] of [[widened, "c<<2 | c>>4"], [six => six << 2, "c<<2"],
    [six => Math.round(six * 255 / 63), "255·c/63"], [six => six << 2 | 1, "none"]]) {
    const other = bytesOf(own, widen), difference = new DotDifference(own, other);
    assert.equal(other.widening, rule);
    assert.equal(difference.count, 0, rule);
    assert.equal(difference.note, wideningNote(rule));
    assert.equal(difference.summary, "All 40 × 30 dots are the same.");
  }
  assert.equal(wideningNote("c<<2 | c>>4"), "");
  for (const part of [0, 1, 2]) {
    const changed = bytesOf(own, widened);
    changed.rgb[3 * 77 + part] ^= 1;
    const { count, places } = new DotDifference(own, changed);
    assert.deepEqual([count, places], [1, [{ x: 37, y: 1 }]], `part ${part}`);
  }
  assert.match(wideningNote("c<<2"), /by c<<2, and this page by c<<2 \| c>>4/);
});

test("a doubled picture is compared by nearest dots, with a note; a smaller one too", () => {
  const own = pictureOf(36, 20);
  for (const [times, note] of [[[2, 2], "twice as wide and twice as high"],
    [[1, 2], "twice as high"], [[3, 1], "three times as wide"],
    [[4, 4], "four times as wide and four times as high"]]) {
    const larger = bytesOf(own, widened, times), there = new DotDifference(own, larger);
    assert.deepEqual([there.count, there.note],
      [0, `It is ${note}: each dot is compared with the nearest one.`]);
    const back = new DotDifference({ ...larger }, { ...own });
    assert.equal(back.count, 0);
    assert.match(back.note, /as (narrow|low)/);
  }
  const wrong = bytesOf(own, widened, [2, 2]);
  wrong.rgb[3 * (2 * 36 * (2 * 7 + 1) + 2 * 5 + 1)] ^= 8;
  assert.deepEqual(new DotDifference(own, wrong).places, [{ x: 5, y: 7 }]);
});

test("sizes that differ are told in a sentence", () => {
  for (const [width, height] of [[41, 30], [40, 31], [200, 30], [13, 10]]) {
    const difference = new DotDifference(pictureOf(40, 30), pictureOf(width, height));
    assert.equal(difference.trouble,
      `The pictures differ in size: here 40 × 30 dots, there ${width} × ${height}.`);
    assert.equal(difference.summary, difference.trouble);
    assert.deepEqual([difference.count, difference.places], [0, []]);
  }
});

test("the difference's picture has dots that stand out, and the others dark", () => {
  const own = pictureOf(8, 4), other = { ...own, rgb: own.rgb.slice() };
  other.rgb[3 * 9] ^= 32;
  const difference = new DotDifference(own, other), words = wordsOfDifference(difference);
  assert.deepEqual([difference.count, difference.summary], [1, "1 dot of 8 × 4 differs."]);
  assert.equal(words[9], 0xffff2bff);
  const light = wordsOfPicture(own), shades = Array.from(words, word => word & 255);
  // Round the dot the picture is tinted.
  assert.deepEqual(Array.from(words.subarray(0, 8), word => word === 0xff8a178a),
    [true, true, true, true, false, false, false, false]);
  const isDark = (shade, dot) => shade <= Math.ceil((light[dot] & 255) * 0.3);
  assert.ok(shades.every((shade, dot) => dot % 8 < 4 || isDark(shade, dot)));
  assert.equal(light[0] >>> 0, (0xff000000 | widened(own.rgb[2]) << 16 | widened(own.rgb[1]) << 8 |
    widened(own.rgb[0])) >>> 0);
});

test("a PNG that is too large, or cut off, is refused before it is decoded", async () => {
  const png = await pngOf({ width: 7, height: 5, rgb: new Uint8Array(105) });
  assert.deepEqual(sizeOfPng(png), { width: 7, height: 5 });
  assert.throws(() => sizeOfPng(withSize(png, 1 << 20, 1 << 20)),
    /1,048,576 × 1,048,576 dots, and 16,777,216 are the most/);
  assert.throws(() => sizeOfPng(withSize(png, 0, 5)), /has no dot/);
  for (let length = 8; length < png.length; length++) {
    assert.throws(() => sizeOfPng(png.slice(0, length)), /cut off or damaged/);
  }
  const damaged = png.slice();
  damaged[damaged.length - 20] ^= 1;
  assert.throws(() => sizeOfPng(damaged), /cut off or damaged/);
});
