// Files that are dropped on the page, links, and pictures that are saved.
import assert from "node:assert/strict";
import test from "node:test";
import { execFileSync } from "node:child_process";
import { deflateRawSync, gzipSync, inflateSync } from "node:zlib";
import { readFileSync, writeFileSync } from "node:fs";
import { Session } from "../run/session.js";
import { apngOf, packedRows, padded, pngOf } from "../picture/png.js";
import { apngOfRun } from "../files/saving.js";
import { base64OfBytes, bytesOfBase64, counted, grouped } from "../common/bytes.js";
import { bytesOfFiles, contentsOf, packed, readFragment, unpacked } from "../files/share.js";
import { FONTS, TOP, examples, loadAdapter, written } from "./loading.mjs";

const adapter = await loadAdapter();
const bytesOf = text => new TextEncoder().encode(text);

test("a link gives back its script", async () => {
  for (const { text } of examples()) {
    const link = await packed(bytesOf(text));
    assert.match(link, /^[A-Za-z0-9_-]+$/);
    assert.equal(new TextDecoder().decode(await unpacked(link)), text);
  }
});

test("links that are damaged are told, and those that unpack without an end", async () => {
  await assert.rejects(unpacked("%%%"), /damaged/);
  await assert.rejects(unpacked("AAAA"), /damaged/);
  await assert.rejects(unpacked(base64OfBytes(deflateRawSync(Buffer.alloc(1 << 25)))),
    /more than 16,777,216 bytes/);
});

test("a link to a run gives back its text", async () => {
  const text = '{"is":"zaklimot run","version":1}', fragment = `#run=${await packed(bytesOf(text))}`;
  const { run, wrong } = await readFragment(fragment, { tabs: [], examples: [] });
  assert.deepEqual([new TextDecoder().decode(run), wrong], [text, []]);
});

test("what a fragment asks for, and what is wrong in a hostile one", async () => {
  const names = { tabs: ["registers", "BIOS data"], examples: ["hunt"] };
  const asked = fragment => readFragment(fragment, names), fonts = await packed(FONTS);
  const script = await packed(bytesOf("frame ; é\n"));
  assert.deepEqual(await asked(""), { wrong: [] });
  assert.deepEqual(await asked(`#step=7&tab=BIOS+data&example=hunt&script=${script}&fonts=${fonts}&other=5`),
    { wrong: [], step: 7, tab: "BIOS data", example: "hunt", fonts: FONTS, script: "frame ; é\n" });
  const short = await packed(FONTS.subarray(1)), long = await packed(new Uint8Array(1 << 24));
  for (const [fragment, said] of [
    ["step=abc", /^step=abc names no step/], ["step=-5", /names no step/], ["step=0.5", /names no step/],
    ["step=", /names no step/], ["step=1e3", /names no step/], [`step=${"9".repeat(99)}`, /^step=9{40} … names no/],
    ["tab=none", /names none of registers, BIOS data/], ["example=<b>", /^example=<b> names no example/],
    ["run=AAAA", /The run in this link is damaged/], ["run=", /The run in this link is damaged/],
    [`run=${script}`, /The run in this link is damaged/],
    [`run=${base64OfBytes(deflateRawSync(Buffer.alloc(1 << 25)))}`, /run in this link is damaged: it unpacks to more/],
    ["fonts=AAAA", /The font file in this link is damaged/], ["fonts=", /The font file in this link is damaged/],
    [`fonts=${short}`, /has 9,727 bytes, and needs 9,728/], [`fonts=${long}`, /more than 9,728 bytes/],
    ["script=%%%", /script in this link is damaged/], ["script=AAAA", /damaged/], ["script=", /damaged/],
    [`script=${script.slice(0, -3)}`, /damaged/],
    [`script=${await packed(Uint8Array.of(0x66, 0xff, 0xfe))}`, /no text in UTF-8/],
  ]) {
    const { wrong, ...others } = await asked(`#${fragment}&unknown`);
    assert.deepEqual([wrong.length, others], [1, {}], fragment);
    assert.match(wrong[0], said, fragment);
  }
  assert.equal((await asked("#step=x&tab=x&script=x")).wrong.length, 3);
});

test("a file that is opened: one, which can be read", async () => {
  const file = (name, more) => ({ name, size: 3, arrayBuffer: async () => new Uint8Array([1, 2, 3]).buffer, ...more });
  assert.deepEqual(await bytesOfFiles([file("a")]), Uint8Array.of(1, 2, 3));
  await assert.rejects(bytesOfFiles([file("a"), file("b")]), /^Error: These are 2 files: open one at a time\.$/);
  await assert.rejects(bytesOfFiles([file("a", { size: 2 ** 28 + 1 })]), /a has more than 268,435,456 bytes/);
  const arrayBuffer = async () => { throw new DOMException("not found", "NotFoundError"); };
  await assert.rejects(bytesOfFiles([file("folder", { arrayBuffer })]), /folder is a folder, or a file that/);
});

test("base64 of any length, and counts", () => {
  for (let length = 0; length < 70; length++) {
    const bytes = Uint8Array.from({ length }, (_, i) => 91 * i + length);
    assert.deepEqual(bytesOfBase64(base64OfBytes(bytes)), bytes);
    assert.equal(base64OfBytes(bytes), Buffer.from(bytes).toString("base64url"));
  }
  assert.deepEqual([grouped(16777216), counted(1, "step"), counted(1000, "step")],
    ["16,777,216", "1 step", "1,000 steps"]);
});

test("what a file is", async () => {
  const text = "int ax=3\nframe ; é\n", bytes = adapter.assemble(text);
  assert.deepEqual(await contentsOf(bytesOf(text), adapter), { text });
  assert.deepEqual(await contentsOf(gzipSync(text), adapter), { text });
  // A byte order mark says how the text is coded, and is no part of it.
  const marked = Buffer.concat([Buffer.from("efbbbf", "hex"), Buffer.from(text)]);
  assert.deepEqual(await contentsOf(new Uint8Array(marked), adapter), { text });
  assert.deepEqual(await contentsOf(gzipSync(marked), adapter), { text });
  assert.deepEqual(await contentsOf(FONTS, adapter), { fonts: FONTS });
  assert.deepEqual(await contentsOf(bytes, adapter),
    { text: "int ax=0003 bx=0000 cx=0000 dx=0000\nframe\n" });
  const trace = readFileSync(TOP + "examples/typed-line.trace"), found = await contentsOf(trace, adapter);
  assert.match(found.text, /^out 3C2 67\nin 3CC ; = 67\n/);
  assert.equal(found.trace, trace.toString());
  const png = await pngOf(PICTURE);
  assert.deepEqual(await contentsOf(png, adapter), { png });
  for (const script of ["int ax=3\nframe\n", "in 3CC", "frame", "out 3C4 2", "show regs", "show cells\n"]) {
    const report = adapter.run(script, { fonts: FONTS });
    const whole = new Uint8Array(report);
    assert.deepEqual(Object.keys(await contentsOf(whole, adapter)), ["report"], script);
  }
  for (const other of ["1 oks\n", "1 ok", "2 ok\n", "1 picture\n", "1 abc\n", "11 ok\n"]) {
    assert.deepEqual(await contentsOf(bytesOf(other), adapter), { text: other });
  }
});

test("junk is told, and why", async () => {
  const noise = Uint8Array.from({ length: 5000 }, (_, i) => Math.imul(i, 2654435761) >>> 13);
  for (const [bytes, said] of [
    [noise, /no script, no trace and no font file, and no report or PNG/],
    [Uint8Array.of(0x1f, 0x8b, 1, 2, 3), /can't be unpacked/],
    [bytesOf("VGAS"), /the version is lacking/],
    [bytesOf("VGAS\x09"), /the version, byte 4, is 09/],
    [Uint8Array.of(0xff, 0xfe, 65, 0), /UTF-16/],
    [new Uint8Array((1 << 24) + 1).fill(59), /more than 16,777,216 bytes/],
  ]) await assert.rejects(contentsOf(bytes, adapter), said);
});

const PICTURE = { width: 7, height: 5, rgb: Uint8Array.from({ length: 105 }, (_, i) => (11 * i) % 64) };

test("a picture is saved as zaklimot saves it, to the dot", async () => {
  const ppm = Buffer.concat([Buffer.from("P6\n7 5\n63\n"), PICTURE.rgb]);
  const report = Buffer.concat([Buffer.from(`1 picture ${ppm.length}\n`), ppm, Buffer.from("\n")]);
  const theirs = written(folder => {
    writeFileSync(folder + "/report", report);
    execFileSync("./zaklimot", ["pictures", folder + "/report", folder], { cwd: TOP });
    execFileSync("mv", [folder + "/0001.png", folder + "/out"]);
  });
  assert.deepEqual(dotsOf(await pngOf(PICTURE)), dotsOf(theirs));
});

/** The chunks of a PNG but its dots, and the dots. */
function dotsOf(png) {
  const chunks = [], data = [];
  for (let at = 8; at < png.length;) {
    const view = Buffer.from(png.buffer, png.byteOffset), length = view.readUInt32BE(at),
      name = view.toString("latin1", at + 4, at + 8);
    const body = view.subarray(at + 8, at + 8 + length);
    if (name === "IDAT") data.push(body);
    else chunks.push([name, body.toString("hex"), view.toString("hex", at + 8 + length, at + 12 + length)]);
    at += length + 12;
  }
  return { chunks, dots: inflateSync(Buffer.concat(data)).toString("hex") };
}

test("pictures that move are those that zaklimot writes", async () => {
  const other = { ...PICTURE, rgb: PICTURE.rgb.map(six => 63 - six) };
  const frames = [];
  for (const [picture, seconds] of [[PICTURE, 0.0142], [other, 1.5]]) {
    frames.push({ ...picture, seconds, packed: await packedRows(picture) });
  }
  const source = `
import io, sys
sys.path.insert(0, "python")
from zaklimot.commands.images.png import Animation, Shape
from zaklimot.format import Picture
animation = Animation(Shape())
for seconds in (0.0142, 1.5):
    dots = bytes(11 * i % 64 for i in range(105))
    animation.add(Picture.of_dots(7, 5, dots if seconds < 1 else bytes(63 - dot for dot in dots)),
      seconds, "x")
animation.write(sys.stdout.buffer)`;
  const theirs = execFileSync("python3", ["-c", source], { cwd: TOP });
  assert.deepEqual(animated(apngOf(frames)), animated(theirs));
  assert.throws(() => apngOf([frames[0], { ...frames[1], width: 8 }]), /Frame 2 is larger/);
});

test("pictures of several sizes move in one PNG, and none shows through another", async () => {
  const session = new Session(adapter, FONTS, "int ax=3\nframe\nint ax=13\nframe\nint ax=12\nframe\n");
  const png = Buffer.from(await apngOfRun(session, () => true)), sizes = [];
  for (let at = 8; at < png.length; at += 12 + png.readUInt32BE(at)) {
    if (png.toString("latin1", at + 4, at + 8) !== "fcTL") continue;
    sizes.push([png.readUInt32BE(at + 12), png.readUInt32BE(at + 16), png[at + 32]]);
  }
  assert.deepEqual([png.readUInt32BE(16), png.readUInt32BE(20)], [720, 480]);
  assert.deepEqual(sizes, [[720, 480, 1], [640, 400, 1], [640, 480, 1]]);
  const black = padded({ width: 1, height: 1, rgb: Uint8Array.of(1, 2, 3) }, 2, 2);
  assert.deepEqual([...black.rgb], [1, 2, 3, 0, 0, 0, 0, 0, 0, 0, 0, 0]);
});

/** The chunks of an APNG, with what they pack unpacked. */
function animated(png) {
  const view = Buffer.from(png.buffer, png.byteOffset, png.length), chunks = [];
  for (let at = 8; at < view.length;) {
    const length = view.readUInt32BE(at), name = view.toString("latin1", at + 4, at + 8),
      body = view.subarray(at + 8, at + 8 + length);
    const dots = name === "IDAT" ? inflateSync(body) : name === "fdAT" ? inflateSync(body.subarray(4)) : body;
    chunks.push(name + dots.toString("hex"));
    at += length + 12;
  }
  return chunks;
}
