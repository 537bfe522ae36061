// What is wrong with a line, a text or a script of bytes: the words of a table that the tools' own test reads
// too. Of lines the adapter tells it; of files that are no text the page does.
import assert from "node:assert/strict";
import test from "node:test";
import { execFileSync } from "node:child_process";
import { readFileSync } from "node:fs";
import { BLOCK_LINES, CALL_REGISTERS, MOST_STEPS, READING, SHAPES, SHOWN } from "../script/grammar.js";
import { FAULT_NAMES, reasonOfBytes } from "../script/faults.js";
import { encodingTrouble } from "../script/foreign.js";
import { judgedText } from "../run/session.js";
import { mistakeIn } from "../script/mistakes.js";
import { TOP, loadAdapter } from "./loading.mjs";

const TABLE = JSON.parse(readFileSync(TOP + "tools/tests/mistakes.json", "utf-8"));
const DIGITS = "0".repeat(131072);
const adapter = await loadAdapter();

/** What is wrong in a text. */
const wrongIn = text => mistakeIn(adapter, new TextEncoder().encode(text));

/** What Python prints as JSON, with `data` as JSON on its standard input. */
function python(source, data = null) {
  const said = execFileSync("python3", ["-c", `import json, sys\nsys.path.insert(0, "python")\n${source}`],
    { cwd: TOP, input: JSON.stringify(data), maxBuffer: 1 << 28 });
  return JSON.parse(said);
}

test("each bad line of the table has its reason", () => {
  assert.ok(TABLE.lines.length >= 60);
  for (const { line, part, reason } of TABLE.lines) {
    const text = line.replace("LONG", DIGITS), found = wrongIn(`frame\n${text}`), wanted = part.replace("LONG", DIGITS);
    assert.deepEqual([found?.line, found?.reason], [2, reason], line);
    if (part) assert.equal(text.slice(found.at, found.at + found.width), wanted, line);
    else assert.equal(found.at, text.split(";")[0].trimEnd().length, line);
  }
});

test("good lines have none", () => {
  for (const line of TABLE.good) assert.equal(wrongIn(line), null, line);
});

test("texts that are wrong as a whole, and blocks", () => {
  for (const { hex, reason } of TABLE.texts) assert.equal(encodingTrouble(Buffer.from(hex, "hex")), reason);
  for (const { text, number, reason } of TABLE.blocks) {
    assert.deepEqual([wrongIn(text).line, wrongIn(text).reason], [number, reason], text);
  }
});

test("scripts of bytes", () => {
  for (const { fault, hex, reason } of TABLE.scripts) {
    const [, name, place] = fault.match(/^(F\d+ \w+)(?:\((\d+)\))?$/);
    const status = Number(Object.keys(FAULT_NAMES).find(one => FAULT_NAMES[one] === name));
    assert.equal(reasonOfBytes(Buffer.from(hex, "hex"), status, Number(place)), reason);
  }
});

test("a bad line's part is counted in letters, and a text that is too long has none", () => {
  for (const [text, at, word] of [["frame\n put é 1", 5, "é"], ["; é\n\tputt 1", 1, "putt"], ["put A0000 \u{1F600}", 10, "\u{1F600}"]]) {
    const found = wrongIn(text), line = text.split("\n")[found.line - 1];
    assert.deepEqual([found.at, line.slice(found.at, found.at + found.width)], [at, word], text);
  }
  assert.throws(() => judgedText(adapter, "frame\nputt A0000 1"), { message: "there is no step 'putt'; did you mean put?",
    line: 2, at: 0, width: 4 });
  const long = `version 2\n${"int ax=9 block 00000000000000000000\n".repeat(400000)}`;
  assert.match(wrongIn(long + long).reason, /^the text has more bytes, and 16,777,216 bytes are the most$/);
});

test("a name that is near is asked for; where none is, all are listed", () => {
  for (const [line, reason] of [["pot A0000 1", /'pot'; did you mean put\?$/], ["show regz", /'regz'; did you mean regs\?$/],
    ["int ax=3 blok 12", /'blok' is no register; did you mean block\?$/], ["zzz 1", /the steps are out, outw, /],
    ["show zzz", /; there are regs, /], ["int zzz", /; a call has ax=, /]]) {
    assert.match(wrongIn(line).reason, reason, line);
  }
});

test("the grammar is that of the bindings for Python, which the tools go by", () => {
  const told = python(`
import zaklimot.commands
from zaklimot.format import BLOCK_LINES, FORMS, MOST_STEPS, READING, REGISTERS, SHOWN
shapes = {name: form.fields for name, form in FORMS.items() if " " not in name and not form.has_block}
def numbers(table):
    return {name: [[n.name, n.digits, n.least, n.most] for n in shape] for name, shape in table.items()}
shown = {name: form.fields for name, form in SHOWN.items()}
print(json.dumps([numbers(shapes), numbers(BLOCK_LINES), numbers(shown), list(REGISTERS), list(READING),
  MOST_STEPS]))`);
  const numbers = table => Object.fromEntries(Object.entries(table).map(([name, shape]) =>
    [name, shape.map(number => [number.name, number.digits, number.least, number.most])]));
  assert.deepEqual([numbers(SHAPES), numbers(BLOCK_LINES), numbers(SHOWN), CALL_REGISTERS, READING,
    MOST_STEPS], told);
});

/** Whole numbers at random below one that each is asked for with, the same in each run. */
function randomNumbers() {
  let seed = 4711;
  return most => {
    seed = Math.imul(seed, 1103515245) + 12345 >>> 0;
    return Math.floor(seed / 2 ** 32 * most);
  };
}

test("texts at random are wrong as a whole where Python says so, and for its reason", () => {
  const random = randomNumbers(), letters = [..."frame 1\t\r\r\r\n\n\0\x01"];
  const fronts = ["", "", "", "VGAS", "\xef\xbb\xbf", "\xff\xfe", "\xfe\xff", "\r"];
  const texts = Array.from({ length: 5000 }, () => fronts[random(fronts.length)] +
    Array.from({ length: random(8) }, () => letters[random(letters.length)]).join(""));
  const told = python(`
from zaklimot.commands.explain.faults import _wrong_whole
print(json.dumps([_wrong_whole(text.encode("latin-1")) for text in json.load(sys.stdin)]))`, texts);
  const found = texts.map(text => encodingTrouble(Buffer.from(text, "latin1")));
  for (const [i, text] of texts.entries()) assert.equal(found[i], told[i], JSON.stringify(text));
  assert.equal(new Set(found).size, 6);
});
