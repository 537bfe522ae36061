// The help around the script: the steps, the ports and registers, what a word means, what can stand
// at the caret, and the sections of the documentation that the page has.
import assert from "node:assert/strict";
import test from "node:test";
import { execFileSync } from "node:child_process";
import { gunzipSync } from "node:zlib";
import { readFileSync, readdirSync } from "node:fs";
import { BLOCK_LINES, SHAPES, SHOWN } from "../script/grammar.js";
import { GROUPS } from "../script/registers.js";
import { PORTS } from "../help/ports.js";
import { SERVICE_ANCHORS } from "../help/services.js";
import { STEPS, stepOf } from "../help/steps.js";
import { choicesAt, opensItself } from "../help/choices.js";
import { helpAt, plainText, serviceOf } from "../help/telling.js";
import { judgedText } from "../run/session.js";
import { judgedOfSent, judgedToSend } from "../run/judging.js";
import { TOP, loadAdapter, moduleBytes, pageData, withMemory } from "./loading.mjs";

const unpacked = text => JSON.parse(gunzipSync(Buffer.from(text, "base64")));
const DATA = pageData(), SECTIONS = unpacked(DATA.sections);
const docs = name => readFileSync(`${TOP}docs/${name}`, "utf-8");

test("each step has its form and an example that the module takes", async () => {
  const adapter = await loadAdapter(), names = [...Object.keys(SHAPES), "int", ...Object.keys(BLOCK_LINES),
    ...Object.keys(SHOWN).map(name => `show ${name}`), "; ="];
  assert.deepEqual(STEPS.map(({ name }) => name).sort(), names.sort());
  for (const { name, example } of STEPS) {
    const text = name === "version" ? example : name === "end" ? `version 2\nrepeat 1\n${example}` : `version 2\n${example}`;
    assert.ok(judgedText(adapter, text).script.length > 0, name);
  }
  assert.equal(stepOf(["SHOW", "dac"]).form, "show dac INDEX");
  assert.equal(stepOf(["out"]).form, "out PORT VALUE");
  assert.equal(stepOf([]), null);
});

test("the forms are those of the table in SCRIPT.md", () => {
  const rows = [...docs("SCRIPT.md").matchAll(/^\| `([^`]+)` \|/gm)].map(([, form]) => form);
  const forms = rows.slice(0, rows.indexOf("show cells") + 1);
  for (const { name, form } of STEPS.filter(step => !/^(version|repeat|end|;)/.test(step.name))) {
    assert.ok(forms.includes(form), `${name}: ${form}`);
  }
});

test("the ports are those of REGISTERS.md", () => {
  const rows = docs("REGISTERS.md").split("\n## Ports\n")[1].split("\n## ")[0].split("\n")
    .filter(line => /^\| (3|CB)/.test(line)).map(line => line.slice(2, -2).split(" | "));
  const bare = text => text.replace(/^`E1 NotDecoded`$/, "").replace(/^`E2 NotInProfile` ?\(?(.*?)\)?$/, "$1");
  for (const [label, out, into] of rows) {
    const base = label.match(/^CB(?: \+ (\d))?$/), offset = base && Number(base[1] ?? 0);
    const numbers = base ? [0x3b4 + offset, 0x3d4 + offset] : [parseInt(label, 16)];
    for (const number of numbers) {
      const port = PORTS.find(one => one.port === number), told = [out, into === "the same" ? out : into].map(bare);
      // Port 3C3 is left out whole.
      if (label === "3C3") assert.equal(port, undefined);
      else for (const [i, way] of ["write", "read"].entries()) {
        const wanted = told[i], said = port[way].replace(/^the DAC/, "DAC").replace(/, which is left out$/, "");
        assert.equal(said, wanted, `${label}, ${way}`);
      }
    }
  }
  assert.equal(PORTS.length, rows.length - 1 + 3);
});

/** What a word of a text means, at the `^` in it. */
function told(text) {
  const place = text.indexOf("^"), plain = text.replace("^", ""), lines = plain.split("\n");
  const line = plain.slice(0, place).split("\n").length, column = place - plain.lastIndexOf("\n", place - 1) - 1;
  const found = helpAt(number => lines[number - 1], line, column, SECTIONS);
  return found && [found.title, ...found.lines];
}

test("what a word means", () => {
  assert.deepEqual(told("o^ut 3c4 2"), ["out PORT VALUE", "Writes a byte to a port."]);
  assert.deepEqual(told("out 3^c4 2"), ["Port 3C4: sequencer index"]);
  assert.deepEqual(told("out 3c4 ^02"), ["Sequencer 02: map mask"]);
  assert.deepEqual(told("outw 3c4 0f0^2"), ["Sequencer 02: map mask becomes 0F", "planes (bits 3-0): F"]);
  assert.deepEqual(told("out 3c4 2\nput A0000 1\nout 3c5 ^f3"),
    ["Sequencer 02: map mask becomes 03", "planes (bits 3-0): 3", "bits that are not kept: F0"]);
  assert.deepEqual(told("out 3C4 02\nint ax=3\nout 3^c5 0f"), ["Port 3C5: the sequencer register of the index"]);
  assert.deepEqual(told("outw 3ce 0305\nin 3^CF")[0], "Graphics controller 05: graphics mode");
  assert.match(told("in 3da\nout 3c0 10\nout 3c0 ^1")[0], /^Attribute controller 10: mode control becomes 01$/);
  assert.deepEqual(told("in 3da\nout 3c0 10\nout 3c0 1\nout 3c0 ^12"), ["Port 3C0: attribute index or data, in turn"]);
  assert.match(told("out 3c2 6^7")[0], /^Miscellaneous output: miscellaneous output becomes 67$/);
  assert.deepEqual(told("out 3c4 ^9"), ["Sequencer: no register has index 09"]);
  assert.deepEqual(told("out 3^c3 9"), ["Port 3C3: nothing is decoded there"]);
  const [title, first] = told("int ^ax=1301 bx=1E");
  assert.deepEqual([title, first], ["Function 13 Write a string, AL 01", "AL: 00 to 03."]);
  assert.deepEqual(told("int ax=1^012 bx=20"), ["Function 10 Palette and DAC, AL 12: entries of the DAC",
    "BX: the first.", "CX: how many.", "Block: red, green, blue of each"]);
  assert.match(told("int ax=^FF00")[0], /no function FF/);
  assert.match(told("advance 8^0000")[0], /^advance DOTS$/);
  assert.match(told("show pla^ne 0 0 1")[0], /^show plane P OFFSET COUNT$/);
  for (const none of ["^", "; co^mment", "mo^ve 1"]) assert.equal(told(none), null, none);
});

/** The choices at the `^` of a line. */
function choices(line) {
  const found = choicesAt(line.replace("^", ""), line.indexOf("^"), SECTIONS);
  return found && found.list.map(({ text }) => text);
}

test("what can stand at the caret", () => {
  assert.deepEqual(choices("o^"), ["out", "outw"]);
  assert.equal(choices("^").length, STEPS.length - 1);
  assert.deepEqual(choices("out 3c^ 0").slice(0, 3), ["3C0", "3C2", "3C4"]);
  assert.deepEqual(choices("in 3da^"), null);
  assert.deepEqual(choices("out 3c4 ^"), ["00", "01", "02", "03", "04"]);
  assert.deepEqual(choices("int ax=13^"), ["ax=1300"]);
  assert.deepEqual(choices("int ax=1301 ^"), ["bx=", "cx=", "dx=", "block "]);
  assert.deepEqual(choices("int ax=1301 cx=5 ^"), ["dx=", "block "]);
  assert.deepEqual(choices("show ^").length, Object.keys(SHOWN).length);
  assert.deepEqual(["frame ; fr^", "int ax=3 ; ^", "frame ^", "xyz^"].map(choices), [null, null, null, null]);
  assert.deepEqual(["int ", "out  ", "frame ", "int ax=3 ", "; int "].map(line => opensItself(line, line.length)),
    [true, true, false, false, false]);
});

test("the sections are those that the page's sources link to", () => {
  const folders = readdirSync(TOP + "page", { withFileTypes: true }).filter(one => one.isDirectory() && one.name !== "tests");
  const files = folders.flatMap(({ name }) => readdirSync(`${TOP}page/${name}`).map(file => `${TOP}page/${name}/${file}`));
  const sources = [TOP + "page/index.html", ...files].filter(name => /\.(js|html)$/.test(name))
    .map(name => readFileSync(name, "utf-8")).join("\n");
  const links = [...sources.matchAll(/"([A-Z-]+\.md)", "([a-z0-9-]+)"/g), ...sources.matchAll(/\b([A-Z-]+\.md)#([a-z0-9-]+)/g),
    ...sources.matchAll(/page: "([A-Z-]+\.md)",\s+anchor: "([a-z0-9-]+)"/g)].map(([, page, anchor]) => [page, anchor]);
  links.push(...GROUPS.map(({ anchor }) => ["REGISTERS.md", anchor]),
    ...Object.values(SERVICE_ANCHORS).map(anchor => ["SERVICES.md", anchor]));
  assert.ok(links.length > 30, `${links.length} links`);
  for (const [page, anchor] of links) assert.ok(SECTIONS[page]?.[anchor], `${page}#${anchor}`);
  for (const ah of Object.keys(SERVICE_ANCHORS)) {
    const { title, row } = serviceOf(ah << 8, SECTIONS);
    assert.ok(title.includes(Number(ah).toString(16).toUpperCase().padStart(2, "0")), title);
    assert.ok(plainText(row).length > 3, title);
  }
});

test("the tutorial's scripts are those of TUTORIAL.md, and of its files", () => {
  const blocks = [...docs("TUTORIAL.md").matchAll(/^```(\w*)\n([^]*?)^```$/gm)].filter(([, language]) => !language);
  const found = unpacked(DATA.tutorial);
  assert.deepEqual(found.map(({ text }) => text), blocks.map(([, , text]) => text));
  for (const { name, text, title } of found) {
    assert.equal(text, readFileSync(`${TOP}examples/tutorial/${name}.vga`, "utf-8"), name);
    assert.ok(docs("TUTORIAL.md").includes(`\n## ${title}\n`), title);
  }
});

test("a text that a worker reads comes out as one that the page reads", async () => {
  const adapter = await loadAdapter(), module = moduleBytes();
  const there = async text => judgedOfSent(structuredClone(await judgedToSend(module, text)), text);
  const text = "version 2\nint ax=3\nrepeat 3\nput B8000 41 ; = ok\nend\nframe\n";
  const [one, other] = [judgedText(adapter, text), await there(text)];
  assert.deepEqual(other.script, one.script);
  for (const step of [0, 1, 3, 4]) {
    const entry = one.outline.entryOf(step);
    assert.equal(other.outline.entryOf(step), entry);
    assert.deepEqual(["lineOf", "wordsOf", "expectedOf"].map(what => other.outline[what](entry)),
      ["lineOf", "wordsOf", "expectedOf"].map(what => one.outline[what](entry)));
  }
  await assert.rejects(there("frame\nout 0x3C4 2\n"), ({ message, line, at, width }) => {
    assert.deepEqual([message, line, at, width], ["numbers are hexadecimal digits alone: write 3C4", 2, 4, 5]);
    return true;
  });
  await assert.rejects(there(";".repeat((1 << 24) + 1)), /more than 16,777,216 bytes/);
  const small = withMemory(module, 300), long = "put A0000 11\n".repeat(1290555);
  await assert.rejects(async () => judgedOfSent(await judgedToSend(small, long), long), /no memory left/);
  await assert.rejects(async () => judgedOfSent(await judgedToSend(module.subarray(0, 99), "frame")), Error);
});

test("what the tools make of Markdown", () => {
  const made = JSON.parse(execFileSync("python3", ["-c", `import json, sys
sys.path[:0] = ["tools", "python"]
from zaklimot_dev.page.sections import blocks
print(json.dumps(blocks(sys.stdin.read())))`], { cwd: TOP,
    input: "A *slanted* and **bold** \`<b>\` [link](A.md#b).\n\n- one\n  more\n- two\n\n| a | b |\n|---|---|\n| 1 | \`x\` |\n\n" +
      "    code\n\n\`\`\`\nint\n\nframe\n\`\`\`\n\n*Defined by [x](y).*\n" }));
  assert.deepEqual(made, [["p", ["A ", ["i", ["slanted"]], " and ", ["b", ["bold"]], " ", ["code", ["<b>"]], " ",
    ["a", "A.md#b", ["link"]], "."]], ["ul", ["one more"], ["two"]], ["table", [["a"], ["b"]], [["1"], [["code", ["x"]]]]],
  ["pre", "code"], ["pre", "int\n\nframe"]]);
});
