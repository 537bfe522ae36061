// The page's registers are those of docs/REGISTERS.md, and its links lead to places that are there.
import assert from "node:assert/strict";
import test from "node:test";
import { execFileSync } from "node:child_process";
import { readFileSync, readdirSync } from "node:fs";
import { GROUPS, bitsOf, fieldValue } from "../script/registers.js";
import { SERVICE_ANCHORS } from "../help/services.js";
import { TOP } from "./loading.mjs";

const page = name => readFileSync(`${TOP}docs/${name}`, "utf-8");
const slugs = text => Array.from(text.matchAll(/^#+ (.*)$/gm), ([, heading]) =>
  heading.toLowerCase().replace(/[^a-z0-9 _-]/g, "").replaceAll(" ", "-"));

/** The rows of the table in a section: lists of cells. */
function rowsOf(section) {
  const text = page("REGISTERS.md").split(`\n## ${section}\n`)[1].split("\n## ")[0];
  return text.split("\n").filter(line => line.startsWith("| ")).slice(1)
    .map(line => line.slice(2, -2).split(" | "));
}

/** The numbers that a row begins with: "2 to 5 horizontal" are 2, 3, 4 and 5. */
function numbersOf(label) {
  const range = label.match(/^([0-9A-F]+) to ([0-9A-F]+) (.*)$/),
    several = label.match(/^((?:[0-9A-F]+, )*[0-9A-F]+) (.*)$/);
  if (!range) return { numbers: several[1].split(", ").map(one => parseInt(one, 16)), name: several[2] };
  const [from, to] = [range[1], range[2]].map(one => parseInt(one, 16));
  return { numbers: Array.from({ length: to - from + 1 }, (_, i) => from + i), name: range[3] };
}

/** The bits that a cell of fields says to be stored. */
function storedBits(cell, kept) {
  if (cell === "stored") return kept;
  const found = cell.match(/((?:\d(?:-\d)?(?:, | and )?)+) stored/);
  return found ? found[1].split(/, | and /).reduce((sum, part) => sum | maskOf({ bits: part }), 0) : 0;
}

const maskOf = field => bitsOf(field).reduce((sum, bit) => sum | 1 << bit, 0);
const maskOfAll = fields => fields.reduce((sum, field) => sum | maskOf(field), 0);

for (const group of GROUPS.slice(1)) {
  test(`${group.title}: names, kept bits and stored ones`, () => {
    const seen = [];
    for (const [label, kept, fields] of rowsOf(group.title)) {
      const { numbers, name } = numbersOf(label);
      for (const number of numbers) {
        const register = group.registers[number];
        seen.push(number);
        assert.ok(register.name.startsWith(name), `${register.name} is ${name}`);
        assert.equal(register.kept, parseInt(kept, 16), label);
        assert.equal(maskOfAll(register.fields), register.kept, `fields of ${label}`);
        assert.equal(maskOfAll(register.fields.filter(field => field.isStored)),
          storedBits(fields, register.kept), `stored of ${label}`);
      }
    }
    assert.deepEqual(seen, group.registers.map((_, i) => i));
  });
}

test("miscellaneous output", () => {
  const [{ registers: [register] }] = GROUPS, rows = rowsOf("Miscellaneous output");
  assert.match(page("REGISTERS.md"), /## Miscellaneous output\n\nKept: EF\./);
  assert.equal(maskOfAll(register.fields), 0xef);
  assert.deepEqual(register.fields.map(field => [field.bits, field.name, field.isStored]),
    rows.map(([bits, name, effect]) => [bits, name, effect === "stored"]));
});

test("the names are those of zaklimot, which names what differs in a dump", () => {
  const told = execFileSync("python3", ["-c", `import json, sys
sys.path.insert(0, "python")
from zaklimot.commands.report.expecting import NAMES
print(json.dumps(NAMES))`], { cwd: TOP });
  const names = Object.fromEntries(GROUPS.filter(group => !["misc", "dac"].includes(group.id))
    .map(group => [group.id, group.registers.map(register => register.name)]));
  assert.deepEqual(names, JSON.parse(told));
});

test("values of fields", () => {
  assert.equal(fieldValue({ bits: "5,3-2" }, 0b101100), 7);
  assert.equal(fieldValue({ bits: "5,3-2" }, 0b000100), 1);
  assert.equal(fieldValue({ bits: "7-0" }, 0xa5), 0xa5);
});

test("links lead to places that are there", () => {
  const anchors = slugs(page("REGISTERS.md"));
  for (const group of GROUPS) assert.ok(anchors.includes(group.anchor), group.anchor);
  const services = slugs(page("SERVICES.md"));
  for (const anchor of Object.values(SERVICE_ANCHORS)) assert.ok(services.includes(anchor), anchor);
  const headings = page("SERVICES.md").match(/^## [0-9A-F]{2} /gm).length;
  assert.equal(new Set(Object.values(SERVICE_ANCHORS)).size, headings);
});

test("links in the page's sources lead to places that are there", () => {
  const names = readdirSync(`${TOP}page`, { recursive: true })
    .filter(name => /\.(js|html)$/.test(name) && name !== "zaklimot.html");
  assert.ok(names.length > 40, `${names.length} sources`);
  const sources = names.map(name => readFileSync(`${TOP}page/${name}`, "utf-8")).join("\n");
  const links = [...sources.matchAll(/"([A-Z-]+\.md)", "([a-z0-9-]*)"/g),
    ...sources.matchAll(/\b([A-Z-]+\.md)#([a-z0-9-]+)/g)];
  assert.ok(links.length > 3, `${links.length} links`);
  for (const [, name, anchor] of links) assert.ok(slugs(page(name)).includes(anchor), `${name}#${anchor}`);
});
