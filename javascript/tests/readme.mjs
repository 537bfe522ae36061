// Each program of README.md that is whole writes what its comments say.
import assert from "node:assert/strict";
import test from "node:test";
import { mkdtempSync, readFileSync, rmSync, writeFileSync } from "node:fs";
import { execFileSync } from "node:child_process";
import { tmpdir } from "node:os";
import { join } from "node:path";

const readme = readFileSync(new URL("../README.md", import.meta.url), "utf-8");
const ENTRY = new URL("../zaklimot.js", import.meta.url).href;
const programs = [...readme.matchAll(/^```js\n([^]*?)^```$/gm)].map(([, program]) => program)
  .filter(program => program.startsWith("import "));

test("README.md has programs, and its first one has ten lines", () => {
  assert.ok(programs.length >= 4, `${programs.length} programs`);
  const lines = programs[0].split("\n").filter(line => line.trim() && !line.startsWith("import"));
  assert.ok(lines.length <= 10, `${lines.length} lines`);
});

programs.forEach((program, i) => {
  test(`program ${i + 1} of README.md writes what its comments say`, () => {
    const folder = mkdtempSync(join(tmpdir(), "zaklimot-")), path = join(folder, "program.mjs");
    try {
      writeFileSync(path, program.replaceAll('"zaklimot"', JSON.stringify(ENTRY)));
      const written = execFileSync(process.execPath, [path], { encoding: "utf-8" }).trim().split("\n");
      const wanted = [...program.matchAll(/console\.log\(.*?\); *\/\/ (.*)$/gm)].map(([, words]) => words.trim());
      assert.deepEqual(written, wanted);
    } finally {
      rmSync(folder, { recursive: true });
    }
  });
});
