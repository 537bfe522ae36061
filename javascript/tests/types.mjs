// The types, as TypeScript judges them: a program that uses them, and the programs of README.md, with
// the browser's own types and without.
import assert from "node:assert/strict";
import test from "node:test";
import { mkdtempSync, readFileSync, rmSync, writeFileSync } from "node:fs";
import { spawnSync } from "node:child_process";
import { tmpdir } from "node:os";
import { fileURLToPath } from "node:url";
import { join } from "node:path";

const path = name => fileURLToPath(new URL(name, import.meta.url));
const FORM = ["--noEmit", "--strict", "--target", "es2022", "--module", "es2022", "--moduleResolution", "node"];

/** What the compiler says of files. */
function judged(...words) {
  const done = spawnSync("tsc", [...FORM, ...words], { encoding: "utf-8", cwd: tmpdir() });
  return done.error ? String(done.error) : done.stdout + done.stderr;
}

const LACKING = "tsc is not here: install Debian's package node-typescript";
const skip = spawnSync("tsc", ["--version"]).error ? LACKING : false;

test("a program that uses the types is right, and its wrong lines are wrong", { skip }, () => {
  assert.equal(judged(path("types.ts")), "");
  const folder = mkdtempSync(join(tmpdir(), "zaklimot-"));
  try {
    const wrong = readFileSync(path("types.ts"), "utf-8").replace("// @ts-expect-error\n  card.out", "card.out");
    const file = join(folder, "wrong.ts");
    writeFileSync(file, wrong.replaceAll('"../zaklimot.js"', JSON.stringify(path("../zaklimot.js"))));
    assert.match(judged(file), /error TS2345: Argument of type 'string' is not assignable to parameter/);
  } finally {
    rmSync(folder, { recursive: true });
  }
});

test("the types need none of a browser's", { skip }, () => {
  assert.equal(judged("--lib", "es2022", path("../zaklimot.d.ts")), "");
});

test("the programs of README.md are right", { skip }, () => {
  const readme = readFileSync(path("../README.md"), "utf-8"), folder = mkdtempSync(join(tmpdir(), "zaklimot-"));
  const programs = [...readme.matchAll(/^```js\n(import [^]*?)^```$/gm)].map(([, program]) => program);
  try {
    const files = programs.map((program, i) => {
      const file = join(folder, `program${i}.ts`);
      const typed = program.replaceAll('"zaklimot"', JSON.stringify(path("../zaklimot.js")))
        .replace(/catch \(error\)/, "catch (error: any)");
      writeFileSync(file, `${typed}\nexport {};\n`);
      return file;
    });
    assert.ok(files.length >= 4, `${files.length} programs`);
    assert.equal(judged(...files), "");
  } finally {
    rmSync(folder, { recursive: true });
  }
});
