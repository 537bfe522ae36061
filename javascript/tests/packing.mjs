// The package as npm packs it: in an empty folder its first program runs, and so do bundles of it.
import assert from "node:assert/strict";
import test from "node:test";
import { cpSync, mkdirSync, mkdtempSync, readFileSync, readdirSync, rmSync, writeFileSync } from "node:fs";
import { execFileSync, spawnSync } from "node:child_process";
import { tmpdir } from "node:os";
import { fileURLToPath } from "node:url";
import { join } from "node:path";

const HERE = fileURLToPath(new URL("..", import.meta.url)), MOST_TIME = 120_000;
const readme = readFileSync(join(HERE, "README.md"), "utf-8");
const [, FIRST] = readme.match(/^```js\n(import [^]*?)^```$/m);
const WANTED = "320 200\n255,255,255,255\n";
const FILES = ["LICENSE", "README.md", "loading.js", "package.json",
  ...readdirSync(join(HERE, "src")).map(name => `src/${name}`), "zaklimot.d.ts", "zaklimot.fnt",
  "zaklimot.js", "zaklimot.wasm"];

const lacks = program => spawnSync(program, ["--version"]).error ?
  `${program} is not here: install Debian's package ${program}` : false;
const run = (program, words, folder) => execFileSync(program, words,
  { cwd: folder, encoding: "utf-8", timeout: MOST_TIME, stdio: ["ignore", "pipe", "pipe"],
    // What npm keeps and notes goes with the folder.
    env: { ...process.env, npm_config_cache: join(folder, "cache"), npm_config_update_notifier: "false" } });

/** Does something in a folder of its own. */
function inFolder(does) {
  const folder = mkdtempSync(join(tmpdir(), "zaklimot-"));
  try {
    return does(folder);
  } finally {
    rmSync(folder, { recursive: true });
  }
}

/** A copy of the package, as it would be installed, in a folder. */
function installed(folder) {
  for (const name of FILES) cpSync(join(HERE, name), join(folder, "node_modules", "zaklimot", name));
}

test("npm packs what a user needs, and installs it", { skip: lacks("npm") }, () => inFolder(folder => {
  const [told] = JSON.parse(run("npm", ["pack", HERE, "--json", "--pack-destination", folder], folder));
  assert.deepEqual(told.files.map(({ path }) => path).sort(), FILES.sort());
  const empty = join(folder, "empty");
  mkdirSync(empty);
  const archive = readdirSync(folder).find(name => name.endsWith(".tgz"));
  run("npm", ["install", "--offline", "--no-audit", "--no-fund", join(folder, archive)], empty);
  writeFileSync(join(empty, "first.mjs"), FIRST);
  assert.equal(run(process.execPath, ["first.mjs"], empty), WANTED);
}));

test("the files that are packed are enough, with npm or without", () => inFolder(folder => {
  installed(folder);
  writeFileSync(join(folder, "first.mjs"), FIRST);
  assert.equal(run(process.execPath, ["first.mjs"], folder), WANTED);
}));

test("a folder that is copied needs no tool: its one file is imported", () => inFolder(folder => {
  installed(folder);
  writeFileSync(join(folder, "first.mjs"), FIRST.replace('"zaklimot"', '"./node_modules/zaklimot/zaklimot.js"'));
  assert.equal(run(process.execPath, ["first.mjs"], folder), WANTED);
}));

test("esbuild makes one file of it all", { skip: lacks("esbuild") }, () => inFolder(folder => {
  installed(folder);
  const imports = `import { load } from "zaklimot";\nimport module from "zaklimot/zaklimot.wasm";
import fonts from "zaklimot/zaklimot.fnt";\n`;
  const program = FIRST.replace(/^import .*\n/, "")
    .replace("await Card.open()", "(await load({ module, fonts })).open()");
  writeFileSync(join(folder, "app.js"), `${imports}(async () => {\n${program}\n})();`);
  const [, words] = readme.match(/`esbuild (app\.js [^`]*)`/);
  run("esbuild", [...words.split(/\s+/), "--outfile=one.js", "--log-level=warning"], folder);
  rmSync(join(folder, "node_modules"), { recursive: true });
  assert.equal(run(process.execPath, ["one.js"], folder), WANTED);
}));

const skip = lacks("esbuild") || lacks("rollup");

test("esbuild and rollup make bundles that find the two files beside them", { skip }, () =>
  inFolder(folder => {
    installed(folder);
    writeFileSync(join(folder, "app.js"), FIRST.replace('"zaklimot"', '"./node_modules/zaklimot/zaklimot.js"'));
    const words = ["--bundle", "--format=esm", "--outfile=by-esbuild/app.mjs", "--log-level=warning"];
    run("esbuild", ["app.js", ...words], folder);
    run("rollup", ["app.js", "--format", "es", "--file", "by-rollup/app.mjs", "--silent"], folder);
    for (const made of ["by-esbuild", "by-rollup"]) {
      for (const name of ["zaklimot.wasm", "zaklimot.fnt"]) cpSync(join(HERE, name), join(folder, made, name));
      assert.equal(run(process.execPath, [join(made, "app.mjs")], folder), WANTED, made);
    }
  }));
