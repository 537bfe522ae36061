// What calls of the package for JavaScript cost, as the rows of the table in javascript/README.md:
//     node bench/javascript.mjs
// in node, in Chromium if it is in the path, and of the one C file, which Debian's gcc compiles.
import { execFileSync } from "node:child_process";
import { mkdtempSync, rmSync, writeFileSync } from "node:fs";
import { tmpdir } from "node:os";
import { fileURLToPath, pathToFileURL } from "node:url";
import { join } from "node:path";
import { load } from "../javascript/zaklimot.js";
import { Browser } from "../page/tests/driving.mjs";
import { measured } from "./measured.mjs";

const TOP = fileURLToPath(new URL("..", import.meta.url)), FONTS = join(TOP, "fonts", "zaklimot.fnt");
/** Milliseconds that a round of calls of C takes at least, and the rounds. */
const ROUND = 40, ROUNDS = 9;
const SCRIPT = `import { load } from "./javascript/zaklimot.js";
import module from "./javascript/zaklimot.wasm";
import fonts from "./javascript/zaklimot.fnt";
import { measured } from "./bench/measured.mjs";
const context = document.getElementById("screen").getContext("2d");
globalThis.told = load({ module, fonts }).then(library => measured(library, context));
`;

/** The rows as Chromium measures them, in a page of one file; null where it is not here. */
async function inChromium(folder) {
  const words = ["--bundle", "--format=esm", "--loader:.wasm=binary", "--loader:.fnt=binary",
    "--define:import.meta.url=null"];
  const script = execFileSync("esbuild", words, { cwd: TOP, input: SCRIPT, maxBuffer: 1 << 26, encoding: "utf-8" });
  const page = join(folder, "page.html");
  writeFileSync(page, `<!DOCTYPE html>\n<meta charset="utf-8">\n<canvas id="screen" width="640" height="400"></canvas>
<script type="module">\n${script}</script>\n`);
  let browser = null;
  try {
    browser = await Browser.started();
    await browser.open(pathToFileURL(page).href);
    await browser.until("globalThis.told");
    return await browser.value("globalThis.told");
  } catch (error) {
    process.stderr.write(`Chromium: ${error.message.split("\n")[0]}\n`);
    return null;
  } finally {
    await browser?.stop();
  }
}

/** Nanoseconds of a call of the library for C: what more calls take beyond fewer, the least of the rounds. */
function inC(program, mode, call) {
  const run = times => {
    const begun = performance.now();
    execFileSync(program, [FONTS, mode.toString(16), call, String(times)]);
    return performance.now() - begun;
  };
  const least = times => Math.min(...Array.from({ length: ROUNDS }, () => run(times)));
  const none = least(0);
  let times = 1;
  while (run(times) - none < ROUND) times *= 4;
  return 1e6 * (least(times) - none) / times;
}

/** What compiles the calls of C: a program in a folder; null where there is no compiler. */
function compiled(folder) {
  const program = join(folder, "calls");
  try {
    execFileSync("gcc", ["-O2", `-I${TOP}include`, `${TOP}bench/calls.c`, `${TOP}portable/zaklimot.c`, "-o", program]);
    return program;
  } catch (error) {
    process.stderr.write(`C: ${error.message.split("\n")[0]}\n`);
    return null;
  }
}

/** Three digits of so many nanoseconds, in the unit that has them. */
function timeText(time) {
  if (time === null || time === undefined) return "";
  const [unit, scale] = time < 1000 ? ["ns", 1] : time < 1e6 ? ["µs", 1e3] : ["ms", 1e6];
  return `${Number((time / scale).toPrecision(time / scale < 10 ? 2 : 3))} ${unit}`;
}

const folder = mkdtempSync(join(tmpdir(), "zaklimot-"));
try {
  const node = measured(await load()), chromium = await inChromium(folder), program = compiled(folder);
  process.stdout.write("| Call | Mode | node | Chromium | The same in C |\n|---|---|---|---|---|\n");
  node.forEach(([what, mode, call, time], i) => {
    const times = [time, chromium?.[i][3], program && call ? inC(program, mode, call) : null];
    process.stdout.write(`| ${what} | ${mode.toString(16).toUpperCase()} | ${times.map(timeText).join(" | ")} |\n`);
  });
} finally {
  rmSync(folder, { recursive: true });
}
