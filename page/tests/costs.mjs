// The table of costs of docs/PAGE.md, taken in one go on a machine that should have nothing else to
// do: node page/tests/costs.mjs [FOLDER]. FOLDER is one that `tools/vga-library make` has made;
// without it the column of the library stays empty. A browser that is not there has no column. It
// takes about two minutes.
import { spawnSync } from "node:child_process";
import { existsSync, mkdtempSync, readFileSync, rmSync, writeFileSync } from "node:fs";
import { tmpdir } from "node:os";
import { pathToFileURL } from "node:url";
import { Browser, hasProgram } from "./driving.mjs";
import { Firefox, firefoxName } from "./firefox.mjs";
import { WebKit, lackingForWebKit } from "./webkit.mjs";
import { LONG, figuresText, fragmentOf, isIdle, jumpsIn } from "./jumps.mjs";
import { FONTS, PAGE, TOP, examples, moduleBytes } from "./loading.mjs";
import { measured } from "./measuring.mjs";

const MODES = ["3", "12", "13"], ROUNDS = 3, JUMPS = 200, JUMPS_OF_EXAMPLE = 18;
const CHROMIUM = ["chromium", "chromium-browser", "google-chrome"];
const DONE = "document.title === 'measured'";
// Calls of bench/calls.c: the mode, how often, and how many puts each has.
const NATIVE = { "frame 3": ["3", "frame_xrgb", 500], "frame 12": ["12", "frame_xrgb", 500],
  "frame 13": ["13", "frame_xrgb", 500], put: ["13", "put", 10000000], run: ["13", "run_whole", 1000, 10000],
  slice: ["13", "run_on_all", 1000, 10000] };

function done(program, words) {
  const { status, error, stderr } = spawnSync(program, words, { encoding: "utf-8" });
  if (status !== 0) throw new Error(`${program}: ${error?.message ?? stderr}`);
}

/** How long a program runs at least, in milliseconds. */
function leastTime(program, words) {
  return Math.min(...Array.from({ length: ROUNDS }, () => {
    const begun = performance.now();
    done(program, words);
    return performance.now() - begun;
  }));
}

/** The costs of the library for C. */
function nativeCosts(library, folder) {
  const program = `${folder}/calls`, fonts = `${TOP}fonts/zaklimot.fnt`, costs = {};
  done("cc", ["-std=c99", "-O2", "-I", `${library}/include`, `${TOP}bench/calls.c`,
    `${library}/lib/libzaklimot.a`, "-o", program]);
  for (const [name, [mode, call, times, puts = 1]] of Object.entries(NATIVE)) {
    const [some, none] = [times, 0].map(count => leastTime(program, [fonts, mode, call, String(count)]));
    costs[name] = (some - none) / times * (name.startsWith("frame") ? 1 : 1e6 / puts);
  }
  return costs;
}

/** A page that measures, and shows what it found as JSON. */
function measuringPage() {
  const bytes = data =>
    `Uint8Array.from(atob("${Buffer.from(data).toString("base64")}"), code => code.charCodeAt(0))`;
  const source = readFileSync(new URL("measuring.mjs", import.meta.url), "utf-8").replace(/^export /m, "");
  return `<!DOCTYPE html><meta charset="utf-8"><body><script type="module">
${source}
try {
  document.body.append(JSON.stringify(await measured(${bytes(moduleBytes())}, ${bytes(FONTS)}, true)));
} catch (error) {
  document.body.append(JSON.stringify({ wrong: String(error) }));
}
document.title = "measured";
</script>`;
}

/** The first number of a version. */
const majorOf = version => version.match(/\d+/)[0];

/**
 * What the column of a browser is called: WebKitGTK counts its versions by the second number too.
 */
const titleOf = name => name.match(/^WebKitGTK \d+\.\d+|^\w+ \d+/)[0];

async function browserCosts(browser, address) {
  await browser.open(address);
  await browser.until(DONE);
  const costs = JSON.parse(await browser.value("document.body.innerText"));
  if (costs.wrong) throw new Error(costs.wrong);
  return costs;
}

const digits = value => (value < 10 ? value.toPrecision(2) : value.toFixed(0));

/** A cell of the table: the costs of some names, where they were taken. */
function cell(costs, names, unit) {
  const values = names.map(name => costs?.[name]);
  return values.some(value => value === undefined) ? "" : `${values.map(digits).join(", ")} ${unit}`;
}

function tableOf(columns) {
  const rows = [...MODES.map(mode => [`frame of mode ${mode}`, [`frame ${mode}`], "ms"]),
    [`frame into an ImageData, modes ${MODES.join(", ")}`, MODES.map(mode => `image ${mode}`), "ms"],
    ["`zak_put` by a single call", ["put"], "ns"],
    ["a put in `zak_run`, with its line of the report", ["run"], "ns"],
    ["a put in `zak_run_on`, thousands at a time", ["slice"], "ns"],
    ["ready, from the module's bytes", ["ready"], "ms"]];
  const line = cells => `| ${cells.join(" | ")} |`.replace(/ {2,}/g, " ");
  return [line(["", ...Object.keys(columns)]), `|${"---|".repeat(Object.keys(columns).length + 1)}`,
    ...rows.map(([title, names, unit]) =>
      line([title, ...Object.values(columns).map(costs => cell(costs, names, unit))]))].join("\n");
}

/** What it costs to go to steps, of the long script and of the examples. */
async function jumpLines(browser) {
  await browser.look({ width: 1280, height: 860 });
  const long = (await jumpsIn(browser, PAGE, await fragmentOf(LONG), JUMPS)).flat(), others = [];
  const ran = await browser.value("document.getElementById('state').textContent");
  for (const { name } of examples()) {
    const hash = `#example=${name.replace(".vga", "")}`;
    others.push(...(await jumpsIn(browser, PAGE, hash, JUMPS_OF_EXAMPLE)).flat());
  }
  return [`${ran}; then ${long.length} times to a step of it: ${figuresText(long)}`,
    `${others.length} times to a step of an example: ${figuresText(others)}`];
}

async function inBrowsers(folder, columns) {
  const file = `${folder}/measuring.html`, address = pathToFileURL(file).href, lines = [];
  writeFileSync(file, measuringPage());
  const isThere = process.env.CHROMIUM || CHROMIUM.some(name => hasProgram(name));
  const engines = [isThere && Browser, firefoxName() && Firefox, !lackingForWebKit().length && WebKit];
  for (const engine of engines.filter(Boolean)) {
    const browser = await engine.started();
    try {
      columns[titleOf(browser.name)] = await browserCosts(browser, address);
      if (engine === Browser) lines.push(...await jumpLines(browser));
    } finally {
      await browser.stop();
    }
  }
  return lines;
}

async function main([library]) {
  const folder = mkdtempSync(`${tmpdir()}/zaklimot-costs-`), columns = { native: null };
  try {
    if (!await isIdle()) console.log("The machine has other work: these figures are too high.\n");
    if (library && existsSync(`${library}/lib`)) columns.native = nativeCosts(library, folder);
    else if (library) throw new Error(`${library} has no library: tools/vga-library make ${library}`);
    const lines = await inBrowsers(folder, columns);
    columns[`node ${majorOf(process.version)}`] = await measured(moduleBytes(), FONTS, false);
    console.log([tableOf(columns), "", ...lines].join("\n"));
  } finally {
    rmSync(folder, { recursive: true, force: true });
  }
}

await main(process.argv.slice(2));
