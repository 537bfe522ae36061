// How much of a processor's core a browser takes while software runs in the page, and how much of that is its own: a
// table.
// node page/tests/loads.mjs [ENGINE [WORDS]]: ENGINE is chromium or firefox, and WORDS choose a row. It takes
// a minute, on a machine that should have nothing else to do. Linux only: the times stand in /proc.
import { mkdtempSync, readFileSync, readdirSync, rmSync, writeFileSync } from "node:fs";
import { tmpdir } from "node:os";
import { join } from "node:path";
import { pathToFileURL } from "node:url";
import { check } from "./using.mjs";

const SECONDS = 10, SETTLED = 4000;
/** Ticks of a second in the times of /proc, which are the same on each Linux. */
const TICKS = 100;
/** Waits for a key, as software does at a prompt: interrupt 16, and again. */
const PROMPT = Buffer.from("B400CD16EBFA", "hex");
/** What runs: a program of the page's list, or a file of bytes, and its speed. A `rate` is a page with nothing but the canvas. */
const RUNS = [
  { told: "the browser itself: an empty canvas, 60 pictures a second", rate: 60 },
  { told: "the browser itself: an empty canvas, 70 pictures a second", rate: 70 },
  { told: "mode 13, a fast 486 (16.7 million instructions a second)", name: "plasma.com", speed: "fastest" },
  { told: "mode 13, a 386 (6.25 million)", name: "plasma.com", speed: "386" },
  { told: "a program that waits for a key", bytes: PROMPT, name: "prompt.com", speed: "386" },
];

/** The seconds of processor time that a process and all that it started have taken. */
function secondsOf(parent) {
  const processes = readdirSync("/proc").filter(name => /^\d+$/.test(name)).flatMap(number => {
    try {
      const words = readFileSync(`/proc/${number}/stat`, "latin1").replace(/^.*\) /s, "").split(" ");
      return [{ number: Number(number), parent: Number(words[1]), ticks: Number(words[11]) + Number(words[12]) }];
    } catch {
      return [];
    }
  });
  const below = number => processes.filter(one => one.parent === number)
    .reduce((sum, one) => sum + one.ticks + below(one.number), 0);
  return (processes.find(one => one.number === parent).ticks + below(parent)) / TICKS;
}

const wait = time => new Promise(done => setTimeout(done, time));

/** A page with a canvas of the same size, into which it puts pictures of one colour, each another one. */
const emptyPage = ({ left, top, width, height }, rate) => `<!DOCTYPE html><meta charset="utf-8"><title>an empty canvas</title>
<canvas width="320" height="200" style="position: absolute; left: ${left}px; top: ${top}px; width: ${width}px;
height: ${height}px; image-rendering: pixelated"></canvas><script>
const brush = document.querySelector("canvas").getContext("2d", { alpha: false }), image = new ImageData(320, 200);
const words = new Uint32Array(image.data.buffer);
let count = 0;
function put() {
  words.fill(0xff000000 | count++ * 0x10307);
  brush.putImageData(image, 0, 0);
}
function next() {
  put();
  requestAnimationFrame(next);
}
if (${rate} === 60) next();
else setInterval(put, 1000 / ${rate});
</script>`;

/** Sets a list of the page as a hand would. */
const choose = (use, id, option) => use.value(`(() => {
  const list = document.getElementById("${id}");
  list.value = [...list.options].find(({ textContent }) => textContent === "${option}").value;
  list.dispatchEvent(new Event("change", { bubbles: true }));
})()`);

/** Has the page run something. */
async function start(use, { name = "plasma.com", bytes, speed = "386" }, folder) {
  await use.open();
  if (bytes) {
    writeFileSync(join(folder, name), bytes);
    await use.browser.choose("#file", join(folder, name));
  } else await choose(use, "examples", name);
  await use.until("document.getElementById('livestate').textContent.includes('frames a second')");
  await choose(use, "livespeed", speed);
}

/** Has the browser show a canvas alone, where the page's stands. */
async function startEmpty(use, { rate }, folder) {
  await start(use, {}, folder);
  const file = join(folder, "empty.html");
  writeFileSync(file, emptyPage(await use.placeOf("#live"), rate));
  await use.browser.open(pathToFileURL(file).href);
  await use.until("typeof count === 'number' && count > 0");
}

await check(use => Object.fromEntries(RUNS.map(run => [run.told, async () => {
  const folder = mkdtempSync(join(tmpdir(), "zaklimot-loads-")), isEmpty = run.rate !== undefined;
  try {
    await (isEmpty ? startEmpty : start)(use, run, folder);
    await wait(SETTLED);
    const before = secondsOf(use.browser.process.pid), counted = isEmpty && await use.value("count");
    await wait(1000 * SECONDS);
    const share = (secondsOf(use.browser.process.pid) - before) / SECONDS;
    const told = isEmpty ? `${Math.round((await use.value("count") - counted) / SECONDS)} pictures a second`
      : await use.text("livestate");
    console.log(`| ${run.told} | ${(100 * share).toFixed(1)} % | ${told} |`);
  } finally {
    rmSync(folder, { recursive: true, force: true });
  }
}])), { width: 1366, height: 768 });
