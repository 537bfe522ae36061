// Takes the pictures of the page that docs/ and README.md show.
// node page/tests/pictures.mjs ENGINE FOLDER: ENGINE is chromium, firefox or webkit.
import { mkdirSync, writeFileSync } from "node:fs";
import { join, resolve } from "node:path";
import { pathToFileURL } from "node:url";
import { begun } from "./engines.mjs";
import { IDLE } from "./jumps.mjs";
import { PAGE } from "./loading.mjs";
import { openParts } from "./parts.mjs";
import { smallShot } from "./shots.mjs";

const WINDOW = { width: 1366, height: 768 };
/** Amid a frame, and after so many milliseconds of a program. */
const PLACE = "#example=copper-bars&step=200&tab=colours", PROGRAM = "plasma.com", RUNS = 3000, BACK = 40;
const { browser, folder } = await begun();

async function shot(name) {
  mkdirSync(folder, { recursive: true });
  writeFileSync(join(folder, `${name}.png`), await smallShot(browser));
}

/** A script amid its frame, with the steps and the colours. */
async function takePage() {
  await browser.open(pathToFileURL(resolve(PAGE)).href + PLACE);
  await browser.until(IDLE);
  await openParts(browser);
  await browser.until("document.getElementById('compared').textContent.startsWith('✓')");
  await shot("page");
}

/** A program that is paused, some steps before its end. */
async function takeMachine() {
  await browser.value(`(() => {
    const list = document.getElementById("examples");
    list.value = [...list.options].find(({ textContent }) => textContent.includes("${PROGRAM}")).value;
    list.dispatchEvent(new Event("change"));
  })()`);
  await browser.until("!document.getElementById('machine').hidden");
  await browser.value(`new Promise(done => setTimeout(done, ${RUNS}))`);
  await browser.press("F12");
  await browser.until(`document.body.classList.contains("paused") && ${IDLE}`);
  await browser.until("document.getElementById('compared').textContent.startsWith('✓')");
  for (let time = 0; time < BACK; time++) await browser.press("ArrowLeft");
  await browser.until(IDLE);
  await browser.press("1");
  // The processor's registers come a moment after the step.
  await browser.value("new Promise(done => setTimeout(done, 1000))");
  await shot("machine");
}

try {
  if (!folder) throw new Error("name the engine and a folder for the pictures");
  await browser.look(WINDOW);
  await takePage();
  await takeMachine();
} finally {
  await browser.stop();
}
