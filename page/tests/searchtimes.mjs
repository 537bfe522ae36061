// How long a search back over a million steps takes in the page as built, from the button to the
// step that it has found: a table. node page/tests/searchtimes.mjs [ENGINE [ROUNDS]]
import { mkdtempSync, rmSync, writeFileSync } from "node:fs";
import { resolve } from "node:path";
import { tmpdir } from "node:os";
import { pathToFileURL } from "node:url";
import { begun } from "./engines.mjs";
import { IDLE } from "./jumps.mjs";
import { LONG_SCRIPTS } from "./longsearches.mjs";
import { PAGE } from "./loading.mjs";
import { openParts } from "./parts.mjs";

const [engine = "chromium", rounds = "3"] = process.argv.slice(2);
/** What is asked about: the tab and the element of it, or a dot. */
const SUBJECTS = { "a byte": ["2", "[data-subject='byte 0 0000']"],
  "map mask": ["1", "[data-subject='register seq 02'] .value"],
  "an entry of the DAC": ["4", "[data-subject='colour 09']"], "a dot": ["1", null] };
/** In the page: presses the button of the card, and tells the time until a step is found. */
const TIMED = `new Promise(done => {
  const begun = performance.now();
  document.querySelector("#asked [data-action=change]").click();
  const look = () => (document.getElementById("found").hidden &&
    document.getElementById("notice").hidden
    ? setTimeout(look) : done(performance.now() - begun));
  setTimeout(look);
})`;

const { browser } = await begun([engine]), folder = mkdtempSync(`${tmpdir()}/zaklimot-`);

/** The least of some times of a search, in milliseconds. */
async function timeOf(tab, selector) {
  let least = Infinity;
  for (let round = 0; round < Number(rounds); round++) {
    await browser.press("End");
    await browser.until(`${IDLE} && document.getElementById("found").hidden`);
    await browser.press(tab);
    if (selector) await browser.click(selector);
    else await browser.press("w");
    await browser.until("!document.getElementById('asked').hidden");
    least = Math.min(least, await browser.value(TIMED));
    await browser.press("Escape");
  }
  return least;
}

try {
  await browser.look({ width: 1280, height: 860 });
  await browser.open(pathToFileURL(resolve(PAGE)).href);
  await browser.until(IDLE);
  await openParts(browser);
  console.log(`| ${browser.name} | ${Object.keys(SUBJECTS).join(" | ")} |`);
  for (const [name, text] of Object.entries(LONG_SCRIPTS)) {
    const title = `${name.replace(/\W+/g, "-")}.vga`, file = `${folder}/${title}`, times = [];
    writeFileSync(file, text);
    await browser.choose("#file", file);
    const about = "document.getElementById('about').textContent";
    const isLoaded = `${about}.includes("${title.slice(0, -4)}")`;
    await browser.until(`${isLoaded} && ${IDLE}`);
    await browser.moveTo(1, 1);
    // That a script is too long to be kept stays until it is closed.
    if (await browser.value("!document.getElementById('notice').hidden")) {
      await browser.click("#notice button");
    }
    for (const [tab, selector] of Object.values(SUBJECTS)) times.push(await timeOf(tab, selector));
    console.log(`| ${name} | ${times.map(time => `${time.toFixed(0)} ms`).join(" | ")} |`);
  }
} finally {
  rmSync(folder, { recursive: true });
  await browser.stop();
}
