// The page as built in a browser: the check of all its examples.
// node page/tests/opening.mjs [ENGINE [FOLDER]]: ENGINE is chromium, firefox or webkit.
// Pictures of the page are written into the folder. ZAKLIMOT_PAGE names another page.
import assert from "node:assert/strict";
import { mkdirSync, writeFileSync } from "node:fs";
import { resolve } from "node:path";
import { pathToFileURL } from "node:url";
import { begun } from "./engines.mjs";
import { IDLE } from "./jumps.mjs";
import { PAGE, examples } from "./loading.mjs";

const ADDRESS = pathToFileURL(resolve(PAGE)).href, WINDOW = { width: 1280, height: 860 };
const { browser, folder } = await begun();

async function shot(name) {
  if (!folder) return;
  mkdirSync(folder, { recursive: true });
  writeFileSync(`${folder}/${name}.png`, await browser.screenshot());
}

try {
  await browser.look(WINDOW);
  await browser.open(`${ADDRESS}#check`);
  await browser.until("document.getElementById('checked') !== null");
  const checked = await browser.value("document.getElementById('checked').textContent");
  const told = checked.trim().split("\n");
  assert.equal(told.at(-1), `${examples().length} agree, 0 differ`, told.join("\n"));
  await shot("check");
  await browser.open(`${ADDRESS}#example=raster-bands&step=100`);
  await browser.until(IDLE);
  await shot("page");
  assert.deepEqual(await browser.heard(), [], "the console");
  console.log(`${browser.name}: ${told.at(-1)}`);
} finally {
  await browser.stop();
}
