// The tutorial as its reader does it in a browser: each script of docs/TUTORIAL.md is pasted into
// the page as built, keys are pressed as it says, and the page shows what it says.
// node page/tests/tutorial.mjs [ENGINE [FOLDER]]: ENGINE is chromium, firefox or webkit.
// Pictures of the page are written into the folder.
import assert from "node:assert/strict";
import { mkdirSync, readFileSync, writeFileSync } from "node:fs";
import { resolve } from "node:path";
import { pathToFileURL } from "node:url";
import { TEXT, pasteOver, select } from "./editing.mjs";
import { begun } from "./engines.mjs";
import { IDLE } from "./jumps.mjs";
import { PAGE, TOP } from "./loading.mjs";
import { openParts } from "./parts.mjs";
import { smallShot } from "./shots.mjs";

// The window of the pictures; and one in which each dot has more than a pixel, to be pointed at.
const WINDOW = { width: 1060, height: 700 }, LARGE = { width: 1580, height: 1500 };
const tutorial = readFileSync(`${TOP}docs/TUTORIAL.md`, "utf-8");
// Its scripts; the program in it is told to be of Python.
const blocks = [...tutorial.matchAll(/^```(\w*)\n([^]*?)^```$/gm)]
  .filter(([, language]) => !language).map(([, , script]) => script);
const { browser, folder } = await begun(), seen = [];

/** The text of an element. WebKit ends that of some with an empty line. */
const text = id => browser.value(`document.getElementById("${id}").innerText.trimEnd()`);
const wrong = () => browser.value("document.querySelector('.answer.wrong').textContent");
const ready = () => browser.until(IDLE);
const pause = () => browser.value("new Promise(done => setTimeout(done, 60))");

async function press(key, times = 1, more = {}) {
  for (let time = 0; time < times; time++) {
    await browser.press(key, more);
    await pause();
  }
}

async function stepIs(step, count) {
  const told = `After step ${step.toLocaleString("en")} of ${count.toLocaleString("en")},`;
  await browser.until(
    `document.getElementById("laststep").innerText.startsWith("${told}")`);
}

/** Pastes a script of the tutorial over the one in the page, and shows its last step. */
async function paste(number, count, told) {
  await pasteOver(browser, blocks[number]);
  await atTheEnd(count, told);
}

/** Leaves the script. Where the pointer lies on a word, the first press closes its tip. */
async function leaveScript() {
  await press("Escape");
  if (await browser.value("document.activeElement.id") === "text") await press("Escape");
}

async function atTheEnd(count, told) {
  await ready();
  await leaveScript();
  await press("End");
  await stepIs(count, count);
  assert.ok((await text("state")).startsWith(told), await text("state"));
}

/** Changes a word of the script, as a hand would. */
async function change(old, word) {
  const at = (await browser.value(TEXT)).indexOf(old);
  await select(browser, at, at + old.length);
  await (word.includes("\n") ? browser.paste(word) : browser.type(word));
  await ready();
  await leaveScript();
  await press("End");
}

/** The card of a dot that was clicked. */
const CARD = "#asked";

/** Where a dot of the picture is seen. */
async function placeOf(x, y) {
  return browser.value(`(() => {
    const seen = document.getElementById("picture"), box = seen.getBoundingClientRect();
    const [across, down] = [box.width / seen.width, box.height / seen.height];
    const within = (begin, size) => size > 1.1 ? Math.ceil(begin + 0.05) : begin + size / 2;
    return [within(box.left + ${x} * across, across), within(box.top + ${y} * down, down)];
  })()`);
}

/** What the page tells of the dot under the pointer: its colour. */
async function colourAt(x, y) {
  const [left, top] = await placeOf(x, y);
  await browser.moveTo(left, top);
  await browser.until(
    `document.getElementById("dot").innerText.includes("dot ${x} of line ${y}:")`);
  return (await text("dot")).match(/: (\w\w \w\w \w\w)/)[1];
}

/** Writes what is seen of an element, or of the page. */
async function shot(name, selector) {
  if (!folder) return;
  mkdirSync(folder, { recursive: true });
  writeFileSync(`${folder}/tutorial-${name}.png`, await smallShot(browser, selector));
}

const PARTS = {
  async text() {
    await paste(0, 6, "6 steps, 1 picture, 2 of 2 answers as expected");
    // A dot that H has, and J has not.
    const letter = await colourAt(333, 194);
    await press("ArrowLeft", 3);
    await stepIs(3, 6);
    assert.deepEqual([letter, await colourAt(333, 194)], ["00 00 2A", "3F 3F 15"]);
    await press("ArrowRight");
    await stepIs(4, 6);
    assert.equal(await text("changes"), "Changed: plane 0 07CA: 48 → 4A.");
    await change("= 4A", "= 4B");
    assert.equal(await wrong(), "✗ 4A");
    await change("bx=1E", "bx=4E");
    assert.equal(await colourAt(333, 194), "2A 00 00");
  },

  async eightPixels() {
    await paste(1, 8, "8 steps, 1 picture, 2 of 2 answers as expected");
    assert.deepEqual(
      [await colourAt(327, 240), await colourAt(320, 241), await colourAt(323, 240)],
      ["15 3F 3F", "2A 00 00", "3F 3F 3F"]);
    await shot("glass", "#glass");
    await press("Home");
    for (const [steps, y, colour] of [[2, 240, "3F 3F 3F"], [2, 241, "2A 00 00"],
      [3, 240, "15 3F 3F"]]) {
      await press("ArrowRight", steps);
      assert.equal(await colourAt(327, y), colour);
    }
  },

  async circle() {
    const file = `${TOP}examples/tutorial/circle.vga`;
    await browser.choose("#file", file);
    await browser.until("document.getElementById('about').textContent === 'circle.vga'");
    await atTheEnd(1213, "1,213 steps, 1 picture, 1 of 1 answers as expected");
    const ends = async () => [await colourAt(320, 40), await colourAt(320, 440)];
    assert.deepEqual(await ends(), ["3F 3F 15", "3F 3F 15"]);
    await browser.value(`(() => {
      const slider = document.getElementById("slider");
      slider.value = 600;
      slider.dispatchEvent(new Event("input"));
    })()`);
    await stepIs(600, 1213);
    assert.deepEqual(await ends(), ["3F 3F 15", "00 00 00"]);
    await change("0E02", "0402");
    assert.deepEqual(await ends(), ["2A 00 00", "2A 00 00"]);
  },

  async palette() {
    await paste(2, 91, "91 steps, 60 pictures, 20 of 20 answers as expected");
    await press("Home");
    await press("p");
    await browser.until("document.getElementById('play').textContent === 'play'");
    await stepIs(91, 91);
    const last = await colourAt(320, 200);
    await press("ArrowLeft", 3, { shift: true });
    assert.notEqual(await colourAt(320, 200), last);
  },

  async raster() {
    await paste(3, 18, "18 steps, 1 picture, 2 of 2 answers as expected");
    assert.deepEqual([await colourAt(0, 99), await colourAt(0, 100), await colourAt(0, 200)],
      ["08 00 18", "3F 18 08", "00 14 14"]);
    await press("Home");
    await press("ArrowRight", 13);
    await stepIs(13, 18);
    await browser.moveTo(1, 1);
    await shot("page");
    await press("End");
    await browser.clickAt(...await placeOf(100, 150));
    await browser.click(`${CARD} [data-action=drawn]`);
    await stepIs(13, 18);
    await change("80000", "80320");
    assert.deepEqual([await colourAt(319, 100), await colourAt(320, 100)],
      ["08 00 18", "3F 18 08"]);
    assert.match(await wrong(), /^✗ beam frame 0/);
  },

  async wrongDot() {
    await paste(4, 10, "10 steps, 1 picture, 1 of 1 answers as expected");
    assert.deepEqual([await colourAt(321, 240), await colourAt(324, 240), await colourAt(328, 240)],
      ["00 00 00", "3F 3F 3F", "3F 3F 15"]);
    await browser.clickAt(...await placeOf(321, 240));
    await browser.until(`!document.querySelector("${CARD}").hidden`);
    await shot("card", CARD);
    await browser.click(`${CARD} [data-action=change]`);
    await stepIs(9, 10);
    assert.equal(await text("found"),
      "This step changed dot 321 of line 240: bits E → 0; colour 3F 3F 15 → 00 00 00.");
    await press("7");
    const write = await text("panel");
    assert.match(write, /Function 0: replace. Bit mask 08\./);
    assert.match(write, /latch\s+00 0000 0000/);
    await press("c");
    await stepIs(5, 10);
    await press("Escape");
    await change("outw 3CE 0808", "get A4B28\noutw 3CE 0808");
    await stepIs(11, 11);
    assert.deepEqual([await colourAt(321, 240), await colourAt(324, 240)], ["3F 3F 15", "3F 3F 3F"]);
  },
};

try {
  await browser.look(browser.hasWholePixels ? LARGE : WINDOW);
  await browser.open(pathToFileURL(resolve(PAGE)).href);
  await ready();
  await openParts(browser);
  for (const [name, does] of Object.entries(PARTS)) {
    await does();
    assert.deepEqual(await browser.heard(), [], "the console");
    seen.push(name);
  }
  console.log(`as the tutorial says in ${browser.name}: ${seen.join(", ")}`);
} finally {
  await browser.stop();
}
