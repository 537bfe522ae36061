// Who wrote this? Asked of the page as built, by pointer and by keys: where a dot comes from, the
// last step that changed it, its write stage by stage, watches, and breakpoints of bytes.
// node page/tests/asking.mjs [ENGINE [FOLDER]]: ENGINE is chromium, firefox or webkit.
// Pictures of the page are written into the folder.
import assert from "node:assert/strict";
import { mkdirSync, readFileSync, writeFileSync } from "node:fs";
import { resolve } from "node:path";
import { pathToFileURL } from "node:url";
import { begun } from "./engines.mjs";
import { pasteOver } from "./editing.mjs";
import { IDLE } from "./jumps.mjs";
import { PAGE, TOP } from "./loading.mjs";
import { openParts } from "./parts.mjs";

const LARGE = { width: 1900, height: 1500 };
const SIZES = [{ width: 1366, height: 768 }, { width: 1920, height: 1080 },
  { width: 390, height: 844 }];
const { browser, folder } = await begun(), done = [];
const EIGHT = readFileSync(`${TOP}examples/tutorial/eight-pixels.vga`, "utf-8");
const HELLO = readFileSync(`${TOP}examples/tutorial/hello.vga`, "utf-8");

const text = selector => browser.value(
  `document.querySelector(${JSON.stringify(selector)})?.innerText ?? ""`);
const says = (selector, words) => browser.until(
  `(document.querySelector(${JSON.stringify(selector)})?.innerText ?? "")` +
  `.includes(${JSON.stringify(words)})`, 20000);
const isOpen = () => browser.value("!document.getElementById('asked').hidden");
const stepIs = (step, count) => says("#laststep", `After step ${step} of ${count},`);

async function load(script) {
  await pasteOver(browser, script);
  await browser.until(IDLE);
  await browser.press("Escape");
  await browser.press("End");
  await browser.until(IDLE);
}

/** Where a dot of the picture is seen. */
async function placeOf(x, y) {
  return browser.value(`(() => {
    const seen = document.getElementById("picture"), box = seen.getBoundingClientRect();
    const [across, down] = [box.width / seen.width, box.height / seen.height];
    const within = (begin, size) => size > 1.1 ? Math.ceil(begin + 0.05) : begin + size / 2;
    return [within(box.left + ${x} * across, across), within(box.top + ${y} * down, down)];
  })()`);
}

async function point(x, y) {
  await browser.moveTo(...await placeOf(x, y));
  await says("#dot", `dot ${x} of line ${y}:`);
}

async function shot(name) {
  if (!folder) return;
  mkdirSync(folder, { recursive: true });
  writeFileSync(`${folder}/asking-${name}.png`, await browser.screenshot());
}

const action = name => `#asked [data-action=${name}]`;

const PARTS = {
  async "a dot is asked about by pointer, and its two changes found"() {
    await load(EIGHT);
    await point(327, 240);
    assert.match(await text("#dot"),
      /offset 4B28, planes 0:FF 1:FF 2:F0 3:FF · B → palette 3B → DAC 3B/);
    await browser.clickAt(...await placeOf(327, 240));
    await browser.until("!document.getElementById('asked').hidden");
    await says("#asked",
      "plane 0 FF, bit 0, plane 1 FF, bit 0, plane 2 F0, bit 0, plane 3 FF, bit 0");
    await shot("dot");
    await browser.click(action("change"));
    await stepIs(7, 8);
    assert.match(await text("#found"),
      /^This step changed dot 327 of line 240: bits F → B; colour 3F 3F 3F → 15 3F 3F\.$/);
    assert.ok(await isOpen());
    await browser.press("Enter");
    await stepIs(2, 8);
    assert.match(await text("#found"), /bits 0 → F/);
    await browser.press("Enter");
    await stepIs(1, 8);
    assert.match(await text("#found"), /^A cycle inside this BIOS call changed dot 327/);
    await browser.press("Enter");
    await says("#notice", "No earlier step changed dot 327 of line 240");
    await browser.press("Escape");
    assert.equal(await isOpen(), false);
  },

  async "a page that is turned to: who wrote the byte, and who moved it here"() {
    await load("int ax=13\noutw 3C4 0604\noutw 3D4 0014\noutw 3D4 E317\noutw 3C4 0F02\nframe\noutw 3C4 0202\n" +
      "put A4001 44\noutw 3D4 400C\nframe\n");
    await browser.clickAt(...await placeOf(10, 0));
    await browser.click(action("change"));
    await stepIs(8, 10);
    assert.equal(await text("#found"), "This step changed dot 10 of line 0: byte 00 → 44; colour 00 00 00 → 12 09 00. " +
      "Step 9, outw 3D4 400C, moved the dot here: offset 0001 → 4001.");
    // After this step the adapter tells of the byte, which the picture does not show yet.
    assert.match(await text("#asked"), /offset\t4001 of the planes/);
    await shot("moved");
    await browser.press("End");
    await browser.click(action("moved"));
    await stepIs(9, 10);
    assert.equal(await text("#found"), "This step changed where dot 10 of line 0 comes from: offset 0001 → 4001.");
    await browser.press("Enter");
    await stepIs(4, 10);
    assert.match(await text("#found"), /offset 0002 → 0001/);
    await browser.press("Escape");
  },

  async "the step that draws a dot"() {
    await load(readFileSync(`${TOP}examples/tutorial/three-bands.vga`, "utf-8"));
    await browser.clickAt(...await placeOf(100, 150));
    await browser.click(action("drawn"));
    await stepIs(13, 18);
    assert.equal(await isOpen(), false);
    await browser.clickAt(...await placeOf(100, 150));
    await browser.click(action("change"));
    await stepIs(12, 18);
    assert.match(await text("#found"), /colour 08 00 18 → 3F 18 08/);
    await browser.press("Escape");
    await browser.press("End");
    await stepIs(18, 18);
    await browser.clickAt(...await placeOf(100, 150));
    await says("#asked", "as they were when it was drawn, by step 13");
    assert.match(await text("#asked"), /00: 3F 18 08/);
    await browser.press("Escape");
  },

  async "a write stage by stage, on the way there by keys alone"() {
    await load(EIGHT);
    await browser.moveTo(1, 1);
    await browser.press("w");
    await browser.until("!document.getElementById('asked').hidden");
    await browser.value("document.querySelector('#asked input').focus()");
    await browser.selectAll();
    await browser.type("327");
    await browser.press("Tab");
    await browser.selectAll();
    await browser.type("240");
    await browser.press("Enter");
    await says("#asked h2", "dot 327 of line 240");
    await browser.press("Escape");
    await browser.press("c");
    await stepIs(7, 8);
    await browser.press("7");
    await says(".write", "Write of 00 to A4B28");
    await says(".write", "By the map mask 4, plane 2 is written.");
    const cells = await browser.value(
      `[...document.querySelectorAll(".cycle tr")].at(-1).innerText`);
    assert.match(cells, /byte after\s+FF 1111 1111\s+FF 1111 1111\s+F0 1111 0000\s+FF 1111 1111/);
    await shot("write");
    await browser.press("ArrowLeft");
    await says(".write", "Read of A4B28");
    await says(".write", "Read mode 0: plane 0, by read map select: FF.");
    await browser.press("ArrowLeft");
    await says(".write", "neither writes display memory nor reads it");
    await browser.press("Home");
    await browser.press("ArrowRight");
    await says(".write", "A BIOS call makes many cycles");
  },

  async "a write into a hidden page is found, and the card tells of it there"() {
    await load("int ax=D\noutw 3C4 0202\nput A2028 FF\noutw 3D4 200C\nframe");
    await browser.clickAt(...await placeOf(3, 2));
    await says("#asked", "2028 of the planes");
    await browser.click(action("change"));
    await stepIs(3, 5);
    assert.equal(await text("#found"), "This step changed dot 3 of line 2: bits 0 → 2; colour 00 00 00 → 00 2A 00. " +
      "Step 4, outw 3D4 200C, moved the dot here: offset 0028 → 2028.");
    await says("#asked", "00 00 00: the frame of this step shows something else there");
    assert.match(await text("#asked"), /address\s+A2028/);
    await browser.press("Escape");
  },

  async "bytes, registers, fields, colours and cells are asked about"() {
    await load(EIGHT);
    await browser.press("1");
    await browser.click("[data-subject='register seq 02'] .value");
    await browser.click(action("stop"));
    await says(".points", "Sequencer 02, map mask changes");
    await browser.press("R", { shift: true });
    await stepIs(3, 8);
    await browser.click(".points li button");
    await browser.press("End");
    await browser.press("1");
    await browser.click("[data-subject='register seq 02'] .value");
    await says("#asked h2", "Sequencer 02, map mask");
    await browser.click(action("change"));
    await stepIs(3, 8);
    await browser.press("Escape");
    await browser.press("End");
    await browser.press("2");
    await browser.value(`(() => {
      const place = document.getElementById("offset");
      place.value = "4B20";
      place.dispatchEvent(new Event("change")); document.querySelector("#plane").value = "2";
      document.querySelector("#plane").dispatchEvent(new Event("change"));
      document.querySelector(".hex td").focus(); })()`);
    for (let i = 0; i < 8; i++) await browser.press("ArrowRight");
    await browser.press("w");
    await says("#asked h2", "plane 2 4B28");
    await shot("byte");
    await browser.press("Enter");
    await stepIs(7, 8);
    await browser.press("Enter");
    await stepIs(2, 8);
    await browser.press("Escape");
    await browser.press("4");
    await browser.click("[data-subject='colour 3F']");
    await says("#asked h2", "entry 3F of the DAC");
    await browser.click(action("change"));
    await stepIs(1, 8);
    await browser.press("Escape");
    await load(HELLO);
    await browser.press("3");
    await browser.value("document.querySelector('.cells').focus()");
    for (let i = 0; i < 12; i++) await browser.press("ArrowDown");
    for (let i = 0; i < 37; i++) await browser.press("ArrowRight");
    await says("#panel", "row 12, column 37: character 4A J");
    await browser.press("w");
    await says("#asked h2", "the cell at 07CA");
    await shot("cell");
    await browser.press("Enter");
    await stepIs(4, 6);
    await browser.press("Enter");
    await stepIs(3, 6);
    await says("#found", "A cycle inside this BIOS call changed the cell at 07CA.");
    await browser.press("Escape");
  },

  async "watches tell before and now, and are there after a reload"() {
    await load(EIGHT);
    await browser.clickAt(...await placeOf(327, 240));
    await browser.click(action("watch"));
    await says(".watches", "dot 327 of line 240");
    await browser.press("1");
    await browser.click(
      "[data-subject='field gfx 08 7-0'], [data-subject='register gfx 08'] .value");
    await browser.click(action("watch"));
    await says(".watches", "Graphics controller 08, bit mask");
    await browser.press("ArrowLeft");
    await stepIs(7, 8);
    const row = await browser.value("document.querySelector('.watches tr.changed').innerText");
    assert.match(row, /dot 327 of line 240\s+3F 3F 3F\s+15 3F 3F/);
    await shot("watches");
    await browser.value("(() => { window.isOld = true; location.reload(); })()");
    await browser.until(`!window.isOld && ${IDLE}`);
    assert.equal((await text("#tab8")).toLowerCase(), "watches (2)");
    await browser.press("8");
    await says(".watches", "dot 327 of line 240");
    await browser.click(".watches tbody tr:first-child button:last-child");
    assert.equal((await text("#tab8")).toLowerCase(), "watches (1)");
    await browser.click(".watches tbody tr:first-child button:last-child");
  },

  async "breakpoints of bytes, refusals and answers, forward and back"() {
    await load(
      "int ax=12\nput A0010 FF\nget A0010 ; = 00\nput A0011 1\nput 0 0\nget A0011 ; = 01\n");
    await browser.press("6");
    const kind = value => browser.value(`(() => { const made = document.getElementById("pointkind");
      made.value = "${value}"; made.dispatchEvent(new Event("change")); })()`);
    await kind("bytes");
    await browser.value("document.querySelector('[name=from]').focus()");
    await browser.type("11");
    await browser.click("#pointadd");
    await says(".points", "all planes 0011 changes");
    await shot("points");
    await browser.press("Escape");
    await browser.press("Home");
    await browser.press("r");
    await stepIs(4, 6);
    for (const one of ["refusal", "wrong"]) {
      await kind(one);
      await browser.click("#pointadd");
    }
    await says(".points", "an answer that differs from what is expected");
    await browser.press("Escape");
    await browser.press("End");
    for (const step of [5, 4, 3]) {
      await browser.press("R", { shift: true });
      await stepIs(step, 6);
    }
  },

  async "the card in three sizes"() {
    await load(HELLO);
    for (const size of folder && !browser.hasWholePixels ? SIZES : []) {
      await browser.look(size);
      await browser.clickAt(...await placeOf(335, 196));
      await says("#asked", "cell");
      await shot(`card-${size.width}`);
      await browser.press("Escape");
    }
    await browser.look(LARGE);
  },
};

try {
  await browser.look(LARGE);
  await browser.open(pathToFileURL(resolve(PAGE)).href);
  await browser.until(IDLE);
  await openParts(browser);
  for (const [name, does] of Object.entries(PARTS)) {
    await does();
    assert.deepEqual(await browser.heard(), [], "the console");
    done.push(name);
  }
  console.log(`asked in ${browser.name}: ${done.join("; ")}`);
} catch (error) {
  await shot("failed");
  throw error;
} finally {
  await browser.stop();
}
