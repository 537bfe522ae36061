// Into a BIOS call and out of it, in the page as built, by keys and pointer: its cycles, what is told of
// each, the search that goes on inside, and that what stood there stands there again.
// node page/tests/into.mjs [ENGINE [FOLDER]]: ENGINE is chromium, firefox or webkit.
// Pictures of the page are written into the folder.
import assert from "node:assert/strict";
import { mkdirSync, readFileSync, writeFileSync } from "node:fs";
import { begun } from "./engines.mjs";
import { TEXT, caretAt } from "./editing.mjs";
import { IDLE, isIdle } from "./jumps.mjs";
import { TOP } from "./loading.mjs";
import { Use } from "./using.mjs";

const LARGE = { width: 1366, height: 768 };
const SIZES = [LARGE, { width: 1920, height: 1080 }, { width: 390, height: 844 }];
const HELLO = readFileSync(`${TOP}examples/tutorial/hello.vga`, "utf-8");
/** A letter by the BIOS, a dot by the BIOS, a call that is refused, one without cycles. */
const FEW = "int ax=3 ; the mode\nint ax=0941 bx=1F cx=2\nint ax=55\nint ax=0F00\nadvance 5000\n" +
  "int ax=0942 bx=1F cx=1\nframe\n";
/** The most milliseconds until a call of more than 300,000 cycles is shown, on a machine without other work. */
const MOST_TIME = 1000;
const { browser, folder } = await begun(), use = new Use(browser), done = [];

const text = selector => browser.value(`document.querySelector(${JSON.stringify(selector)})?.innerText ?? ""`);
const says = (selector, words) => browser.until(
  `(document.querySelector(${JSON.stringify(selector)})?.innerText ?? "").includes(${JSON.stringify(words)})`, 20000);
const stepIs = (step, count) => says("#laststep", step ? `After step ${step} of ${count},` : "Power-on: no step");
const cycleIs = (cycle, count) => says("#laststep", cycle ? `After cycle ${cycle} of ${count}: ` : `Before the call: no cycle of ${count}`);
const isInside = () => browser.value("!document.getElementById('callbar').hidden");
const heads = () => browser.value("[...document.querySelectorAll('#listhead span')].map(one => one.textContent).join()");

async function press(...keys) {
  for (const key of keys) await browser.press(key);
}

/** Goes to a step, as a person types it. */
async function goTo(step) {
  await press("g");
  await browser.selectAll();
  await browser.type(String(step));
  await press("Enter");
}

async function shot(name) {
  if (!folder) return;
  mkdirSync(folder, { recursive: true });
  writeFileSync(`${folder}/into-${name}.png`, await browser.screenshot());
}

async function load(script, step, count) {
  await use.openScript(script);
  await goTo(step);
  await stepIs(step, count);
}

const PARTS = {
  async "by a key into a call, through its cycles, and back"() {
    await load(FEW, 2, 7);
    const script = await browser.value(TEXT), told = await text("#laststep");
    await press("i");
    await cycleIs(0, 4);
    assert.equal(await text("#out"), "◀ back to step 2");
    await says("#callbar", "Inside step 2, int ax=0941 bx=1F cx=2: 4 cycles.");
    await says("#callbar", "✓ They leave the registers and the memory that the call leaves.");
    assert.equal(await heads(), "cycle,,as written,answer");
    assert.equal(await text("#state"), (await text("#state")).replace(/^.* · /, "4 cycles · "));
    await press("7", "ArrowRight");
    await cycleIs(1, 4);
    assert.match(await text("#laststep"), /put B8000 41 answers ok$/);
    await says(".write", "Write of 41 to B8000");
    await shot("write");
    await press("2", "ArrowRight", "5");
    await says("#panel", "A call changes them after its last cycle.");
    await press("End");
    await cycleIs(4, 4);
    await press("ArrowLeft");
    await cycleIs(3, 4);
    await press("Escape");
    await stepIs(2, 7);
    assert.equal(await isInside(), false);
    assert.deepEqual([await browser.value(TEXT), await text("#laststep")], [script, told]);
    assert.equal(await heads(), "step,line,as written,answer");
    assert.match(await text("#state"), /^7 steps, 1 picture, 1 refused/);
  },

  async "by the button, past the last cycle and before the first"() {
    await load(FEW, 2, 7);
    await browser.click("#into");
    await cycleIs(0, 4);
    for (let i = 0; i < 4; i++) await press("ArrowRight");
    await cycleIs(4, 4);
    await browser.click("#next");
    await stepIs(2, 7);
    await browser.click("#into");
    await cycleIs(0, 4);
    await browser.click("#back");
    await stepIs(1, 7);
    await browser.click("#into");
    await browser.until("document.getElementById('callname').textContent.includes('int ax=3')");
    await says("#callbar", "It changes BIOS data after the last one.");
    await browser.click("#rows .row:nth-child(3)");
    await says("#laststep", "After cycle 3 of ");
    await browser.click("#out");
    await stepIs(1, 7);
    assert.equal(await isInside(), false);
  },

  async "step by step into calls, from the script too, and out by Shift+F11"() {
    await load(FEW, 1, 7);
    await press("Home");
    await stepIs(0, 7);
    await press("F11");
    await says("#laststep", "Before the call");
    await browser.press("F11", { shift: true });
    await stepIs(1, 7);
    await press("F11");
    await cycleIs(0, 4);
    await press("F11", "F11", "F11", "F11");
    await cycleIs(4, 4);
    await press("F11");
    await stepIs(2, 7);
    await press("F11");
    await stepIs(3, 7);
    await says("#notice", "Step 3 is refused, so it makes no cycle.");
    await press("F11");
    await stepIs(4, 7);
    await says("#notice", "Step 4 makes no cycle: it takes and changes BIOS data alone.");
    await press("F11");
    await stepIs(5, 7);
    await caretAt(browser, 3);
    await press("F11");
    await cycleIs(0, 2);
    await press("F10");
    await cycleIs(1, 2);
    await press("Escape");
    await cycleIs(1, 2);
    await press("Escape");
    await stepIs(6, 7);
  },

  async "what has no cycles is told"() {
    await load(FEW, 3, 7);
    assert.equal(await browser.value("document.getElementById('into').hidden"), true);
    await press("i");
    await says("#notice", "Step 3 is refused, so it makes no cycle. ");
    assert.match(await text("#notice"), /no cycle\. .*mode 55/);
    await shot("refused");
    await goTo(4);
    await stepIs(4, 7);
    await press("i");
    await says("#notice", "Step 4 makes no cycle");
    await goTo(5);
    await stepIs(5, 7);
    await press("i");
    await says("#notice", "Step 5 is no BIOS call.");
    await press("Home");
    await stepIs(0, 7);
    await press("i");
    await says("#notice", "At power-on no step is taken yet");
    assert.equal(await isInside(), false);
  },

  async "a search goes on inside the call, by one press"() {
    await load(HELLO, 6, 6);
    await press("3");
    await browser.value("document.querySelector('.cells').focus()");
    for (let i = 0; i < 12; i++) await press("ArrowDown");
    for (let i = 0; i < 38; i++) await press("ArrowRight");
    await says("#panel", "row 12, column 38: character 45 E");
    await press("w");
    await says("#asked h2", "the cell at 07CC");
    await press("Enter");
    await stepIs(3, 6);
    await says("#found", "A cycle inside this BIOS call changed the cell at 07CC.");
    await press("Escape");
    await shot("found");
    await browser.click("#foundcycle");
    await says("#found", "This cycle changed the cell at 07CC.");
    assert.match(await text("#laststep"), /^After cycle \d+ of \d+: put B87CD 1E answers ok/);
    await shot("cycle");
    await press("c");
    await says("#laststep", ": put B87CC 45 answers");
    await press("c");
    await says("#notice", "No earlier cycle of this call changed the cell at 07CC: it is as before the call.");
    await press("c");
    await stepIs(2, 6);
    await press("i");
    await says("#found", "This cycle changed the cell at 07CC.");
    await press("Escape");
    await stepIs(2, 6);
    await press("End");
    await stepIs(6, 6);
    await browser.click("#picture");
    await browser.until("!document.getElementById('asked').hidden");
    await browser.click("#asked [data-action=change]");
    await says("#found", "A cycle inside this BIOS call changed dot ");
    await press("Escape", "i");
    await says("#found", "This cycle changed dot ");
    await browser.click("#picture");
    await browser.click("#asked [data-action=drawn]");
    await says("#laststep", "After step ");
    assert.equal(await isInside(), false);
  },

  async "breakpoints and a search for a step inside"() {
    await load(FEW, 1, 7);
    await browser.value("document.querySelector('#gutter button:nth-child(2)').click()");
    await press("6");
    await browser.value(`(() => { const made = document.getElementById("pointkind");
      made.value = "port"; made.dispatchEvent(new Event("change")); })()`);
    await browser.value("document.querySelector('.points input:not([type=checkbox])').focus()");
    await browser.type("3C9");
    await press("Enter", "Escape");
    await says(".points", "port 3C9");
    const points = await text(".points");
    await browser.click("#into");
    await says("#callbar", "✓ They leave");
    await press("r");
    await says("#laststep", ": out 3C9 ");
    await browser.press("R", { shift: true });
    await says("#notice", "No earlier cycle of this call meets");
    await press("/");
    await browser.type("3da");
    await press("Enter");
    await says("#stepfinder output", "cycle ");
    await says("#laststep", ": in 3DA answers ");
    await press("Escape", "Escape");
    await stepIs(1, 7);
    assert.equal(await text(".points"), points);
  },

  async "keys in the list go out at its ends; frames and lines are the script's"() {
    await load(FEW, 2, 7);
    await press("i");
    await cycleIs(0, 4);
    await browser.value("document.getElementById('listing').focus()");
    for (let i = 0; i < 4; i++) await press("ArrowDown");
    await cycleIs(4, 4);
    await press("ArrowDown");
    await stepIs(2, 7);
    await press("i");
    await cycleIs(0, 4);
    await press("ArrowUp");
    await stepIs(1, 7);
    await goTo(2);
    await stepIs(2, 7);
    await press("i");
    await cycleIs(0, 4);
    await browser.press("ArrowRight", { shift: true });
    await stepIs(7, 7);
    await goTo(2);
    await press("i");
    await cycleIs(0, 4);
    await goTo(3);
    await cycleIs(3, 4);
    await caretAt(browser, FEW.indexOf("advance"));
    await browser.press("Enter", { control: true });
    await stepIs(5, 7);
    await press("Escape");
  },

  async "who types is out of the call, and nothing is lost"() {
    await load(FEW, 2, 7);
    await press("i");
    await cycleIs(0, 4);
    await press("ArrowRight");
    await cycleIs(1, 4);
    await caretAt(browser);
    await browser.type("show");
    await stepIs(2, 7);
    assert.equal(await isInside(), false);
    await browser.type(" beam");
    await stepIs(2, 8);
    assert.equal(await browser.value(TEXT), `${FEW}show beam`);
    await press("Escape", "i");
    await cycleIs(0, 4);
    await press("End");
    await browser.press("z", { control: true });
    await browser.until("document.getElementById('callbar').hidden");
    await browser.until(`document.getElementById("laststep").textContent.startsWith("After step 2 of ")`);
    await load(FEW, 2, 7);
    await press("i");
    await cycleIs(0, 4);
    await caretAt(browser);
    await browser.type("bad");
    await says("#state", "line 8 is no step");
    await says("#laststep", "After step 2 of 7,");
    assert.equal(await heads(), "step,line,as written,answer");
  },

  async "a link, a report and another script mean the script"() {
    await load(FEW, 2, 7);
    await press("i");
    await cycleIs(0, 4);
    await press("ArrowRight", "l");
    await browser.until("document.getElementById('linkbox').open");
    assert.match(await browser.value("document.getElementById('link').value"), /step=2/);
    await press("Escape");
    const report = `${Array.from({ length: 7 }, (_, i) => `${i + 1} ok`).join("\n")}\n`;
    await use.drop(`[new File([${JSON.stringify(report)}], "other.txt")]`);
    await browser.until("!document.getElementById('compare').hidden");
    assert.equal(await isInside(), false);
    await stepIs(1, 7);
    await says("#compare", "Step 1:");
    await press("i");
    await says("#laststep", "Before the call");
    assert.equal(await browser.value("document.getElementById('compare').hidden"), true);
    await press("n");
    await says("#laststep", "Before the call");
    await press("Escape");
    await says("#compare", "Step 1:");
    await press("n");
    await stepIs(2, 7);
    await press("i");
    await cycleIs(0, 4);
    await browser.value(`(() => { const list = document.getElementById("examples"); list.value = "hello";
      list.dispatchEvent(new Event("change", { bubbles: true })); })()`);
    await stepIs(6, 6);
    assert.equal(await isInside(), false);
    await press("u");
    await browser.until(`${TEXT} === ${JSON.stringify(FEW)}`);
  },

  async "a call of more than 300,000 cycles opens within a second"() {
    await load(`int ax=3\nint ax=1300 bx=7 cx=0028 dx=1800 block ${"0A".repeat(0x28)}\n`, 2, 2);
    const time = await browser.value(`new Promise(shown => {
      const begun = performance.now();
      document.getElementById("into").click();
      const look = () => (document.getElementById("laststep").textContent.startsWith("Before the call")
        ? shown(performance.now() - begun) : setTimeout(look));
      look();
    })`);
    assert.ok(time < MOST_TIME || !await isIdle(), `${time}`);
    await press("End");
    await browser.until("/^After cycle (\\d+,\\d+) of \\1:/.test(document.getElementById('laststep').textContent)");
    await shot("long");
    await press("ArrowRight");
    await stepIs(2, 2);
  },

  async "the page in three sizes"() {
    for (const size of folder && !browser.hasWholePixels ? SIZES : []) {
      await browser.look(size);
      await load(HELLO, 3, 6);
      await shot(`step-${size.width}`);
      await press("i");
      await says("#laststep", "Before the call");
      for (let i = 0; i < 7; i++) await press("ArrowRight");
      await says("#laststep", "After cycle 7 of ");
      await shot(`call-${size.width}`);
      assert.equal(await browser.value("document.documentElement.scrollWidth <= innerWidth"), true);
    }
    await browser.look(LARGE);
  },
};

try {
  await browser.look(LARGE);
  await use.open();
  await browser.until(IDLE);
  for (const [name, does] of Object.entries(PARTS)) {
    try {
      await does();
      assert.deepEqual(await browser.heard(), [], "the console");
    } catch (error) {
      error.message = `${name}: ${error.message}`;
      throw error;
    }
    done.push(name);
  }
  console.log(`into calls in ${browser.name}: ${done.join("; ")}`);
} catch (error) {
  console.log(`done: ${done.join("; ")}`);
  await shot("failed");
  throw error;
} finally {
  await browser.stop();
}
