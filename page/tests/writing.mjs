// Who writes a script in a browser, with keys and pointer: search, completion, tips, the panel of
// steps, the documentation's sections, bad lines, and texts that are too long. node
// page/tests/writing.mjs [ENGINE [WORDS]]: ENGINE is chromium or firefox. With WORDS only the
// checks are done whose names have them. ZAKLIMOT_PAGE names another page.
import assert from "node:assert/strict";
import { resolve } from "node:path";
import { pathToFileURL } from "node:url";
import { TEXT, caretAt, pasteOver, textIs } from "./editing.mjs";
import { begun } from "./engines.mjs";
import { IDLE, LONG, fragmentOf } from "./jumps.mjs";
import { PAGE } from "./loading.mjs";
import { openParts } from "./parts.mjs";

const ADDRESS = pathToFileURL(resolve(PAGE)).href, WINDOW = { width: 1280, height: 860 };
const { browser } = await begun(), seen = [];
const BARS = "; bars\nint ax=3\nout 3C4 2\nout 3C5 0F\nin 3DA\nframe\n";

const until = condition => browser.until(condition, 40000);
const text = selector => browser.value(`document.querySelector(${JSON.stringify(selector)}).textContent`);
const isHidden = id => browser.value(`document.getElementById("${id}").hidden`);
const here = () => browser.value("document.activeElement.id || document.activeElement.tagName");
const pause = (time = 80) => browser.value(`new Promise(done => setTimeout(done, ${time}))`);
const selection = () => browser.value("document.querySelector('.CodeMirror').CodeMirror.getSelection()");
const textBecomes = wanted => until(textIs(wanted));
const says = (selector, words) =>
  until(`document.querySelector(${JSON.stringify(selector)}).textContent.includes(${JSON.stringify(words)})`);

async function open(hash = "") {
  await browser.open(ADDRESS + hash);
  await until(IDLE);
  await openParts(browser);
  await pause();
}

async function stepIs(step) {
  await until(`document.getElementById("laststep").textContent.startsWith("After step ${step.toLocaleString("en")} of")`);
}

/** Shows a script, with the caret at a place of it. */
async function write(script, place) {
  await pasteOver(browser, script);
  await until(IDLE);
  await caretAt(browser, place);
}

/** Where the pointer is over the end of some words of the text. */
function pointOver(words) {
  return browser.value(`(() => {
    const code = document.querySelector(".CodeMirror").CodeMirror, at = code.getValue().indexOf("${words}");
    const { left, top, bottom } = code.charCoords(code.posFromIndex(at), "window");
    return [Math.round(left) + 3, Math.round((top + bottom) / 2)]; })()`);
}

const marks = () => browser.value("document.querySelectorAll('.cm-found').length");
const hints = () => browser.value("[...document.querySelectorAll('.CodeMirror-hint')].map(one => one.firstChild.textContent)");

const CHECKS = {
  async "words are found in the script, by keys"() {
    await write(BARS, 0);
    await browser.press("f", { control: true });
    assert.equal(await here(), "INPUT");
    await browser.type("3c");
    await says("#textfinder output", "1 of 2");
    assert.deepEqual([await selection(), await marks()], ["3C", 2]);
    await browser.press("Enter");
    await says("#textfinder output", "2 of 2");
    await browser.press("Enter");
    await says("#textfinder output", "1 of 2");
    await browser.press("Enter", { shift: true });
    await says("#textfinder output", "2 of 2");
    await browser.type("x");
    await says("#textfinder output", "not found");
    await browser.press("Escape");
    assert.deepEqual([await here(), await isHidden("textfinder"), await marks()], ["text", true, 0]);
  },

  async "words are found in the script, by the pointer; and in what is typed since then"() {
    await write(BARS, 0);
    await browser.click("#findtext");
    await browser.type("frame");
    await says("#textfinder output", "1 of 1");
    await caretAt(browser);
    await browser.type("frame");
    await says("#textfinder output", "2");
    await until("document.querySelectorAll('.cm-found').length === 2");
    await browser.press("F3");
    await says("#textfinder output", "1 of 2");
    await browser.press("F3", { shift: true });
    await says("#textfinder output", "2 of 2");
    assert.equal(await here(), "text");
    await browser.click("#textfinder button[aria-label='The find before']");
    await says("#textfinder output", "of 2");
    await browser.click("#textfinder button[aria-label='End the search']");
    assert.equal(await isHidden("textfinder"), true);
  },

  async "a step is found by its words or its answer"() {
    await open("#example=driver-test&step=1");
    await browser.press("/");
    await browser.type("3c9");
    for (const step of [25, 26, 27, 29]) {
      await browser.press("Enter");
      await stepIs(step);
    }
    await browser.press("Enter", { shift: true });
    await stepIs(27);
    await says("#stepfinder output", "step 27");
    await browser.selectAll();
    await browser.type("notinprofile");
    await browser.press("Enter");
    await stepIs(34);
    await browser.selectAll();
    await browser.type("no such words");
    await browser.click("#stepfinder button[aria-label='The next find']");
    await says("#stepfinder output", "not found");
    await browser.click("#stepfinder button[aria-label='End the search']");
    assert.deepEqual([await isHidden("stepfinder"), await here()], [true, "listing"]);
    await browser.click("#page");
    await browser.press("f", { control: true, shift: true });
    assert.equal(await isHidden("stepfinder"), false);
    await browser.press("Escape");
  },

  async "while three million steps are searched, the page goes on; typing ends it"() {
    await open(`${await fragmentOf(LONG)}&step=5`);
    await browser.click("#findsteps");
    await browser.type("no such words");
    await browser.press("Enter");
    await says("#stepfinder output", "looked at");
    await browser.type("x");
    await until("document.querySelector('#stepfinder output').textContent === ''");
    await browser.press("Enter");
    await says("#stepfinder output", "not found");
    await browser.press("Escape");
  },

  async "completion: after a step's name, and at a key"() {
    await open();
    await write("int ax=3\n");
    await browser.type("out ");
    await until("document.querySelectorAll('.CodeMirror-hint').length > 10");
    await browser.type("3c8");
    await until("document.querySelectorAll('.CodeMirror-hint').length === 0");
    await browser.press("Escape");
    assert.equal(await here(), "BODY");
    await write("int ax=3\n");
    await browser.type("out ");
    await browser.type("3ce");
    // The list of the letters before is closed.
    await until("document.querySelectorAll('.CodeMirror-hint').length === 0");
    await browser.press("Backspace");
    await until("document.querySelectorAll('.CodeMirror-hint').length > 2");
    await browser.press("Escape");
    // The list alone is closed.
    assert.deepEqual([await hints(), await here()], [[], "text"]);
    await browser.press(" ", { control: true });
    await until("document.querySelectorAll('.CodeMirror-hint').length > 2");
    assert.deepEqual((await hints()).slice(0, 2), ["3C0", "3C2"]);
    await browser.press("ArrowDown");
    await browser.press("Tab");
    await textBecomes("int ax=3\nout 3C2");
    assert.equal(await here(), "text");
    await browser.press("Enter");
    await browser.type("fr");
    await browser.press(" ", { control: true });
    await until("document.querySelectorAll('.CodeMirror-hint').length === 1");
    await browser.press("Enter");
    await textBecomes("int ax=3\nout 3C2\nframe");
  },

  async "Enter behind a whole step begins a line, also where choices were shown"() {
    await write("int ax=3\n");
    await browser.type("in 3DA");
    await browser.press("Enter");
    await browser.type("frame");
    await browser.press("Enter");
    await textBecomes("int ax=3\nin 3DA\nframe\n");
  },

  async "a tip where the pointer rests, and at a key"() {
    await write(BARS, 0);
    await browser.moveTo(...await pointOver("0F"));
    await until("!document.getElementById('tip').hidden");
    assert.match(await text("#tip"), /^Sequencer 02: map mask becomes 0Fplanes \(bits 3-0\): FSee Sequencer\.$/);
    assert.equal(await browser.value("document.getElementById('tip').getAttribute('role')"), "tooltip");
    await browser.moveTo(640, 700);
    await until("document.getElementById('tip').hidden");
    await caretAt(browser, BARS.indexOf("ax=3"));
    await browser.press("i", { control: true });
    await says("#tip", "Function 00 Set a mode, AL 03");
    assert.equal(await browser.value("document.getElementById('text').getAttribute('aria-describedby')"), "tip");
    await browser.press("Escape");
    assert.deepEqual([await isHidden("tip"), await here()], [true, "text"]);
    await browser.press("F1", { shift: true });
    assert.equal(await isHidden("tip"), false);
    await browser.click("#tip a");
    await until("document.getElementById('sectionbox').open");
    assert.equal(await text("#sectiontitle"), "00 Set a mode");
    await browser.press("Escape");
    await until("!document.getElementById('sectionbox').open");
  },

  async "the panel of steps, whose examples are put into the script"() {
    await write(BARS, BARS.indexOf("in 3DA"));
    await browser.press("F1");
    await until("document.getElementById('languagebox').open");
    const count = await browser.value("document.querySelectorAll('#languagebox section').length");
    assert.equal(count, 22);
    await browser.click("#step-out-help button");
    const wanted = BARS.replace("in 3DA\n", "in 3DA\nout 3C8 0 ; the DAC's entry 0\n");
    await textBecomes(wanted);
    assert.equal(await here(), "text");
    await browser.press("z", { control: true });
    await textBecomes(BARS);
    await browser.press("Escape");
    await browser.click("#language");
    await browser.click("#languagebox a");
    await until("document.getElementById('sectionbox').open");
    assert.equal(await text("#sectiontitle"), "The text");
    await browser.press("Escape");
    await browser.press("Escape");
    await until("!document.querySelector('dialog[open]')");
  },

  async "links lead to sections within the page, which have a link to the whole page"() {
    await open("#example=driver-test");
    await browser.click("#refusal a");
    await until("document.getElementById('sectionbox').open");
    assert.equal(await text("#sectiontitle"), "Ports");
    assert.equal(await browser.value("document.querySelector('#sectionbox a[data-is-whole]').getAttribute('href')"),
      "../docs/REGISTERS.md#ports");
    assert.ok(await browser.value("document.querySelectorAll('#sectionbox tr').length > 15"));
    await browser.click("#sectionbox form button");
    await browser.click("#panel .name a");
    await says("#sectiontitle", "Miscellaneous output");
    await browser.press("Escape");
  },

  async "the list has the tutorial's scripts"() {
    const told = await browser.value(`[...document.querySelectorAll("optgroup[label=Tutorial] option")]
      .map(one => [one.value, one.text])`);
    assert.deepEqual(told, [["hello", "1. Text"], ["eight-pixels", "2. A circle"],
      ["going-round", "3. A palette that goes round"], ["three-bands", "4. A raster effect"],
      ["lost-pixels", "5. A wrong dot"]]);
    await open("#example=hello");
    assert.match(await browser.value("document.title"), /^hello:/);
    assert.match(await text("#state"), /2 of 2 answers as expected/);
  },

  async "what is wrong with a line stands at the foot, and covers no line"() {
    await pasteOver(browser, BARS.replace("out 3C4 2", "out 0x3C4 2"));
    await until("!document.getElementById('why').hidden");
    assert.equal(await text("#why span"), "numbers are hexadecimal digits alone: write 3C4");
    const [foot, below] = await browser.value(`["editor", "why"].map(id => {
      const { top, bottom } = document.getElementById(id).getBoundingClientRect(); return [top, bottom]; })`);
    assert.ok(foot[1] <= below[0] + 1, `${foot} ${below}`);
    await until("document.querySelector('.badword')?.textContent === '0x3C4'");
    await browser.click("#why button");
    assert.deepEqual([await selection(), await here()], ["0x3C4", "text"]);
    await browser.type("3C4");
    await textBecomes(BARS);
    await until("document.getElementById('why').hidden");
  },

  async "Tab and Escape leave the script"() {
    await write(BARS, 0);
    await browser.press("Tab");
    assert.notEqual(await here(), "text");
    await caretAt(browser, 0);
    await browser.press("Tab", { shift: true });
    assert.notEqual(await here(), "text");
    await caretAt(browser, 0);
    await browser.press("Escape");
    assert.equal(await here(), "BODY");
    assert.equal(await browser.value(TEXT), BARS);
    await browser.press("e");
    assert.equal(await here(), "text");
  },

  async "on a phone the script has its height, and the buttons do what keys do"() {
    await browser.look({ width: 500, height: 844 });
    await open("#example=driver-test&step=1");
    const high = await browser.value("document.getElementById('editor').getBoundingClientRect().height");
    assert.ok(high > 290 && high < 310, `${high} pixels`);
    await browser.click("#findsteps");
    await browser.type("3c9");
    await browser.click("#stepfinder button[aria-label='The next find']");
    await stepIs(25);
    await browser.click("#stepfinder button[aria-label='End the search']");
    await browser.click("#findtext");
    await browser.type("out 3c0");
    await says("#textfinder output", "1 of 3");
    await browser.press("Escape");
    await browser.look(WINDOW);
  },

  async "a file that is dropped on the text is opened, and not typed into it"() {
    const before = await browser.value(TEXT);
    await browser.value(`(() => {
      const data = new DataTransfer();
      data.items.add(new File(["in 3CC\\nframe\\n"], "dropped.vga"));
      for (const kind of ["dragenter", "dragover", "drop"]) {
        document.getElementById("text").dispatchEvent(new DragEvent(kind, { bubbles: true, cancelable: true, dataTransfer: data }));
      }
    })()`);
    await textBecomes("in 3CC\nframe\n");
    await pause(300);
    assert.equal(await browser.value(TEXT), "in 3CC\nframe\n");
    await until("document.title.startsWith('dropped:')");
    // Loading it was the one change.
    await browser.press("Escape");
    await browser.press("z", { control: true });
    await textBecomes(before);
  },

  async "a text of too many lines is shown, and Ctrl+Z gives back the one before"() {
    const lines = "frame ; one of many\n".repeat(300001);
    await write("in 3CC\nframe\n");
    await browser.selectAll();
    await browser.paste(lines);
    await says("#about", "has 300,002 lines, and the page edits no text that long; it runs all the same.");
    await until("document.querySelectorAll('.longrow').length > 10");
    await browser.press("Escape");
    await browser.press("z", { control: true });
    await textBecomes("in 3CC\nframe\n");
    await until("document.getElementById('long').hidden");
    await until(IDLE);
  },
};

async function check(name, does) {
  try {
    await open("#example=driver-test");
    await does();
    assert.deepEqual(await browser.heard(), [], "the console");
    seen.push(name);
  } catch (error) {
    error.message = `${name}: ${error.message}`;
    throw error;
  }
}

try {
  await browser.look(WINDOW);
  const only = process.argv[3] ?? "";
  for (const [name, does] of Object.entries(CHECKS)) if (name.includes(only)) await check(name, does);
  console.log(`${seen.length} checks in ${browser.name}: ${seen.join("; ")}; the console is empty`);
} finally {
  await browser.stop();
}
