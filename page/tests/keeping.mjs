// The page in a browser, as a person uses it with keys and pointer: nothing that was typed is lost,
// and no control keeps the keyboard. node page/tests/keeping.mjs [ENGINE [WORDS]]: ENGINE is
// chromium or firefox. With WORDS only the checks are done whose names have them. ZAKLIMOT_PAGE
// names another page.
import assert from "node:assert/strict";
import { mkdtempSync, rmSync, writeFileSync } from "node:fs";
import { tmpdir } from "node:os";
import { resolve } from "node:path";
import { pathToFileURL } from "node:url";
import { TEXT, caretAt as caretIn, pasteOver, textIs as isText } from "./editing.mjs";
import { begun } from "./engines.mjs";
import { IDLE, fragmentOf } from "./jumps.mjs";
import { PAGE } from "./loading.mjs";
import { openParts } from "./parts.mjs";

const ADDRESS = pathToFileURL(resolve(PAGE)).href, WINDOW = { width: 1280, height: 860 };
const { browser } = await begun(), seen = [], folder = mkdtempSync(`${tmpdir()}/zaklimot-keeping-`);
const OWN = "; my own bars\nint ax=3\nin 3DA\nframe\n", OTHER = "; another one\nin 3CC\nin 3DA\n";

const until = condition => browser.until(condition, 40000);
const value = id => browser.value(id === "text" ? TEXT : `document.getElementById("${id}").value`);
const text = id => browser.value(`document.getElementById("${id}").textContent`);
const pause = () => browser.value("new Promise(done => setTimeout(done, 60))");

async function check(name, does) {
  try {
    await does();
    assert.deepEqual(await browser.heard(), [], "the console");
    seen.push(name);
  } catch (error) {
    error.message = `${name}: ${error.message}`;
    throw error;
  }
}

/** Opens the page, and leaves it as it is: whatever is pressed takes its message away. */
async function openAlone(hash) {
  await browser.open(ADDRESS + hash);
  await until(IDLE);
  await pause();
}

async function open(hash = "", address = ADDRESS) {
  await browser.open(address + hash);
  await until(IDLE);
  await openParts(browser);
  await pause();
}

/** Does something by which the page goes elsewhere, and waits for the page that is there then. */
async function leaving(does) {
  await browser.value(`(() => { window.isOld = true; setTimeout(() => { ${does}; }, 0); })()`);
  await new Promise(done => setTimeout(done, 200));
  await until(`!window.isOld && document.readyState === "complete" && ${IDLE}`);
}

const reload = () => leaving("location.reload()");

const caretAt = place => caretIn(browser, place);

async function textIs(wanted) {
  await until(isText(wanted));
  await until(IDLE);
}

async function stepIs(step) {
  const told = step ? `After step ${step} of` : "Power-on: no step";
  await until(`document.getElementById("laststep").textContent.startsWith("${told}")`);
}

/** Pastes a text over the one in the page. */
async function paste(script) {
  await pasteOver(browser, script);
  await until(IDLE);
}

/**
 * Chooses an entry of the list of scripts, as by its list that opens: the pointer, and then the
 * entry.
 */
async function choose(entry) {
  await browser.value(`(() => {
    const list = document.getElementById("examples");
    list.dispatchEvent(new PointerEvent("pointerdown", { bubbles: true }));
    list.focus();
    const found = [...list.options].find(({ text, value }) => value === ${JSON.stringify(entry)} ||
      text.startsWith(${JSON.stringify(entry)}));
    list.value = found.value;
    list.dispatchEvent(new Event("input", { bubbles: true }));
    list.dispatchEvent(new Event("change", { bubbles: true }));
  })()`);
  await pause();
  await until(IDLE);
}

/** Drags the knob of a slider half its way, by the pointer. */
async function drag(selector) {
  const [x, y, width] = await browser.value(`(() => {
    const box = document.querySelector("${selector}").getBoundingClientRect();
    return [Math.round(box.left) + 8, Math.round(box.top + box.height / 2), Math.round(box.width)]; })()`);
  await browser.drag([x, y], [x + Math.round(width / 2), y]);
}

/** Drops files, which an expression makes, onto the page. */
async function drop(files) {
  await browser.value(`(() => {
    const data = new DataTransfer();
    for (const file of ${files}) data.items.add(file);
    for (const kind of ["dragover", "drop"]) {
      document.body.dispatchEvent(new DragEvent(kind, { bubbles: true, cancelable: true, dataTransfer: data }));
    }
  })()`);
}

const listed = () => browser.value(`(() => {
  const list = document.getElementById("examples");
  list.dispatchEvent(new PointerEvent("pointerdown", { bubbles: true }));
  return [...list.querySelectorAll("optgroup[label^=Your] option")].map(one => one.text);
})()`);

/** Takes away what earlier checks have kept. */
async function forget() {
  await open();
  await browser.value("(() => { localStorage.clear(); history.replaceState(null, ''); })()");
}

const CHECKS = {
  async "what was typed stands there after a reload"() {
    await forget();
    await open("#example=copper-bars");
    await paste(OWN);
    await reload();
    await textIs(OWN);
    assert.equal(await text("about"), "");
    await caretAt();
    await browser.press(";");
    // Before the page has run it, too.
    await reload();
    await until(isText(`${OWN};`));
    await caretAt();
    await browser.press("Backspace");
    await textIs(OWN);
  },

  async "it stands there after Back, and after another page"() {
    await browser.value(`void setTimeout(() => { location.href = "about:blank"; }, 0)`);
    await until("location.href === 'about:blank'");
    await browser.value("void setTimeout(() => history.back(), 0)");
    await until(IDLE);
    await textIs(OWN);
  },

  async "a fragment that changes loads its script, and Back, or a press, gives back the own one"() {
    await browser.value("void (location.hash = '#example=hunt')");
    await until("document.title.startsWith('hunt')");
    await browser.value("void setTimeout(() => history.back(), 0)");
    await textIs(OWN);
    await browser.value("void (location.hash = '#example=hunt&step=3')");
    await until("document.title.startsWith('hunt')");
    await stepIs(3);
    await browser.click("#takeback");
    await textIs(OWN);
    await browser.press("u");
    await until("document.title.startsWith('hunt')");
    await browser.press("u");
    await textIs(OWN);
  },

  async "a fragment that names no script leaves the one that stands there"() {
    await browser.value("void (location.hash = '#step=2')");
    await stepIs(2);
    assert.equal(await value("text"), OWN);
    await browser.value("void (location.hash = '#tab=memory')");
    await until(`document.getElementById("tab2").getAttribute("aria-selected") === "true"`);
    assert.equal(await value("text"), OWN);
  },

  async "it stands there in a page that is opened anew, as after a crash"() {
    await open();
    await textIs(OWN);
  },

  async "Ctrl+Z after loading gives back the own script, and mixes none"() {
    await forget();
    await open();
    const first = await value("text");
    await paste(OWN);
    await choose("hunt");
    const hunt = await value("text");
    assert.ok(hunt !== OWN && hunt.length > 100);
    await browser.click("#page");
    await browser.press("z", { control: true });
    await textIs(OWN);
    await browser.press("z", { control: true });
    await textIs(first);
    await browser.press("y", { control: true });
    await textIs(OWN);
    await browser.press("y", { control: true });
    await textIs(hunt);
    assert.equal(await value("examples"), "hunt");
    await browser.press("Escape");
    await browser.press("z", { control: true });
    await textIs(OWN);
    // What is typed then is the own script's, and so it is after it is undone.
    await caretAt();
    await browser.press("1");
    await until(isText(`${OWN}1`));
    await browser.press("z", { control: true });
    await textIs(OWN);
    assert.match(await browser.value("document.title"), /^script:/);
  },

  async "a longer script is kept a moment after a key, and when the page is left"() {
    await forget();
    await open("#example=hunt");
    const longer = OWN + "; one of many lines\n".repeat(2000);
    await paste(longer);
    await caretAt();
    await browser.press(";");
    await until(`Object.values(localStorage).some(text => text.endsWith("lines\\n;"))`);
    await browser.press("x");
    await reload();
    await until(isText(`${longer};x`));
    await browser.value("(() => { localStorage.clear(); history.replaceState(null, ''); })()");
    await open();
    await paste(OWN);
    await choose("hunt");
  },

  async "the list has the last scripts by their first comment, with a way back to each"() {
    await paste(OTHER);
    await choose("raster-bands");
    const names = await listed();
    assert.equal(names.length, 2);
    assert.match(names[0], /^another one · .*\d/);
    assert.match(names[1], /^my own bars · .*\d/);
    await choose("my own bars");
    await textIs(OWN);
    await choose("another one");
    await textIs(OTHER);
    await reload();
    assert.deepEqual((await listed()).length, 2);
    await textIs(OTHER);
  },

  async "a script that is pasted over an example is no longer that example"() {
    await choose("hunt");
    assert.match(await browser.value("document.title"), /^hunt:/);
    await paste(OWN);
    assert.match(await browser.value("document.title"), /^script:/);
    assert.ok(!/hunt/.test(await value("examples")) && await text("about") === "");
    await paste(await browser.value("document.title") && OTHER);
    await browser.press("z", { control: true });
    await browser.press("z", { control: true });
    await until("document.title.startsWith('hunt:')");
    assert.equal(await value("examples"), "hunt");
  },

  async "a new text starts at its end, and a changed one at the same step"() {
    await paste(OWN);
    await browser.press("Escape");
    await browser.press("Home");
    await browser.press("ArrowRight");
    await stepIs(1);
    await caretAt();
    await browser.type("f");
    await browser.type("rame");
    await textIs(`${OWN}frame`);
    await stepIs(1);
    await paste(OTHER);
    await stepIs(2);
  },

  async "breakpoints follow their lines"() {
    await paste(OWN);
    await browser.click(".number[data-line='3']");
    await caretAt(0);
    await browser.press("Enter");
    await textIs(`\n${OWN}`);
    const points = () => browser.value(
      "[...document.querySelectorAll('.number.point')].map(one => one.dataset.line).join()");
    assert.equal(await points(), "4");
    await browser.press("z", { control: true });
    await textIs(OWN);
    assert.equal(await points(), "3");
    // Those of another script are its own.
    await choose("hunt");
    assert.equal(await points(), "");
    await browser.press("u");
    await textIs(OWN);
    assert.equal(await points(), "3");
    await browser.click(".number[data-line='3']");
  },

  async "a file that was opened is kept under its name"() {
    writeFileSync(`${folder}/mine.vga`, OTHER);
    await browser.choose("#file", `${folder}/mine.vga`);
    await textIs(OTHER);
    await reload();
    await textIs(OTHER);
    assert.match(await browser.value("document.title"), /^mine:/);
  },

  async "a storage that is full is told once, and the page goes on"() {
    await forget();
    await open("#example=hunt");
    await browser.value(`(() => {
      for (let size = 1 << 23; size; size >>= 1) {
        try { localStorage.setItem("other" + size, "x".repeat(size)); } catch { }
      }
    })()`);
    await paste(OWN);
    await until("document.getElementById('notice').textContent.includes('storage is full')");
    await pause();
    assert.equal(await browser.value("document.getElementById('notice').hidden"), false);
    await browser.click("#notice button");
    await paste(OTHER);
    assert.equal(await browser.value("document.getElementById('notice').hidden"), true);
    await forget();
  },

  async "a storage that is forbidden is told once, and the page goes on"() {
    await open("#example=hunt");
    await browser.value(`void Object.defineProperty(window, "localStorage", {
      get() { throw new DOMException("no", "SecurityError"); } })`);
    await paste(OWN);
    await until("document.getElementById('notice').textContent.includes('keeps nothing for the page')");
    await browser.click("#notice button");
    await paste(OTHER);
    assert.equal(await browser.value("document.getElementById('notice').hidden"), true);
    await choose("hunt");
    await browser.press("u");
    await textIs(OTHER);
  },

  async "G leads to a step each time, and a number that leads nowhere is typed anew"() {
    await open("#example=copper-bars");
    for (const step of ["3", "25", "7"]) {
      await browser.press("g");
      await browser.type(step);
      await browser.press("Enter");
      await stepIs(step);
      assert.equal(await browser.value("document.activeElement.tagName"), "BODY");
    }
    await browser.press("ArrowRight");
    await stepIs(8);
    await browser.press("g");
    await browser.type("no number");
    await browser.press("Enter");
    await until("!document.getElementById('notice').hidden");
    assert.equal(await browser.value("document.activeElement.id"), "gotonumber");
    await browser.type("5");
    await browser.press("Enter");
    await stepIs(5);
  },

  async "letters that are typed in the list of scripts lead to an entry, and Enter opens it"() {
    await open("#example=copper-bars");
    const list = "document.getElementById('examples')", focus = () => browser.value(`${list}.focus()`);
    const stays = async () => {
      await pause();
      assert.ok(await browser.value("document.title.startsWith('copper-bars')"), await browser.value("document.title"));
      assert.ok(await browser.value("document.getElementById('machine').hidden"));
    };
    await focus();
    await browser.type("plasma");
    await stays();
    assert.match(await browser.value(`${list}.selectedOptions[0].text`), /^Plasma · plasma/);
    // Who leaves the list finds what stands there.
    await browser.value(`${list}.blur()`);
    await stays();
    assert.equal(await value("examples"), "copper-bars");
    await new Promise(done => setTimeout(done, 1500));
    await focus();
    await browser.type("driver");
    await stays();
    await browser.press("Enter");
    await until("document.title.startsWith('driver-test')");
    await until(IDLE);
    assert.equal(await browser.value("document.activeElement.tagName"), "BODY");
    // Arrows go from script to script as ever.
    await focus();
    await browser.press("ArrowUp");
    await until("!document.title.startsWith('driver-test')");
  },

  async "the help says what the page is and can do before its keys, and Escape leaves it"() {
    await open();
    await browser.press("?");
    await until("document.getElementById('helpbox').open");
    const tables = await browser.value("[...document.querySelectorAll('#keys caption')].map(one => one.textContent)");
    assert.deepEqual(tables, ["What you can do", "Keys", "Keys in the script", "Keys in the list of steps"]);
    const told = await text("keys");
    for (const words of ["VGA display adapter", "Run your game", "Drop it on the page", "Click the dot"]) {
      assert.ok(told.includes(words), words);
    }
    // All of it can be read, on a phone too.
    await browser.look({ width: 390, height: 844 });
    await pause();
    const fits = await browser.value(`(() => { const box = document.getElementById("helpbox");
      return box.scrollWidth <= box.clientWidth + 1 && box.clientHeight <= innerHeight; })()`);
    assert.ok(fits);
    await browser.look(WINDOW);
    await browser.press("Escape");
    await until("!document.getElementById('helpbox').open");
  },

  async "a script with a byte order mark is opened"() {
    await open();
    writeFileSync(`${folder}/marked.vga`, "\ufeffint ax=3\nframe\n");
    await browser.choose("#file", `${folder}/marked.vga`);
    await textIs("int ax=3\nframe\n");
    assert.match(await text("state"), /^2 steps/);
  },

  async "after an example was chosen, keys are the page's"() {
    await open();
    await choose("copper-bars");
    assert.equal(await browser.value("document.activeElement.tagName"), "BODY");
    await browser.press("Home");
    await stepIs(0);
    for (let step = 1; step < 4; step++) await browser.press("ArrowRight");
    await stepIs(3);
    assert.equal(await value("examples"), "copper-bars");
    // In the list that opens at a click, too: tried in Chromium.
    if (browser.send) {
      await browser.click("#examples");
      await pause();
      await browser.press("ArrowDown");
      await browser.press("Enter");
      await until("document.title.startsWith('driver-test')");
      await until(IDLE);
      await browser.press("Home");
      await stepIs(0);
      await browser.press("ArrowRight");
      await stepIs(1);
      assert.equal(await value("examples"), "driver-test");
      await choose("copper-bars");
    }
    // By keys alone: the list goes up and down, and the other keys are the page's.
    await browser.value("document.getElementById('examples').focus()");
    await browser.press("Home");
    await stepIs(0);
    await browser.press("ArrowRight");
    await stepIs(1);
    await browser.press("End");
    await until("document.getElementById('next').disabled");
    assert.equal(await value("examples"), "copper-bars");
    await browser.press("Escape");
  },

  async "after the slider was dragged, keys are the page's"() {
    await open();
    await paste("version 2\nint ax=3\nrepeat 500\nframe\nend\n");
    await browser.press("Escape");
    await browser.press("Home");
    await stepIs(0);
    await drag("#slider");
    await until("!document.getElementById('laststep').textContent.startsWith('Power-on')");
    assert.equal(await browser.value("document.activeElement.id"), "slider");
    await browser.press("Home");
    await stepIs(0);
    await browser.press("p");
    await until("document.getElementById('play').textContent === 'pause'");
    await browser.press("p");
    await until("document.getElementById('play').textContent === 'play'");
    await browser.press("3");
    await until(`document.getElementById("tab3").getAttribute("aria-selected") === "true"`);
    await browser.press("1");
  },

  async "a hostile fragment is told in a sentence, and the page stays usable"() {
    await forget();
    const cut = (await fragmentOf(OWN)).slice(0, -4);
    for (const [hash, said, count] of [["#step=abc", "step=abc names no step", 0], ["#step=-5", "names no step", 0],
      ["#example=hunt&step=0.5", "names no step", 0], ["#fonts=AAAA", "font file in this link is damaged", 0],
      ["#fonts=Y2AYBSMFAAA", "needs 9,728", 0], [cut, "script in this link is damaged", 0],
      ["#script=%%%&fonts=x", "damaged", 0], ["#tab=none", "names none of", 0], ["#%E0%A4", "", 0]]) {
      await openAlone(hash);
      const notice = await text("notice");
      assert.ok(notice.includes(said), `${hash}: ${notice}`);
      assert.ok((await value("text")).length > 50 && /^\d+ steps/.test(await text("state")), hash);
      await browser.press("Home");
      await stepIs(count);
      await browser.press("ArrowRight");
      await stepIs(1);
    }
    await paste(OWN);
    await stepIs(3);
    await browser.value("void (location.hash = '#script=AAAA')");
    await until("document.getElementById('notice').textContent.includes('damaged')");
    assert.equal(await value("text"), OWN);
  },

  async "several files, a folder, and junk amid a run"() {
    await open();
    await paste(OWN);
    await drop('[new File(["frame"], "a.vga"), new File(["frame"], "b.vga")]');
    await until("document.getElementById('notice').textContent.includes('These are 2 files')");
    if (browser.send) {
      for (const type of ["dragEnter", "dragOver", "drop"]) {
        await browser.send("Input.dispatchDragEvent", { type, x: 300, y: 300,
          data: { items: [], files: [folder], dragOperationsMask: 1 } });
      }
      await until("document.getElementById('notice').textContent.includes('nothing runs')");
      assert.equal(await browser.value("document.getElementById('drop').hidden"), true);
    }
    assert.equal(await value("text"), OWN);
    await browser.open(ADDRESS + await fragmentOf("version 2\nint ax=3\nrepeat 1000\nint ax=E41\nframe\nend\n"));
    await until("document.getElementById('state').textContent.startsWith('running: step')");
    await drop('[new File([Uint8Array.from({ length: 99 }, (_, i) => i)], "junk")]');
    await until("document.getElementById('notice').textContent.includes('no script, no trace')");
    // The run goes on to its end.
    await browser.until("document.getElementById('state').textContent.startsWith('2,001 steps')");
    await browser.open(ADDRESS + await fragmentOf("version 2\nint ax=3\nrepeat 60000\nint ax=E41\nframe\nend\n"));
    await until("document.getElementById('state').textContent.startsWith('running: step')");
    await drop('[new File(["in 3CC\\nframe\\n"], "b.vga")]');
    await textIs("in 3CC\nframe\n");
    await stepIs(2);
  },

  async "text that is dragged into the script is not taken for a file"() {
    await open();
    const isTaken = await browser.value(`(() => {
      const data = new DataTransfer();
      data.setData("text/plain", "frame");
      const event = new DragEvent("dragover", { bubbles: true, cancelable: true, dataTransfer: data });
      document.getElementById("text").dispatchEvent(event);
      const isShown = !document.getElementById("drop").hidden;
      document.getElementById("text").dispatchEvent(new DragEvent("drop", { bubbles: true, cancelable: true,
        dataTransfer: data, clientX: 200, clientY: 200 }));
      return isShown || !document.getElementById("drop").hidden;
    })()`);
    assert.equal(isTaken, false);
    // It is the field's, which puts it where it was dropped.
    await until(`${TEXT}.split("frame").length === ${(await value("text")).split("frame").length}`);
  },

  async "words: what a call hands back, a picture's size, whose palette mode 13 has, the version"() {
    await open();
    await paste(OWN);
    const answers = await browser.value("[...document.querySelectorAll('.answer')].map(one => one.textContent).join()");
    // What a call hands back as it was given tells nothing.
    assert.match(answers, /^,*00,picture 720x400,*$/);
    // What is seen: a button that is hidden has words, too.
    const last = await browser.value("document.getElementById('laststep').innerText.trim()");
    assert.equal(last, "After step 3 of 3, line 4: frame answers picture 720x400");
    await browser.press("Escape");
    await browser.press("4");
    const isTold = "!document.querySelector('.colours .hint').hidden";
    assert.equal(await browser.value(isTold), false);
    await paste("int ax=13\nframe\n");
    await until(isTold);
    assert.match(await browser.value("document.querySelector('.colours .hint').textContent"), /not IBM's/);
    assert.match(await text("version"), /^Zaklimot \d+\.\d+/);
    await browser.press("Escape");
    await browser.press("1");
  },

  async "the Save menu by keys, and what closes it"() {
    const isOpen = () => browser.value("document.getElementById('savemenu').open");
    const here = () => browser.value("document.activeElement.id || document.activeElement.tagName");
    await open();
    await browser.press("s");
    assert.deepEqual([await isOpen(), await here()], [true, "savetext"]);
    for (const [key, wanted] of [["ArrowDown", "savebytes"], ["ArrowUp", "savetext"], ["ArrowUp", "saveapng"],
      ["ArrowDown", "savetext"], ["End", "saveapng"], ["Home", "savetext"]]) {
      await browser.press(key);
      assert.equal(await here(), wanted, key);
    }
    // While it is open, keys are its own.
    await browser.press("p");
    assert.equal(await text("play"), "play");
    await browser.press("Escape");
    assert.deepEqual([await isOpen(), await here()], [false, "SUMMARY"]);
    await browser.press("Enter");
    assert.equal(await isOpen(), true);
    await browser.click("#laststep");
    assert.equal(await isOpen(), false);
    await browser.click("#savemenu summary");
    assert.equal(await isOpen(), true);
    await browser.press("ArrowDown");
    assert.equal(await here(), "savetext");
    await browser.press("Enter");
    assert.equal(await isOpen(), false);
  },

  async "one thing is saved at a time"() {
    await open();
    await paste("version 2\nint ax=3\nrepeat 60\nframe\nend\n");
    // Counts what is handed to the browser.
    await browser.value(`(() => { window.saved = 0; HTMLAnchorElement.prototype.click = () => { window.saved++; }; })()`);
    for (let time = 0; time < 3; time++) {
      await browser.click("#savemenu summary");
      await browser.click("#saveapng");
    }
    assert.match(await text("notice"), /Something is being saved/);
    await until("window.saved === 1");
    await new Promise(done => setTimeout(done, 1500));
    assert.equal(await browser.value("window.saved"), 1);
    await browser.click("#savemenu summary");
    await browser.click("#savetext");
    await until("window.saved === 2");
  },

  async "a link is copied at a press"() {
    await open();
    await browser.press("l");
    await until("document.getElementById('linkbox').open");
    await browser.value("document.addEventListener('copy', () => { window.copied = getSelection().toString() || " +
      "document.getElementById('link').value.slice(document.getElementById('link').selectionStart); })");
    await browser.click("#copylink");
    await until("document.getElementById('copied').textContent === 'Copied.'");
    assert.equal(await browser.value("window.copied === document.getElementById('link').value"), true);
    await browser.press("Escape");
  },

  async "the list of steps has keys, and tells which step is shown"() {
    await open();
    await paste(`version 2\nint ax=3\nrepeat 100\nin 3DA\nend\nframe\n`);
    await browser.press("Escape");
    await browser.press("Home");
    await stepIs(0);
    const list = `document.getElementById("listing")`, told = () => browser.value(`(() => {
      const row = document.getElementById(${list}.getAttribute("aria-activedescendant"));
      return row && [row.role ?? row.getAttribute("role"), row.getAttribute("aria-selected"), row.dataset.step,
        row.getAttribute("aria-setsize"), row.getBoundingClientRect().bottom <=
          ${list}.getBoundingClientRect().bottom + 1]; })()`);
    await browser.value(`${list}.focus()`);
    assert.equal(await told(), null);
    const page = await browser.value(`Math.floor(${list}.clientHeight / 18) - 1`);
    for (const [key, step] of [["ArrowDown", 1], ["ArrowDown", 2], ["PageDown", 2 + page], ["ArrowUp", 1 + page],
      ["PageUp", 1], ["ArrowRight", 2], ["End", 102], ["ArrowDown", 102], ["Home", 0], ["PageUp", 0],
      ["PageDown", page]]) {
      await browser.press(key);
      await stepIs(step);
      await pause();
      assert.deepEqual(await told(), step ? ["option", "true", String(step), "102", true] : null, key);
    }
    assert.equal(await browser.value(`document.activeElement === ${list}`), true);
  },

  async "lines on a phone are high enough to be touched, and stay beside the text"() {
    await open();
    await paste(OWN);
    const high = () => browser.value(`[".number", ".row", ".answer"].map(one =>
      document.querySelector(one).getBoundingClientRect().height)`);
    // From the first line's number to the third's, and from the first line of the text to the
    // third.
    const between = () => browser.value(`(() => {
      const [first, , third] = document.querySelectorAll(".number");
      const line = document.querySelector(".CodeMirror-line").getBoundingClientRect().height;
      return [third.getBoundingClientRect().top - first.getBoundingClientRect().top, 2 * line]; })()`);
    assert.deepEqual([await high(), await between()], [[18, 18, 18], [36, 36]]);
    await browser.look({ width: 500, height: 860 });
    await until(`document.querySelector(".number").getBoundingClientRect().height > 18`);
    await pause();
    assert.deepEqual([await high(), await between()], [[24, 24, 24], [48, 48]]);
    await browser.value(`document.querySelectorAll(".number")[2].click()`);
    await until(`document.querySelectorAll(".number")[2].classList.contains("point")`);
    await browser.look(WINDOW);
    await until(`document.querySelector(".number").getBoundingClientRect().height === 18`);
    await pause();
    assert.deepEqual([await high(), await between()], [[18, 18, 18], [36, 36]]);
  },

  async "play shows frames at the mode's rate"() {
    await open();
    // 280 frames of mode 3, of which 70.09 come in a second.
    await paste("version 2\nint ax=3\nrepeat 280\nframe\nend\n");
    await browser.press("Escape");
    await browser.press("Home");
    await stepIs(0);
    const seconds = await browser.value(`(async () => {
      const begun = performance.now(), isAt = word => document.getElementById("play").textContent === word;
      document.getElementById("play").click();
      do await new Promise(done => setTimeout(done, 5)); while (isAt("pause"));
      return (performance.now() - begun) / 1000;
    })()`);
    assert.ok(seconds > 3.7 && seconds < 5.5, `${seconds} seconds for 4.0`);
  },
};

try {
  await browser.look(WINDOW);
  const only = process.argv[3] ?? "";
  for (const [name, does] of Object.entries(CHECKS)) if (name.includes(only)) await check(name, does);
  console.log(`${seen.length} checks in ${browser.name}: ${seen.join("; ")}; the console is empty`);
} finally {
  await browser.stop();
  rmSync(folder, { recursive: true });
}
