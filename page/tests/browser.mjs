// The page as built in Chromium: each control is used once, hostile scripts are told, and the
// console stays empty. node page/tests/browser.mjs [FOLDER]: screenshots are written into the
// folder. ZAKLIMOT_PAGE names another page.
import assert from "node:assert/strict";
import { existsSync, mkdirSync, mkdtempSync, readFileSync, readlinkSync, rmSync, writeFileSync }
  from "node:fs";
import { tmpdir } from "node:os";
import { dirname, resolve } from "node:path";
import { pathToFileURL } from "node:url";
import { gunzipSync, gzipSync } from "node:zlib";
import { KEYS } from "../view/keys.js";
import { Browser } from "./driving.mjs";
import { TEXT, select, textIs } from "./editing.mjs";
import { IDLE, LONG, figuresOf, figuresText, fragmentOf, isIdle, jumpsIn } from "./jumps.mjs";
import { FONTS, PAGE, TOP, pageData, withMemory } from "./loading.mjs";
import { openParts } from "./parts.mjs";

const ADDRESS = pathToFileURL(resolve(PAGE)).href, SHOTS = process.argv[2];
const WIDE = { width: 1280, height: 860 }, NARROW = { width: 390, height: 844, scale: 2 };
const browser = await Browser.started(), folder = mkdtempSync(`${tmpdir()}/zaklimot-page-`), seen = [];

const text = id => browser.value(`document.getElementById(${JSON.stringify(id)}).textContent`);
const step = async () => Number((await text("laststep")).match(/After step ([\d,]+)/)?.[1].replaceAll(
  ",", "") ?? 0);
const key = (...more) => browser.press(...more);
const fragment = async (script, more = "") => await fragmentOf(script) + more;

async function open(hash = "", address = ADDRESS) {
  await browser.open(address + hash);
  await browser.until(IDLE);
  await openParts(browser);
  await settled();
}

/** Waits until what was asked for is shown. */
async function settled() {
  await browser.value("new Promise(done => setTimeout(done, 60))");
}

async function stepIs(wanted) {
  const told = wanted ? `After step ${wanted.toLocaleString("en")} of` : "Power-on: no step";
  await browser.until(`document.getElementById("laststep").textContent.startsWith("${told}")`);
}

/** Pastes a text over the whole script. */
async function put(script) {
  await browser.click("#page");
  await browser.selectAll();
  await browser.paste(script);
}

/** Gives a control a value, as a hand would. */
async function set(id, value, event = "change") {
  await browser.value(`(() => { const control = document.getElementById(${JSON.stringify(id)});
    control.value = ${JSON.stringify(value)};
    control.dispatchEvent(new Event("${event}")); })()`);
}

/** Waits until an element says something. */
async function says(selector, words) {
  await browser.until(`document.querySelector("${selector}").textContent.includes(${JSON.stringify(words)})`);
}

async function goTo(kind, number) {
  await set("gotokind", kind);
  await set("gotonumber", number);
  await browser.click("#goto button");
}

function boxOf(selector) {
  return browser.value(`(() => { const box = document.querySelector("${selector}").getBoundingClientRect();
    return [box.left, box.top, box.width, box.height]; })()`);
}

async function check(name, does) {
  try {
    await does();
    assert.deepEqual(browser.said.splice(0), [], "the console");
    seen.push(name);
  } catch (error) {
    await shot("wrong");
    await end();
    error.message = `${name}: ${error.message}`;
    throw error;
  }
}

async function end() {
  await browser.stop();
  rmSync(folder, { recursive: true });
}

async function shot(name) {
  if (!SHOTS) return;
  mkdirSync(SHOTS, { recursive: true });
  writeFileSync(`${SHOTS}/${name}.png`, await browser.screenshot());
}

const SCRIPT = `; a script of the test
version 2
int ax=3 ; mode
repeat 3
outw 3D4 0A0A
advance 1000
in 3DA ; = 00
end
out 3B4 0 ; = E1
frame ; = picture 720x400
putw B8000 1F41
frame
`;
// 1 int; outw, advance, in three times: 2 to 10; 11 out; 12 frame; 13 putw; 14 frame
const CUT = `int ax=13
out 3C8 0
advance ${100 * 800 + 333}
out 3C9 3F
out 3C9 0
out 3C9 0
advance ${100 * 800 + 77}
out 3C8 0
out 3C9 0
out 3C9 0
out 3C9 3F
advance 24000
`;

await browser.look(WIDE);

await check("the check of all examples", async () => {
  await browser.open(`${ADDRESS}#check`);
  await browser.until("document.getElementById('checked') !== null");
  const told = (await text("checked")).trim().split("\n");
  assert.match(told.at(-1), /^\d+ agree, 0 differ$/, told.join("\n"));
  seen.push(told.at(-1));
});

await check("examples in the list", async () => {
  await open();
  const names = await browser.value("[...document.getElementById('examples').options].map(one => one.value)");
  assert.ok(names.length > 15);
  await set("examples", "driver-test");
  await stepIs(34);
  await browser.until(IDLE);
  assert.match(await text("compared"), /All 34 answers are those of one run by zak_run/);
  assert.match(await text("state"), /12 of 12 answers as expected/);
});

await check("steps, one and back, frames, ends", async () => {
  await open(await fragment(SCRIPT));
  assert.equal(await step(), 14);
  for (const [control, wanted] of [["back", 13], ["framebefore", 12], ["first", 0], ["next", 1], ["next", 2],
    ["frameafter", 12], ["last", 14]]) {
    await browser.click(`#${control}`);
    await stepIs(wanted);
  }
});

await check("the slider, and going to a step or a line", async () => {
  await set("slider", "5", "input");
  await stepIs(5);
  for (const [kind, number, wanted] of [["step", "7", 7], ["line", "9", 11], ["line", "5", 2]]) {
    await goTo(kind, number);
    await stepIs(wanted);
  }
  await goTo("step", "x");
  await browser.until("!document.getElementById('notice').hidden");
  await browser.click("#notice button");
  assert.equal(await browser.value("document.getElementById('notice').hidden"), true);
});

await check("the list of steps", async () => {
  await browser.click("#rows [data-step='4']");
  await stepIs(4);
});

await check("breakpoints: a line, clicked; run, and back", async () => {
  await browser.click("#first");
  await stepIs(0);
  await browser.click(".number[data-line='7']");
  for (const wanted of [4, 7, 10, 14]) {
    await browser.click("#run");
    await stepIs(wanted);
  }
  await browser.click("#runback");
  await stepIs(10);
  await browser.click(".number[data-line='7']");
});

await check("breakpoints by the form, each kind", async () => {
  await browser.click("#tab6");
  for (const [kind, fields, wanted] of [["port", { place: "3D5" }, 2],
    ["address", { place: "B8001", way: "written" }, 13],
    ["register", { register: "misc 0" }, 1], ["beam", { line: "1", dot: "200" }, 6], ["refusal", {}, 11],
      ["line", { line: "11" }, 13]]) {
    await browser.click("#first");
    await stepIs(0);
    await set("pointkind", kind);
    for (const [name, value] of Object.entries(fields)) await browser.value(
      `document.querySelector(".points [name=${name}]").value = "${value}"`);
    await browser.click("#pointadd");
    await browser.until("document.querySelectorAll('.points li').length === 1");
    await browser.click("#run");
    await stepIs(wanted);
    if (kind === "beam") await shot("breakpoints");
    await browser.click(".points li button");
  }
  await browser.click("#pointadd");
  await browser.until("document.querySelector('.points [role=alert]').textContent.length > 0");
});

await check("the picture: pointing, the glass, and a card that leads to the step", async () => {
  await browser.click("#last");
  await stepIs(14);
  const [left, top, width, height] = await boxOf("#picture");
  await browser.send("Input.dispatchMouseEvent", { type: "mouseMoved", x: left + 5 * width / 720, y: top +
    5 * height / 400 });
  await says("#dot", "cell of row 0, column 0: character 41, attribute 1F");
  assert.equal(await browser.value("document.getElementById('glass').hidden"), false);
  await browser.click("#framebefore");
  await stepIs(12);
  await browser.clickAt(left + 300.5 * width / 720, top + 1.5 * height / 400);
  await browser.click("#asked [data-action=drawn]");
  await stepIs(6);
  await browser.clickAt(left + 300.5 * width / 720, top + 200.5 * height / 400);
  await browser.click("#asked [data-action=drawn]");
  await stepIs(12);
});

await check("looks of the picture", async () => {
  for (const name of ["aspect", "sharp", "sofar", "hairs", "zoom"]) {
    for (const wanted of [false, true]) {
      await browser.click(`#${name}`);
      assert.equal(await browser.value(`document.getElementById("${name}").checked`), wanted, name);
    }
  }
});

await check("registers, with links to their places", async () => {
  await browser.click("#rows [data-step='2']");
  await stepIs(2);
  await browser.click("#tab1");
  // It is out of sight, and written a moment later.
  await browser.until("document.querySelector('#panel tr.changed')");
  const changed = await browser.value(
    "[...document.querySelectorAll('#panel tr.changed')].map(row => row.innerText.replace(/\\s+/g, ' '))");
  assert.equal(changed.length, 1);
  assert.match(changed[0], /^0A 0A .* cursor start/);
  const links = await browser.value(
    "[...document.querySelectorAll('#panel .name a')].map(one => one.getAttribute('href'))");
  assert.equal(links.length, 61);
  assert.ok(links.every(one => /REGISTERS\.md#[a-z-]+$/.test(one)));
});

await check("a refusal in words", async () => {
  await browser.click("#rows [data-step='11']");
  await stepIs(11);
  assert.match(await text("refusal"), /E1 NotDecoded The CRT controller is at 3D4 now.*port 3B4 is 3D4/);
  assert.match(await browser.value("document.querySelector('#refusal a').getAttribute('href')"),
    /REGISTERS\.md#ports$/);
  await shot("refusal");
});

await check("memory: planes, zoom, offset, the change", async () => {
  await browser.click("#rows [data-step='13']");
  await stepIs(13);
  await browser.click("#tab2");
  assert.match(await text("panel"), /plane 0: [\d,]+ bytes not 0, 1 changed/);
  await set("plane", "1");
  await set("planezoom", "2");
  await shot("plane");
  await set("offset", "1230");
  await browser.until("document.querySelector('.hex th').textContent === '1230'");
  await browser.click(".memory button[aria-label='16 rows up']");
  await browser.until("document.querySelector('.hex th').textContent === '1130'");
  await browser.click(".memory button[aria-label='16 rows down']");
  await browser.click(".memory .bar button:last-child");
  await browser.until("document.querySelector('.hex td.changed')?.textContent === '41'");
  await set("planezoom", "fit");
  await browser.click(".planes figure:nth-child(3) canvas");
  await browser.until("document.getElementById('plane').value === '2'");
});

await check("cells, colours, BIOS data", async () => {
  await browser.click("#tab3");
  assert.match(await browser.value("document.querySelector('.cells').getAttribute('aria-label')"),
    /25 rows of 80 cells: A/);
  const [left, top] = await boxOf(".cells");
  await browser.send("Input.dispatchMouseEvent", { type: "mouseMoved", x: left + 3, y: top + 3 });
  await says(".cellbox .told", "row 0, column 0: character 41 A, attribute 1F");
  await browser.click("#tab4");
  await browser.click(".dac button:nth-child(8)");
  assert.match(await browser.value("document.querySelector('.colours .told').textContent"),
    /DAC entry 07: red, green, blue 2A 2A 2A/);
  await browser.click("#tab5");
  assert.match(await browser.value("document.getElementById('panel').innerText"), /49 mode\s+03/);
});

await check("typing: a bad line with its reason, and mended", async () => {
  await put("int ax=3\nout 0x3C4 02 ; = 5\nframe");
  await browser.until(
    "document.querySelector('#why span').textContent === 'numbers are hexadecimal digits alone: write 3C4'");
  await shot("bad-line");
  await select(browser, 13, 15);
  await browser.send("Input.dispatchKeyEvent", { type: "keyDown", key: "Delete", windowsVirtualKeyCode: 46 });
  await browser.until(`document.getElementById('why').hidden && ${IDLE}`);
  assert.equal(await browser.value("document.querySelector('.answer.wrong').textContent"), "✗ ok");
});

await check("keys in the script", async () => {
  await open(await fragment(SCRIPT));
  await browser.click("#page");
  await select(browser, 60);
  await key("F9");
  await browser.until("document.querySelectorAll('.number.point').length === 1");
  await key("b", { control: true });
  await browser.until("document.querySelectorAll('.number.point').length === 0");
  await key("Enter", { control: true });
  await stepIs(2);
  await key("F10");
  await stepIs(3);
  await key("F8");
  await stepIs(14);
  await key("Escape");
});

await check("every key that the help tells", async () => {
  const run = { next: 1, back: 0, frameafter: 12, framebefore: 0, run: 14, first: 0, last: 14 };
  for (const [, , names, control] of KEYS) {
    for (const name of names) {
      if (control === "runback" || control === "openfile" || name.startsWith("Shift+?")) continue;
      await key("Escape");
      if (["next", "frameafter", "run"].includes(control)) await browser.click("#first");
      if (["back", "framebefore"].includes(control)) await goTo("step", "1");
      if (["next", "frameafter", "run"].includes(control)) await stepIs(0);
      if (["back", "framebefore"].includes(control)) await stepIs(1);
      await browser.value("document.activeElement.blur()");
      const shift = name.startsWith("Shift+");
      await key(name.replace("Shift+", ""), { shift });
      if (control in run) await stepIs(run[control]);
      if (control === "tab") await browser.until(
        `document.getElementById("tab${name}").getAttribute("aria-selected") === "true"`);
      if (control === "gotonumber" || control === "text") await browser.until(
        `document.activeElement.id === "${control}"`);
      if (control === "share") await browser.until("document.getElementById('linkbox').open");
      if (control === "help") await browser.until("document.getElementById('helpbox').open");
      if (control === "help") await shot("help");
      if (control === "savemenu") await browser.until("document.getElementById('savemenu').open");
      if (control === "full") {
        await browser.until("document.fullscreenElement !== null");
        await browser.value("document.exitFullscreen()");
      }
      if (control === "findsteps") await browser.until("!document.getElementById('stepfinder').hidden");
      if (control === "language") await browser.until("document.getElementById('languagebox').open");
      if (["share", "help", "language"].includes(control)) await browser.value(
        "document.querySelector('dialog[open]').close()");
      if (control === "savemenu") await browser.value("document.getElementById('savemenu').open = false");
      if (control === "play") {
        await key("p");
        await settled();
      }
    }
  }
});

await check("play goes from frame to frame", async () => {
  await browser.click("#first");
  await stepIs(0);
  await browser.click("#play");
  await stepIs(14);
  await browser.until("document.getElementById('play').textContent === 'play'");
});

await check("a link opens the same script at the same step", async () => {
  await browser.click("#rows [data-step='14']");
  await browser.click("#framebefore");
  await stepIs(12);
  await browser.click("#tab2");
  await browser.click("#share");
  await browser.until("document.getElementById('linkbox').open");
  const link = await browser.value("document.getElementById('link').value");
  await open("#" + link.split("#")[1]);
  await stepIs(12);
  assert.equal(await browser.value(TEXT), SCRIPT);
  assert.equal(await browser.value("document.getElementById('tab2').getAttribute('aria-selected')"), "true");
});

await check("what is saved", async () => {
  const begins = { savetext: "; a script", savebytes: "VGAS\x02", savereport: "1 ax=0003", savepng: "\x89PNG",
    saveapng: "\x89PNG" };
  for (const [control, begin] of Object.entries(begins)) {
    const count = browser.downloads.length;
    await browser.value("document.getElementById('savemenu').open = true");
    await browser.click(`#${control}`);
    await browser.until(() => browser.downloads[count]?.isDone);
    const bytes = readFileSync(`${browser.folder}/${browser.downloads[count].name}`);
    assert.equal(bytes.toString("latin1", 0, begin.length), begin, control);
    if (control === "saveapng") assert.ok(bytes.includes("acTL"));
    rmSync(`${browser.folder}/${browser.downloads[count].name}`);
  }
});

/** Has the page open a file that is chosen. */
async function choose(name, bytes) {
  writeFileSync(`${folder}/${name}`, bytes);
  await browser.choose("#file", `${folder}/${name}`);
}

await check("files: bytes, fonts, a trace; and one that is dropped", async () => {
  await choose("first-path.bin", readFileSync(`${TOP}examples/first-path.bin`));
  await browser.until(TEXT + ".startsWith('out 3C2 02\\nout 3C4 04')");
  await choose("own.fnt", FONTS.map(byte => byte ^ 255));
  await browser.until("!document.getElementById('ownfonts').hidden");
  await browser.click("#ownfonts");
  await browser.until("document.getElementById('ownfonts').hidden");
  await choose("typed-line.trace", readFileSync(`${TOP}examples/typed-line.trace`));
  await browser.until("document.querySelector('dialog.ask')?.open");
  await browser.press("Enter");
  await browser.until(TEXT + ".startsWith('out 3C2 67')");
  await browser.until("document.getElementById('state').textContent.includes('2 of 2 answers as expected')");
  await browser.value(
    `(() => { const files = new DataTransfer(); files.items.add(new File(["frame ; dropped"], "dropped.vga"));
    document.body.dispatchEvent(new DragEvent("dragover", { bubbles: true, dataTransfer: files }));
    document.body.dispatchEvent(new DragEvent("drop", { bubbles: true, dataTransfer: files })); })()`);
  await browser.until(
    `${textIs("frame ; dropped")} && document.getElementById('drop').hidden`);
});

await check("junk is told, and the page goes on", async () => {
  for (const [name, bytes, said] of [
    ["junk", Buffer.from(Array.from({ length: 3000 }, (_, i) => i * 73 + 7 & 255)),
      "no script, no trace and no font file"],
    ["cut.bin", Buffer.from("VGAS\x01\x01"), "is cut off"], ["long.vga", Buffer.alloc((1 << 24) + 1, 59),
      "more than 16,777,216 bytes"],
    ["sixteen.vga", Buffer.from("frame", "utf16le"), "UTF-16"],
      ["junk.gz", Buffer.from([0x1f, 0x8b, 8, 0, 1]), "unpacked"],
  ]) {
    await choose(name, bytes);
    await browser.until(`document.getElementById("notice").textContent.includes(${JSON.stringify(said)})`);
    assert.equal(await browser.value(TEXT), "frame ; dropped");
  }
  await browser.open(`${ADDRESS}#script=AAAA`);
  await browser.until("document.getElementById('notice').textContent.includes('damaged')");
});

await check("a page with a script of a command in it", async () => {
  const page = readFileSync(PAGE, "utf-8"), fonts = Buffer.from(FONTS).toString("base64");
  const bytes = readFileSync(`${TOP}examples/first-path.bin`).toString("base64");
  for (const [own, wanted, begin] of [
    [{ name: "own.vga", text: "in 3CC\nframe\n", fonts: null }, 2, "in 3CC\n"],
    [{ name: "own.bin", bytes, fonts }, 9, "out 3C2 02\n"],
  ]) {
    writeFileSync(`${folder}/own.html`, page.replace('"open":null', `"open":${JSON.stringify(own)}`));
    await open("#step=1", pathToFileURL(`${folder}/own.html`).href);
    await stepIs(1);
    assert.ok((await browser.value(TEXT)).startsWith(begin));
    assert.ok((await text("state")).startsWith(`${wanted} steps`));
    assert.equal(await text("about"), own.name);
  }
});

await check("a script of 16 MiB", async () => {
  await open();
  const line = "put A0000 11\n", count = Math.floor((1 << 24) / line.length);
  await choose("large.vga", line.repeat(count));
  await browser.until("document.getElementById('about').textContent.includes('the page edits no text that long')");
  await browser.until(`document.getElementById("state").textContent.startsWith("1,290,555 steps")`, 120000);
  await browser.until(IDLE);
  assert.equal(count, 1290555);
  assert.match(await text("compared"), /All 1,290,555 answers are those of one run by zak_run/);
  for (const wanted of [700000, 699999, 1290555, 1]) {
    await goTo("step", String(wanted));
    await stepIs(wanted);
  }
  await choose("bytes.bin", Buffer.concat([Buffer.from("VGAS\x01"), Buffer.alloc((1 << 24) - 5, 0xff)]));
  await browser.until("document.getElementById('notice').textContent.includes('which is no opcode')");
});

await check("an advance in a block of 65,535", async () => {
  await browser.open(ADDRESS + await fragment("version 2\nint ax=3\nrepeat 65535\nadvance 16777216\nend\n"));
  await browser.until("document.getElementById('state').textContent.startsWith('running: step')");
  await browser.until("document.getElementById('run').textContent.startsWith('stop')");
  await browser.value("new Promise(done => setTimeout(done, 1500))");
  await browser.click("#run");
  await browser.until("document.getElementById('state').textContent.startsWith('stopped: step')");
  const stopped = Number((await text("state")).match(/step ([\d,]+) of/)[1].replaceAll(",", ""));
  assert.ok(stopped > 1 && stopped < 60000, String(stopped));
  await stepIs(stopped);
  await browser.click("#back");
  await stepIs(stopped - 1);
});

await check("frames without an end", async () => {
  await browser.open(ADDRESS + await fragment("version 2\nint ax=3\nrepeat 65535\nint ax=E41\nframe\nend\n"));
  await browser.until("document.getElementById('state').textContent.startsWith('running: step')");
  await browser.value("new Promise(done => setTimeout(done, 3000))");
  await browser.click("#run");
  await browser.until("document.getElementById('run').textContent.startsWith('run')");
  assert.ok(await step() > 20);
});

await check("want of memory in the module", async () => {
  const page = readFileSync(PAGE, "utf-8"), { module } = pageData();
  for (const [pages, isRun] of [[300, false], [600, true]]) {
    const small = gzipSync(withMemory(gunzipSync(Buffer.from(module, "base64")), pages)).toString("base64");
    writeFileSync(`${folder}/small.html`, page.replace(module, small));
    const address = pathToFileURL(`${folder}/small.html`).href;
    await browser.open(address);
    if (!isRun) {
      await browser.until("document.getElementById('notice').textContent.includes('no memory left')");
      continue;
    }
    await browser.until(IDLE);
    await choose("large.vga", "put A0000 11\n".repeat(1290555));
    await browser.until("document.getElementById('notice').textContent.includes('no memory left')", 120000);
    await choose("small.vga", "int ax=3\nframe\n");
    await browser.until("document.getElementById('state').textContent.startsWith('2 steps')");
  }
});

/** Opens a script in a page in which some JavaScript has run first. */
async function openAfter(source, script) {
  const { identifier } = await browser.send("Page.addScriptToEvaluateOnNewDocument", { source });
  await browser.open(ADDRESS + await fragment(script));
  await browser.send("Page.removeScriptToEvaluateOnNewDocument", { identifier });
}

await check("a browser that lacks something says what it is", async () => {
  for (const [source, told] of [
    ["delete window.WebAssembly",
      "This browser has no WebAssembly, by which the page runs the adapter. Chromium 103,"],
    ["delete window.DecompressionStream",
      "This browser has no DecompressionStream, by which the page unpacks the adapter."],
    ["WebAssembly.instantiate = async () => { throw new WebAssembly.CompileError('no opcode'); }",
      "This browser's WebAssembly is too old for the adapter. (no opcode)"],
  ]) {
    await openAfter(source, "frame\n");
    await says("#notice", told);
  }
});

await check("answers that are not those of zak_run are told", async () => {
  const source = `{
    const post = Worker.prototype.postMessage;
    Worker.prototype.postMessage = function (message) {
      message.run.sums[0]++;
      post.call(this, message);
    };
  }`;
  await openAfter(source, SCRIPT);
  await says("#compared", "are not the same: step 12 answers otherwise. Please report it.");
});

await check("while a long run is held, the page goes on; another script ends it", async () => {
  const source = `{
    window.ended = 0;
    const end = Worker.prototype.terminate;
    Worker.prototype.terminate = function () { window.ended++; end.call(this); };
  }`;
  await openAfter(source, "version 2\nint ax=3\nrepeat 500\nint ax=E41\nframe\nend\n");
  await says("#compared", "Checking the 1,001 answers against those of one whole run");
  await browser.click("#back");
  await stepIs(1000);
  assert.equal(await browser.value("document.getElementById('compared').ariaBusy"), "true");
  await put(SCRIPT);
  await browser.until("window.ended === 1");
  await browser.until(IDLE);
  assert.match(await text("compared"), /All 14 answers are those of one run by zak_run/);
});

await check("a report that is too long is held as far as it goes", async () => {
  await browser.open(ADDRESS + await fragment("version 2\nint ax=3\nrepeat 700\nint ax=E41\nframe\nend\n"));
  await browser.until(IDLE, 120000);
  assert.match(await text("compared"),
    /^✓ The first 1,2\d\d of 1,401 answers are those of one run by zak_run\..* more than 512 MiB/);
});

await check("where no worker is to be had, short runs are held by the page itself", async () => {
  for (const source of ["window.Worker = class { constructor() { throw new Error('none'); } }",
    "window.Worker = class { postMessage() { this.onerror(new Event('error')); } terminate() {} }"]) {
    await openAfter(source, SCRIPT);
    await browser.until(IDLE);
    assert.match(await text("compared"), /All 14 answers are those of one run by zak_run/);
    await openAfter(source, "get 0\n".repeat(100001));
    await browser.until(IDLE);
    await says("#compared", "the page has no worker here, and the run has more than 100,000 steps");
  }
});

/**
 * In the page: all that tells of a step, each part by its name: the panel, the picture, the
 * bitmaps, and the rows in sight of the script and of the steps.
 */
const TOLD = `(() => {
  const parts = {}, all = selector => [...document.querySelectorAll(selector)];
  for (const id of ["step", "panel"]) {
    parts[id] = document.getElementById(id).innerHTML.replace(/ (?:class|title)=""/g, "");
  }
  all("canvas:not(#glass)").forEach((canvas, i) => { parts["canvas " + i] = canvas.toDataURL(); });
  for (const row of all(".row")) parts["step " + row.dataset.step] = row.className + row.title + row.innerText;
  const numbers = all(".number"), answers = all(".answer");
  numbers.forEach((one, i) => {
    parts["line " + one.dataset.line] = [one.className, one.title, answers[i].className, answers[i].title,
      answers[i].innerText].join();
  });
  return parts;
})()`;

/** What TOLD tells of a step, once the browser has drawn it and stands at its rows. */
async function toldOf(step) {
  await stepIs(step);
  await browser.until("document.querySelector('.row.here') && document.querySelector('.number.here')");
  // What is out of sight in a panel is written a moment later.
  await browser.value("new Promise(done => setTimeout(done, 200))");
  return browser.value(TOLD);
}

await check("after steps to and fro, all is shown as by a page that was opened there", async () => {
  await browser.look(WIDE);
  // Modes set by ports change the pitch of the planes, and what is text and what graphics.
  for (const [name, way] of [["text-screen", [30, 200, 130, 5, 199, 150]], ["planar-screen", [1, 150, 0, 90]],
    ["raster-bands", [100, 2, 101]], ["fifty-rows", [0, 1, 3, 2, 7]]]) {
    for (const [i, tab] of ["registers", "memory", "cells", "colours", "BIOS data"].entries()) {
      await open(`#example=${name}`);
      await browser.click(`#tab${i + 1}`);
      for (const at of way) {
        await set("slider", String(at), "input");
        await stepIs(at);
      }
      const last = way.at(-1), found = await toldOf(last);
      await open(`#example=${name}&step=${last}&tab=${encodeURIComponent(tab)}`);
      const fresh = await toldOf(last), shared = Object.keys(found).filter(part => part in fresh);
      assert.ok(shared.includes(`step ${last}`), `${name}, ${tab}: ${shared}`);
      for (const part of shared) assert.equal(found[part], fresh[part], `${name}, ${tab}, ${part}`);
    }
  }
});

/**
 * Tells times of jumps; on an idle machine the page's own work for each is held to 50 milliseconds.
 */
async function holdJumps(name, hashes, count) {
  const isHeld = await isIdle(), jumps = [];
  for (const hash of hashes) jumps.push(...(await jumpsIn(browser, PAGE, hash, count)).flat());
  const told = `${jumps.length} jumps in ${name}: ${figuresText(jumps)}`;
  seen.push(isHeld ? told : `${told}, on a machine that had other work`);
  assert.ok(figuresOf(jumps, "own").most < (isHeld ? 50 : 1000), told);
}

await check("any step of three million is shown within 50 milliseconds", async () => {
  await browser.look(WIDE);
  await holdJumps("3,000,001 steps", [await fragment(LONG)], 200);
});

await check("any step of an example is shown within 50 milliseconds", async () => {
  const names = ["text-by-services", "planar-screen", "colours-of-mode-13", "raster-bands"];
  await holdJumps("examples", names.map(name => `#example=${name}`), 48);
});

// A module whose next step traps, as one would whose memory was overwritten.
const TRAPS = `{
  const real = WebAssembly.instantiate;
  WebAssembly.instantiate = async (...given) => {
    const { instance } = await real.apply(WebAssembly, given), exports = { ...instance.exports };
    exports.zak_run_on = (...words) => {
      if (!window.traps) return instance.exports.zak_run_on(...words);
      window.traps = false;
      throw new WebAssembly.RuntimeError("unreachable");
    };
    return { instance: { exports } };
  };
}`;

await check("a module that traps is opened anew", async () => {
  const { identifier } = await browser.send("Page.addScriptToEvaluateOnNewDocument", { source: TRAPS });
  await open(await fragment(SCRIPT));
  await browser.value("window.traps = true");
  await browser.click("#back");
  await says("#notice", "The module has stopped (unreachable). It is opened anew");
  assert.equal(await text("state"), "no run");
  await put("int ax=3\nframe\n");
  await browser.until(IDLE);
  await stepIs(2);
  // Amid a run, too.
  await put("version 2\nint ax=3\nrepeat 65535\nint ax=E41\nframe\nend\n");
  await browser.until("document.getElementById('state').textContent.startsWith('running: step')");
  await browser.value("window.traps = true");
  await browser.until("document.getElementById('state').textContent === 'no run'");
  await put("int ax=3\nframe\n");
  await browser.until(IDLE);
  await stepIs(2);
  await browser.send("Page.removeScriptToEvaluateOnNewDocument", { identifier });
});

await check("every control has a name for screen readers", async () => {
  await browser.look(WIDE);
  await open(await fragment(SCRIPT));
  const roles = ["button", "checkbox", "combobox", "textbox", "slider", "listbox", "option", "link", "tab",
    "tabpanel", "image"];
  for (let tab = 1; tab <= 6; tab++) {
    await browser.click(`#tab${tab}`);
    await settled();
    const { nodes } = await browser.send("Accessibility.getFullAXTree");
    const controls = nodes.filter(node => !node.ignored && roles.includes(node.role?.value));
    assert.ok(controls.length > 40);
    const nameless = controls.filter(node => !node.name?.value)
      .map(node => `${node.role.value} ${node.nodeId}`);
    assert.deepEqual(nameless, []);
  }
});

await check("screenshots, wide and narrow, light and dark", async () => {
  const shots = { text: "#example=text-by-services&tab=cells&step=9",
    planar: "#example=planar-screen&step=150&tab=memory",
    "colours-256": "#example=colours-of-mode-13&tab=colours", "cut-at-a-dot": await fragment(CUT),
      registers: "#example=raster-bands&step=100" };
  for (const [name, hash] of Object.entries(shots)) {
    for (const [kind, look] of [["", WIDE], ["-dark", { ...WIDE, dark: true }], ["-narrow", NARROW],
      ["-narrow-dark", { ...NARROW, dark: true }]]) {
      await browser.look(look);
      await open(hash);
      const wide = await browser.value("document.documentElement.scrollWidth");
      assert.ok(wide <= look.width, `${name}${kind} is ${wide} wide`);
      await shot(name + kind);
    }
  }
});

const socket = dirname(readlinkSync(`${browser.folder}/SingletonSocket`));
await end();
assert.ok(!existsSync(socket), `Chromium has left ${socket}`);
console.log(`${seen.length} checks in Chromium: ${seen.join("; ")}; the console is empty`);
