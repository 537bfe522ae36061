// Two runs side by side in a browser: files of another run are dropped onto the page, and keys go
// through what differs.
// node page/tests/sidebyside.mjs [ENGINE [WORDS]]: ENGINE is chromium or firefox. With WORDS only
// the checks are done whose names have them. ZAKLIMOT_PAGE names another page.
import { pasteOver } from "./editing.mjs";
import assert from "node:assert/strict";
import { mkdirSync, writeFileSync } from "node:fs";
import { deflateSync } from "node:zlib";
import { Session } from "../run/session.js";
import { crcOf, pngOf } from "../picture/png.js";
import { FONTS, examples, loadAdapter, runWhole } from "./loading.mjs";
import { check } from "./using.mjs";

const WINDOW = { width: 1366, height: 768 }, SHOTS = process.env.ZAKLIMOT_SHOTS;
const adapter = await loadAdapter();
const SCRIPT = "int ax=3\nin 3CC\nputw B8000 1F41\nframe\nin 3C5\nputw B8002 1F42\nframe\n";

/** A run of the script: its report, and the picture after some steps. */
function ran(text, steps) {
  const session = runWhole(new Session(adapter, FONTS, text));
  const report = adapter.run(session.script, { fonts: FONTS, room: session.reported });
  session.seek(steps - 1);
  const { picture } = session.seen(steps);
  session.close();
  return { report, picture };
}

const { report: REPORT, picture: PICTURE } = ran(SCRIPT, 7);
const base64 = bytes => Buffer.from(bytes).toString("base64");

/** The report with other answers of steps 2 and 5, and three other dots in the second picture. */
function plantedReport() {
  const text = Buffer.from(REPORT).toString("latin1").replace(/^2 ..$/m, "2 A5")
    .replace(/^5 ..$/m, "5 99");
  const bytes = Buffer.from(text, "latin1");
  const at = bytes.length - 1 - 3 * 720 * 400;
  for (const dot of [5 * 720 + 7, 5 * 720 + 8, 300 * 720 + 700]) bytes[at + 3 * dot] ^= 0x3f;
  return bytes;
}

/** The PNG of a picture, whose dots are so many times as wide and high, widened by a rule. */
async function pngOfOther({ width, height, rgb }, times = 1, change = () => {}) {
  const wide = new Uint8Array(rgb.length * times * times);
  for (let y = 0, to = 0; y < height * times; y++) {
    for (let x = 0; x < width * times; x++, to += 3) {
      const from = 3 * (Math.floor(y / times) * width + Math.floor(x / times));
      wide.set(rgb.subarray(from, from + 3), to);
    }
  }
  change(wide);
  return pngOf({ width: width * times, height: height * times, rgb: wide });
}

/** A chunk of a PNG. */
function chunk(kind, data) {
  const whole = Buffer.alloc(data.length + 12);
  whole.writeUInt32BE(data.length, 0);
  whole.write(kind, 4, "latin1");
  whole.set(data, 8);
  whole.writeUInt32BE(crcOf(whole.subarray(4, data.length + 8)), data.length + 8);
  return whole;
}

/** A PNG of a picture as another program writes it: by its own widening, and with a gamma of 1. */
function foreignPng({ width, height, rgb }, widen) {
  const head = Buffer.alloc(13), rows = Buffer.alloc((3 * width + 1) * height);
  head.writeUInt32BE(width, 0);
  head.writeUInt32BE(height, 4);
  head.set([8, 2], 8);
  for (let y = 0; y < height; y++) {
    const line = rgb.subarray(3 * width * y, 3 * width * (y + 1));
    rows.set(line.map(widen), (3 * width + 1) * y + 1);
  }
  return Buffer.concat([Buffer.from("\x89PNG\r\n\x1a\n", "latin1"), chunk("IHDR", head),
    chunk("gAMA", Buffer.from([0, 1, 0x86, 0xa0])), chunk("IDAT", deflateSync(rows)),
    chunk("IEND", Buffer.alloc(0))]);
}

/** In the page: a file of bytes in base64. */
const fileOf = (name, bytes) => `[new File([Uint8Array.from(atob("${base64(bytes)}"),
  letter => letter.charCodeAt(0))], "${name}")]`;

await check(use => {
  const { browser } = use, text = () => use.text("comparetext");
  const title = () => use.text("comparetitle"), titleSays = words => use.until(
    `document.getElementById("comparetitle").textContent.includes(${JSON.stringify(words)})`);
  const view = () => use.value("document.getElementById('compareview').value");
  const says = words => use.until(
    `document.getElementById("comparetext").textContent.includes(${JSON.stringify(words)})`);
  const notice = words => use.until(
    `document.getElementById("notice").textContent.includes(${JSON.stringify(words)})`);
  const dropped = (name, bytes) => use.drop(fileOf(name, bytes));

  /** The colour of a dot on a canvas, red, green and blue. */
  const dotOf = (id, x, y) => use.value(`(() => {
    const copy = Object.assign(document.createElement("canvas"), { width: 1, height: 1 });
    const brush = copy.getContext("2d", { willReadFrequently: true });
    brush.drawImage(document.getElementById("${id}"), -${x}, -${y});
    return [...brush.getImageData(0, 0, 1, 1).data.slice(0, 3)]; })()`);

  async function shot(name) {
    if (!SHOTS) return;
    mkdirSync(SHOTS, { recursive: true });
    await use.pause();
    writeFileSync(`${SHOTS}/${name}.png`, await browser.screenshot());
  }

  return {
    async "a report goes to the first step that differs, and keys to the others"() {
      await use.openScript(SCRIPT);
      await dropped("other.txt", plantedReport());
      await use.stepIs(2);
      await says("Step 2: ");
      assert.match(await text(), /^Step 2: [0-9A-F]{2} here, A5 there\.$/);
      assert.equal(await title(), "other.txt: 3 answers differ.");
      for (const [key, step] of [["n", 5], ["n", 7]]) {
        await browser.press(key);
        await use.stepIs(step);
      }
      await says("3 dots of 720 × 400 differ.");
      await browser.press("n");
      await notice("No later step differs.");
      await browser.press("N", { shift: true });
      await use.stepIs(5);
      await browser.press("Home");
      await use.stepIs(0);
      await browser.press("n");
      await use.stepIs(2);
    },

    async "the pictures by turns, what differs, and both side by side"() {
      await browser.press("End");
      await use.stepIs(7);
      await says("3 dots");
      const own = await dotOf("picture", 7, 5), place = await use.placeOf("#picture");
      assert.equal(await use.value("document.getElementById('other').hidden"), true);
      await browser.press("t");
      assert.equal(await view(), "other");
      assert.deepEqual(await use.placeOf("#other"), place);
      const other = await dotOf("other", 7, 5);
      assert.equal(other[0], own[0] ^ 255);
      assert.deepEqual(await dotOf("other", 9, 5), await dotOf("picture", 9, 5));
      await shot("other");
      await browser.press("t");
      assert.equal(await view(), "own");
      await browser.press("v");
      await browser.press("v");
      assert.equal(await view(), "difference");
      for (const [x, y] of [[7, 5], [8, 5], [700, 300]]) {
        assert.deepEqual(await dotOf("other", x, y), [255, 43, 255]);
      }
      assert.notDeepEqual(await dotOf("other", 9, 5), [255, 43, 255]);
      await shot("difference");
      await browser.press("v");
      await use.pause();
      const [left, right] = [await use.placeOf("#picture"), await use.placeOf("#other")];
      assert.ok(right.left >= left.left + left.width - 2 && Math.abs(left.width - right.width) < 2);
      await shot("side");
      // Where the report has no picture, this run's stands there alone.
      await browser.press("ArrowLeft");
      await use.stepIs(6);
      await use.until("document.getElementById('other').hidden");
      await browser.press("ArrowRight");
      await use.until("!document.getElementById('other').hidden");
      await browser.click("#endcompare");
      // Its keys do nothing then.
      for (const key of ["t", "n"]) await browser.press(key);
      await use.pause();
      await use.stepIs(7);
      assert.equal(await use.value("document.getElementById('compare').hidden"), true);
      assert.equal(await use.value("document.getElementById('other').hidden"), true);
    },

    async "a script that is changed is compared anew"() {
      await use.openScript(SCRIPT);
      await dropped("same.txt", REPORT);
      await titleSays("All answers");
      await pasteOver(browser, SCRIPT.replace("1F42", "1F43"));
      await titleSays("1 answer differs");
      await use.stepIs(7);
      await says("dots of 720 × 400 differ.");
      await browser.press("Escape");
    },

    async "a PNG of the same picture, with other dots, doubled, and of another size"() {
      await use.openScript(SCRIPT);
      await dropped("same.png", await pngOfOther(PICTURE));
      await says("All 720 × 400 dots are the same.");
      // The script is changed, and compared with the same picture.
      await pasteOver(browser, SCRIPT.replace("1F42", "2F42"));
      await says("dots of 720 × 400 differ.");
      await pasteOver(browser, SCRIPT);
      await browser.press("Escape");
      await browser.press("End");
      await use.stepIs(7);
      await says("All 720 × 400 dots are the same.");
      await dropped("planted.png", await pngOfOther(PICTURE, 1, rgb => {
        rgb[3 * (9 * 720 + 11)] ^= 0x20;
        rgb[3 * (200 * 720 + 3) + 2] ^= 1;
      }));
      await says("2 dots of 720 × 400 differ.");
      assert.equal(await view(), "difference");
      await says("Dot 11 of line 9: ");
      await browser.press("n");
      await says("Dot 3 of line 200: ");
      assert.equal(await use.value("document.getElementById('comparemark').hidden"), false);
      await browser.press("n");
      await notice("No lower line of the picture differs.");
      await browser.press("N", { shift: true });
      await says("Dot 11 of line 9: ");
      await shot("png");
      await dropped("double.png", await pngOfOther(PICTURE, 2));
      await says("It is twice as wide and twice as high: each dot is compared with the nearest");
      await says("All 720 × 400 dots are the same.");
      await dropped("small.png", await pngOfOther({ width: 700, height: 400,
        rgb: PICTURE.rgb.slice(0, 3 * 700 * 400) }));
      await says("The pictures differ in size: here 720 × 400 dots, there 700 × 400.");
      // The user picks the step.
      await dropped("same.png", await pngOfOther(PICTURE));
      await says("All 720 × 400 dots are the same.");
      await browser.press("ArrowLeft", { shift: true });
      await use.stepIs(4);
      await says("dots of 720 × 400 differ.");
    },

    async "a PNG that widens otherwise and has a gamma is compared in the bits of the DAC"() {
      const { picture } = ran(examples().find(({ name }) => name === "raster-bands.vga").text, 163);
      await use.open("#example=raster-bands");
      await dropped("bochs.png", foreignPng(picture, six => six << 2));
      await says("All 320 × 400 dots are the same.");
      await says("It widens six bits to eight by c<<2, and this page by c<<2 | c>>4.");
      const other = { ...picture, rgb: picture.rgb.slice() };
      other.rgb[3 * (320 * 77 + 5) + 1] ^= 1;
      await dropped("qemu.png", foreignPng(other, six => Math.round(six * 255 / 63)));
      await says("1 dot of 320 × 400 differs.");
      await says("Dot 5 of line 77: ");
      await says("by 255·c/63");
    },

    async "what is no report, too large or cut off is refused, and the page goes on"() {
      await use.openScript(SCRIPT);
      await dropped("cut.txt", REPORT.subarray(0, REPORT.length - 9));
      await notice("This report is cut off in the answer of step 7.");
      const large = await pngOfOther(PICTURE);
      const head = new DataView(large.buffer, large.byteOffset);
      head.setUint32(16, 1 << 24);
      head.setUint32(29, crcOf(large.subarray(12, 29)));
      await dropped("large.png", large);
      await notice("16,777,216 × 400 dots, and 16,777,216 are the most");
      const broken = (await pngOfOther(PICTURE)).slice(0, 4000);
      broken.fill(7, 60);
      await dropped("broken.png", broken);
      await notice("This PNG is cut off or damaged.");
      await browser.press("Home");
      await use.stepIs(0);
      await browser.click("#text");
      await browser.selectAll();
      await browser.paste("no step\n");
      await use.until("document.body.classList.contains('stale')");
      await dropped("same.txt", REPORT);
      await notice("There is no run to compare with: mend the script first.");
      assert.equal(await use.value("document.getElementById('compare').hidden"), true);
      await browser.selectAll();
      await browser.paste(SCRIPT);
      await browser.press("Escape");
    },

    async "a trace is opened as the script by Enter, compared by a click, and by Escape neither"() {
      const trace = Buffer.from("- r p 3CC 67 1\n- r p 3CC A5 1\n- w p 3C4 02 1\n");
      await use.openScript("in 3CC\nin 3CC\nout 3C4 02\nframe\n");
      const own = await use.value("document.title");
      await dropped("a.trace", trace);
      await use.until("document.querySelector('dialog.ask')?.open");
      await shot("ask");
      await browser.press("Escape");
      await use.until("document.querySelector('dialog.ask') === null");
      await use.pause();
      assert.equal(await use.value("document.title"), own);
      await dropped("a.trace", trace);
      await use.until("document.querySelector('dialog.ask')?.open");
      await browser.click("dialog.ask button[value=other]");
      await titleSays("2 cycles differ");
      await use.stepIs(1);
      await says("read here, 67 there");
      await browser.press("n");
      await use.stepIs(2);
      await dropped("a.trace", trace);
      await use.until("document.querySelector('dialog.ask')?.open");
      await browser.press("Enter");
      await use.until("document.title.startsWith('a:')");
      await use.until("document.getElementById('state').textContent.includes('of 2 answers')");
    },

    async "every report of an example is the same as the run, by a dropped file"() {
      for (const name of ["driver-test", "copper-bars"]) {
        const { report } = ran(examples().find(one => one.name === `${name}.vga`).text, 1);
        await use.open(`#example=${name}`);
        await dropped(`${name}.txt`, report);
        await titleSays("All answers");
      }
    },
  };
}, WINDOW);
