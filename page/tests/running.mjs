// Software that runs in the page, in a browser: started, paused, taken back, explained and gone on with
// by keys and pointer, as a person does it.
// node page/tests/running.mjs [ENGINE [WORDS]]: ENGINE is chromium or firefox. With WORDS only the
// checks are done whose names have them. ZAKLIMOT_PAGE names another page.
import assert from "node:assert/strict";
import { execFileSync } from "node:child_process";
import { mkdirSync, mkdtempSync, readFileSync, rmSync, writeFileSync } from "node:fs";
import { tmpdir } from "node:os";
import { join } from "node:path";
import { ADDRESS, check } from "./using.mjs";

/** In the page: a drop of a folder as browsers tell it, of { name: text }, whose names may have folders. */
const DROP = `(name, texts) => {
  const fileOf = (text, last) => ({ name: last, isFile: true, isDirectory: false,
    file: done => done(new File([Uint8Array.from(atob(text), letter => letter.charCodeAt(0))], last)) });
  const folderOf = (last, inside) => {
    const names = [...new Set(Object.keys(inside).map(one => one.split("/")[0]))];
    const below = one => Object.fromEntries(Object.entries(inside).filter(([key]) => key.startsWith(one + "/"))
      .map(([key, text]) => [key.slice(one.length + 1), text]));
    const all = names.map(one => (one in inside ? fileOf(inside[one], one) : folderOf(one, below(one))));
    // A part at a time, and nothing at last.
    const createReader = () => {
      const left = [...all];
      return { readEntries: done => setTimeout(() => done(left.splice(0, 2))) };
    };
    return { name: last, isFile: false, isDirectory: true, createReader };
  };
  const event = new Event("drop", { bubbles: true, cancelable: true });
  const items = [{ kind: "file", webkitGetAsEntry: () => folderOf(name, texts) }];
  event.dataTransfer = { types: ["Files"], items, files: [] };
  document.body.dispatchEvent(event);
}`;
const LAPTOP = { width: 1366, height: 768 };
const folder = mkdtempSync(join(tmpdir(), "zaklimot-running-"));
process.on("exit", () => rmSync(folder, { recursive: true, force: true }));

/** A program that shows what is typed: interrupt 16, interrupt 10, and again. */
const ECHO = Buffer.from("B400CD16B40ECD10EBF6", "hex");

/** Bytes that hexadecimal digits spell. */
const code = digits => Buffer.from(digits.replaceAll(" ", ""), "hex");

await check(use => {
  const { browser } = use;
  const isLive = "!document.getElementById('machine').hidden && " +
    "document.getElementById('livestate').textContent.includes('frames a second')";
  const isPaused = "!document.getElementById('pausedbar').hidden && " +
    "document.getElementById('pausedtime').textContent.includes('is paused at') && " +
    "/^[\\d,]+ steps/.test(document.getElementById('state').textContent)";
  const notice = () => use.value("document.querySelector('#notice span').textContent");

  /** Has the page open a file of bytes. */
  async function openFile(name, bytes) {
    writeFileSync(join(folder, name), bytes);
    await browser.choose("#file", join(folder, name));
  }

  /** Chooses one of the page's programs in the list. */
  async function run(name) {
    await use.open();
    await use.value(`(() => {
      const list = document.getElementById("examples");
      list.value = "program ${name}.com";
      list.dispatchEvent(new Event("change", { bubbles: true }));
    })()`);
    await use.until(isLive);
  }

  async function pause() {
    await browser.press("F12");
    await use.until(isPaused);
  }

  /** Chooses what the machine stops at, and types which one. */
  async function stopAt(kind, words = "") {
    await use.value(`(() => {
      const list = document.getElementById("stopkind");
      list.value = ${JSON.stringify(kind)};
      list.dispatchEvent(new Event("change", { bubbles: true }));
    })()`);
    if (!words) return;
    await browser.click("#stopwords");
    await browser.type(words);
    await browser.press("Enter");
  }

  /** Clicks a button, and waits until another step is shown. */
  async function clickOn(button) {
    const before = JSON.stringify(await use.text("laststep"));
    await browser.click(button);
    await use.until(`document.getElementById("laststep").textContent !== ${before}`);
  }

  const colourAt = (canvas, x, y) => use.value(`(() => {
    const one = Object.assign(document.createElement("canvas"), { width: 1, height: 1 }), brush = one.getContext("2d");
    brush.drawImage(document.getElementById("${canvas}"), -${x}, -${y});
    return Array.from(brush.getImageData(0, 0, 1, 1).data);
  })()`);

  const choose = name => use.value(`(() => {
    const list = document.getElementById("examples");
    list.value = [...list.options].find(({ value, text }) =>
      ["${name}", "program ${name}"].includes(value) || text.startsWith("${name}")).value;
    list.dispatchEvent(new Event("change", { bubbles: true }));
  })()`);
  const isOff = "document.getElementById('machine').hidden && " +
    "document.getElementById('pausedbar').hidden && !document.body.classList.contains('paused')";
  /** What the list of scripts shows as chosen. */
  const chosen = () => use.value("document.getElementById('examples').selectedOptions[0].text");

  /** Types letters into a program that shows them, and waits until the machine has them. */
  async function typeLetters(letters) {
    await openFile("echo.com", ECHO);
    await use.until(isLive);
    await browser.type(letters);
    await new Promise(done => setTimeout(done, 500));
  }

  /** What a paused machine is: its time, its registers and its picture. */
  async function seenPaused() {
    await use.until(isPaused);
    await use.until("document.getElementById('liveregisters').textContent.includes('EAX')");
    return [await use.text("pausedtime"), await use.text("liveregisters"),
      await use.value("document.getElementById('picture').toDataURL()")];
  }

  /** Drops a folder of files, { name: bytes }: a real one in Chromium, and in Firefox what browsers tell of one. */
  async function dropFolder(name, files) {
    for (const [one, bytes] of Object.entries(files)) {
      mkdirSync(join(folder, name, one, ".."), { recursive: true });
      writeFileSync(join(folder, name, one), bytes);
    }
    if (browser.send) {
      for (const type of ["dragEnter", "dragOver", "drop"]) {
        await browser.send("Input.dispatchDragEvent", { type, x: 300, y: 300,
          data: { items: [], files: [join(folder, name)], dragOperationsMask: 1 } });
      }
      return;
    }
    const texts = Object.entries(files).map(([one, bytes]) => [one, Buffer.from(bytes).toString("base64")]);
    await use.value(`(${DROP})("${name}", ${JSON.stringify(Object.fromEntries(texts))})`);
  }

  /** The bytes of the file that the browser saves next, by its name; null where it tells of none. */
  async function saved(does) {
    if (!browser.downloads) return null;
    const before = browser.downloads.length;
    await does();
    await browser.until(() => browser.downloads[before]?.isDone);
    const { name } = browser.downloads[before];
    return { name, bytes: readFileSync(join(browser.folder, name)) };
  }

  /** Whether so many letters stand in the first row of the picture of a machine that is paused. */
  const isTyped = count => `(() => {
    const canvas = document.getElementById("picture"), width = canvas.width / 80;
    const { data } = canvas.getContext("2d").getImageData(0, 0, canvas.width, 10);
    const isLit = cell => Array.from({ length: 10 * width }, (_, i) =>
      data[4 * (Math.floor(i / width) * canvas.width + cell * width + i % width) + 1]).some(green => green > 60);
    return Array.from({ length: 80 }, (_, cell) => isLit(cell)).filter(lit => lit).length === ${count};
  })()`;

  /** Loads the page anew. */
  async function reload() {
    await use.value("(() => { window.isOld = true; setTimeout(() => location.reload(), 0); })()");
    await new Promise(done => setTimeout(done, 300));
    await use.until("!window.isOld && document.getElementById('compared')?.ariaBusy === 'false'");
  }

  /** Taps an element with a finger. */
  async function tap(selector) {
    const { left, top, width, height } = await use.placeOf(selector);
    const [x, y] = [Math.round(left + width / 2), Math.round(top + height / 2)];
    if (browser.send) {
      await browser.send("Input.dispatchTouchEvent", { type: "touchStart", touchPoints: [{ x, y }] });
      await browser.send("Input.dispatchTouchEvent", { type: "touchEnd", touchPoints: [] });
      return;
    }
    await browser.act({ type: "pointer", id: "finger", parameters: { pointerType: "touch" }, actions: [
      { type: "pointerMove", duration: 0, origin: "viewport", x, y }, { type: "pointerDown", button: 0 },
      { type: "pointerUp", button: 0 }] });
  }

  /** What came from outside in the runs that the browser keeps, the newest last: [does, values ..] each. */
  const keptInputs = () => use.value(`Object.keys(localStorage).filter(key => key.startsWith("zaklimot-run-"))
    .map(key => JSON.parse(localStorage.getItem(key))).sort((one, other) => one.time - other.time)
    .map(({ inputs }) => inputs.map(([, ...input]) => input))`);

  const secondsPaused = async () =>
    Number((await use.text("pausedtime")).match(/paused at ([\d.]+) s/)[1]);

  return {
    async "the picture has the colours of the adapter"() {
      // Mode 13, all of it in colour 1, which is blue; then it waits.
      const fill = "B81300CD10 B800A0 8EC0 31FF B90020 B80101 F3AB EBFE";
      await use.open();
      await openFile("blue.com", code(fill));
      await use.until(isLive);
      // A copy is asked, since the canvas itself is drawn to.
      const dot = `(() => {
        const copy = new OffscreenCanvas(1, 1).getContext("2d", { willReadFrequently: true });
        copy.drawImage(document.getElementById("live"), -40, -40);
        return [...copy.getImageData(0, 0, 1, 1).data].join();
      })()`;
      await use.until(`!["0,0,0,0", "0,0,0,255"].includes(${dot})`);
      assert.equal(await use.value(dot), "0,0,170,255");
    },

    async "a program runs, is paused by a key, and goes on"() {
      await run("plasma");
      assert.equal(await use.value("document.activeElement.id"), "live");
      await pause();
      assert.equal(await notice(), "");
      assert.match(await use.text("pausedtime"), /^plasma\.com is paused/);
      const [code, words] = [await use.text("code"), await use.text("laststep")];
      assert.match(code, /[0-9A-F]{4}:[0-9A-F]{4}  \w+/);
      assert.match(words, /^After step/);
      await use.until("document.getElementById('liveregisters').textContent.includes('EAX')");
      const before = await secondsPaused();
      await browser.click("#pausedgo");
      await use.until(isLive);
      await use.until("parseFloat(document.getElementById('livestate').textContent) > 3");
      await pause();
      const end = await secondsPaused();
      assert.ok(end >= before);
      // It goes on where it was paused, whatever is shown.
      await browser.click("#pausedfar");
      await use.until(`${isPaused} && /paused at 0\\./.test(document.getElementById('pausedtime').textContent)`);
      await browser.click("#pausedgo");
      await use.until(isLive);
      await pause();
      assert.ok(await secondsPaused() >= end);
    },

    async "header and footer tell of the program that runs, and of the script once it is off"() {
      await use.open("#example=hello");
      await use.until("/All [\\d,]+ answers/.test(document.getElementById('compared').textContent)");
      const told = async () => [await use.text("state"),
        await use.value("document.getElementById('compared').checkVisibility() ? document.getElementById('compared').textContent : ''")];
      const before = await told();
      await openFile("echo.com", ECHO);
      await use.until(isLive);
      assert.deepEqual(await told(), ["echo.com, running", ""]);
      await browser.click("#liveclose");
      await use.until(isOff);
      assert.deepEqual(await told(), before);
      // What is paused is compared, and of that nothing is told once it goes on.
      await openFile("echo.com", ECHO);
      await use.until(isLive);
      await pause();
      await use.until("/All [\\d,]+ answers/.test(document.getElementById('compared').textContent)");
      assert.match(await use.text("state"), /^[\d,]+ steps/);
      await browser.click("#pausedgo");
      await use.until(isLive);
      assert.deepEqual(await told(), ["echo.com, running", ""]);
    },

    async "a pause in a call of the BIOS shows its stub alone, and lacks nothing"() {
      await use.open();
      await openFile("echo.com", ECHO);
      await use.until(isLive);
      await pause();
      await use.until("document.getElementById('code').textContent.includes('iret')");
      const lines = await use.value("[...document.getElementById('code').children].map(line => line.textContent.trim())");
      const at = lines.findIndex(line => line.startsWith("F000:0058  out"));
      assert.deepEqual(lines.slice(at + 1), ["F000:005A  iret"], lines.join("\n"));
      await browser.click("#pausedgo");
      await use.until(isLive);
      await pause();
      assert.doesNotMatch(await use.text("livestate") + await use.text("pausedtime"), /lacks/);
    },

    async "a condition is kept to after a stop, and a frame that has passed is told"() {
      // inc cx; nop; nop; and again
      await use.open();
      await openFile("counts.com", code("41 90 90 EBFB"));
      await use.until(isLive);
      await stopAt("an instruction", "1000:0101 if CX=500");
      await use.until(isPaused);
      // The registers come a moment after the step.
      const counts = digits => use.until(`document.getElementById("liveregisters").textContent.includes("ECX ${digits}")`);
      await counts("00000500");
      await stopAt("an instruction", "1000:0101 if CX=7");
      await browser.click("#pausedgo");
      await use.until(isPaused);
      await counts("00000007");
      await stopAt("nothing");
      await browser.click("#pausedgo");
      await use.until("parseFloat(document.getElementById('livestate').textContent) > 1");
      await stopAt("a frame", "5");
      assert.match(await notice(), /^Frame 5 has passed: frame \d+ is under way\./);
    },

    async "a step's registers, code and instruction; and on from there"() {
      await run("lines");
      await use.until("parseFloat(document.getElementById('livestate').textContent) > 1.5");
      await pause();
      const end = await secondsPaused();
      await browser.click("#pausedback");
      await use.until(isPaused);
      assert.ok(await secondsPaused() < end, `${end}: ${await use.text("pausedtime")} ${await notice()}`);
      await clickOn("#framebefore");
      await clickOn("#back");
      await use.until("document.getElementById('liveregisters').textContent.includes('EAX')");
      const shown = await use.text("liveregisters"), step = await use.text("laststep");
      // Another step and back again: the same registers.
      for (const button of ["#next", "#next", "#back", "#back"]) await clickOn(button);
      assert.equal(await use.text("laststep"), step);
      await use.until(`document.getElementById("liveregisters").textContent === ${JSON.stringify(shown)}`);
      await browser.click("#pausedstep");
      await use.until(isLive);
      await pause();
      assert.equal(await notice(), "");
    },

    async "it stops at a frame, a port, a mode and an instruction with a condition"() {
      await run("plasma");
      await stopAt("a frame", "350");
      await use.until(isPaused);
      assert.match(await use.text("pausedtime"), /The frame that you asked for has come/);
      assert.ok(Math.abs(await secondsPaused() - 350 / 70.0863) < 0.1, await use.text("pausedtime"));
      await stopAt("a port or an address", "3DA");
      await browser.click("#pausedgo");
      await use.until(`${isPaused} && document.getElementById('pausedtime').textContent.includes('The cycle')`);
      assert.match(await use.text("laststep"), /in 3DA/);
      await stopAt("a mode that is set");
      await browser.click("#pausedstart");
      await use.until(`${isPaused} && document.getElementById('pausedtime').textContent.includes('A mode')`);
      assert.match(await use.text("laststep"), /int ax=0013/);
      // The place of the instruction that comes next, and a condition that holds there.
      await use.until("/CS [0-9A-F]{4}/.test(document.getElementById('liveregisters').textContent)");
      await stopAt("an instruction", "nonsense");
      await use.until("document.getElementById('notice').textContent.includes('no instruction')");
    },

    async "back to the mode that was set"() {
      await run("plasma");
      await pause();
      await browser.click("#pausedmode");
      await use.until(`${isPaused} && document.getElementById('laststep').textContent.includes('int ax=0013')`);
      assert.equal(await notice(), "");
    },

    async "the mistake in the tutorial's program is found"() {
      await run("broken");
      await use.until("parseFloat(document.getElementById('livestate').textContent) > 0.5");
      await pause();
      const { left, top, width, height } = await use.placeOf("#picture");
      await browser.clickAt(left + 10.5 / 640 * width, top + 20.5 / 480 * height);
      await use.until("document.body.textContent.includes('the last step that changed it')");
      await browser.press("C");
      await use.until("/put A0641 F8/.test(document.getElementById('laststep').textContent)");
      await use.until("document.getElementById('liveregisters').textContent.includes('EAX')");
      const lines = await use.value("[...document.querySelectorAll('#code div')].map(line => line.textContent)");
      assert.ok(lines.some(line => /repe stosb .*put A0641 F8/.test(line)), lines.join("\n"));
      assert.ok(lines.some(line => /out dx,ax .*outw 3CE F808/.test(line)), lines.join("\n"));
      await browser.press("7");
      await use.until("/bit mask/i.test(document.getElementById('panel').textContent)");
    },

    async "its picture has the colours of the picture when it is paused"() {
      await run("hello");
      await use.until("document.getElementById('live').width === 720");
      const place = [9 * 10, 16 * 4], live = await colourAt("live", ...place);
      assert.deepEqual(live, [0, 0, 170, 255], "blue");
      await pause();
      await clickOn("#framebefore");
      assert.deepEqual(await colourAt("picture", ...place), live);
    },

    async "a program that waits for a key is looked at less often, blinks, and hears a key at once"() {
      await run("hello");
      await use.until("parseFloat(document.getElementById('livestate').textContent) > 1.2");
      const { turns, looks } = await use.value(`new Promise(done => {
        const ask = requestAnimationFrame, looks = new Set(), canvas = document.getElementById("live");
        let turns = 0;
        window.requestAnimationFrame = does => { turns++; return ask(does); };
        const looking = setInterval(() => looks.add(canvas.toDataURL()), 50);
        setTimeout(() => {
          clearInterval(looking);
          window.requestAnimationFrame = ask;
          done({ turns, looks: looks.size });
        }, 1000);
      })`);
      assert.ok(turns < 30, `${turns} turns in a second`);
      assert.ok(looks >= 2, "with the cursor and without");
      await browser.press("a");
      // Its screen stands there, whole, until its last frames are asked for.
      await use.until("document.getElementById('livestate').textContent === 'The program has ended.'");
      assert.deepEqual([await use.value("document.getElementById('machine').hidden"), await use.text("livepause")],
        [false, "explain its last frames"]);
      assert.deepEqual(await colourAt("live", 9 * 70, 16 * 24), [0, 0, 0, 255]);
      assert.match(await use.value("document.title"), /^hello\.com, ended/);
      await browser.press("Enter");
      await use.until("document.getElementById('pausedtime').textContent.includes('The program has ended')");
      await browser.click("#pausedstart");
      await use.until(`${isLive} && document.getElementById("livepause").textContent === "pause and explain"`);
    },

    async "the colours of PCs' BIOSes in mode 13: told of once, and had by who asks for them"() {
      // mov ax, 13h; int 10h; mov ax, A000h; mov es, ax; mov byte es:[0], 28h; jmp $
      const program = code("B81300 CD10 B800A0 8EC0 26C606000028 EBFE"), isTold = "!document.getElementById('livecolours').hidden";
      await use.open();
      await use.value("localStorage.removeItem('zaklimot-look-colours told')");
      await openFile("red.com", program);
      await use.until(isTold);
      assert.ok(await use.isInSight("#livetheirs"));
      // By its number it is 1, 2 and 0 thirds; PCs have red there.
      const own = await colourAt("live", 0, 0);
      await browser.click("#livetheirs");
      await use.until(`${isLive} && parseFloat(document.getElementById("livestate").textContent) > 0.3`);
      assert.deepEqual([own, await colourAt("live", 0, 0)].map(([red, green]) => [red > 200, green > 0]), [[false, true], [true, false]]);
      assert.equal(await use.value(isTold), false);
      // It is so after a reload, is told no more, and can be switched off.
      await use.open();
      await openFile("red.com", program);
      await use.until("parseFloat(document.getElementById('livestate').textContent) > 0.3");
      assert.equal((await colourAt("live", 0, 0))[0] > 200, true);
      await browser.click("#livepalette");
      await browser.click("#liverestart");
      await use.until("parseFloat(document.getElementById('livestate').textContent) < 5");
      await new Promise(done => setTimeout(done, 1500));
      assert.deepEqual([await colourAt("live", 0, 0), await use.value(isTold)], [own, false]);
      await browser.click("#liveclose");
    },

    async "what was there before these frames is told to stand in earlier ones"() {
      await run("hello");
      await use.until("parseFloat(document.getElementById('livestate').textContent) > 1.5");
      await pause();
      await browser.click("#first");
      await use.until("document.getElementById('code').textContent.includes('earlier frames')");
    },

    async "a write that is older than the frames: on to the frames before, until it is there"() {
      await use.open();
      // mov ax, 13h; int 10h; mov ax, A000h; mov es, ax; mov byte es:[0140h], 15; then a poll of 3DA for ever
      await openFile("once.com", code("B81300 CD10 B800A0 8EC0 26C60640010F BADA03 EC EBFD"));
      await use.until("parseFloat(document.getElementById('livestate').textContent) > 1");
      await pause();
      const { left, top, width, height } = await use.placeOf("#picture");
      await browser.clickAt(left + 1 / 640 * width, top + 2.5 / 400 * height);
      await use.until("document.body.textContent.includes('the last step that changed it')");
      await browser.press("C");
      await use.until("!document.getElementById('older').hidden");
      assert.match(await use.text("found"), /^Dot .* was changed before these frames\. Their first [\d,]+ steps rebuild/);
      const isThere = "/put A0140 0F/.test(document.getElementById('laststep').textContent)";
      let count = 0;
      for (; !await use.value(`${isThere} && document.getElementById('older').hidden`) && count < 20; count++) {
        const before = await secondsPaused();
        await browser.click("#olderframes");
        await use.until(`Number(document.getElementById('pausedtime').textContent.match(/at ([\\d.]+) s/)[1]) < ${before}`);
        await use.until(`${isPaused} && !document.getElementById('found').hidden`);
      }
      assert.ok(await use.value(isThere), await use.text("laststep"));
      assert.match(await use.text("found"), /^This step changed dot/);
      assert.ok(count > 0 && count < 20, `${count} times`);
    },

    async "another script, which is chosen, switches the machine off"() {
      await run("plasma");
      assert.equal(await chosen(), "plasma.com, running");
      await choose("copper-bars");
      await use.until(isOff);
      await use.until("/^384 steps/.test(document.getElementById('state').textContent)");
      await run("hello");
      await pause();
      await choose("copper-bars");
      await use.until("/^384 steps/.test(document.getElementById('state').textContent)");
      await use.until(isOff);
    },

    async "a program that is switched off is brought back by a press, also after a script was chosen"() {
      await use.open();
      await use.value("localStorage.clear()");
      await typeLetters("hello");
      await pause();
      const seen = await seenPaused();
      assert.equal(await chosen(), "echo.com, paused");
      assert.match(await use.value("document.title"), /^echo\.com, paused/);
      await browser.click("#pausedclose");
      await use.until(isOff);
      assert.equal(await chosen(), "copper-bars");
      assert.match(await notice(), /^echo\.com, [\d.]+ s: it was switched off\. bring it back$/);
      await browser.click("#offered");
      assert.deepEqual(await seenPaused(), seen);
      // A script that is chosen; U leads back, and back again.
      await choose("copper-bars");
      await use.until(isOff);
      assert.match(await use.text("takeback"), /^↶ echo\.com, /);
      await browser.press("u");
      assert.deepEqual(await seenPaused(), seen);
      assert.equal(await use.text("takeback"), "↶ copper-bars");
      await browser.press("u");
      await use.until(isOff);
      await use.until("/^384 steps/.test(document.getElementById('state').textContent)");
      // Another program in its place.
      await choose("hello.com");
      await use.until(isLive);
      await pause();
      await choose("echo.com, ");
      assert.deepEqual(await seenPaused(), seen);
      // One that takes the place of what is on offers that.
      await choose("plasma.com");
      await use.until(isLive);
      assert.match(await notice(), /^echo\.com, [\d.]+ s: it was switched off\. bring it back$/);
      await browser.click("#liveclose");
    },

    async "a program runs on, paused or not, after the page was loaded anew"() {
      await use.open();
      await use.value("localStorage.clear()");
      await typeLetters("once");
      await reload();
      assert.match(await notice(), /^echo\.com, [\d.]+ s: it ran here when the page was left/);
      await browser.click("#offered");
      await use.until(isPaused);
      await browser.click("#pausedgo");
      await use.until(isLive);
      await browser.type("more");
      await new Promise(done => setTimeout(done, 500));
      await pause();
      const seen = await seenPaused();
      await reload();
      await browser.click("#offered");
      assert.deepEqual(await seenPaused(), seen);
      await browser.click("#pausedclose");
      await browser.click("#notice > button");
      // It is offered once; then it stands in the list.
      await reload();
      assert.equal(await notice(), "");
      await choose("echo.com, ");
      assert.deepEqual(await seenPaused(), seen);
      await browser.click("#pausedclose");
    },

    async "keys are lost neither by a start anew nor by going on from a step before them"() {
      await use.open();
      await use.value("localStorage.clear()");
      await typeLetters("first");
      await pause();
      const seen = await seenPaused();
      await browser.click("#pausedstart");
      await use.until(isLive);
      assert.match(await notice(), /was started again\. bring it back$/);
      await browser.click("#offered");
      assert.deepEqual(await seenPaused(), seen);
      await browser.click("#pausedfar");
      await use.until(`${isPaused} && /paused at 0\\./.test(document.getElementById('pausedtime').textContent)`);
      await clickOn("#first");
      await browser.click("#pausedstep");
      await use.until(isLive);
      assert.match(await notice(), /has the keys that came after this step\. bring it back$/);
      await browser.click("#offered");
      assert.deepEqual(await seenPaused(), seen);
      await browser.click("#pausedclose");
    },

    async "a long run that comes back tells how far it is, and can be stopped"() {
      await run("plasma");
      await use.until("parseFloat(document.getElementById('livestate').textContent) > 6");
      await reload();
      await browser.click("#offered");
      await use.until("/runs again as it ran: [\\d.]+ of [\\d.]+ s/" +
        ".test(document.getElementById('livestate').textContent)");
      await use.until("document.getElementById('liveway').value > 0.1");
      assert.equal(await use.text("livepause"), "stop here");
      await browser.click("#livepause");
      await use.until(isPaused);
      assert.ok(await secondsPaused() < 6, await use.text("pausedtime"));
      await browser.click("#pausedclose");
    },

    async "its last frames are saved as a trace, which opens as a script of the same picture"() {
      await run("bars");
      await pause();
      await browser.press("s");
      await use.until("!document.getElementById('savetrace').hidden && document.getElementById('savemenu').open");
      const file = await saved(() => browser.click("#savetrace"));
      assert.equal(await notice(), "");
      if (file) {
        assert.equal(file.name, "bars.com-frames.trace");
        await browser.click("#pausedclose");
        await use.until(isOff);
        await openFile("bars.trace", file.bytes);
        await use.until("document.querySelector('dialog.ask')?.textContent.includes('is a trace')");
        await browser.press("Enter");
        await use.until("/answers as expected/.test(document.getElementById('state').textContent)");
        assert.match(await use.text("state"), /(\d[\d,]*) of \1 answers as expected/);
      }
      await browser.press("s");
      assert.equal(await use.value("document.getElementById('savetrace').hidden"), Boolean(file));
    },

    async "a link holds a run with its keys, and a damaged one is told"() {
      await use.open();
      await use.value("localStorage.clear()");
      await typeLetters("linked");
      await pause();
      assert.ok(await use.value(isTyped(6)));
      await browser.press("l");
      await use.until("document.getElementById('linkbox').open");
      assert.match(await use.text("linksaid"), /^It has [\d,]+ characters, and holds the whole run, with each key/);
      const link = await use.value("document.getElementById('link').value");
      assert.ok(link.length < ADDRESS.length + 1000, `${link.length} characters`);
      await browser.press("Escape");
      await browser.click("#pausedclose");
      await use.until(isOff);
      await use.open(new URL(link).hash);
      await use.until(isLive);
      assert.equal(await use.text("livename"), "echo.com");
      await use.until("parseFloat(document.getElementById('livestate').textContent) > 3");
      await pause();
      assert.ok(await use.value(isTyped(6)));
      await browser.click("#pausedclose");
      for (const [hash, said] of [[new URL(link).hash.slice(0, -9), "The run in this link is damaged"],
        ["#run=AAAA", "The run in this link is damaged"], ["#run=", "The run in this link is damaged"]]) {
        await browser.open(ADDRESS + hash);
        await use.until(`document.querySelector('#notice span').textContent.includes(${JSON.stringify(said)})`);
      }
    },

    async "its frames become a script, and the machine is off"() {
      await run("hello");
      await pause();
      await browser.click("#pausedscript");
      await use.until("document.getElementById('pausedbar').hidden");
      await use.until("/^[\\d,]+ steps/.test(document.getElementById('state').textContent)");
      await use.until("/All [\\d,]+ answers are those/.test(document.getElementById('compared').textContent)");
    },

    async "a ZIP asks which of its programs is to run"() {
      await use.open();
      // mov ax, 13h; int 10h; and again for ever
      const program = code("B81300 CD10 EBFE"), names = ["one.com", "two.com"];
      for (const name of names) writeFileSync(join(folder, name), program);
      execFileSync("python3", ["-m", "zipfile", "-c", "both.zip", ...names], { cwd: folder });
      await browser.choose("#file", join(folder, "both.zip"));
      await use.until("document.querySelector('dialog.ask')?.textContent.includes('two.com')");
      await browser.press("Tab");
      await browser.press("Enter");
      await use.until(isLive);
      assert.equal(await use.text("livename"), "two.com");
      await browser.click("#liveclose");
    },

    async "a folder that is dropped is drive C: it asks which program runs, and what that wrote is saved"() {
      await use.open();
      // Opens IN.TXT, reads five bytes, makes OUT.TXT of them, and waits for a key.
      const program = code("B8003DBA3601CD2189C3B43FB90500BA4701CD21B43C31C9BA3E01CD2189C3B440B90500BA4701CD21" +
        "B43ECD2131C0CD16B8004CCD21" + "494E2E54585400" + "90" + "4F55542E54585400");
      await dropFolder("game", { "run.com": program, "in.txt": "hello and more", "deep/more/x.dat": "x",
        "other.com": code("EBFE"), "read.me": "words" });
      await use.until("document.querySelector('dialog.ask')?.textContent.includes('run.com')");
      const choices = "[...document.querySelectorAll('dialog.ask button')].map(one => one.textContent)";
      assert.deepEqual(await use.value(choices), ["game/other.com", "game/run.com"]);
      await browser.press("Tab");
      await browser.press("Enter");
      await use.until(isLive);
      assert.equal(await use.text("livename"), "game/run.com");
      await pause();
      // All that it wrote until it was paused, whatever is shown.
      const shown = JSON.stringify(await use.text("pausedtime"));
      await browser.click("#pausedfar");
      await use.until(`${isPaused} && document.getElementById("pausedtime").textContent !== ${shown}`);
      const file = await saved(() => browser.click("#pausedfiles"));
      if (file) assert.deepEqual([file.name, String(file.bytes)], ["OUT.TXT", "hello"]);
      assert.equal(await notice(), "");
      await browser.click("#pausedclose");
      await dropFolder("words", { "a.txt": "words", "b/c.txt": "more" });
      await use.until("document.getElementById('notice').textContent.includes('In words nothing runs')");
      await dropFolder("many", Object.fromEntries(Array.from({ length: 513 }, (_, i) => [`f${i}.txt`, "x"])));
      await use.until("document.getElementById('notice').textContent.includes('more than 512 files')");
    },

    async "floppies go into drives A and B while a program runs, and come back with the run"() {
      await use.open();
      await use.value("localStorage.clear()");
      // Reads the second sector of drive B, and types its first letter; again.
      const program = code("B80102 BB0002 B90200 BA0100 CD13 72F0 A00002 B40E CD10 EBE7");
      const floppy = letter => Buffer.alloc(163840, letter);
      await openFile("read.com", program);
      await use.until(isLive);
      await openFile("letters.img", floppy("Q"));
      await use.until("document.querySelector('dialog.ask')?.textContent.includes('letters.img is a floppy')");
      const answers = "[...document.querySelectorAll('dialog.ask button')].map(one => one.textContent)";
      assert.deepEqual(await use.value(answers), ["Put it into drive A", "Put it into drive B"]);
      await browser.press("Tab");
      await browser.press("Enter");
      await use.until("document.getElementById('notice').textContent.includes('letters.img is in drive B now')");
      await use.value("new Promise(done => setTimeout(done, 800))");
      await pause();
      assert.ok(await use.value(isTyped(80)));
      const seen = await seenPaused();
      // One that is opened while it is paused: it goes on.
      await openFile("other.img", floppy("W"));
      await use.until("document.querySelector('dialog.ask')?.textContent.includes('other.img')");
      await browser.press("Enter");
      await use.until(isLive);
      await pause();
      const later = await seenPaused();
      assert.notDeepEqual(later, seen);
      await reload();
      await browser.click("#offered");
      assert.deepEqual(await seenPaused(), later);
      const [inputs] = await keptInputs();
      assert.deepEqual(inputs.filter(([does]) => does === "change"), [["change", 1, 0], ["change", 0, 1]]);
      await browser.click("#pausedclose");
    },

    async "a finger types on the screen's keyboard, also with Shift held; and Ctrl+Alt+Del"() {
      await browser.look({ width: 400, height: 800 });
      await use.open();
      await use.value("localStorage.clear()");
      await openFile("echo.com", ECHO);
      await use.until(isLive);
      if (await use.value("document.getElementById('livekeys').hidden")) await browser.click("#livekeyboard");
      const isInSight = await use.value(`[...document.querySelectorAll("#livekeys button")].every(one => {
        const { left, right } = one.getBoundingClientRect();
        return left >= 0 && right <= innerWidth; })`);
      assert.ok(isInSight, "all keys fit on a phone");
      await use.value("document.getElementById('livekeys').scrollIntoView({ block: 'end' })");
      for (const key of ["KeyA", "ShiftLeft", "KeyB", "KeyC", "ShiftLeft", "Digit1"]) {
        await tap(`#livekeys [title=${key}]`);
      }
      await new Promise(done => setTimeout(done, 500));
      await use.value("document.getElementById('livepause').scrollIntoView()");
      await browser.click("#livepause");
      await use.until(isPaused);
      const keys = (await keptInputs())[0].filter(([does]) => does === "key");
      const letters = keys.filter(([, , word]) => word).map(([, , word]) => String.fromCharCode(word & 0xff));
      assert.deepEqual(letters.join(""), "aBc!");
      const bytes = keys.map(([, byte]) => byte);
      assert.deepEqual(bytes, [0x1e, 0x9e, 0x2a, 0x30, 0xb0, 0xaa, 0x2e, 0xae, 0x2a, 0x02, 0x82, 0xaa]);
      await browser.click("#pausedgo");
      await use.until(isLive);
      await use.value("document.getElementById('livedelete').scrollIntoView()");
      await tap("#livemore summary");
      await use.pause();
      await tap("#livedelete");
      await use.until("document.getElementById('notice').textContent.includes('was started again')");
      await use.until(isLive);
      await browser.click("#offered");
      await use.until(isPaused);
      await browser.click("#pausedclose");
    },

    async "a long run is soon back after the page was loaded anew, and goes back over what lies before"() {
      await use.open();
      await use.value("localStorage.clear()");
      await run("plasma");
      await use.until("parseFloat(document.getElementById('livestate').textContent) > 9");
      await pause();
      const seen = await seenPaused(), end = await secondsPaused();
      await use.until(`new Promise(done => {
        const request = indexedDB.open("zaklimot-runs");
        request.onsuccess = () => {
          const keys = request.result.transaction("software").objectStore("software").getAllKeys();
          keys.onsuccess = () => {
            request.result.close();
            done(keys.result.some(key => key.startsWith("state ")));
          };
        };
      })`);
      await reload();
      await browser.click("#offered");
      assert.deepEqual(await seenPaused(), seen);
      // It has no snapshots from before its state, so it runs again to a moment there: told, and stopped.
      const isOnItsWay = "!document.getElementById('liveway').hidden && " +
        "document.getElementById('liveway').value > 0.05";
      await browser.click("#pausedback");
      await use.until(isOnItsWay);
      await browser.click("#livepause");
      await use.until(isPaused);
      assert.ok(await secondsPaused() < end - 1, await use.text("pausedtime"));
      // It goes on where it was paused first.
      await browser.click("#pausedgo");
      await use.until(isLive);
      await pause();
      const later = await secondsPaused();
      assert.ok(later >= end);
      await browser.click("#pausedfar");
      await use.until(`${isPaused} && document.getElementById("pausedtime").textContent.includes("at ` +
        `${Math.max(0, later - 10).toFixed(1)}")`);
      assert.equal(await notice(), "");
      await browser.click("#pausedclose");
      await use.until(isOff);
    },

    async "a PC that is restarted by Ctrl+Alt+Del has its disk as it was left, and a ROM stands in the saved run"() {
      await use.open();
      const floppy = Buffer.alloc(163840), rom = Buffer.alloc(512);
      // Counts in the first byte of the second sector; then it waits.
      code("B80102 BB007E B90200 31D2 CD13 FE06007E B80103 BB007E B90200 31D2 CD13 F4 EBFD").copy(floppy);
      floppy.writeUInt16LE(0xaa55, 510);
      code("55AA01 CB").copy(rom);
      await openFile("video.rom", rom);
      await use.until("document.getElementById('notice').textContent.includes('video.rom serves the video calls')");
      await openFile("counts.img", floppy);
      await use.until(isLive);
      await browser.click("#livedelete");
      await use.until(isLive);
      await pause();
      const disk = await saved(() => browser.click("#pausedfiles"));
      if (disk) assert.deepEqual([disk.name, disk.bytes[512]], ["disk-a.img", 2]);
      const file = await saved(() => browser.click("#pausedsave"));
      if (file) assert.equal(typeof JSON.parse(String(file.bytes)).software.rom, "string");
      await browser.click("#pausedclose");
      await use.until(isOff);
    },

    async "files: a boot sector, one that does not start, and a script in bytes"() {
      await use.open();
      const sector = Buffer.alloc(512);
      // mov ax, 13h; int 10h; hlt and again
      code("B81300 CD10 F4 EBFD").copy(sector);
      sector.writeUInt16LE(0xaa55, 510);
      await openFile("sector.img", sector);
      await use.until(isLive);
      await pause();
      await browser.click("#pausedclose");
      await use.until("document.getElementById('pausedbar').hidden");
      await openFile("empty.img", Buffer.alloc(737280));
      await use.until("document.getElementById('notice').textContent.includes('does not start')");
    },
  };
}, LAPTOP);
