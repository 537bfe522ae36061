// The panes of the page in a browser: what is in sight at once, splitters by pointer, touch and
// keys, the size of the picture, and the full screen.
// node page/tests/panes.mjs [ENGINE [WORDS]]: ENGINE is chromium or firefox. With WORDS only the
// checks are done whose names have them. ZAKLIMOT_PAGE names another page.
import assert from "node:assert/strict";
import { IDLE } from "./jumps.mjs";
import { ADDRESS, check } from "./using.mjs";

const LAPTOP = { width: 1366, height: 768 }, WIDE = { width: 1920, height: 1080 };
const PHONE = { width: 390, height: 844 };
const BANDS = "#example=raster-bands&step=100";

/** In the page: places of the columns and of the list, from so many pixels on, at which no row stands. */
const gaps = from => `[["gutter", "number"], ["told", "answer"], ["listing", "row"]].flatMap(([id, row]) => {
  const box = document.getElementById(id), { top, height } = box.getBoundingClientRect();
  const rows = [...box.querySelectorAll("." + row)].map(one => one.getBoundingClientRect());
  return Array.from({ length: Math.floor(height / 4) - 3 }, (_, i) => ${from} + 4 * i)
    .filter(y => !rows.some(one => one.top <= top + y && one.bottom > top + y)).map(y => [id, y]);
})`;
/** In the page: texts that are wider than their boxes, those that are cut off and those that are not. */
const WIDER = `[true, false].map(isCut => [...document.querySelectorAll(".answer, .row span")].filter(one =>
  one.scrollWidth > one.clientWidth + 1 && isCut === (getComputedStyle(one).overflowX === "hidden"))
  .map(one => one.textContent))`;
/**
 * In the page: how many cells of the panel have the dots of the picture, nine a cell there, and those that have not.
 * Cells with a mark, or whose colours are alike, look otherwise.
 */
const CELLS = `(() => {
  const dotsOf = canvas => new Uint32Array(canvas.getContext("2d").getImageData(0, 0, canvas.width, canvas.height)
    .data.buffer);
  const [cells, picture] = [".cells", "#picture"].map(one => dotsOf(document.querySelector(one)));
  const others = [0xffd9904a, 0xff909090, 0xff303030], found = { same: 0, differ: [] };
  for (let cell = 0; cell < 2000; cell++) {
    const row = Math.floor(cell / 80), column = cell % 80, pairs = Array.from({ length: 128 }, (_, dot) =>
      [cells[640 * (16 * row + (dot >> 3)) + 8 * column + (dot & 7)],
        picture[720 * (16 * row + (dot >> 3)) + 9 * column + (dot & 7)]]);
    if (pairs.some(([dot]) => others.includes(dot))) continue;
    if (pairs.every(([one, other]) => one === other)) found.same++;
    else found.differ.push([row, column]);
  }
  return found;
})()`;

await check(use => {
  const { browser } = use, placeOf = selector => use.placeOf(selector);
  const near = (one, other) => assert.ok(Math.abs(one - other) <= 2, `${one}, not ${other}`);
  const middle = ({ left, top, width, height }) => [left + width / 2, top + height / 2];

  /** Forgets where splitters were, and opens the page anew. */
  async function anew() {
    await use.open(BANDS);
    await use.value("localStorage.clear()");
    await use.open(BANDS);
  }

  /** Goes to a step by the slider. */
  async function go(step) {
    await use.value(`(() => { const slider = document.getElementById("slider");
      slider.value = ${step};
      slider.dispatchEvent(new Event("input")); })()`);
    await use.stepIs(step);
  }

  /** Opens the page as one who has never seen it: nothing is kept, and nothing asked for. */
  async function atFirst() {
    await use.open(BANDS);
    await use.value("localStorage.clear()");
    await browser.open(ADDRESS);
    await use.until(IDLE);
    await use.pause();
  }

  const isSeen = id => use.value(`document.getElementById("${id}").checkVisibility()`);

  return {
    async "at first sight: one sentence, one large picture that is drawn, three things to do, and little else"() {
      for (const size of [LAPTOP, WIDE, PHONE]) {
        await browser.look(size);
        await atFirst();
        const told = await use.value("document.querySelector('#welcome p').textContent.replace(/\\s+/g, ' ')");
        assert.match(told, /^This is a VGA display adapter that you can take apart: [^.]*\.$/);
        for (const selector of ["#welcome p", "#trychange", "#trydrop", "#tryback", "#picture", "#back", "#next"]) {
          assert.ok(await use.isInSight(selector), `${selector} at ${size.width}`);
        }
        for (const id of ["panel", "listing", "gotonumber", "hairs", "savetext"]) {
          assert.ok(!await isSeen(id), `${id} at ${size.width}`);
        }
        const { width, height } = await placeOf("#picture");
        const share = width * height / (size.width * size.height);
        assert.ok(share > 0.24, `the picture has ${share.toFixed(2)} of ${size.width}`);
        // The beam draws it, until something is pressed.
        const step = () => use.value("document.getElementById('slider').value");
        if (Number(await step()) < 300) {
          const early = Number(await step());
          await use.until(`Number(document.getElementById("slider").value) > ${early}`);
        }
        await browser.press("End");
        await use.stepIs(384);
      }
    },

    async "the three things at first sight do what they say"() {
      await atFirst();
      await browser.click("#tryback");
      await use.until("document.getElementById('play').textContent === 'play'");
      await browser.press("End");
      await use.stepIs(384);
      await browser.click("#tryback");
      await use.stepIs(383);
      await browser.click("#trychange");
      assert.equal(await use.value("document.activeElement.id"), "text");
      await browser.press("Escape");
      // What the user knows is not told again.
      await browser.open(ADDRESS);
      await use.until(IDLE);
      assert.equal(await isSeen("welcome"), false);
    },

    async "parts open as they are needed, and stay open after a reload"() {
      await atFirst();
      await browser.press("End");
      await browser.click("#tab2");
      assert.deepEqual([await isSeen("panel"), await isSeen("listing")], [true, false]);
      await browser.click("#openlist");
      await use.pause();
      assert.ok(await use.value("document.querySelectorAll('#listing .row').length") > 3);
      await browser.open(ADDRESS);
      await use.until(IDLE);
      assert.deepEqual([await isSeen("panel"), await isSeen("listing")], [true, true]);
      await browser.click("#openstate");
      await browser.click("#openlist");
      await use.pause();
      assert.deepEqual([await isSeen("panel"), await isSeen("listing")], [false, false]);
      await browser.press("3");
      assert.equal(await isSeen("panel"), true);
      await browser.press("/");
      assert.ok(await use.isInSight("#stepfinder input"));
    },

    async "on a laptop picture, transport and first registers are in sight at once"() {
      await anew();
      for (const selector of ["#picture", "#transport", "#looks", "#step", "#tabs",
        "#panel .group:nth-child(1) tr", "#panel .group:nth-child(2) tr:nth-child(1)",
        "#panel .group:nth-child(2) tr:nth-child(2)", "#page", "#listing", "footer p"]) {
        assert.ok(await use.isInSight(selector), selector);
      }
      const { width } = await placeOf("#picture");
      assert.ok(width >= 500, `${width} pixels wide`);
      const high = await use.value("document.documentElement.scrollHeight");
      assert.ok(high <= LAPTOP.height, `${high} pixels high`);
    },

    async "a wide window is used: three columns"() {
      await browser.look(WIDE);
      await anew();
      const [picture, panel] = [await placeOf("#picture"), await placeOf("#panel")];
      assert.ok(picture.width >= 750 && panel.height >= 850, JSON.stringify([picture, panel]));
      assert.ok(panel.left > picture.left + picture.width);
    },

    async "a phone stacks all, as wide as it is"() {
      await browser.look(PHONE);
      await anew();
      // Firefox has no window that is as narrow.
      const room = await use.value("document.documentElement.clientWidth");
      assert.ok(room < 600 && await use.value("document.documentElement.scrollWidth") <= room);
      const tops = [];
      for (const id of ["picture", "transport", "step", "editor", "listing", "tabs", "panel"]) {
        tops.push((await placeOf(`#${id}`)).top);
      }
      assert.deepEqual(tops, [...tops].sort((one, other) => one - other));
      const splitters = "document.querySelectorAll('.splitter:not([hidden])').length";
      assert.equal(await use.value(splitters), 0);
      const { width } = await placeOf("#picture");
      near(width, room);
    },

    async "on a phone each step leaves the controls where the finger is"() {
      await browser.look(PHONE);
      await use.open("#example=copper-bars");
      await use.value("scrollTo(0, 250)");
      await use.pause();
      const seen = async () => [(await placeOf("#transport")).top, (await placeOf("#editor")).top];
      const first = await seen();
      for (const key of ["Home", "ArrowRight", "ArrowRight", "ArrowRight", "End", "ArrowLeft"]) {
        await browser.press(key);
        await use.pause();
        assert.deepEqual(await seen(), first, key);
      }
    },

    async "a tablet that is turned, and back, has the panes of its width"() {
      const isTablet = Boolean(browser.send);
      for (const [long, short] of [[1024, 768], [1280, 800]]) {
        const turn = async (width, height) => {
          // A tablet's window tells its width late: in Firefox the window alone is as wide.
          if (!isTablet) await browser.look({ width, height });
          else await browser.send("Emulation.setDeviceMetricsOverride", { width, height, deviceScaleFactor: 1, mobile: true });
          await use.pause();
          await use.pause();
        };
        const splitters = () => use.value("document.querySelectorAll('.splitter:not([hidden])').length");
        await turn(long, short);
        await anew();
        for (const count of [3, 0, 3, 0]) {
          assert.equal(await splitters(), count, `${long} by ${short}`);
          if (!count) assert.ok((await placeOf("#picture")).width > short - 30);
          await (count ? turn(short, long) : turn(long, short));
        }
      }
    },

    async "the pointer drags a splitter, which stays after a reload; two clicks bring it back"() {
      await anew();
      const old = await placeOf("#split-script"), [x, y] = middle(old);
      await browser.drag([x, y], [x + 120, y]);
      await use.pause();
      near((await placeOf("#split-script")).left, old.left + 120);
      // Who drags keeps the keys where they were.
      await browser.press("ArrowLeft");
      await use.stepIs(99);
      await use.open(BANDS);
      const moved = await placeOf("#split-script");
      near(moved.left, old.left + 120);
      near((await placeOf("#screenpane")).left, moved.left + moved.width);
      const [at, down] = middle(moved);
      await browser.clickAt(at, down);
      await use.value(`document.getElementById("split-script").dispatchEvent(
        new MouseEvent("dblclick", { bubbles: true }))`);
      await use.pause();
      near((await placeOf("#split-script")).left, old.left);
    },

    async "keys move a splitter and no step, and tell where it is"() {
      await anew();
      const value = async () => Number(await use.value(
        "document.getElementById('split-state').getAttribute('aria-valuenow')"));
      const old = await placeOf("#split-state"), first = await value();
      await use.value("document.getElementById('split-state').focus()");
      for (let press = 0; press < 3; press++) await browser.press("ArrowUp");
      await use.pause();
      near((await placeOf("#split-state")).top, old.top - 48);
      assert.ok(await value() < first);
      await browser.press("ArrowLeft");
      await use.pause();
      await use.stepIs(100);
      await browser.press("End");
      await use.pause();
      assert.ok((await placeOf("#statepane")).height >= 130);
      await browser.press("Home");
      await use.pause();
      assert.ok((await placeOf("#stage")).height >= 80);
      await browser.press("Enter");
      await use.pause();
      near((await placeOf("#split-state")).top, old.top);
      await browser.press("Escape");
      await browser.press("ArrowRight");
      await use.stepIs(101);
    },

    async "a finger drags a splitter"() {
      if (!browser.send) return;
      await anew();
      const old = await placeOf("#split-list"), [x, y] = middle(old);
      const touch = (type, ...touchPoints) =>
        browser.send("Input.dispatchTouchEvent", { type, touchPoints });
      await touch("touchStart", { x, y });
      for (const far of [20, 60]) await touch("touchMove", { x, y: y - far });
      await touch("touchEnd");
      await use.pause();
      near((await placeOf("#split-list")).top, old.top - 60);
    },

    async "a forbidden storage leaves splitters that move"() {
      await anew();
      await use.value(`void Object.defineProperty(window, "localStorage", {
        get() { throw new DOMException("no", "SecurityError"); } })`);
      const old = await placeOf("#split-script"), [x, y] = middle(old);
      await browser.drag([x, y], [x - 60, y]);
      await use.pause();
      near((await placeOf("#split-script")).left, old.left - 60);
    },

    async "the picture has one, two or three pixels a dot, or fills its pane"() {
      await anew();
      const size = async () => {
        await use.pause();
        const { width, height } = await placeOf("#picture");
        return [width, height];
      };
      const filling = await size();
      await browser.press("+", { shift: true });
      assert.deepEqual(await size(), [320, 240]);
      await browser.press("+", { shift: true });
      assert.deepEqual(await size(), [640, 480]);
      // What is larger than its pane is scrolled to, and a click still finds its dot.
      assert.ok(await use.value(`document.getElementById("scroll").scrollHeight >
        document.getElementById("scroll").clientHeight`));
      await use.open(BANDS);
      assert.deepEqual(await size(), [640, 480]);
      await browser.press("a");
      assert.deepEqual(await size(), [640, 800]);
      await browser.press("a");
      await browser.press("-");
      assert.deepEqual(await size(), [320, 240]);
      await browser.press("0");
      assert.deepEqual(await size(), filling);
      assert.equal(await use.value("document.getElementById('scale').value"), "0");
    },

    async "the picture on the full screen, and back"() {
      await anew();
      if (await use.value("document.getElementById('full').hidden")) return;
      const old = await placeOf("#picture");
      await browser.press("f");
      await use.until("document.fullscreenElement?.id === 'stage'");
      await use.pause();
      const { width, height } = await placeOf("#picture");
      assert.ok(width > old.width && height > old.height, `${width}, ${height}`);
      await browser.press("ArrowRight");
      await use.stepIs(101);
      // Who goes into the script sees it.
      await browser.press("e");
      await use.until("document.fullscreenElement === null && document.activeElement.id === 'text'");
      await browser.press("Escape");
      await browser.press("f");
      await use.until("document.fullscreenElement?.id === 'stage'");
      await browser.press("f");
      await use.until("document.fullscreenElement === null");
      await use.pause();
      near((await placeOf("#picture")).width, old.width);
    },

    async "a row stands at each place in sight, however far the script and the list are scrolled"() {
      await use.open("#example=text-screen");
      for (const step of [1, 60, 100, 137, 200]) {
        await go(step);
        await use.pause();
        assert.deepEqual(await use.value(gaps(8)), [], `step ${step}`);
      }
      // The text begins six pixels below its edge.
      for (const top of [0, 1, 5, 7, 17, 20, 333, 1000, 9999]) {
        await use.value(`document.querySelectorAll(".CodeMirror-scroll, #listing")
          .forEach(box => { box.scrollTop = ${top}; })`);
        await use.pause();
        assert.deepEqual(await use.value(gaps(top < 8 ? 8 : 1)), [], `scrolled by ${top}`);
      }
    },

    async "what is wider than its column is cut off, and nothing else"() {
      for (const width of [1366, 900, 700]) {
        await browser.look({ width, height: 768 });
        await use.openScript("version 2\nint ax=3\nputw B8000 1F41\nin 3DA\nint ax=F00\nadvance 9294300\n");
        await use.value("document.getElementById('split-script').focus()");
        await browser.press("Home");
        await use.pause();
        const [cut, spilt] = await use.value(WIDER);
        // A phone's rows have room for these.
        assert.ok(cut.length > 0 || width < 861, `${width} pixels`);
        assert.deepEqual(spilt, [], `${width} pixels`);
      }
    },

    async "registers out of sight are written a moment later, or once they come into sight"() {
      await use.open("#example=text-screen&step=1");
      const values = () => use.value(`["misc 00", "attr 0F"].map(name =>
        document.querySelector("[data-subject='register " + name + "'] .value").textContent)`);
      assert.deepEqual(await values(), ["67", "00"]);
      await go(200);
      await use.until(`document.querySelector("[data-subject='register attr 0F'] .value").textContent === "0F"`);
      // The moment never comes.
      await use.value(`(() => { const { setTimeout } = window;
        window.setTimeout = (does, time) => (time === 100 ? 0 : setTimeout(does, time)); })()`);
      await go(0);
      assert.deepEqual(await values(), ["00", "0F"]);
      await use.value(`document.querySelector("[data-subject='register attr 0F']").scrollIntoView()`);
      await use.until(`document.querySelector("[data-subject='register attr 0F'] .value").textContent === "00"`);
      await use.value("document.getElementById('panel').scrollTop = 0");
      await use.pause();
      await browser.press("2");
      await go(200);
      await browser.press("1");
      assert.deepEqual(await values(), ["67", "0F"]);
    },

    async "cells look as the picture does"() {
      // Rows 3 and 4 are alike, and so are those that are blank; a frame stands after each word.
      const words = [0, 3, 4, 24].map(row => `putw ${(0xb8000 + 160 * row + 20).toString(16)} 1F4${row >> 3}\nframe\n`);
      for (const steps of [[9], [1, 5, 9, 3, 7]]) {
        await use.openScript(`version 2\nint ax=3\n${words.join("")}`, "&tab=cells");
        for (const step of steps) await go(step);
        const { same, differ } = await use.value(CELLS);
        assert.deepEqual(differ, []);
        assert.ok(same > 1990, `${same} cells`);
      }
    },

    async "a click on a bitmap of memory scrolls to the byte, and marks it"() {
      await use.open("#example=planar-screen&step=150&tab=memory");
      await use.value(`document.querySelector(".planes canvas")
        .scrollIntoView({ block: "nearest" })`);
      await use.pause();
      const [x, y] = middle(await placeOf(".planes figure:nth-child(1)"));
      await browser.clickAt(x, y);
      await use.until("document.querySelector('.hex .marked') !== null");
      await use.pause();
      assert.ok(await use.isInSight(".hex .marked"));
      assert.equal(await use.value("document.querySelectorAll('.hex .marked').length"), 1);
      assert.equal(await use.value("document.scrollingElement.scrollTop"), 0);
    },
  };
}, LAPTOP);
