// Who wrote this dot? A program that draws into a hidden page, turns pages, and draws into the shown page
// while the beam is amid a frame keeps a list of who wrote each of its pixels. The page finds the same.
import assert from "node:assert/strict";
import test from "node:test";
import { DotSearch } from "../explain/dotsearch.js";
import { Session } from "../run/session.js";
import { Random } from "./randomly.mjs";
import { FONTS, loadAdapter, runWhole } from "./loading.mjs";

const adapter = await loadAdapter(), FRAMES = 14, WIDTH = 320, ROWS = 90;
const hex = (value, count) => value.toString(16).toUpperCase().padStart(count, "0");

/** Notes who wrote a pixel, if the write changes it. */
class Pages {
  pixels = [new Map(), new Map()];

  note(page, x, y, step, change) {
    const all = this.pixels[page], key = WIDTH * y + x, { value = 0, steps = [] } = all.get(key) ?? {};
    const now = change(value);
    if (now !== value) all.set(key, { value: now, steps: [...steps, step] });
  }

  /** The steps that changed a pixel so far, by pages and pixels. */
  get lists() {
    return this.pixels.map(all => new Map([...all].map(([key, { steps }]) => [key, steps])));
  }
}

/** A script that a program writes, step by step. */
class Program {
  lines = [];
  pages = new Pages();

  step(line) {
    this.lines.push(line);
    return this.lines.length;
  }

  /** Shows a page from the next frame on. */
  turn(begin) {
    this.step(`outw 3D4 ${hex(begin >> 8, 2)}0C`);
    this.step(`outw 3D4 ${hex(begin & 255, 2)}0D`);
  }
}

/** How each mode draws a pixel of a page, or eight of them; `dots` and `lines` are those of a pixel. */
const MODES = {
  "13": { setup: ["int ax=0013"], begins: [0, 8000], dots: 2, lines: 2, lineDots: 800,
    draw(program, page, x, y, colour) {
      const step = program.step(`put ${hex(0xa0000 + 32000 * page + WIDTH * y + x, 5)} ${hex(colour, 2)}`);
      program.pages.note(page, x, y, step, () => colour);
    } },
  "X": { setup: ["int ax=0013", "outw 3C4 0604", "outw 3D4 0014", "outw 3D4 E317"], begins: [0, 0x4000], dots: 2,
    lines: 2, lineDots: 800,
    draw(program, page, x, y, colour) {
      program.step(`outw 3C4 ${hex(1 << x % 4, 2)}02`);
      const step = program.step(`put ${hex(0xa0000 + 0x4000 * page + 80 * y + (x >> 2), 5)} ${hex(colour, 2)}`);
      program.pages.note(page, x, y, step, () => colour);
    } },
  "D": { setup: ["int ax=000D"], begins: [0, 0x2000], dots: 1, lines: 2, lineDots: 400,
    draw(program, page, x, y, colour) {
      const four = colour & 15, address = hex(0xa0000 + 0x2000 * page + 40 * y + (x >> 3), 5);
      for (const [mask, byte] of [[four, "FF"], [~four & 15, "00"]]) {
        program.step(`outw 3C4 ${hex(mask, 2)}02`);
        const step = program.step(`put ${address} ${byte}`);
        for (let dot = 0; dot < 8; dot++) {
          program.pages.note(page, (x & ~7) + dot, y, step, value => (byte === "FF" ? value | mask : value & ~mask));
        }
      }
    } },
};

/**
 * A program that draws some frames: { text, pictures }. Each picture has the steps after which it is seen,
 * and of its upper and its lower part the page with the list of who wrote its pixels when it was drawn.
 */
function drawn(mode, random) {
  const { setup, begins, lines, lineDots, draw } = MODES[mode], program = new Program(), pictures = [];
  for (const line of setup) program.step(line);
  program.step("frame");
  const some = (page, count) => {
    for (let i = 0; i < count; i++) {
      // Few places and colours, so that much is drawn again.
      draw(program, page, random.below(12), 6 * random.below(ROWS / 6), random.one([0, 3, 9, 0x0f]));
    }
  };
  for (let frame = 0; frame < FRAMES; frame++) {
    const shown = frame % 2;
    some(shown, 40);
    program.turn(begins[shown]);
    const middle = 30 + random.below(30);
    program.step(`advance ${lineDots * lines * middle}`);
    const upper = program.pages.lists[shown];
    // Amid the frame: into the page that is shown, above the beam and below it; and the other page is turned to.
    some(shown, 20);
    program.turn(begins[1 - shown]);
    const lower = program.pages.lists[shown];
    some(1 - shown, 5);
    pictures.push({ steps: program.step("frame"), middle, upper, lower });
  }
  return { text: program.lines.join("\n"), pictures };
}

function found(search) {
  let told = null;
  while (!told) told = search.take(1000);
  return told;
}

for (const [mode, { dots, lines }] of Object.entries(MODES)) {
  test(`who wrote a dot of mode ${mode}, with two pages and changes within frames`, () => {
    const random = new Random(mode.charCodeAt(0)), { text, pictures } = drawn(mode, random);
    const session = runWhole(new Session(adapter, FONTS, text));
    let asked = 0, again = 0, amid = 0;
    assert.equal(session.refused, 0);
    for (const { steps, middle, upper, lower } of pictures.slice(2)) {
      const keys = [...lower.keys()];
      for (let i = 0; i < 8; i++) {
        const key = random.one(keys), x = key % WIDTH, y = Math.floor(key / WIDTH), list = y < middle ? upper : lower;
        const wanted = list.get(key) ?? [], place = { line: lines * y, dot: dots * x };
        if (!wanted.length) continue;
        if (y < middle && lower.get(key).length > wanted.length) amid++;
        const told = found(new DotSearch(session, place, steps, { isDrawn: true }));
        assert.equal(told.steps, wanted.at(-1), `${x}, ${y} after ${steps} steps, ${JSON.stringify(told.differing)}`);
        asked++;
        if (wanted.length < 2) continue;
        const before = found(new DotSearch(session, place, told.steps - 1, { told }));
        assert.equal(before.steps, wanted.at(-2), `the one before, of ${x}, ${y} after ${steps} steps`);
        again++;
      }
    }
    console.log(`mode ${mode}: ${asked} dots, ${again} asked again, ${amid} written again after they were drawn`);
    assert.ok(asked > 50 && again > 10 && amid > 3);
    session.close();
  });
}
