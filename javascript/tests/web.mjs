// The example for the web: its page of one file has what README.md says, and its program runs on the
// package, frame by frame, with a canvas that only takes what it is given.
import assert from "node:assert/strict";
import test from "node:test";
import { existsSync, readFileSync } from "node:fs";
import { load } from "../zaklimot.js";

const FOLDER = new URL("../../examples/web/", import.meta.url);
const skip = !existsSync(FOLDER) && "the examples are not here";
const text = name => readFileSync(new URL(name, FOLDER), "utf-8");
const FRAMES = 30, FRAME_TIME = 1000 / 70.086;

/** What a page has of the browser, as far as the example asks for it. */
class FakePage {
  now = 0;
  said = "";
  drawn = [];
  next = null;

  globals(carried) {
    const element = { getContext: () => this, set textContent(words) { this.page.said = words; }, page: this };
    return {
      document: { getElementById: () => element }, performance: { now: () => this.now },
      requestAnimationFrame: next => { this.next = next; },
      ImageData: class { constructor(pixels, width, height) { Object.assign(this, { pixels, width, height }); } },
      globalThis: { carried },
    };
  }

  putImageData(image, ...place) {
    assert.equal(image.pixels.length, 4 * image.width * image.height);
    this.drawn.push({ image, place });
  }
}

/** Runs the script of a page, whose imports are given. */
async function run(script, page, carried) {
  const globals = { ...page.globals(carried), load };
  const AsyncFunction = (async () => {}).constructor;
  await new AsyncFunction(...Object.keys(globals), script)(...Object.values(globals));
  for (let i = 0; i < FRAMES; i++) {
    page.now += FRAME_TIME;
    page.next(page.now);
  }
}

for (const name of ["plasma.html", "plasma-one-file.html"]) {
  test(`${name} draws frames, 70 a second`, { skip }, async () => {
    const scripts = [...text(name).matchAll(/<script(?: type="module")?>\n([^]*?)<\/script>/g)]
      .map(([, script]) => script);
    const page = new FakePage(), script = scripts.at(-1).replace(/^import .*\n/m, "");
    const first = scripts[0].replace("globalThis.carried", "const carried");
    const carried = scripts.length > 1 && new Function(`${first} return carried;`)();
    await run(script, page, carried);
    assert.match(page.said, /^(29|30|31) frames, 70\.09 a second$/);
    assert.ok(page.drawn.length >= 29);
    const [{ image, place }] = page.drawn;
    assert.deepEqual([image.width, image.height, ...place], [320, 200, 0, 0, 0, 0, 320, 200]);
    const colours = new Set(new Uint32Array(page.drawn.at(-1).image.pixels.slice().buffer));
    assert.ok(colours.size > 100, `${colours.size} colours`);
  });
}

test("the page of one file has half a megabyte, and the other one some 100 lines", { skip }, () => {
  const { length } = readFileSync(new URL("plasma-one-file.html", FOLDER));
  const lines = text("plasma.html").split("\n").length;
  assert.match(text("README.md"), /half a megabyte/);
  assert.ok(length > 400_000 && length < 600_000, `${length} bytes`);
  assert.ok(lines > 90 && lines < 110, `${lines} lines`);
});
