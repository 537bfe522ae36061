// What the tests in a browser share: they use the page with keys and pointer, as a person does.
import assert from "node:assert/strict";
import { resolve } from "node:path";
import { pathToFileURL } from "node:url";
import { begun } from "./engines.mjs";
import { IDLE, fragmentOf } from "./jumps.mjs";
import { PAGE } from "./loading.mjs";
import { openParts } from "./parts.mjs";

export const ADDRESS = pathToFileURL(resolve(PAGE)).href;
/** Milliseconds that a check waits for one thing. The longest wait took 15 seconds, beside three times other work. */
const PATIENCE = 40000;

/** The page in a browser. */
export class Use {
  constructor(browser) {
    this.browser = browser;
  }

  until(condition) {
    return this.browser.until(condition, PATIENCE);
  }

  value(expression) {
    return this.browser.value(expression);
  }

  text(id) {
    return this.value(`document.getElementById("${id}").textContent`);
  }

  /** Waits for the browser to lay out and draw. */
  pause() {
    return this.value("new Promise(done => setTimeout(done, 80))");
  }

  async open(hash = "") {
    await this.browser.open(ADDRESS + hash);
    await this.until(IDLE);
    await openParts(this.browser);
    await this.pause();
  }

  async openScript(script, more = "") {
    await this.open(await fragmentOf(script) + more);
  }

  async stepIs(step) {
    const text = step ? `After step ${step.toLocaleString("en")} of` : "Power-on: no step";
    await this.until(`document.getElementById("laststep").textContent.startsWith("${text}")`);
  }

  /** Where an element stands: { left, top, width, height }. */
  placeOf(selector) {
    return this.value(`(() => {
      const { left, top, width, height } =
        document.querySelector(${JSON.stringify(selector)}).getBoundingClientRect();
      return { left, top, width, height }; })()`);
  }

  /** Whether the whole of an element is in sight, in the window and in what scrolls round it. */
  isInSight(selector) {
    return this.value(`(() => {
      const made = document.querySelector(${JSON.stringify(selector)});
      const inner = made.getBoundingClientRect();
      const fits = outer => inner.top >= outer.top - 1 && inner.bottom <= outer.bottom + 1 &&
        inner.left >= outer.left - 1 && inner.right <= outer.right + 1;
      let isIn = fits({ top: 0, left: 0, bottom: innerHeight, right: innerWidth });
      for (let box = made.parentElement; box; box = box.parentElement) {
        const { overflowX, overflowY } = getComputedStyle(box);
        if (overflowX !== "visible" || overflowY !== "visible") {
          if (box !== document.body && box !== document.documentElement) {
            isIn &&= fits(box.getBoundingClientRect());
          }
        }
      }
      return isIn; })()`);
  }

  /** Drops files, which an expression in the page makes, onto the page. */
  drop(files) {
    return this.value(`(() => {
      const data = new DataTransfer();
      for (const file of ${files}) data.items.add(file);
      for (const kind of ["dragover", "drop"]) {
        document.body.dispatchEvent(
          new DragEvent(kind, { bubbles: true, cancelable: true, dataTransfer: data }));
      }
    })()`);
  }
}

/**
 * Does checks in the browser that the command names, each { name: function }, and tells them. The
 * console stays empty. A further word has only the checks done whose names have it.
 */
export async function check(makeChecks, look) {
  const { browser } = await begun(), use = new Use(browser), seen = [];
  try {
    const only = process.argv[3] ?? "";
    for (const [name, does] of Object.entries(makeChecks(use))) {
      if (!name.includes(only)) continue;
      await browser.look(look);
      try {
        await does();
        assert.deepEqual(await browser.heard(), [], "the console");
      } catch (error) {
        error.message = `${name}: ${error.message}`;
        throw error;
      }
      seen.push(name);
    }
    console.log(`${seen.length} checks in ${browser.name}: ${seen.join("; ")}; ` +
      "the console is empty");
  } finally {
    await browser.stop();
  }
}
