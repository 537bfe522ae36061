// How long the page takes for a paste of a megabyte, and for each key in it, from the event to the
// frame that shows it. Keys are pressed amid the text as a person types: on and on, and with pauses
// after which the text is judged. node page/tests/typing.mjs [ENGINE [FOLDER]]: ENGINE is chromium
// or firefox. ZAKLIMOT_PAGE names another page.
import assert from "node:assert/strict";
import { resolve } from "node:path";
import { pathToFileURL } from "node:url";
import { TEXT, caretAt } from "./editing.mjs";
import { begun } from "./engines.mjs";
import { IDLE, isIdle } from "./jumps.mjs";
import { PAGE } from "./loading.mjs";

const ADDRESS = pathToFileURL(resolve(PAGE)).href, WINDOW = { width: 1280, height: 860 };
/**
 * What a paste and a key may take, in milliseconds, on a machine without other work; and of other
 * machines.
 */
const MOST_PASTE = 2000, MOST_KEY = 50, LATE = 10;
const LINES = 23000, KEYS = 60;
/**
 * Milliseconds between two keys, in turn: of a quick hand, and of one that stops while the text is
 * read and run.
 */
const PACES = { "typed on": [60], "with pauses": [1020, 1080, 1150, 1250, 1400, 1650] };

/** A script of a megabyte: 23,000 steps with a comment each. */
const script = Array.from({ length: LINES }, (_, i) =>
  `put ${(0xa0000 + i % 65536).toString(16).toUpperCase()} ${(i & 255).toString(16)} ; a comment of some more words`)
  .join("\n");
const { browser } = await begun();

/** In the page: notes how long it takes from each key or paste to the end of the frame after it. */
const LISTEN = `(() => {
  window.times = { key: [], paste: [] };
  const { port1, port2 } = new MessageChannel(), waiting = [];
  port1.onmessage = () => { const { kind, begun } = waiting.shift(); window.times[kind].push(performance.now() - begun); };
  const noted = kind => event => {
    const begun = event.timeStamp || performance.now();
    requestAnimationFrame(() => { waiting.push({ kind, begun }); port2.postMessage(0); });
  };
  addEventListener("keydown", event => { if (event.key.length === 1 && !event.ctrlKey) noted("key")(event); }, true);
  addEventListener("paste", noted("paste"), true);
})()`;

const times = kind => browser.value(`window.times.${kind}.splice(0)`);

/** The time that 95 of 100 stay within, and the longest. */
function told(list) {
  const sorted = [...list].sort((one, other) => one - other);
  return { usual: sorted[sorted.length >> 1], most: sorted[Math.ceil(0.95 * sorted.length) - 1], longest: sorted.at(-1) };
}

/** Puts a text into the clipboard, and pastes it by Ctrl+V over the whole script. */
async function pasteByKeys(text) {
  await browser.value(`(() => {
    const button = document.createElement("button");
    button.id = "copier";
    button.style.cssText = "position: fixed; left: 0; top: 0; z-index: 99; width: 40px; height: 40px";
    button.onclick = () => {
      document.addEventListener("copy", event => {
        event.preventDefault();
        event.clipboardData.setData("text/plain", ${JSON.stringify(text)});
      }, { once: true });
      document.execCommand("copy");
    };
    document.body.append(button);
  })()`);
  await browser.click("#copier");
  await browser.value("void document.getElementById('copier').remove()");
  await browser.click("#page");
  await browser.selectAll();
  await browser.pressPaste();
  await browser.until(`window.times.paste.length > 0 && ${TEXT}.length === ${text.length}`, 60000);
}

async function typed(paces) {
  for (let i = 0; i < KEYS; i++) {
    const begun = Date.now();
    await browser.press("abcdefgh"[i % 8]);
    const left = paces[i % paces.length] - (Date.now() - begun);
    await new Promise(done => setTimeout(done, Math.max(0, left)));
  }
  await browser.until(`window.times.key.length === ${KEYS}`, 60000);
  return told(await times("key"));
}

try {
  await browser.look(WINDOW);
  await browser.open(`${ADDRESS}#example=hunt`);
  await browser.until(IDLE);
  const isHeld = await isIdle(), factor = isHeld ? 1 : LATE, said = [];
  await browser.value(LISTEN);
  await pasteByKeys(script);
  const [paste] = await times("paste");
  said.push(`a paste of ${script.length.toLocaleString("en")} characters ${Math.round(paste)} ms`);
  assert.ok(paste < MOST_PASTE * factor, said.at(-1));
  await browser.until(IDLE, 60000);
  await caretAt(browser, (await browser.value(`${TEXT}.indexOf("comment", ${script.length >> 1})`)));
  await times("key");
  for (const [name, paces] of Object.entries(PACES)) {
    const { usual, most, longest } = await typed(paces);
    said.push(`a key ${name} ${usual.toFixed(0)}, ${most.toFixed(0)}, ${longest.toFixed(0)} ms`);
    assert.ok(most < MOST_KEY * factor, said.at(-1));
  }
  await browser.until(IDLE, 60000);
  assert.deepEqual(await browser.heard(), [], "the console");
  console.log(`${browser.name}: ${said.join("; ")}${isHeld ? "" : ", on a machine that had other work"}`);
} finally {
  await browser.stop();
}
