// The package in a browser: in a page and in a worker that a server hands out, and in the example of one
// file, from file://. node javascript/tests/browsers.mjs ENGINE, which is chromium, firefox or webkit.
import assert from "node:assert/strict";
import { createServer } from "node:http";
import { readFile } from "node:fs/promises";
import { begun } from "../../page/tests/engines.mjs";

const TOP = new URL("../../", import.meta.url), OTHER_KIND = "application/octet-stream";
const KINDS = { js: "text/javascript", wasm: "application/wasm", html: "text/html" };
const ONE_FILE = new URL("examples/web/plasma-one-file.html", TOP).href;
/** Seconds in which an example shows so many frames, at least: half of those that it has. */
const SECONDS = 3, LEAST_FRAMES = 105;
const PAGE = `<!DOCTYPE html><meta charset="utf-8"><canvas id="screen" width="320" height="200"></canvas>
<script type="module">
import { Card } from "/javascript/zaklimot.js";
const card = await Card.open(), context = document.getElementById("screen").getContext("2d");
card.int10({ ax: 0x13 });
card.putBytes(0xA0000, new Uint8Array(64000).fill(15));
const { pixels, width, height } = card.frame();
context.putImageData(new ImageData(pixels, width, height), 0, 0);
const own = [...context.getImageData(319, 199, 1, 1).data];
const worker = new Worker("/worker.js", { type: "module" });
worker.onmessage = ({ data: { pixels, width, height, refused } }) => {
  context.putImageData(new ImageData(pixels, width, height), 0, 0);
  globalThis.told = { own, sent: [...context.getImageData(7, 0, 1, 1).data], refused };
};
worker.onerror = event => { globalThis.told = { error: event.message }; };
</script>`;
const WORKER = `import { Card } from "/javascript/zaklimot.js";
const card = await Card.open();
card.int10({ ax: 0x13 });
card.put(0xA0007, 12);
const { pixels, width, height } = card.frame();
postMessage({ pixels, width, height, refused: card.tryIn(0x123) }, [pixels.buffer]);
// What was sent is the page's now, and the card draws on.
if (card.frame().pixels.length !== 4 * 320 * 200) throw new Error("no pixels");
`;
const OWN = { "/page.html": PAGE, "/worker.js": WORKER };

/** A server of the repository's files and of the page, on this machine alone. */
async function served() {
  const server = createServer(async ({ url }, answer) => {
    const isOurs = /^\/(javascript|examples\/web)\/[\w./-]+$/.test(url) && !url.includes("..");
    const body = OWN[url] ?? (isOurs ? await readFile(new URL(`.${url}`, TOP)).catch(() => null) : null);
    answer.writeHead(body === null ? 404 : 200, { "Content-Type": KINDS[url.split(".").at(-1)] ?? OTHER_KIND });
    answer.end(body ?? "");
  });
  await new Promise(done => server.listen(0, "127.0.0.1", done));
  return server;
}

/** The frames that an example has shown after some seconds. */
async function framesOf(browser, address) {
  await browser.open(address);
  await browser.until("document.getElementById('told').textContent.includes(' frames, ')");
  await browser.value(`new Promise(done => setTimeout(done, ${1000 * SECONDS}))`);
  const told = await browser.value("document.getElementById('told').textContent");
  assert.match(told, /^\d+ frames, 70\.09 a second$/);
  return parseInt(told, 10);
}

const { browser } = await begun(), server = await served(), home = `http://127.0.0.1:${server.address().port}`;
try {
  await browser.open(`${home}/page.html`);
  await browser.until("globalThis.told");
  assert.deepEqual(await browser.value("globalThis.told"),
    { own: [255, 255, 255, 255], sent: [255, 85, 85, 255], refused: -1 });
  const counts = [await framesOf(browser, `${home}/examples/web/plasma.html`), await framesOf(browser, ONE_FILE)];
  for (const count of counts) assert.ok(count >= LEAST_FRAMES, `${count} frames in ${SECONDS} seconds`);
  process.stdout.write(`the package in ${browser.name}: in a page, in a worker, and ${counts.join(" and ")} frames ` +
    "of its example, by a server and from a file\n");
} finally {
  server.close();
  await browser.stop();
}
