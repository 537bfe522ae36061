// Chromium without a window, driven by its DevTools protocol over two pipes.
import { spawn } from "node:child_process";
import { mkdtempSync, rmSync, statSync } from "node:fs";
import { createServer } from "node:net";
import { tmpdir } from "node:os";
import { pasting } from "./editing.mjs";
import { CLOSE, middleOf } from "./parts.mjs";

const NAMES = ["chromium", "chromium-browser", "google-chrome"];
/** So many milliseconds something may take, on a machine on which much else runs. */
export const PATIENCE = 180000;
// Signals that end a test, with their numbers.
const ENDING = [["SIGHUP", 1], ["SIGINT", 2], ["SIGTERM", 15]];

/** A signal that ends the test ends a browser too; one that comes once more waits for that. */
export function endWithTest(browser) {
  let ended = null;
  for (const [signal, number] of ENDING) {
    process.on(signal, () => {
      ended ??= browser.stop().finally(() => process.exit(128 + number));
    });
  }
}

/** In the page: where an element stands. */
const PLACE = `selector => {
  const { x, y, width, height } = document.querySelector(selector).getBoundingClientRect();
  return { x, y, width, height, scale: 1 };
}`;

/** A browser with one page. */
export class Browser {
  hasWholePixels = false;

  /** A browser that is started, by the first of some names that is there. */
  static async started() {
    const browser = new Browser();
    await browser.start(process.env.CHROMIUM ?? NAMES.find(name => hasProgram(name)) ?? NAMES[0]);
    return browser;
  }

  async start(program) {
    this.folder = mkdtempSync(`${tmpdir()}/zaklimot-browser-`);
    this.process = spawn(program, ["--headless", "--no-sandbox", "--disable-gpu", "--hide-scrollbars",
      "--no-first-run",
      `--user-data-dir=${this.folder}`, "--remote-debugging-pipe", "about:blank"],
        { stdio: ["ignore", "ignore", "ignore", "pipe", "pipe"] });
    endWithTest(this);
    Object.assign(this, { number: 0, waiting: new Map(), said: [], rest: "", downloads: [] });
    this.process.stdio[4].setEncoding("utf-8").on("data", part => this.hear(part));
    const { targetInfos } = await this.send("Target.getTargets");
    const { targetId } = targetInfos.find(target => target.type === "page");
    ({ sessionId: this.session } = await this.send("Target.attachToTarget", { targetId, flatten: true }));
    for (const domain of ["Page", "Runtime", "Log"]) await this.send(`${domain}.enable`);
    const { product } = await this.send("Browser.getVersion");
    this.name = product.replace(/^\w*Chrome\//, "Chromium ");
    await this.send("Browser.setDownloadBehavior", { behavior: "allow", downloadPath: this.folder,
      eventsEnabled: true });
  }

  /** Has the browser close itself, since one that is killed leaves its socket's folder behind. */
  async stop() {
    const ended = new Promise(resolve => this.process.once("exit", resolve));
    const late = setTimeout(() => this.process.kill("SIGKILL"), PATIENCE);
    this.send("Browser.close").catch(() => this.process.kill());
    await ended;
    clearTimeout(late);
    rmSync(this.folder, { recursive: true, force: true, maxRetries: 5 });
  }

  hear(part) {
    const messages = (this.rest + part).split("\0");
    this.rest = messages.pop();
    for (const text of messages) this.take(JSON.parse(text));
  }

  take(message) {
    if (message.id) {
      const { resolve, reject } = this.waiting.get(message.id);
      this.waiting.delete(message.id);
      return message.error ? reject(new Error(message.error.message)) : resolve(message.result);
    }
    const { method, params } = message;
    if (method === "Runtime.exceptionThrown") this.said.push(
      params.exceptionDetails.exception?.description ?? params.exceptionDetails.text);
    if (method === "Runtime.consoleAPICalled") this.said.push(
      params.args.map(one => one.value ?? one.description).join(" "));
    if (method === "Log.entryAdded") this.said.push(params.entry.text);
    if (method === "Tracing.dataCollected") this.tracing.events.push(...params.value);
    if (method === "Tracing.tracingComplete") this.tracing.ended();
    if (method === "Browser.downloadWillBegin") this.downloads.push(
      { guid: params.guid, name: params.suggestedFilename });
    if (method === "Browser.downloadProgress" && params.state === "completed") {
      this.downloads.find(one => one.guid === params.guid).isDone = true;
    }
    return null;
  }

  send(method, params = {}) {
    const id = ++this.number, sessionId = method.startsWith("Target.") || method.startsWith("Browser.")
      ? undefined : this.session;
    this.process.stdio[3].write(JSON.stringify({ id, method, params, sessionId }) + "\0");
    return new Promise((resolve, reject) => this.waiting.set(id, { resolve, reject }));
  }

  /** The value of an expression in the page. */
  async value(expression) {
    const { result, exceptionDetails } = await this.send("Runtime.evaluate",
      { expression, awaitPromise: true, returnByValue: true });
    if (exceptionDetails) throw new Error(
      `${expression}: ${exceptionDetails.exception?.description ?? exceptionDetails.text}`);
    return result.value;
  }

  /** What the browser's tracing tells of some categories while something is done: its events. */
  async traced(includedCategories, does) {
    const events = [], done = new Promise(ended => { this.tracing = { events, ended }; });
    await this.send("Tracing.start", { transferMode: "ReportEvents",
      traceConfig: { includedCategories, excludedCategories: ["*"] } });
    try {
      await does();
    } finally {
      await this.send("Tracing.end");
      await done;
    }
    return events;
  }

  /** Waits until an expression in the page is true, or a condition here. */
  async until(condition, patience = PATIENCE) {
    const begun = Date.now();
    // While a page loads, its elements are not there yet.
    while (!(typeof condition === "string" ? await this.value(condition).catch(() => false) : condition())) {
      if (Date.now() - begun > patience) throw new Error(
        `this did not come: ${condition}\n${await this.value("document.body.innerText.slice(0, 600)")}`);
      await new Promise(resolve => setTimeout(resolve, 20));
    }
  }

  async open(address) {
    await this.send("Page.navigate", { url: "about:blank" });
    await this.send("Page.navigate", { url: address });
  }

  async look({ width, height, dark = false, scale = 1 }) {
    await this.send("Emulation.setDeviceMetricsOverride", { width, height, deviceScaleFactor: scale,
      mobile: false });
    await this.send("Emulation.setEmulatedMedia",
      { features: [{ name: "prefers-color-scheme", value: dark ? "dark" : "light" }] });
  }

  /** A PNG of what is seen of the page, or of an element of it. */
  async screenshot(selector) {
    const place = selector && await this.value(`(${PLACE})(${JSON.stringify(selector)})`);
    const clip = place ? { clip: place } : {};
    const { data } = await this.send("Page.captureScreenshot", { format: "png", ...clip });
    return Buffer.from(data, "base64");
  }

  async click(selector) {
    const [x, y, isOpened] = await this.value(middleOf(selector));
    await this.clickAt(x, y);
    if (isOpened) await this.value(CLOSE);
  }

  moveTo(x, y) {
    return this.send("Input.dispatchMouseEvent", { type: "mouseMoved", x, y });
  }

  async clickAt(x, y) {
    for (const type of ["mouseMoved", "mousePressed", "mouseReleased"]) {
      await this.send("Input.dispatchMouseEvent", { type, x, y, button: type === "mouseMoved" ? "none"
        : "left", clickCount: type === "mouseMoved" ? 0 : 1 });
    }
  }

  /** Moves the pointer from a place to another with its button held. */
  async drag([left, top], [x, y]) {
    const steps = [["mouseMoved", left, top], ["mousePressed", left, top], ["mouseMoved", (left + x) / 2, y],
      ["mouseMoved", x, y], ["mouseReleased", x, y]];
    for (const [type, across, down] of steps) {
      await this.send("Input.dispatchMouseEvent", { type, x: across, y: down, button: "left", clickCount: 1 });
    }
  }

  /** Presses a key: { key, code, text, shift, control }. */
  async press(key, { shift = false, control = false } = {}) {
    const text = key.length === 1 && !control ? key : key === "Enter" ? "\r" : undefined,
      modifiers = (shift ? 8 : 0) + (control ? 2 : 0);
    const codes = { ArrowLeft: 37, ArrowRight: 39, Home: 36, End: 35, Enter: 13, Escape: 27, Tab: 9, Backspace: 8,
      ArrowUp: 38, ArrowDown: 40, PageUp: 33, PageDown: 34, F8: 119,
      F1: 112, F3: 114, F9: 120, F10: 121, F11: 122, F12: 123, Delete: 46, "'": 222, ",": 188, "-": 189, ".": 190, "/": 191 };
    const windowsVirtualKeyCode = codes[key] ?? key.toUpperCase().charCodeAt(0);
    await this.send("Input.dispatchKeyEvent", { type: text ? "keyDown" : "rawKeyDown", key, text, modifiers,
      windowsVirtualKeyCode });
    await this.send("Input.dispatchKeyEvent", { type: "keyUp", key, modifiers, windowsVirtualKeyCode });
  }

  /** Types into the element that has the focus, key by key. */
  async type(text) {
    for (const key of text) await this.press(key);
  }

  /** Puts a text in place of what is selected in the script, as one that is pasted. */
  paste(text) {
    return this.value(pasting(text));
  }

  /** Pastes what the clipboard has, by Ctrl+V. */
  pressPaste() {
    return this.send("Input.dispatchKeyEvent", { type: "rawKeyDown", key: "v", code: "KeyV",
      modifiers: 2, windowsVirtualKeyCode: 86, commands: ["paste"] });
  }

  selectAll() {
    return this.send("Input.dispatchKeyEvent", { type: "rawKeyDown", key: "a", code: "KeyA",
      modifiers: 2, windowsVirtualKeyCode: 65, commands: ["selectAll"] });
  }

  /** Chooses a file in an element of the page that takes one. */
  async choose(selector, file) {
    const { root } = await this.send("DOM.getDocument");
    const { nodeId } = await this.send("DOM.querySelector", { nodeId: root.nodeId, selector });
    await this.send("DOM.setFileInputFiles", { nodeId, files: [file] });
  }

  /** What the page has said until now. */
  async heard() {
    return this.said.splice(0);
  }
}

/** A port that nothing listens at. */
export function freePort() {
  return new Promise(resolve => {
    const server = createServer().listen(0, "127.0.0.1", () => {
      const { port } = server.address();
      server.close(() => resolve(port));
    });
  });
}

/** Whether a program is in the path. */
export function hasProgram(name) {
  return (process.env.PATH ?? "").split(":").some(folder => {
    try {
      return folder && statSync(`${folder}/${name}`);
    } catch {
      return false;
    }
  });
}
