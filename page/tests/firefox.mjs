// Firefox without a window, driven by its Marionette protocol, which has the commands of WebDriver.
import { spawn } from "node:child_process";
import { mkdtempSync, rmSync, writeFileSync } from "node:fs";
import { connect } from "node:net";
import { tmpdir } from "node:os";
import { PATIENCE, endWithTest, freePort, hasProgram } from "./driving.mjs";
import { Driven, pause } from "./webdriver.mjs";

const NAMES = ["firefox", "firefox-esr"];
// Commands whose answer is not the value alone.
const WHOLE = ["WebDriver:SetWindowRect", "WebDriver:NewSession"];

/** The program's name, or undefined where there is none. */
export const firefoxName = () => NAMES.find(name => hasProgram(name));

export class Firefox extends Driven {
  static async started() {
    if (!firefoxName()) throw new Error(`none of ${NAMES.join(", ")} is in the path`);
    const browser = new Firefox(), port = await freePort();
    browser.folder = mkdtempSync(`${tmpdir()}/zaklimot-firefox-`);
    writeFileSync(`${browser.folder}/user.js`, `user_pref("marionette.port", ${port});\n` +
      'user_pref("datareporting.policy.dataSubmissionEnabled", false);\n');
    // Its locks and reports of crashes lie in the folder too.
    const env = { ...process.env, HOME: browser.folder, TMPDIR: browser.folder };
    browser.process = spawn(firefoxName(), ["--headless", "--no-remote", "--profile", browser.folder,
      "--marionette"], { stdio: "ignore", env });
    Object.assign(browser, { number: 0, waiting: new Map(), rest: Buffer.alloc(0) });
    browser.ended = new Promise(resolve => browser.process.once("exit", resolve));
    browser.process.once("error", () => {});
    endWithTest(browser);
    try {
      await browser.connect(port);
      const { capabilities } = await browser.command("NewSession", { capabilities: {} });
      browser.version = capabilities.browserVersion;
      browser.name = `Firefox ${browser.version}`;
    } catch (error) {
      await browser.stop();
      throw error;
    }
    return browser;
  }

  async connect(port) {
    for (const begun = Date.now(); ;) {
      try {
        await new Promise((resolve, reject) => {
          this.socket = connect(port, "127.0.0.1", resolve).once("error", reject);
        });
        break;
      } catch (error) {
        if (Date.now() - begun > PATIENCE) throw error;
        await pause();
      }
    }
    this.socket.on("error", () => {}).on("close", () => this.drop());
    this.socket.on("data", part => this.hear(part));
  }

  /** What still waits for an answer gets none. */
  drop() {
    for (const { reject } of this.waiting.values()) reject(new Error("Firefox has ended"));
    this.waiting.clear();
  }

  hear(part) {
    this.rest = Buffer.concat([this.rest, part]);
    for (;;) {
      const colon = this.rest.indexOf(":"), length = Number(this.rest.toString("latin1", 0, colon));
      if (colon < 0 || this.rest.length < colon + 1 + length) return;
      const message = JSON.parse(this.rest.toString("utf-8", colon + 1, colon + 1 + length));
      this.rest = this.rest.subarray(colon + 1 + length);
      // The first message is a greeting.
      if (Array.isArray(message)) this.take(message);
    }
  }

  take([, number, error, result]) {
    const { resolve, reject } = this.waiting.get(number);
    this.waiting.delete(number);
    if (error) reject(new Error(error.message));
    else resolve(result);
  }

  async command(word, parameters) {
    const name = `WebDriver:${word}`;
    const text = JSON.stringify([0, ++this.number, name, parameters]);
    const answered = new Promise((resolve, reject) => {
      this.waiting.set(this.number, { resolve, reject });
    });
    this.socket.write(`${Buffer.byteLength(text)}:${text}`);
    const answer = await answered;
    return WHOLE.includes(name) ? answer : answer.value;
  }

  async stop() {
    this.socket?.destroy();
    const late = setTimeout(() => this.process.kill("SIGKILL"), PATIENCE);
    this.process.kill();
    await this.ended;
    clearTimeout(late);
    rmSync(this.folder, { recursive: true, force: true, maxRetries: 5 });
  }
}
