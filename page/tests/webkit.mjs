// WebKit, Safari's engine, in WebKitGTK's small browser: by WebDriver, on a screen in memory.
import { spawn } from "node:child_process";
import { existsSync, mkdtempSync, rmSync, rmdirSync } from "node:fs";
import { tmpdir } from "node:os";
import { PATIENCE, endWithTest, freePort, hasProgram } from "./driving.mjs";
import { Driven, pause } from "./webdriver.mjs";

const DRIVER = "WebKitWebDriver", SCREEN = "Xvfb", SIZE = "2400x1800x24";
/** Where X keeps its sockets: Xvfb makes it where it is not there, and leaves it. */
const SOCKETS = "/tmp/.X11-unix";
/** How each command is sent. */
const WAYS = {
  Navigate: () => ["POST", "url"],
  ExecuteAsyncScript: () => ["POST", "execute/async"],
  PerformActions: () => ["POST", "actions"],
  SetWindowRect: () => ["POST", "window/rect"],
  FindElement: () => ["POST", "element"],
  ElementSendKeys: ({ id }) => ["POST", `element/${id}/value`],
  TakeScreenshot: () => ["GET", "screenshot"],
};

/** The programs that are not in the path, of those that are needed. */
export const lackingForWebKit = () => [DRIVER, SCREEN].filter(name => !hasProgram(name));

/** Ends a program that was started, and waits until it has ended. */
async function end(program) {
  if (!program || program.exitCode !== null || program.signalCode !== null) return;
  const ended = new Promise(resolve => program.once("exit", resolve));
  const late = setTimeout(() => program.kill("SIGKILL"), PATIENCE);
  program.kill();
  await ended;
  clearTimeout(late);
}

export class WebKit extends Driven {
  static async started() {
    const [lacking] = lackingForWebKit();
    if (lacking) throw new Error(`${lacking} is not in the path`);
    const browser = new WebKit();
    browser.folder = mkdtempSync(`${tmpdir()}/zaklimot-webkit-`);
    browser.hasSockets = existsSync(SOCKETS);
    endWithTest(browser);
    try {
      await browser.start();
    } catch (error) {
      await browser.stop();
      throw error;
    }
    return browser;
  }

  async start() {
    const port = await freePort(), { folder } = this;
    this.screen = spawn(SCREEN, ["-displayfd", "3", "-screen", "0", SIZE, "-nolisten", "tcp"],
      { stdio: ["ignore", "ignore", "ignore", "pipe"] });
    const number = await new Promise((resolve, reject) => {
      this.screen.stdio[3].once("data", data => resolve(String(data).trim()));
      this.screen.once("exit", () => reject(new Error(`${SCREEN} has ended at once`)));
    });
    // Its settings, cache and sockets lie in the folder, and it asks nothing of the user's session.
    const env = { PATH: process.env.PATH, DISPLAY: `:${number}`, HOME: folder, TMPDIR: folder,
      XDG_RUNTIME_DIR: folder, DBUS_SESSION_BUS_ADDRESS: "disabled:", GIO_USE_VFS: "local",
      LIBGL_ALWAYS_SOFTWARE: "1", NO_AT_BRIDGE: "1" };
    this.driver = spawn(DRIVER, [`--port=${port}`], { stdio: "ignore", env });
    this.address = `http://127.0.0.1:${port}/session`;
    const { sessionId, capabilities } = await this.session();
    this.address += `/${sessionId}`;
    this.name = `WebKitGTK ${capabilities.browserVersion}`;
  }

  /** A session, as soon as the driver listens. */
  async session() {
    for (const begun = Date.now(); ; await pause()) {
      try {
        return await this.ask("POST", "", { capabilities: {} });
      } catch (error) {
        if (error.message !== "fetch failed" || Date.now() - begun > PATIENCE) throw error;
      }
    }
  }

  async ask(method, path, parameters) {
    const body = method === "POST" ? JSON.stringify(parameters) : undefined;
    const answer = await fetch(this.address + path, { method, body });
    const { value } = await answer.json();
    if (!answer.ok) throw new Error(value.message || value.error);
    return value;
  }

  command(name, parameters) {
    const [method, path] = WAYS[name](parameters);
    return this.ask(method, `/${path}`, parameters);
  }

  async stop() {
    // The driver ends the browser with its session.
    if (this.name) await this.ask("DELETE", "").catch(() => {});
    await end(this.driver);
    await end(this.screen);
    rmSync(this.folder, { recursive: true, force: true, maxRetries: 5 });
    if (this.hasSockets) return;
    try {
      rmdirSync(SOCKETS);
    } catch {
      // Another screen has a socket there now.
    }
  }
}
