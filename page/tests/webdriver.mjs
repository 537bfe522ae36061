// A browser with one page that takes the commands of WebDriver (https://www.w3.org/TR/webdriver2/).
// firefox.mjs and webkit.mjs tell how a command reaches it. driving.mjs does the same in Chromium,
// by another protocol.
import { PATIENCE } from "./driving.mjs";
import { pasting } from "./editing.mjs";
import { CLOSE, middleOf } from "./parts.mjs";

const PAUSE = 20;
// WebDriver's numbers of keys.
const KEY_CODES = { Tab: 0xe004, F1: 0xe031, F3: 0xe033, F9: 0xe039, F10: 0xe03a, F11: 0xe03b, F12: 0xe03c, Delete: 0xe017, Backspace: 0xe003, Enter: 0xe007, Shift: 0xe008, Control: 0xe009, Escape: 0xe00c,
  End: 0xe010, Home: 0xe011, ArrowLeft: 0xe012, ArrowUp: 0xe013, ArrowRight: 0xe014, ArrowDown: 0xe015,
  PageUp: 0xe00e, PageDown: 0xe00f };
const ELEMENT = "element-6066-11e4-a52e-4f735466cecf";
/** In the page: keeps what it says in the console, and the errors that it doesn't catch. */
const HEAR = `(() => {
  if (window.saidInConsole) return;
  const said = window.saidInConsole = [];
  for (const name of ["debug", "error", "info", "log", "warn"]) {
    console[name] = (...words) => said.push(words.join(" "));
  }
  addEventListener("error", event => said.push(String(event.message)));
  addEventListener("unhandledrejection", event => said.push(String(event.reason)));
})()`;

export const pause = () => new Promise(done => setTimeout(done, PAUSE));

function pointer(actions) {
  return { type: "pointer", id: "mouse", parameters: { pointerType: "mouse" }, actions };
}

function keys(list) {
  const actions = list.map(([type, key]) =>
    ({ type, value: KEY_CODES[key] ? String.fromCharCode(KEY_CODES[key]) : key }));
  return { type: "key", id: "keyboard", actions };
}

/** What the page's tests ask of a browser. A class has its own `command`, which sends one. */
export class Driven {
  /** The pointer stands at whole pixels alone. */
  hasWholePixels = true;

  /** The value of an expression in the page. */
  async value(expression) {
    const script = `const done = arguments[arguments.length - 1];
      Promise.resolve().then(async () => (${expression}))
        .then(value => done({ value }), error => done({ error: String(error) }));`;
    const { value, error } = await this.command("ExecuteAsyncScript", { script, args: [] });
    if (error) throw new Error(`${expression}: ${error}`);
    return value;
  }

  /** Waits until an expression in the page is true. */
  async until(expression, patience = PATIENCE) {
    // While a page loads, its elements are not there yet.
    const holds = () => this.value(expression).catch(() => false);
    for (const begun = Date.now(); !await holds(); await pause()) {
      if (Date.now() - begun <= patience) continue;
      const seen = await this.value("document.body.innerText.slice(0, 600)");
      throw new Error(`this did not come: ${expression}\n${seen}`);
    }
  }

  async open(url) {
    await this.command("Navigate", { url: "about:blank" });
    await this.command("Navigate", { url });
    await this.value(HEAR);
  }

  /** Has the page be so wide and high, as near as the window comes. */
  async look({ width, height }) {
    let asked = [width, height];
    for (let time = 0; time < 2; time++) {
      await this.command("SetWindowRect", { width: asked[0], height: asked[1] });
      const inside = await this.value("[innerWidth, innerHeight]");
      asked = [asked[0] + width - inside[0], asked[1] + height - inside[1]];
    }
  }

  /** A PNG of what is seen of the page. */
  async screenshot() {
    return Buffer.from(await this.command("TakeScreenshot", { full: false }), "base64");
  }

  act(...actions) {
    return this.command("PerformActions", { actions });
  }

  async moveTo(x, y) {
    await this.act(pointer([{ type: "pointerMove", duration: 0, origin: "viewport", x, y }]));
  }

  async clickAt(x, y) {
    await this.moveTo(x, y);
    await this.act(pointer([{ type: "pointerDown", button: 0 }, { type: "pointerUp", button: 0 }]));
  }

  /** Moves the pointer from a place to another with its button held. */
  async drag([left, top], [x, y]) {
    const move = (across, down) => ({ type: "pointerMove", duration: 50, origin: "viewport", x: across, y: down });
    await this.act(pointer([move(left, top), { type: "pointerDown", button: 0 }, move(x, y),
      { type: "pointerUp", button: 0 }]));
  }

  async click(selector) {
    const [x, y, isOpened] = await this.value(middleOf(selector));
    await this.clickAt(x, y);
    if (isOpened) await this.value(CLOSE);
  }

  async press(key, { shift = false, control = false } = {}) {
    const held = [...shift ? ["Shift"] : [], ...control ? ["Control"] : []];
    await this.act(keys([...held.map(one => ["keyDown", one]), ["keyDown", key], ["keyUp", key],
      ...held.reverse().map(one => ["keyUp", one])]));
  }

  /** Pastes what the clipboard has, by Ctrl+V. */
  pressPaste() {
    return this.press("v", { control: true });
  }

  selectAll() {
    return this.press("a", { control: true });
  }

  /** Types into the element that has the focus, key by key. */
  async type(text) {
    await this.act(keys([...text].flatMap(key => [["keyDown", key], ["keyUp", key]])));
  }

  /** Puts a text in place of what is selected in the script, as one that is pasted. */
  paste(text) {
    return this.value(pasting(text));
  }

  /** Chooses a file in an element of the page that takes one. */
  async choose(selector, file) {
    const found = await this.command("FindElement", { using: "css selector", value: selector });
    await this.command("ElementSendKeys", { id: found[ELEMENT], text: file });
  }

  /** What the page has said since it was asked last; not what it said while it loaded. */
  async heard() {
    // A page that was loaded anew says nothing here yet.
    await this.value(HEAR);
    return this.value("window.saidInConsole.splice(0)");
  }
}
