// What the machine's files ask of a browser, for tests without one: elements by their names, turns, and a clock that
// goes by turns and by looks at it, so that a test is the same each time.

/** Milliseconds that pass in a look at the clock, and from one turn to the next. */
const LOOK = 0.5, TURN = 16;

/** An element that keeps what it is told. */
export class FakeElement {
  listeners = new Map();
  hidden = false;
  value = "";

  addEventListener(type, does) {
    this.listeners.set(type, [...this.listeners.get(type) ?? [], does]);
  }

  /** An event comes to it. */
  send(type, event = {}) {
    for (const does of this.listeners.get(type) ?? []) does({ type, preventDefault() {}, ...event });
  }

  append(text) {
    this.firstChild = { data: text };
  }

  get text() {
    return this.firstChild?.data ?? "";
  }

  focus() {}

  getBoundingClientRect() {
    return { left: 0, top: 0, width: 640, height: 200 };
  }

  getContext() {
    return { putImageData() {} };
  }
}

/** A page of such elements. Its turns and its timers come when the test asks for them. */
export class FakePage {
  elements = new Map();
  turns = new Map();
  timers = new Map();
  window = new FakeElement();
  document = Object.assign(new FakeElement(), { getElementById: name => this.byId(name) });
  time = 1000;
  #count = 0;

  constructor() {
    Object.defineProperty(globalThis, "performance", { value: { now: () => this.time += LOOK } });
    const take = list => does => {
      list.set(++this.#count, does);
      return this.#count;
    };
    Object.assign(globalThis, { document: this.document, matchMedia: () => ({ matches: false }),
      addEventListener: (type, does) => this.window.addEventListener(type, does),
      requestAnimationFrame: take(this.turns), cancelAnimationFrame: number => this.turns.delete(number),
      setTimeout: take(this.timers), clearTimeout: number => this.timers.delete(number) });
    globalThis.ImageData ??= class {
      constructor(data, width, height) {
        Object.assign(this, { data, width, height });
      }
    };
  }

  byId(name) {
    if (!this.elements.has(name)) this.elements.set(name, new FakeElement());
    return this.elements.get(name);
  }

  /** A turn of the browser, and what was to be done after some time. */
  turn() {
    this.time += TURN;
    for (const list of [this.turns, this.timers]) {
      const now = [...list.values()];
      list.clear();
      for (const does of now) does();
    }
  }

  /** Turns until something holds; fails where it takes too long. */
  turnUntil(holds, most = 5000) {
    for (let count = 0; !holds(); count++) {
      if (count === most) throw new Error(`It does not come: ${holds}`);
      this.turn();
    }
  }
}
