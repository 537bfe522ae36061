// The panes of the page, and the splitters between them, which pointer, touch and keys move.
import { Arrangement, TWO_COLUMNS } from "./arrangement.js";
import { byId, element, setAll } from "../common/dom.js";

/** The pixels by which a key moves a splitter; with Shift. */
const STEP = 16, LARGE_STEP = 80, FAR = 100000;
const ARROWS = { x: ["ArrowLeft", "ArrowRight"], y: ["ArrowUp", "ArrowDown"] };
const PANES = ["script", "list", "screen", "state"];
/** The splitters, and the pane behind which each stands in the document. */
const SPLITTERS = { script: "script", list: "list", state: "screen" };

/** The panes. */
export class Panes {
  #main = document.querySelector("main");
  #arrangement;
  #settings;
  #drawers;
  #splitters;
  /** Where the style sheets stack all. A window that was turned tells its own width late, and what it shows may widen it. */
  #narrow = matchMedia(`(max-width: ${TWO_COLUMNS - 1}px)`);

  /** `settings` keeps where the splitters are, and `drawers` has the panes that are closed. */
  constructor(settings, drawers) {
    this.#settings = settings;
    this.#drawers = drawers;
    this.#arrangement = new Arrangement(settings.get("panes"));
    this.#splitters = new Map(Object.keys(SPLITTERS).map(name => [name, this.#splitterOf(name)]));
    // In the next frame: what is arranged may change the size that is heard of.
    new ResizeObserver(() => requestAnimationFrame(() => this.arrange())).observe(this.#main);
    this.#narrow.addEventListener("change", () => this.arrange());
    this.arrange();
  }

  #splitterOf(name) {
    const made = element("div", { className: "splitter", role: "separator", tabIndex: 0,
      id: `split-${name}`, title: "Drag, or use the arrow keys; a double click brings it back" });
    made.addEventListener("keydown", event => this.#pressed(name, event));
    made.addEventListener("dblclick", () => this.#reset(name));
    made.addEventListener("pointerdown", event => this.#grab(name, made, event));
    byId(`${SPLITTERS[name]}pane`).after(made);
    return made;
  }

  /** Puts the panes where they belong. */
  arrange() {
    const { clientWidth, clientHeight } = this.#main, arrangement = this.#arrangement;
    const { panes, splitters } = arrangement.arrange(this.#windowWidth, clientWidth, clientHeight,
      this.#drawers.closed);
    document.body.dataset.columns = arrangement.name;
    for (const name of PANES) place(byId(`${name}pane`), panes.get(name));
    for (const [name, made] of this.#splitters) {
      made.hidden = !splitters.has(name);
      if (made.hidden) continue;
      place(made, splitters.get(name));
      this.#describe(name, made);
    }
  }

  /** How wide the window is, as the style sheets see it. */
  get #windowWidth() {
    return this.#narrow.matches ? Math.min(innerWidth, TWO_COLUMNS - 1) : Math.max(innerWidth, TWO_COLUMNS);
  }

  /** Tells assistive technology of a splitter. */
  #describe(name, made) {
    const { axis, label, pane } = this.#arrangement.splitterOf(name);
    const { now, min, max } = this.#arrangement.valuesOf(name);
    made.setAttribute("aria-controls", `${pane}pane`);
    setAll(made, { ariaLabel: label, ariaValueNow: String(now), ariaValueMin: String(min),
      ariaValueMax: String(max), ariaOrientation: axis === "x" ? "vertical" : "horizontal" });
  }

  #moved() {
    this.#settings.set("panes", this.#arrangement.shares);
    this.arrange();
  }

  #reset(name) {
    this.#arrangement.reset(name);
    this.#moved();
  }

  /** Moves a splitter while the pointer holds it. */
  #grab(name, made, event) {
    if (event.button !== 0) return;
    // The keys stay where they are: who drags does not ask for them.
    event.preventDefault();
    made.setPointerCapture(event.pointerId);
    const move = ({ clientX, clientY }) => {
      const { left, top } = this.#main.getBoundingClientRect();
      const isAcross = this.#arrangement.splitterOf(name).axis === "x";
      this.#arrangement.moveTo(name, isAcross ? clientX - left : clientY - top);
      this.#moved();
    };
    const end = () => {
      made.removeEventListener("pointermove", move);
      for (const kind of ["pointerup", "pointercancel"]) made.removeEventListener(kind, end);
    };
    made.addEventListener("pointermove", move);
    for (const kind of ["pointerup", "pointercancel"]) made.addEventListener(kind, end);
  }

  #pressed(name, event) {
    const { key, shiftKey, altKey, ctrlKey, metaKey } = event;
    const [back, forward] = ARROWS[this.#arrangement.splitterOf(name).axis];
    const step = shiftKey ? LARGE_STEP : STEP;
    const far = { [back]: -step, [forward]: step, Home: -FAR, End: FAR }[key];
    const isOwn = far !== undefined || key === "Enter" || key.startsWith("Arrow");
    if (!isOwn || altKey || ctrlKey || metaKey) return;
    // Arrows that don't move this splitter go no step either.
    event.preventDefault();
    event.stopPropagation();
    if (key === "Enter") return this.#reset(name);
    if (far === undefined) return;
    this.#arrangement.moveBy(name, far);
    this.#moved();
  }
}

/** Puts an element at a rectangle; without one where the style puts it. */
function place(made, rectangle) {
  for (const side of ["left", "top", "width", "height"]) {
    const value = rectangle ? `${rectangle[side]}px` : "";
    if (made.style[side] !== value) made.style[side] = value;
  }
}
