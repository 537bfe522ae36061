// How large the picture stands: each dot one, two or three pixels, or as much as its pane has room
// for; and the full screen.
import { byId, setAll } from "../common/dom.js";

/** Pixels a dot, and 0 for as many as there is room for: in the order of + and −. */
const SCALES = [0, 1, 2, 3];
const TITLES = { 0: "fill", 1: "× 1", 2: "× 2", 3: "× 3" };

/** The size of the picture, which the browser's storage keeps. */
export class PictureSize {
  #screen;
  #settings;
  #list = byId("scale");
  #stage = byId("stage");

  constructor(screen, settings) {
    this.#screen = screen;
    this.#settings = settings;
    for (const scale of SCALES) this.#list.append(new Option(TITLES[scale], scale));
    this.#list.addEventListener("change", () => {
      this.choose(Number(this.#list.value));
      this.#list.blur();
    });
    this.#makeFull();
    const kept = settings.get("scale");
    this.#show(SCALES.includes(kept) ? kept : 0);
  }

  /** Gives a dot so many pixels; 0: as many as there is room for. */
  choose(scale) {
    this.#settings.set("scale", scale);
    this.#show(scale);
  }

  /** A size larger, or with -1 a size smaller. */
  step(far) {
    const at = SCALES.indexOf(this.#screen.scale) + far;
    this.choose(SCALES[Math.max(0, Math.min(at, SCALES.length - 1))]);
  }

  #show(scale) {
    setAll(this.#list, { value: String(scale) });
    this.#screen.setScale(scale);
  }

  /** The control for the full screen, if the browser has one for the page. */
  #makeFull() {
    const button = byId("full");
    button.hidden = !document.fullscreenEnabled;
    button.addEventListener("click", () => {
      const done = document.fullscreenElement ? document.exitFullscreen()
        : this.#stage.requestFullscreen();
      // A browser may refuse: then the picture stays where it is.
      done?.catch(() => {});
    });
    document.addEventListener("fullscreenchange", () => this.#screen.shape());
  }
}
