// The menu that saves: one thing at a time.
import { Menu } from "../common/menu.js";
import { Trouble } from "../common/trouble.js";
import { apngOfRun, pngOfSeen, reportOf, saveFile } from "./saving.js";
import { byId } from "../common/dom.js";

const BYTES = "application/octet-stream";

/** The menu of what is saved. */
export class Saver {
  menu = new Menu(byId("savemenu"));
  /** While a moving picture is drawn, how many steps of it are; else null. */
  drawn = null;
  #page;
  #isSaving = false;

  /**
   * `page` has `text()`; `trace()`, that of a machine that is paused; `name()`, that of the files without
   * what stands behind the point; `seen()`, what is shown of a run, or null while there is no run of the
   * text; `outer()`, the script's session and after how many of its steps the page is, even inside a
   * call; and `drawn()`,
   * which hears that `drawn` has changed. `guarded` calls what an entry does, and tells what went
   * wrong.
   */
  constructor(page, guarded) {
    this.#page = page;
    for (const what of ["text", "bytes", "report", "trace", "png", "apng"]) {
      byId(`save${what}`).addEventListener("click", () => guarded(() => this.#save(what)));
    }
  }

  async #save(what) {
    this.menu.close();
    if (this.#isSaving) throw new Trouble("Something is being saved: wait until it is done.");
    this.#isSaving = true;
    try {
      await this.#saveNow(what);
    } finally {
      this.#isSaving = false;
      this.#draw(null);
    }
  }

  async #saveNow(what) {
    const name = this.#page.name();
    if (what === "text") {
      return saveFile(`${name}.vga`, new TextEncoder().encode(this.#page.text()), "text/plain");
    }
    const seen = this.#page.seen();
    if (!seen) throw new Trouble("There is no run to save: mend the bad line first.");
    const { session, steps } = this.#page.outer();
    const place = seen.session.isCall ? `${steps}-${seen.steps}` : steps;
    switch (what) {
      case "bytes": return saveFile(`${name}.bin`, session.script, BYTES);
      case "trace": return saveFile(`${name}.trace`, this.#page.trace(), "text/plain");
      case "report": return saveFile(`${name}.txt`, reportOf(session), BYTES);
      case "png": return saveFile(`${name}-${place}.png`, await pngOfSeen(seen), "image/png");
      default: return this.#saveMoving(name, session);
    }
  }

  /** Saves all frames as a PNG that moves, unless another script comes meanwhile. */
  async #saveMoving(name, session) {
    const moving = await apngOfRun(session, async steps => {
      this.#draw(steps);
      await new Promise(resolve => setTimeout(resolve));
      return this.#page.seen() !== null && this.#page.outer().session === session;
    });
    if (moving) saveFile(`${name}.png`, moving, "image/png");
  }

  #draw(steps) {
    this.drawn = steps;
    this.#page.drawn();
  }
}
