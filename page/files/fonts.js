import { byId } from "../common/dom.js";

/** The fonts that mode sets load: the page's own, or those of a file or a link. */
export class Fonts {
  /** The bytes of a font file (docs/SCREENS.md). */
  bytes;
  #own;

  constructor(own) {
    this.#own = own;
    this.bytes = own;
  }

  get isOwn() {
    return this.bytes === this.#own;
  }

  /** Takes the fonts of a file; null for the page's own. */
  use(bytes) {
    this.bytes = bytes ?? this.#own;
    byId("ownfonts").hidden = this.isOwn;
  }
}
