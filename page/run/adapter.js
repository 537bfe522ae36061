// The adapter as the page has it: the package's library, whose errors the page tells as it tells its own.
import { Library, STATUS } from "../../javascript/zaklimot.js";
import { Trouble } from "../common/trouble.js";

const NO_MEMORY = "The module has no memory left for this.";

/** The module, running. */
export class Adapter extends Library {
  /** What a call answers that fails, as a Trouble with its `status` and its `place`. */
  error(status, place = null) {
    const error = super.error(status, place), isSpent = status === STATUS.OUT_OF_MEMORY;
    return Object.assign(new Trouble(isSpent ? NO_MEMORY : error.message), { status, place: error.place ?? null });
  }
}
