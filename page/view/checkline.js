// The foot of the page: how the run and one by zak_run compare.
import { Comparer, MOST_COMPARED } from "../run/comparing.js";
import { byId } from "../common/dom.js";
import { grouped } from "../common/bytes.js";

const NOT_COMPARED = "The answers of this run are not compared with those of zak_run";

/** Compares runs with zak_run, and tells how they compare. */
export class CheckLine {
  #comparer;
  #box = byId("compared");

  /**
   * `module`: the adapter's bytes, of which the worker makes a module of its own. `code`: the
   * page's script.
   */
  constructor(module, code) {
    this.#comparer = new Comparer(module, code);
  }

  /** Compares a run that is done. */
  start(session) {
    const steps = grouped(session.length);
    this.#say(`Checking the ${steps} answers against those of one whole run …`, "", true);
    this.#comparer.start(session.whole, result => this.#tell(session, result));
  }

  /** Ends the comparison, since another run begins. */
  clear() {
    this.#comparer.stop();
    this.#say("");
  }

  #tell(session, result) {
    if (result?.trouble) return this.#say(`${NOT_COMPARED}. ${result.trouble}`);
    const why = result ? null : session.whyNotCompared;
    if (why) {
      return this.#say(`${NOT_COMPARED}: the page has no worker here, and the run has ${why}.`);
    }
    return this.#tellDifference(session, result ? result.difference : session.compared());
  }

  #tellDifference({ length, comparable }, difference) {
    const count = grouped(length);
    if (difference) {
      this.#say(`This run and one by zak_run are not the same: ${difference}. Please report it.`,
        "wrong");
    } else if (!length || comparable.steps === length) {
      const all = length === 1 ? "The one answer is that" : `All ${count} answers are those`;
      this.#say(`✓ ${all} of one run by zak_run, of the whole script.`, "right");
    } else {
      const steps = grouped(comparable.steps);
      this.#say(`✓ The first ${steps} of ${count} answers are those of one run by zak_run. ` +
        "The others are not compared: a report of more than " +
        `${MOST_COMPARED >> 20} MiB is too long for it.`, "right");
    }
  }

  #say(textContent, className = "", isBusy = false) {
    Object.assign(this.#box, { textContent, className, ariaBusy: String(isBusy) });
  }
}
