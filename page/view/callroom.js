// Into BIOS calls and out of them: the bar that tells in which call the page is.
import { RUN, TASK } from "../run/runner.js";
import { Trouble } from "../common/trouble.js";
import { byId, setAll, setText } from "../common/dom.js";
import { counted, grouped } from "../common/bytes.js";
import { isCallAt, openCall } from "../run/call.js";

const MOST_WORDS = 120;

/** The way into calls and out of them, over a runner. */
export class CallRoom {
  #runner;
  #finder;
  #entered;
  #guarded;
  /** What is done once a step is shown: { session, goal, does }. */
  #waiting = null;

  /**
   * `finder` knows what a search has found. `entered` hears the session that the call is in, and after how
   * many steps that is: { session, steps }. `guarded` does something later, and tells what went wrong.
   */
  constructor(runner, finder, entered, guarded) {
    this.#runner = runner;
    this.#finder = finder;
    this.#entered = entered;
    this.#guarded = guarded;
    byId("out").addEventListener("click", () => this.leave());
  }

  /** Goes into the call of the step that is shown: to the cycle that a search has found, if it led there. */
  enter() {
    this.#onceShown(({ session, steps, seen }) => {
      if (!steps) throw new Trouble("At power-on no step is taken yet: go to a BIOS call first.");
      if (this.#finder.leadsWithin(session, steps)) return this.enterFound();
      return this.#enter(session, steps, seen.before);
    });
  }

  /** Goes to the cycle that a search for a change has found. */
  enterFound() {
    this.#onceShown(({ session, steps, seen }) => {
      this.#enter(session, steps, seen.before);
      this.#finder.findWithin();
    });
  }

  /** Goes a step forward, and into it if it is a call that has cycles. */
  enterNext() {
    const runner = this.#runner, { session, goal } = runner;
    if (!session) return;
    if (runner.isWithin || !isCallAt(session, goal + 1)) return runner.step(1);
    this.#onceShown(({ seen }) => {
      try {
        this.#enter(session, goal + 1, seen.after);
      } catch (trouble) {
        runner.step(1);
        throw trouble;
      }
    });
  }

  /** Does something with the runner once the step that was asked for is shown: a call begins with its state. */
  #onceShown(does) {
    const runner = this.#runner, { session, isWithin, isShown, task, steps, goal } = runner;
    if (!session) throw new Trouble("There is no run: mend the script first.");
    if (isWithin) throw new Trouble("A cycle has no cycles of its own.");
    if (isShown && task === TASK.idle && steps === goal) return does(runner);
    if (task === TASK.searching) throw new Trouble("Wait until the search is over, and then step into the call.");
    this.#waiting = { session, goal, does };
  }

  /** A step is shown. What waited for another one is not done. */
  shown({ session, steps }) {
    const waiting = this.#waiting;
    this.#waiting = null;
    if (waiting?.session !== session || waiting.goal !== steps) return;
    setTimeout(() => this.#guarded(() => this.#onceShown(waiting.does)));
  }

  #enter(session, step, before) {
    this.#runner.enter(openCall(session, step, before), step);
    this.#entered(this.#runner.outer);
  }

  /** Goes out of the call, back to its step; whether the page was in one. */
  leave() {
    const { isWithin } = this.#runner;
    this.#runner.leave();
    return isWithin;
  }

  /** Shows in which call the page is. */
  update() {
    const { session, isWithin, run } = this.#runner;
    setAll(byId("callbar"), { hidden: !isWithin });
    if (!isWithin) return;
    const { step, words } = session.call;
    setText(byId("out"), `◀ back to step ${grouped(step)}`);
    setText(byId("callname"), `Inside step ${grouped(step)}, ${words.slice(0, MOST_WORDS)}: ` +
      `${counted(session.length, "cycle")}.`);
    if (run !== RUN.done) setText(byId("callchecked"), "");
  }

  /** All cycles of a call are taken: they leave what the call leaves. */
  finished(session) {
    const bios = session.changesBios ? " It changes BIOS data after the last one." : "";
    const { isTrue } = session;
    setText(byId("callchecked"), isTrue
      ? `✓ They leave the registers and the memory that the call leaves.${bios}`
      : "They do not leave what the call leaves. Please report it.");
    byId("callchecked").className = isTrue ? "right" : "wrong";
  }
}
