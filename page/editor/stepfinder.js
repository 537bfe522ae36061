// The search for a step by its words or its answer.
import { SearchBar } from "./searchbar.js";
import { StepSearch } from "./searching.js";
import { byId } from "../common/dom.js";
import { grouped } from "../common/bytes.js";

const SLICE_TIME = 8;

/** The search in the list of steps, in a bar above it. */
export class StepFinder {
  #runner;
  #search = null;

  constructor(runner) {
    this.#runner = runner;
    this.bar = new SearchBar(byId("stepfinder"), "find a step, or an answer", {
      typed: () => this.#stop(""),
      asked: (words, isBack) => this.#go(words, isBack),
      closed: () => {
        this.#stop("");
        byId("listing").focus();
      },
    });
  }

  open() {
    this.bar.open();
  }

  #stop(told) {
    this.#search = null;
    this.bar.say(told);
  }

  #go(words, isBack) {
    const { session, goal } = this.#runner;
    if (!words || !session?.ran) return this.#stop(words ? `no ${session?.noun ?? "step"}s yet` : "");
    this.#search = new StepSearch(session, words, goal, isBack);
    return this.#turn(this.#search, session, goal);
  }

  #turn(search, session, from) {
    if (search !== this.#search) return null;
    if (this.#runner.session !== session) return this.#stop("other steps stand here now: search again");
    const found = search.take(SLICE_TIME);
    if (!found) {
      this.bar.say(`looked at ${grouped(search.looked)} of ${grouped(search.count)}`);
      return setTimeout(() => this.#turn(search, session, from));
    }
    const isAll = session.isDone ? "" : ` in the ${session.noun}s so far`;
    if (!found.steps) return this.#stop(`not found${isAll}`);
    this.#runner.go(found.steps);
    const isSame = found.steps === from ? ", the only one" : "";
    return this.#stop(`${session.noun} ${grouped(found.steps)}${isSame}`);
  }
}
