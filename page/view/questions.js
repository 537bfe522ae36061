// What the user asks about a dot, or about what a panel shows; the searches that answer it; and what is watched.
import { Asking } from "../explain/asking.js";
import { Finder } from "../explain/finder.js";
import { TASK } from "../run/runner.js";
import { Trouble } from "../common/trouble.js";
import { WatchPanel } from "../panels/watchpanel.js";
import { MOST_WATCHES, Watches } from "../explain/watches.js";
import { byId, setAll, setText } from "../common/dom.js";

const EARLIER = "look in the frames before";

/** The questions. */
export class Questions {
  #page;
  #watches = new Watches();
  /** What is to be asked in the frames that are shown next: a subject, or null. */
  #lookedFor = null;

  /**
   * `page` has `runner`, `screen`, `notice` and `pointPanel`; `tabs()` and `room()`, the machine's, which are made later; and
   * `guarded(does)`, which tells what went wrong.
   */
  constructor(page) {
    this.#page = page;
    const { runner, notice } = page;
    this.panel = new WatchPanel(this.#watches, { change: subject => this.findChange(subject),
      changed: () => this.titleWatches() });
    this.finder = new Finder(runner, {
      tell: text => notice.tell(text),
      hasEarlier: () => page.room().hasEarlier,
      older: text => notice.offer(text, EARLIER, () => this.lookBefore("backToBegin")),
    });
    this.asking = this.#makeAsking();
    byId("panel").addEventListener("click", event => this.#clicked(event));
  }

  #makeAsking() {
    const { runner, screen, guarded } = this.#page;
    return new Asking({
      madeAt: (words, seen) => this.finder.madeAt(words, seen),
      drawn: (line, dot) => this.#toDot(line, dot),
      change: subject => this.findChange(subject),
      watch: words => guarded(() => this.#watch(words)),
      stop: points => this.#stopAt(points),
      colourAt: (line, dot) => screen.colourAt(line, dot),
      placeOf: (line, dot) => screen.placeOfDot(line, dot),
      isIdle: () => runner.task === TASK.idle && runner.isShown,
      answer: ({ session, steps }) => this.finder.textAt(session, steps),
    });
  }

  #clicked({ target, clientX, clientY }) {
    const own = target.closest("a, input, select, label, button:not([data-subject])");
    // A button that keys press has no place of its own.
    const place = clientX || clientY ? { x: clientX, y: clientY } : null;
    if (!own) this.asking.askAt(target, place);
  }

  /** Tells in the tab's title how many watches there are. */
  titleWatches() {
    const { length } = this.#watches.list;
    this.#page.tabs().setTitle("watches", length ? `watches (${length})` : "watches");
  }

  #watch(words) {
    if (!this.#watches.add(words)) {
      throw new Trouble(`The list has ${MOST_WATCHES} watches, and no room for more.`);
    }
    this.titleWatches();
    this.#page.tabs().open("watches");
  }

  #stopAt(points) {
    const { pointPanel } = this.#page, made = points.map(point => ({ ...point, isOn: true }));
    pointPanel.change([...pointPanel.points, ...made]);
    this.#page.tabs().open("breakpoints");
  }

  /** Asks about what has the keys, or about the dot under the pointer, or that of the beam. */
  ask() {
    const { runner: { seen }, screen } = this.#page, { asking } = this;
    if (!seen || (!screen.pointed && asking.askAt(document.activeElement))) return;
    const { line, dot } = screen.pointed ?? asking.dot ?? { line: 0, dot: 0 };
    asking.askDot(line, dot);
  }

  /** Asks about a dot that was clicked, of what is shown. */
  askDot(line, dot) {
    if (this.#page.runner.isShown) this.asking.askDot(line, dot);
  }

  /** Searches for the last step that changed a subject. */
  findChange(subject) {
    return this.#page.guarded(() => this.finder.find(subject));
  }

  /** Goes on to the change before, of what was asked about last. */
  findAgain() {
    const { subject } = this.asking;
    if (subject) this.findChange(subject);
    else this.ask();
  }

  /** Shows frames that come before those of the machine that is paused, and asks there what was asked last. */
  lookBefore(way) {
    const { subject } = this.asking;
    return this.#page.guarded(() => {
      this.#page.room()[way](1);
      this.#lookedFor = subject;
    });
  }

  /** Asks what was asked in other frames, once these have run. */
  lookOn() {
    const { runner, room } = this.#page, subject = this.#lookedFor;
    if (!subject || room().isComingBack || !runner.session?.isDone || !runner.isShown) return;
    this.#lookedFor = null;
    this.findChange(subject);
  }

  /** Goes to the step that draws a dot of the picture. */
  #toDot(line, dot) {
    const { runner, guarded } = this.#page, { seen, isBusy } = runner;
    if (!seen || isBusy) return;
    const isBack = seen.picture.isWhole || dot < seen.picture.drawn[line];
    const points = [{ kind: "drawn", line, dot }];
    // No cycle of a call draws a dot.
    runner.leave();
    guarded(() => runner.find(points, { isBack, isInclusive: true }));
  }

  /** Shows a state in the cards, and tells why the page is at a step, if a search for a change has found it. */
  show(seen) {
    const { session, steps } = seen, { finder } = this, text = finder.textAt(session, steps), said = byId("found");
    setText(said.firstElementChild, text);
    setAll(said, { hidden: !text });
    setAll(byId("older"), { hidden: !finder.isOlderAt(session, steps) });
    setAll(byId("foundcycle"), { hidden: !finder.leadsWithin(session, steps) });
    this.asking.show(seen);
  }
}
