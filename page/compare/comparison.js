// Two runs side by side: the bar above the picture that goes from difference to difference, and the
// other run's picture on the stage.
import { DotDifference, wordsOfDifference, wordsOfPicture } from "./dots.js";
import { OtherPicture } from "./otherpicture.js";
import { OtherReport } from "./otherreport.js";
import { OtherTrace } from "./othertrace.js";
import { Trouble } from "../common/trouble.js";
import { byId, element, selectOf, setAll, setText } from "../common/dom.js";
import { RUN } from "../run/runner.js";
import { grouped, hex } from "../common/bytes.js";
import { wholePicture } from "../files/saving.js";

const VIEWS = [["own", "this run"], ["other", "the other"], ["difference", "what differs"],
  ["side", "side by side"]];
/** So many milliseconds answers are compared before the page hears keys again. */
const SLICE_TIME = 15;

/** Takes all turns of a generator, some at a time; whether they were wanted to the end. */
async function inSlices(turns, isWanted) {
  let until = performance.now() + SLICE_TIME;
  while (!turns.next().done) {
    if (performance.now() < until) continue;
    await new Promise(resolve => setTimeout(resolve));
    if (!isWanted()) return false;
    until = performance.now() + SLICE_TIME;
  }
  return true;
}

/** The comparison of the page's run with another one. */
export class Comparison {
  #runner;
  #screen;
  #isStale;
  #other = null;
  #session = null;
  #view = "own";
  #difference = null;
  /** The line of the picture's difference that was gone to last. */
  #line = -1;
  #isDone = false;
  #openings = 0;
  #canvas = element("canvas", { id: "other", hidden: true });
  #title = element("output", { id: "comparetitle", "aria-live": "polite" });
  #text = element("output", { id: "comparetext", "aria-live": "polite" });
  #views = selectOf("what to show", VIEWS, { id: "compareview", title: "What to show (V)" });
  #mark = element("div", { id: "comparemark", hidden: true });
  /** What the pictures are called, on the stage. */
  #names = element("div", { id: "comparenames", hidden: true }, element("span"), element("span"));
  #bar;

  /**
   * `isStale` tells whether the run is of another text than the editor's. `guarded` calls what a
   * control does, and tells what went wrong.
   */
  constructor(runner, screen, isStale, guarded) {
    this.#runner = runner;
    this.#screen = screen;
    this.#isStale = isStale;
    const button = (id, title, text, does) => element("button", { type: "button", id, title,
      ariaLabel: title, onclick: () => guarded(() => this.#isOn && does()) }, text);
    this.#bar = element("div", { id: "compare", className: "shows-run", hidden: true, role: "group",
      "aria-label": "comparison with another run" },
    element("div", { className: "bar" }, this.#title,
      button("lastdifference", "The difference before (Shift+N)", "◀", () => this.#go(-1)),
      button("nextdifference", "The next difference (N)", "difference ▶", () => this.#go(1)),
      button("flip", "This run's picture and the other's by turns (T)", "flip", () => this.#flip()),
      this.#views,
      button("endcompare", "End the comparison", "×", () => this.close())), this.#text);
    this.#views.addEventListener("change", () => {
      this.#show(this.#views.value);
      this.#views.blur();
    });
    byId("stage").before(this.#bar);
    byId("frame").append(this.#canvas, this.#mark, this.#names);
  }

  /** Whether there is a comparison, and the page is in no call: the other run's cycles are not known. */
  get #isOn() {
    return this.#other !== null && !this.#runner.isWithin;
  }

  /** Compares a file: { report }, { png } or { trace }, as contentsOf tells them. */
  async open({ report, png, trace }, name) {
    if (!this.#runner.session || this.#isStale()) {
      throw new Trouble("There is no run to compare with: mend the script first.");
    }
    const number = ++this.#openings, other = report ? new OtherReport(name)
      : png ? await OtherPicture.opened(name, png) : new OtherTrace(name, trace);
    const isWanted = () => number === this.#openings;
    if (report && !await inSlices(other.read(report), isWanted)) return;
    if (!isWanted()) return;
    this.#other = other;
    this.#session = null;
    this.#isDone = false;
    this.#bar.hidden = false;
    this.#difference = null;
    this.#show("own");
    setText(this.#title, name);
    this.#setText("The runs are compared once this one is done.");
    if (this.#runner.run !== RUN.done) return;
    try {
      await this.finished(this.#runner.session);
    } catch (error) {
      this.close();
      throw error;
    }
  }

  /** A run is done: the other one is compared with it. */
  async finished(session) {
    const other = this.#other, isFirst = this.#session === null;
    if (!other) return;
    this.#session = session;
    this.#isDone = false;
    // Another run, or another file, may come meanwhile.
    const isWanted = () => this.#other === other && this.#session === session;
    if (!await inSlices(other.compare(session), isWanted)) return;
    this.#isDone = true;
    this.shown();
    if (isFirst && this.#isOn) this.#goToFirst();
  }

  /** Goes to the first step that differs, or the first dot. */
  #goToFirst() {
    const [first] = this.#other.differences;
    if (first) this.#runner.go(first.step + 1);
    if (!this.#other.isPicture || !this.#difference?.count) return;
    this.#show("difference");
    this.#goToDot(1);
  }

  /** Ends the comparison. */
  close() {
    this.#other = null;
    this.#session = null;
    this.#bar.hidden = true;
    this.#show("own");
  }

  /** Compares what the page shows now. */
  shown() {
    if (!this.#other) return;
    this.#bar.hidden = !this.#isOn;
    if (!this.#isOn) return this.#rest();
    if (this.#runner.outer.session !== this.#session) this.#isDone = false;
    this.#line = -1;
    this.#mark.hidden = true;
    this.#difference = this.#differenceHere();
    this.#describe();
    this.#show(this.#view);
  }

  /** Shows this run's picture alone, while the page is in a call. */
  #rest() {
    const view = this.#view;
    this.#show("own");
    this.#view = view;
    this.#mark.hidden = true;
  }

  /** How the pictures of the step that is shown differ; null if there are none. */
  #differenceHere() {
    const { seen } = this.#runner, step = seen ? seen.steps - 1 : -1;
    const picture = seen && this.#other.pictureAt(step);
    if (!picture) return null;
    try {
      return new DotDifference(wholePicture(seen), picture);
    } catch (trouble) {
      if (trouble instanceof Trouble) return { trouble: trouble.message, note: "", count: 0 };
      throw trouble;
    }
  }

  // What is told.

  #describe() {
    const { name, summary, note } = this.#other, { steps } = this.#runner;
    const result = this.#isDone ? [summary, note].filter(Boolean).join(" ") : "";
    setText(this.#title, result ? `${name}: ${result}` : name);
    const at = this.#isDone ? this.#differenceAt(steps - 1) : null, parts = [];
    if (at) parts.push(`Step ${grouped(steps)}: ${at.text}.`);
    else if (steps && this.#isDone && !this.#other.isPicture) {
      parts.push(`Step ${grouped(steps)} is the same.`);
    }
    if (this.#difference) {
      parts.push(this.#difference.summary ?? this.#difference.trouble, this.#difference.note);
    }
    if (this.#other.isPicture && this.#runner.seen && !this.#runner.seen.picture.isWhole) {
      parts.push("This frame is under way: go to the step that you mean.");
    }
    this.#setText(parts.filter(Boolean).join(" "));
  }

  #setText(text) {
    setText(this.#text, text);
  }

  /** The difference of a step, from 0; undefined if there is none. */
  #differenceAt(step) {
    const { differences } = this.#other;
    return differences[this.#placeOf(step)]?.step === step
      ? differences[this.#placeOf(step)] : undefined;
  }

  /** How many differences stand before a step. */
  #placeOf(step) {
    const { differences } = this.#other;
    let low = 0, high = differences.length;
    while (low < high) {
      const middle = (low + high) >> 1;
      if (differences[middle].step < step) low = middle + 1;
      else high = middle;
    }
    return low;
  }

  // What the controls do.

  /** Goes to the next difference, or with -1 to the one before: of steps, or lines of a picture. */
  #go(way) {
    if (!this.#isDone) throw new Trouble("The runs are not compared yet.");
    if (this.#other.isPicture) return this.#goToDot(way);
    const { differences } = this.#other, { goal } = this.#runner, step = goal - 1;
    const place = this.#placeOf(step), isHere = differences[place]?.step === step;
    const found = differences[way > 0 ? place + (isHere ? 1 : 0) : place - 1];
    if (found) return this.#runner.go(found.step + 1);
    throw new Trouble(`No ${way > 0 ? "later" : "earlier"} step differs.`);
  }

  #goToDot(way) {
    const { places = [] } = this.#difference ?? {};
    const found = way > 0 ? places.find(({ y }) => y > this.#line)
      : [...places].reverse().find(({ y }) => y < this.#line);
    if (!found) {
      throw new Trouble(`No ${way > 0 ? "lower" : "higher"} line of the picture differs.`);
    }
    this.#line = found.y;
    this.#markDot(found);
    const [here, there] = this.#difference.coloursAt(found)
      .map(colour => colour.map(six => hex(six, 2)).join(" "));
    const { summary, note } = this.#difference;
    this.#setText([`Dot ${found.x} of line ${found.y}: ${here} here, ${there} there.`, summary, note]
      .filter(Boolean).join(" "));
  }

  #markDot({ x, y }) {
    const { own: { width, height } } = this.#difference;
    this.#mark.hidden = false;
    Object.assign(this.#mark.style, { left: `${100 * (x + 0.5) / width}%`,
      top: `${100 * (y + 0.5) / height}%` });
    this.#mark.scrollIntoView({ block: "nearest", inline: "nearest" });
  }

  #flip() {
    this.#show(this.#view === "other" ? "own" : "other");
  }

  /** Shows the next of the views. */
  nextView() {
    if (!this.#isOn) return;
    const at = VIEWS.findIndex(([view]) => view === this.#view);
    this.#show(VIEWS[(at + 1) % VIEWS.length][0]);
  }

  /** Shows one of the views, if there is a picture for it. */
  #show(view) {
    this.#view = view;
    setAll(this.#views, { value: view });
    const difference = this.#difference, isShown = this.#other && view !== "own" && difference?.own;
    this.#canvas.hidden = !isShown;
    byId("frame").dataset.compare = isShown ? view : "";
    this.#name(isShown ? view : "own");
    if (isShown) this.#paint(view, difference);
    this.#screen.setPictures(isShown && view === "side" ? 2 : 1);
  }

  /** Tells on the stage what is seen. */
  #name(view) {
    const { name } = this.#other ?? {}, [left, right] = this.#names.children;
    const texts = { other: [name, ""], difference: ["what differs", ""], side: ["this run", name] };
    this.#names.hidden = !texts[view];
    if (this.#names.hidden) return;
    setText(left, texts[view][0]);
    setText(right, texts[view][1]);
  }

  #paint(view, difference) {
    const isDifference = view === "difference" && !difference.trouble;
    const { width, height } = isDifference ? difference.own : difference.other;
    const words = isDifference ? wordsOfDifference(difference) : wordsOfPicture(difference.other);
    setAll(this.#canvas, { width, height });
    const image = new ImageData(new Uint8ClampedArray(words.buffer), width, height);
    this.#canvas.getContext("2d", { alpha: false }).putImageData(image, 0, 0);
  }
}
