// The steps of a run one below the other, those of a block each time: number, line, words and
// answer.
import { ROW, Rows, isWritten } from "../common/rows.js";
import { byId, classesOf, element, rowsInSight, setAll, setText } from "../common/dom.js";
import { Scroller } from "../common/scroller.js";
import { isRefusal } from "../script/expecting.js";

// Browsers have no elements that are much higher.
const HIGHEST_LIST = 8000000;
/** An answer of so many letters has room in each list. */
const SHORT = 4;
/** So many rows before and after those in sight are there, since the browser scrolls ahead of the page. */
const MORE = 1;

/**
 * The list of steps. `go` shows the state after so many, and `step` goes one forward, or back with -1;
 * `goal` tells after how many it is, or will be, shown.
 */
export class Listing {
  session = null;
  steps = 0;
  height = 0;
  rows = byId("rows");

  constructor({ go, step: stepBy, goal }) {
    this.list = new Rows(this.rows, () => element("div", { className: "row", role: "option" },
      element("span"), element("span"), element("span"), element("span")));
    this.box = new Scroller(byId("listing"), () => this.draw());
    this.rows.addEventListener("click", event => {
      const step = Number(event.target.closest("[data-step]")?.dataset.step);
      if (step) go(step);
    });
    byId("listing").addEventListener("keydown", event => {
      const isOther = event.altKey || event.ctrlKey || event.metaKey || event.shiftKey;
      const far = isOther ? 0 : this.farOf(event.key);
      if (!far || !this.session) return;
      event.preventDefault();
      if (Math.abs(far) === 1) stepBy(far);
      else go(Math.max(0, goal() + far));
    });
  }

  /**
   * How many steps a key goes: one, or as many as are in sight. The other keys are those of the
   * page.
   */
  farOf(key) {
    const page = Math.max(1, Math.floor(this.box.height / ROW.height) - 1);
    return { ArrowUp: -1, ArrowDown: 1, PageUp: -page, PageDown: page }[key] ?? 0;
  }

  show(session, steps) {
    if (this.session?.noun !== session.noun) this.nameHeads(session);
    this.session = session;
    this.steps = steps;
    const height = Math.min(HIGHEST_LIST, ROW.height * session.ran);
    if (height !== this.height) this.rows.style.height = height + "px";
    this.height = height;
    const { box } = this, top = ROW.height * (steps - 1) / this.scale;
    const isInSight = top >= box.top && top <= box.top + box.height - ROW.height;
    if (!isInSight) box.scrollTo(top - box.height / 2, height);
    this.draw();
  }

  /** Shows the same after the list was out of the page. */
  opened() {
    this.box.find();
    if (this.session) this.show(this.session, this.steps);
  }

  /** Names the columns: cycles of a call have no line. */
  nameHeads({ noun, isCall }) {
    const [number, line] = byId("listhead").children;
    number.textContent = noun;
    line.textContent = isCall ? "" : "line";
    byId("listing").setAttribute("aria-label", `${noun}s and answers`);
  }

  /** How much a pixel of the scroll bar is, in pixels of rows: 1 but for millions of steps. */
  get scale() {
    const seen = this.box.height;
    return Math.max(1, (ROW.height * this.session.ran - seen) / Math.max(1, this.height - seen));
  }

  draw() {
    const { session, box } = this;
    if (!session) return;
    const scrolled = box.top * this.scale, count = Math.min(session.ran, session.answers.length);
    const { first, last } = rowsInSight(scrolled, box.height, ROW.height, count, MORE);
    this.list.show(Math.max(0, last - first), ROW.height * first - scrolled + box.top,
      (made, i) => this.fill(made, first + i));
    this.tellHere(first < this.steps && this.steps <= last ? `step${this.steps}` : "");
  }

  /** Tells assistive technology which row is that of the last step, where it is in sight. */
  tellHere(row) {
    if (row === this.here) return;
    this.here = row;
    if (row) byId("listing").setAttribute("aria-activedescendant", row);
    else byId("listing").removeAttribute("aria-activedescendant");
  }

  fill(made, step) {
    const { session } = this, { outline } = session, isHere = step + 1 === this.steps;
    const isLater = step + 1 > this.steps;
    if (isWritten(made, session, step, isHere, isLater)) return;
    const entry = outline.entryOf(step), answer = session.answerOf(step);
    const lines = answer.split("\n"), words = outline.wordsOf(entry);
    const expected = outline.expectedOf(entry);
    const verdict = expected === null ? "" : session.isWrong(step) ? "wrong" : "right";
    const texts = [String(step + 1), String(outline.lineOf(entry) || ""), words.slice(0, 200),
      lines[0].slice(0, 200) + (lines.length > 1 ? " …" : "")];
    texts.forEach((text, i) => setText(made.children[i], text));
    setAll(made.lastChild, { className: texts[3].length > SHORT ? "long" : "" });
    setAll(made, { title: `${words.slice(0, 200)}\n${answer.slice(0, 600)}`,
      ariaSelected: String(isHere), id: `step${step + 1}`,
      ariaPosInSet: String(step + 1), ariaSetSize: String(session.length),
      className: classesOf("row", isHere && "here", isLater && "later",
        isRefusal(answer) && "refused", verdict) });
    made.dataset.step = step + 1;
  }
}
