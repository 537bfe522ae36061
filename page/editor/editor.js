// The script's text: what was typed and loaded, which script it is, and what stands beside its
// lines.
import { Columns } from "./columns.js";
import { History, OldText, changeOfAll } from "./history.js";
import { LongText, MOST_EDITED, MOST_LINES, whyNotEdited } from "./longtext.js";
import { ROW } from "../common/rows.js";
import { Scroller } from "../common/scroller.js";
import { TextField } from "./textfield.js";
import { byId, rowsInSight, setAll } from "../common/dom.js";

const TOP = 6;
/** So many rows before and after those in sight are there, since the browser scrolls ahead of the page. */
const MORE = 2;
// Browsers have no elements that are much higher.
const HIGHEST_TEXT = 8000000;

/**
 * The editor. `heard` has `typed(change, old)`, which answers which script the changed text is,
 * `switched(change, old)`, a change that was undone or done again, `pointed(line)`, a
 * breakpoint's mark that was clicked, and `asked(step)`, the answer of a step that was. `old` is the text before: { length, text }.
 */
export class Editor {
  isLong = false;
  note = "";
  script = null;
  history = new History();
  bad = null;
  isStale = false;
  session = null;
  steps = 0;
  mark = 0;
  next = 0;
  points = new Set();
  /** Functions that hear of each change of the text. */
  listeners = [];
  #clearMark = null;
  #place = 0;

  constructor(heard) {
    this.heard = heard;
    this.field = new TextField(byId("page"), { changing: change => this.#isTaken(change),
      changed: changes => this.#typed(changes) });
    this.area = this.field.area;
    this.longText = new LongText(byId("long"), byId("longrows"));
    this.columns = new Columns(line => heard.pointed(line), step => heard.asked(step));
    this.area.addEventListener("beforeinput", event => {
      const way = { historyUndo: "undo", historyRedo: "redo" }[event.inputType];
      if (!way) return;
      event.preventDefault();
      this.turn(way);
    });
    this.boxes = [new Scroller(this.field.scroller, () => this.draw(), top => this.field.scrollTo(top)),
      new Scroller(byId("long"), () => this.draw())];
    new ResizeObserver(() => this.field.refresh()).observe(byId("page"));
    byId("why").firstElementChild.addEventListener("click", () => this.#toBad());
  }

  get text() {
    return this.isLong ? this.longText.text : this.field.text;
  }

  get length() {
    return this.isLong ? this.longText.text.length : this.field.length;
  }

  /** How many lines the text has. */
  get count() {
    return this.isLong ? this.longText.lineCount : this.field.lineCount;
  }

  /** The number of the line with the caret. */
  get line() {
    return this.field.caret.line;
  }

  /**
   * Whether the field takes a change. A text that becomes too long for it is shown as one that is
   * loaded.
   */
  #isTaken({ from, removed, added }) {
    const length = this.field.length + added.length - removed.length;
    if (length <= MOST_EDITED && added.length < MOST_LINES) return true;
    const { text } = this.field;
    const now = text.slice(0, from) + added + text.slice(from + removed.length);
    if (!whyNotEdited(now)) return true;
    queueMicrotask(() => this.#replaceAll(now));
    return false;
  }

  /** Takes a text in place of all, as one that was pasted. */
  #replaceAll(now) {
    const old = this.text, change = { from: 0, removed: old, added: now };
    this.put(now);
    this.#note(change, new OldText(this, change), true);
  }

  /** Takes what was typed, pasted or dropped. */
  #typed(changes) {
    const change = changeOfAll(changes, this.field), old = new OldText(this, change);
    this.#clear();
    this.#note(change, old, false);
    this.draw();
  }

  #note(change, old, isWhole) {
    const before = { script: this.script };
    this.script = this.heard.typed(change, old);
    this.history.note({ ...change, before, after: { script: this.script }, isWhole });
    this.#tell();
  }

  #tell() {
    for (const heard of this.listeners) heard();
  }

  /** Undoes the last change, or does one again; whether there was one. */
  turn(way) {
    const change = this.history[way]();
    if (!change) return false;
    const { from, removed, added } = change, to = from + removed.length;
    if (this.isLong || change.isWhole) {
      const { text } = this;
      this.put(text.slice(0, from) + added + text.slice(to));
    } else {
      this.field.replace(from, to, added);
      this.#clear();
      this.field.reveal();
      this.draw();
    }
    this.script = change.after.script;
    this.heard.switched(change, new OldText(this, change));
    this.#tell();
    return true;
  }

  /**
   * Shows another script, a text and which script it is. The script before is there again by
   * `turn`.
   */
  load(text, script) {
    const removed = this.text, before = { script: this.script }, after = { script };
    this.put(text);
    this.script = script;
    this.#tell();
    if (!before.script) return;
    this.history.note({ from: 0, removed, added: this.text, before, after, isWhole: true });
  }

  put(text) {
    this.#clear();
    this.note = whyNotEdited(text);
    this.isLong = this.note !== "";
    this.field.put(this.isLong ? "" : text);
    this.longText.put(this.isLong ? text : "");
    byId("long").hidden = !this.isLong;
    byId("page").classList.toggle("islong", this.isLong);
    this.mark = this.next = 0;
    if (this.isLong) this.longText.resize(this.height);
    else this.field.refresh();
    this.scrollTo(0);
    this.draw();
  }

  /** The place of the caret, or of what is selected, in characters from the text's begin. */
  get place() {
    return this.isLong ? this.#place : this.field.place;
  }

  /** What is selected. */
  get selected() {
    return this.isLong ? "" : this.field.selected;
  }

  /** Selects a part of the text, and shows it; of a text that is only shown, its line. */
  select(from, to) {
    this.#place = from;
    if (!this.isLong) return this.field.select(from, to);
    this.mark = this.longText.lineAt(from);
    this.reveal(this.mark);
    return this.draw();
  }

  /** Marks a part of the text by a class; answers what takes the mark away. */
  markPart(from, to, className) {
    return this.isLong ? null : this.field.mark(from, to, className);
  }

  /** Marks all that a pattern finds in sight; answers what takes the marks away. */
  markAll(pattern) {
    return this.isLong ? null : this.field.markAll(pattern, "found");
  }

  /** Takes a text as one that was typed at the caret's line. */
  insertLines(text) {
    if (!this.isLong) this.field.insertLines(text);
  }

  focus() {
    if (this.isLong) byId("long").focus();
    else this.field.focus();
  }

  get box() {
    return this.boxes[this.isLong ? 1 : 0];
  }

  /** How high the text is, as far as the browser shows it. */
  get height() {
    const high = 2 * TOP + ROW.height * this.count;
    return this.isLong ? Math.min(HIGHEST_TEXT, high) : high;
  }

  /** How much a pixel of the scroll bar is, in pixels of lines. */
  get scale() {
    if (!this.isLong) return 1;
    const seen = this.box.height, lines = ROW.height * this.count - seen;
    return Math.max(1, lines / Math.max(1, this.height - seen));
  }

  get scrolled() {
    return this.box.top * this.scale;
  }

  scrollTo(top) {
    this.box.scrollTo(top / this.scale, this.height);
  }

  /** A line as it stands, with its number from 1. */
  lineText(line) {
    return (this.isLong ? this.longText : this.field).lineText(line);
  }

  /** Shows the answers of a run up to so many steps, and marks the line of the last. */
  show(session, steps) {
    Object.assign(this, { session, steps });
    const { outline } = session;
    this.mark = steps ? outline.lineOf(outline.entryOf(steps - 1)) : 0;
    this.next = steps < session.length ? outline.lineOf(outline.entryOf(steps)) : 0;
    if (!this.field.hasFocus) this.reveal(this.mark);
    this.draw();
  }

  /** Scrolls to a line that is not in sight. */
  reveal(line) {
    const top = TOP + ROW.height * (line - 1), { scrolled, box: { height } } = this;
    const isSeen = top >= scrolled && top <= scrolled + height - 2 * ROW.height;
    if (line && !isSeen) this.scrollTo(top - height / 2);
  }

  /** Marks a bad line: { line, at, width, message }; null where there is none. */
  blame(trouble) {
    this.#clear();
    this.bad = trouble;
    this.#sayWhy();
    if (trouble && !this.isLong) {
      const { line, at = 0, width = 1 } = trouble, begin = this.field.placeOf(line, 0);
      const end = this.lineText(line).length, from = Math.max(0, Math.min(at, end - 1));
      this.#clearMark = this.markPart(begin + from, begin + Math.min(at + width, end), "badword");
    }
    // Whoever types stays where the caret is.
    if (trouble && !this.field.hasFocus) this.reveal(trouble.line);
    this.draw();
  }

  /** Takes away what is said of a bad line. */
  #clear() {
    this.#clearMark?.();
    this.#clearMark = null;
    this.bad = null;
    this.#sayWhy();
  }

  /** Says at the foot of the editor why a line is bad. */
  #sayWhy() {
    const { bad } = this, why = byId("why");
    setAll(why, { hidden: !bad?.line });
    if (why.hidden) return;
    why.firstElementChild.textContent = `line ${bad.line}`;
    why.lastElementChild.textContent = bad.message;
  }

  /** Goes to the word at which the bad line stops being a step. */
  #toBad() {
    const { bad, field } = this;
    if (!bad) return;
    this.reveal(bad.line);
    if (this.isLong) return;
    const begin = field.placeOf(bad.line, bad.at ?? 0);
    field.select(begin, begin + (bad.width ?? 0));
    field.focus();
  }

  /** Draws anew where rows have another height. */
  resized() {
    if (this.isLong) this.longText.resize(this.height);
    else this.field.refresh();
    this.draw();
  }

  draw() {
    const { box, scrolled } = this;
    // The columns beside the text stand still while it is scrolled; a text that is only shown does not.
    const more = this.isLong ? MORE : 0;
    const { first, last } = rowsInSight(scrolled - TOP, box.height, ROW.height, this.count, more);
    const count = Math.max(0, last - first), top = TOP + ROW.height * first - scrolled;
    const marked = this.bad?.line ?? this.mark;
    this.columns.show(count, first, top, this);
    byId("told").style.right = `${this.isLong ? 0 : this.field.barWidth}px`;
    this.longText.show(this.isLong ? count : 0, first, top + box.top, marked);
    const ribbon = byId("mark");
    setAll(ribbon, { hidden: !marked || this.isLong, className: this.bad ? "bad" : "" });
    ribbon.style.top = TOP + ROW.height * (marked - 1) - scrolled + "px";
  }
}
