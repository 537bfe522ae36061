// The field in which the script is written: CodeMirror, which the page has as `CodeMirror` before
// its own script begins. All that is known of CodeMirror stands here, in `completion.js` and in
// `editor.css`.

// The page undoes changes itself, and Tab leaves the text: what CodeMirror would do by these keys.
const LEFT_ALONE = ["Tab", "Shift-Tab", "Esc", "Insert", "F1", "F9", "Ctrl-Z", "Ctrl-Y",
  "Shift-Ctrl-Z", "Cmd-Z", "Cmd-Y", "Shift-Cmd-Z", "Ctrl-U", "Alt-U", "Ctrl-B", "Ctrl-I", "Ctrl-F", "Shift-Ctrl-F",
  "Cmd-F"];
const MODE = "zaklimot";

/** Colours the name of a line's step, and its comment. */
function partsApart() {
  return { token(stream) {
    const isFirst = stream.eatSpace() || stream.pos === 0;
    if (stream.peek() === ";") {
      stream.skipToEnd();
      return "comment";
    }
    if (isFirst && stream.start === 0) return stream.eatWhile(/[^\s;]/) && "keyword";
    return stream.eatWhile(/[^;]/) && null;
  } };
}

/**
 * A field of text in a box. `heard` has `changing(change)`, a change { from, removed, added }
 * before it is made, which may answer false and then it is not made; and `changed(changes)`, when
 * changes were made. Those that the page makes by `put` and `replace` are not told.
 */
export class TextField {
  #isOurs = false;
  #changes = [];
  #text = null;

  constructor(box, heard) {
    const { CodeMirror } = globalThis;
    CodeMirror.defineMode(MODE, partsApart);
    this.heard = heard;
    // Screen readers read an editable element line by line, and a hidden field not at all.
    this.cm = CodeMirror(box, { mode: MODE, inputStyle: "contenteditable", tabSize: 8,
      smartIndent: false, electricChars: false, undoDepth: 1, spellcheck: false,
      screenReaderLabel: "script", configureMouse: () => ({ addNew: false }),
      extraKeys: Object.fromEntries(LEFT_ALONE.map(key => [key, false])) });
    this.area = this.cm.getInputField();
    this.area.id = "text";
    this.area.setAttribute("role", "textbox");
    this.area.setAttribute("aria-multiline", "true");
    this.length = 0;
    this.cm.on("beforeChange", (_, change) => this.#noteChange(change));
    this.cm.on("changes", () => this.#tellChanges());
    // Files that are dropped are the page's.
    for (const event of ["dragenter", "dragover", "drop"]) {
      this.cm.on(event, (_, dragged) => {
        dragged.codemirrorIgnore = dragged.dataTransfer?.types.includes("Files");
      });
    }
  }

  #noteChange(change) {
    const { cm } = this, from = cm.indexFromPos(change.from);
    const removed = cm.getRange(change.from, change.to);
    const noted = { from, removed, added: change.text.join("\n") };
    if (!this.#isOurs && this.heard.changing(noted) === false) return change.cancel();
    this.length += noted.added.length - removed.length;
    if (!this.#isOurs) this.#changes.push(noted);
    return null;
  }

  #tellChanges() {
    this.#text = null;
    // The page keeps the changes itself.
    this.cm.clearHistory();
    const changes = this.#changes.splice(0);
    if (changes.length) this.heard.changed(changes);
  }

  get text() {
    this.#text ??= this.cm.getValue();
    return this.#text;
  }

  get lineCount() {
    return this.cm.lineCount();
  }

  /** The box that scrolls. */
  get scroller() {
    return this.cm.getScrollerElement();
  }

  get hasFocus() {
    return document.activeElement === this.area;
  }

  /** The caret: { line, ch }, the line's number from 1. */
  get caret() {
    const { line, ch } = this.cm.getCursor();
    return { line: line + 1, ch };
  }

  /** The text that is selected. */
  get selected() {
    return this.cm.getSelection();
  }

  /** The place of the caret, or where the selection begins, in characters from the text's begin. */
  get place() {
    return this.cm.indexFromPos(this.cm.getCursor("from"));
  }

  /** A line as it stands, with its number from 1. */
  lineText(line) {
    return this.cm.getLine(line - 1) ?? "";
  }

  /** Does something whose changes are the page's own. */
  #ours(does) {
    this.#isOurs = true;
    try {
      this.cm.operation(does);
    } finally {
      this.#isOurs = false;
    }
    this.#text = null;
  }

  /** Shows another text. */
  put(text) {
    this.#ours(() => {
      this.cm.setValue(text);
      this.length = this.cm.getValue().length;
    });
    this.cm.clearHistory();
  }

  /** Puts a text in place of a part, with the caret behind it. */
  replace(from, to, added) {
    this.#ours(() => {
      const [begin, end] = [from, to].map(place => this.cm.posFromIndex(place));
      this.cm.replaceRange(added, begin, end);
      this.cm.setCursor(this.cm.posFromIndex(from + added.length));
    });
  }

  /**
   * Types a text at lines: in place of the caret's line where that is blank, and after it
   * elsewhere.
   */
  insertLines(text) {
    const { cm } = this, { line } = cm.getCursor(), old = cm.getLine(line);
    const [added, begin] = old.trim() ? [`\n${text}`, old.length] : [text, 0];
    cm.replaceRange(added, { line, ch: begin }, { line, ch: old.length }, "+input");
    cm.focus();
  }

  /** Selects a part, and shows it. */
  select(from, to) {
    const [begin, end] = [from, to].map(place => this.cm.posFromIndex(place));
    this.cm.setSelection(begin, end, { scroll: false });
    this.cm.scrollIntoView({ from: begin, to: end }, 3 * this.cm.defaultTextHeight());
  }

  /** Marks a part of the text by a class; answers what takes the mark away. */
  mark(from, to, className) {
    const [begin, end] = [from, to].map(place => this.cm.posFromIndex(place));
    const made = this.cm.markText(begin, end, { className });
    return () => made.clear();
  }

  /** The place of a column of a line, in characters from the text's begin. */
  placeOf(line, column) {
    return this.cm.indexFromPos({ line: line - 1, ch: column });
  }

  /** Marks all that a search finds in the lines in sight; answers what takes the marks away. */
  markAll(pattern, className) {
    const overlay = { token(stream) {
      pattern.lastIndex = stream.pos;
      const found = pattern.exec(stream.string);
      if (!found) stream.skipToEnd();
      else if (found.index === stream.pos) stream.pos += Math.max(1, found[0].length);
      else stream.pos = found.index;
      return found && found.index + found[0].length === stream.pos ? className : null;
    } };
    this.cm.addOverlay(overlay, { opaque: false });
    return () => this.cm.removeOverlay(overlay);
  }

  /** The place of the text at a point of the window: { line, ch }; null where no letter stands. */
  placeAt(left, top) {
    const { line, ch, outside, xRel } = this.cm.coordsChar({ left, top }, "window");
    const isPast = outside || (xRel > 0 && ch >= this.lineText(line + 1).length);
    return isPast ? null : { line: line + 1, ch };
  }

  /** Where a place of the text is seen in the window: { left, top, bottom }. */
  pointOf({ line, ch }) {
    return this.cm.charCoords({ line: line - 1, ch }, "window");
  }

  focus() {
    this.cm.focus();
  }

  /** Shows the caret where it is out of sight. */
  reveal() {
    this.cm.scrollIntoView(null, 2 * this.cm.defaultTextHeight());
  }

  /** Scrolls to a place, and draws the lines there before the browser tells that it has scrolled. */
  scrollTo(top) {
    this.cm.scrollTo(null, top);
  }

  /** The width of the bar at the right, by which the text is scrolled, in pixels. */
  get barWidth() {
    return this.cm.display.barWidth;
  }

  /** Measures the lines anew. */
  refresh() {
    this.cm.refresh();
  }
}
