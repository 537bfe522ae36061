// The script that stands in the editor: which one it is, its breakpoints, and the way back to the
// one before.
import { PROGRAM, RUN } from "../editor/scripts.js";
import { Trouble } from "../common/trouble.js";
import { byId } from "../common/dom.js";
import { LONG_TEXT } from "../run/judging.js";
import { isNewText, linesAfter } from "../editor/history.js";

/** A change of the text is run after so many milliseconds; of a long text, after more. */
const WAIT = 250, LONG_WAIT = 1000;
const isLine = point => point.kind === "line";

/** The script in the editor. */
export class Desk {
  #editor;
  #scripts;
  #points;
  #heard;
  #before = null;
  #isNew = false;
  #timer = 0;

  /**
   * `points`: the panel of breakpoints. `heard` has `changed()`, the text is another one now;
   * `run(awaited)`, it is to be run, and so many steps shown, undefined for as many as before;
   * `program(name)`, a program of the list is to run; `leave()`, which switches the machine off, where
   * it is on; and `bringBack(id)`, a run is to be brought back.
   */
  constructor(editor, scripts, points, heard) {
    this.#editor = editor;
    this.#scripts = scripts;
    this.#points = points;
    this.#heard = heard;
  }

  /** Loads what is chosen in the list of scripts. `guarded` tells what went wrong. */
  listenTo(list, guarded) {
    let key = "", isTyped = false;
    const choose = () => {
      isTyped = false;
      guarded(() => this.#choose(list.value));
      // Whoever goes through the list by arrows goes on; else the page has the keys then.
      if (!/^Arrow(Up|Down)$/.test(key)) list.blur();
    };
    list.addEventListener("pointerdown", () => { key = ""; });
    list.addEventListener("keydown", event => {
      ({ key } = event);
      if (key !== "Enter" || !isTyped) return;
      event.preventDefault();
      choose();
    });
    list.addEventListener("change", () => {
      // Letters lead to an entry of the list, and Enter opens it.
      isTyped = key.length === 1 && key !== " ";
      if (!isTyped) choose();
    });
    list.addEventListener("blur", () => {
      if (isTyped) this.#scripts.choose();
      isTyped = false;
    });
  }

  #choose(value) {
    if (value.startsWith(PROGRAM)) {
      this.#scripts.choose();
      return this.#heard.program(value.slice(PROGRAM.length));
    }
    if (value.startsWith(RUN)) {
      this.#scripts.choose();
      return this.#heard.bringBack(value.slice(RUN.length));
    }
    const found = this.#scripts.chosen(value);
    if (found) return this.load(found.text, found.script);
    this.#scripts.fill();
    if (value) throw new Trouble("This script is gone from the browser's storage.");
    return null;
  }

  /**
   * Shows a script in place of the one that stands there, to which `takeBack` leads. `asked`: so
   * many steps are shown; `isAsked`: the address asks for the script.
   */
  load(text, script, { asked = Infinity, isAsked = false } = {}) {
    const editor = this.#editor, old = { text: editor.text, script: editor.script };
    this.#before = old.script && old.script !== script ? { ...old, title: this.#scripts.title(old.script, old.text) }
      : this.#before;
    this.#heard.leave();
    editor.load(text, script);
    this.#showBack();
    this.#swapPoints(old.script, script);
    this.#scripts.show(script, editor, isAsked);
    if (editor.isLong) this.#scripts.tellAbout(`${script.name}. ${editor.note}`, true);
    this.run(asked);
  }

  /** Loads the script that stood there before, or brings back the run that was switched off. */
  takeBack() {
    const before = this.#before;
    if (before?.run) return this.#heard.bringBack(before.run);
    return before && this.load(before.text, before.script);
  }

  /** A run was switched off: { id, title }. */
  left({ id, title }) {
    this.#before = { run: id, title };
    this.#showBack();
  }

  /** A run is on again: the way back leads to the script that stands in the editor. */
  cameBack(id) {
    if (this.#before?.run !== id) return;
    const { text, script } = this.#editor;
    this.#before = script && { text, script, title: this.#scripts.title(script, text) };
    this.#showBack();
  }

  #showBack() {
    const { run, text, title } = this.#before ?? {};
    byId("takeback").hidden = !run && !text?.trim();
    byId("takeback").textContent = `↶ ${title}`;
  }

  /** Takes what was typed; which script the text is now. */
  typed(change, old) {
    const script = this.#scripts.afterChange(this.#editor, change, old);
    this.switched(script, change, old);
    return script;
  }

  /** Takes a change of the text, after which it may be another script. */
  switched(script, change, old) {
    const isNew = change.isWhole || isNewText(old, change), editor = this.#editor;
    this.#isNew ||= isNew;
    if (isNew) this.#swapPoints(this.#scripts.now, script);
    else this.#movePoints(old, change);
    this.#scripts.show(script, editor);
    if (editor.isLong) this.#scripts.tellAbout(`${script.name}. ${editor.note}`, true);
    this.#heard.changed();
    clearTimeout(this.#timer);
    this.#timer = setTimeout(() => this.run(this.#isNew ? Infinity : undefined),
      editor.length > LONG_TEXT ? LONG_WAIT : WAIT);
  }

  /** Has the text run, and so many steps shown; undefined for as many as before. */
  run(awaited) {
    clearTimeout(this.#timer);
    this.#isNew = false;
    this.#heard.run(awaited);
  }

  /** Sets the breakpoints of another script's lines. */
  #swapPoints(old, script) {
    const { points } = this.#points;
    if (old) old.points = points.filter(isLine);
    this.#points.change([...points.filter(point => !isLine(point)), ...script.points ?? []]);
  }

  /** Breakpoints go where their lines go. */
  #movePoints(old, change) {
    const { points } = this.#points;
    if (!points.some(isLine)) return;
    const lineAfter = linesAfter(old.text, change);
    const moved = points.map(point =>
      (isLine(point) ? { ...point, line: lineAfter(point.line) } : point));
    this.#points.change(moved.filter(point => point.line !== null));
  }
}
