// The list of what can stand at the caret, by CodeMirror's own.
import { choicesAt, opensItself } from "./choices.js";
import { element } from "../common/dom.js";

/** Ends the list, and the line. */
function endLine(cm) {
  cm.state.completionActive?.close();
  cm.execCommand("newlineAndIndent");
}

/**
 * The keys of a list that has opened by itself: Enter ends the line, until an arrow has chosen from
 * the list.
 */
function keysOfItself() {
  let isChosen = false;
  const move = by => (_, list) => {
    isChosen = true;
    list.moveFocus(by);
  };
  return { Up: move(-1), Down: move(1),
    Enter: (cm, list) => (isChosen ? list.pick() : endLine(cm)) };
}

/**
 * Until the list is drawn anew after a key, it is of the text before: an Enter that comes then
 * would be kept for it.
 */
function letEnterThrough(cm) {
  const { widget } = cm.state.completionActive;
  widget.disable = () => {
    cm.removeKeyMap(widget.keyMap);
    widget.keyMap = { Enter: endLine, Tab: () => {} };
    cm.addKeyMap(widget.keyMap);
  };
}

/** Completion in a field of text. `sections`: those of the page's data. */
export class Completion {
  #cm;
  #sections;

  constructor({ cm }, sections) {
    this.#cm = cm;
    this.#sections = sections;
    cm.on("inputRead", (_, { text, origin }) => {
      const { line, ch } = cm.getCursor();
      const isTyped = origin === "+input" && text.length === 1 && text[0].trim() === "";
      if (isTyped && opensItself(cm.getLine(line), ch)) this.#open(true);
    });
  }

  get isOpen() {
    return Boolean(this.#cm.state.completionActive);
  }

  /** Opens the list; nothing happens where nothing can be told. */
  open() {
    this.#open(false);
  }

  #open(isByItself) {
    this.#cm.showHint({ hint: () => this.#choices(isByItself), completeSingle: false,
      closeCharacters: /[\s;]/, ...isByItself && { extraKeys: keysOfItself() } });
  }

  #choices(isByItself) {
    const cm = this.#cm, { line, ch } = cm.getCursor();
    const found = choicesAt(cm.getLine(line), ch, this.#sections);
    if (!found) return null;
    const render = (row, _, { text, told }) => row.append(element("span", {}, text),
      element("small", {}, told));
    const shown = { from: { line, ch: found.from }, to: { line, ch: found.to },
      list: found.list.map(choice => ({ ...choice, render })) };
    if (isByItself) globalThis.CodeMirror.on(shown, "shown", () => letEnterThrough(cm));
    return shown;
  }
}
