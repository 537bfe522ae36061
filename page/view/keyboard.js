// What is done at a press of a key, by the table in keys.js.
import { KEYS, isOfList, keyName, takesText } from "./keys.js";
import { byId } from "../common/dom.js";
import { reveal } from "../common/flyout.js";

const UNDO_KEYS = { z: "undo", y: "redo" };
/** What is not seen while the picture has the full screen: who asks for it leaves that first. */
const OUTSIDE = ["tab", "gotonumber", "text", "savemenu"];

/** The page's keys. */
export class Keyboard {
  #editor;
  #tabs;
  #menu;
  #goToLine;
  #togglePoint;
  #orders;

  /**
   * `editor`, `tabs` and `menu`, that of Save, hear keys of their own. `goToLine` goes to the step
   * of a line, and `togglePoint` sets a breakpoint at one, or removes it. `orders` has functions by
   * those names of the table that are no controls, such as `ask`, which asks about what has the
   * keys, or about a dot, and `again`, for the change before the last one that was found.
   */
  constructor({ editor, tabs, menu, goToLine, togglePoint, orders }) {
    this.#orders = orders;
    this.#editor = editor;
    this.#tabs = tabs;
    this.#menu = menu;
    this.#goToLine = goToLine;
    this.#togglePoint = togglePoint;
    document.addEventListener("keydown", event => this.#pressed(event));
  }

  #pressed(event) {
    if (event.defaultPrevented || document.querySelector("dialog[open]")) return;
    const inText = event.target === this.#editor.area, isTyping = takesText(event.target);
    if ((inText || !isTyping) && this.#pressedUndo(event)) return event.preventDefault();
    if (event.altKey || event.metaKey) return;
    if (inText && this.#pressedInText(event)) return event.preventDefault();
    if (event.key === "Escape") return this.#escape(isTyping);
    const isFunction = /^F\d+$/.test(event.key);
    if (event.ctrlKey || (isTyping && !isFunction) || this.#hasOwnKeys(event)) return;
    const found = KEYS.find(([, , names]) => names.includes(keyName(event)));
    if (!found) return;
    event.preventDefault();
    this.#press(found[3], event.key);
  }

  /** Takes the keys from what has them, and out of a call, but not both at once while a text has them. */
  #escape(isTyping) {
    if (isTyping || !this.#orders.out()) document.activeElement?.blur();
  }

  /** Whether a key undoes a change of the script, or does one again. */
  #pressedUndo({ key, ctrlKey, metaKey, altKey, shiftKey }) {
    const letter = key.toLowerCase(), way = letter === "z" && shiftKey ? "redo" : UNDO_KEYS[letter];
    if (!way || altKey || ctrlKey === metaKey) return false;
    this.#editor.turn(way);
    return true;
  }

  /** Whether a key means something in the script alone. */
  #pressedInText({ key, ctrlKey }) {
    const { line } = this.#editor;
    if (key === "F9" || (ctrlKey && key === "b")) this.#togglePoint(line);
    else if (ctrlKey && key === "Enter") this.#goToLine(line);
    else return false;
    return true;
  }

  /** Whether the element of a key's event takes this key itself, as tabs and lists take arrows. */
  #hasOwnKeys(event) {
    const { target, key } = event, isTab = target.getAttribute?.("role") === "tab";
    if (!isTab || !/^Arrow(Left|Right)$/.test(key)) return isOfList(event);
    this.#tabs.step(key === "ArrowRight" ? 1 : -1);
    event.preventDefault();
    return true;
  }

  async #press(control, key) {
    if (document.fullscreenElement && OUTSIDE.includes(control)) await document.exitFullscreen();
    if (control === "tab") return this.#tabs.openNumber(Number(key));
    if (this.#orders[control]) return this.#orders[control]();
    const made = byId(control);
    if (control === "text") return this.#editor.focus();
    if (control === "gotonumber") {
      reveal(made);
      made.focus();
      return made.select();
    }
    if (control === "savemenu") return this.#menu.toggle();
    return made.hidden || made.click();
  }
}
