// The help around the script: the search in it and in its steps, completion, tips, the panel of
// steps, and the sections of the documentation.
import { Completion } from "./completion.js";
import { Language } from "./language.js";
import { Sections } from "./sections.js";
import { StepFinder } from "../editor/stepfinder.js";
import { TextFinder } from "../editor/textfinder.js";
import { Tip } from "./tip.js";
import { byId } from "../common/dom.js";

/**
 * The help over an editor and a runner. `data`: what the page was built with. `opening` hears that the search in
 * steps is opened.
 */
export class Helper {
  constructor(editor, runner, data, opening) {
    const { field } = editor;
    this.editor = editor;
    this.opening = opening;
    this.sections = new Sections(data.sections, data.pages);
    this.textFinder = new TextFinder(editor);
    this.stepFinder = new StepFinder(runner);
    this.completion = new Completion(field, data.sections);
    this.tip = new Tip(field, this.sections);
    this.language = new Language(text => editor.insertLines(text), data.pages);
    const clicks = {
      findtext: () => this.textFinder.open(),
      findsteps: () => this.#openSteps(),
      language: () => this.language.open(editor.lineText(editor.line)),
    };
    for (const [name, does] of Object.entries(clicks)) byId(name).addEventListener("click", does);
    // Before the other keys of the page, and before those of the field.
    document.addEventListener("keydown", event => this.#pressed(event), true);
  }

  #openSteps() {
    this.opening();
    this.stepFinder.open();
  }

  #pressed(event) {
    if (document.querySelector("dialog[open]")) return;
    const isInText = event.target === this.editor.area || event.target === byId("long");
    if (!this.#pressedFind(event, isInText) && !(isInText && this.#pressedInText(event))) return;
    event.preventDefault();
    event.stopPropagation();
  }

  /** Whether a key opens a search. */
  #pressedFind({ key, ctrlKey, metaKey, shiftKey, altKey }, isInText) {
    if (altKey || ctrlKey === metaKey || key.toLowerCase() !== "f") return false;
    if (shiftKey) this.#openSteps();
    else if (isInText || this.textFinder.bar.isOpen) this.textFinder.open();
    else return false;
    return true;
  }

  /** Whether a key is one of the help's in the script. */
  #pressedInText({ key, ctrlKey, shiftKey, altKey, metaKey }) {
    if (altKey || metaKey) return false;
    const { tip, completion } = this, wasShown = tip.isShown;
    if (!["Control", "Shift"].includes(key)) tip.hide();
    if (key === "Escape") return wasShown && !completion.isOpen;
    const isTip = (ctrlKey && key.toLowerCase() === "i") || (shiftKey && key === "F1");
    if (ctrlKey && key === " ") completion.open();
    else if (isTip) tip.showAtCaret();
    else if (key === "F3" && this.textFinder.bar.isOpen) this.textFinder.go(shiftKey);
    else return false;
    return true;
  }
}
