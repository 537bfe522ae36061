// The panel of steps: each with its form, a sentence, and an example that can be put into the
// script.
import { STEPS, stepOf } from "./steps.js";
import { byId, element, idOf, pageLink } from "../common/dom.js";
import { wordsIn } from "../script/words.js";

/**
 * The panel. `insert(text)` puts lines into the script at the caret; `base` is where the pages lie.
 */
export class Language {
  #box = byId("languagebox");

  constructor(insert, base) {
    const button = (name, example) => element("button", { type: "button",
      "aria-label": `insert the example of ${name}`, onclick: () => {
        this.#box.close();
        insert(example);
      } }, "Insert");
    const part = ({ name, form, does, example }) => element("section",
      { id: idOf("step", name, "help") }, element("h3", {}, element("code", {}, form)),
      element("p", {}, does),
      element("div", {}, element("pre", {}, example), button(name, example)));
    const rules = pageLink(base, "SCRIPT.md", "the-text", "the rules of a script");
    const again = pageLink(base, "SCRIPT.md", "steps-again-and-again", "repeats");
    const told = element("p", {}, "A script has a step on each line. Numbers are hexadecimal, but " +
      "for the dots of advance and for counts. A comment begins with a semicolon. Read ",
    rules, " and ", again, ".");
    this.#box.append(told, ...STEPS.map(part));
  }

  /** Opens the panel, at the step of a line where it has one. */
  open(line) {
    const step = stepOf(wordsIn(line).map(({ text }) => text));
    this.#box.showModal();
    if (step) byId(idOf("step", step.name, "help")).scrollIntoView();
    else this.#box.scrollTop = 0;
  }
}
