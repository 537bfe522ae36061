// The last step: its words and answer, what it changed, and why it was refused.
import { byId, element, pageLink, setAll, setText } from "../common/dom.js";
import { changesOf } from "../run/changes.js";
import { grouped } from "../common/bytes.js";
import { isCallAt } from "../run/call.js";
import { isRefusal } from "../script/expecting.js";
import { whyRefused } from "../explain/refusals.js";

const MOST_WORDS = 160;

/** What the page tells of the last step. */
export class LastStep {
  #pages;
  #box = byId("laststep");
  #changes = byId("changes");
  #refusal = byId("refusal");
  #place = new Text();
  #step = element("code");
  #answer = element("code");
  #into = element("button", { type: "button", id: "into", title: "The call's cycles, one by one (I)" },
    "step into it");

  /** `pages`: the address of the documentation's folder. `into` goes into the call that is shown. */
  constructor(pages, into) {
    this.#pages = pages;
    this.#into.addEventListener("click", into);
  }

  /** Shows what is seen: { session, steps, before, after }. */
  show(seen) {
    const { session, steps } = seen;
    if (steps) return this.#showStep(seen);
    setAll(this.#refusal, { hidden: true });
    const { noun, isCall, length } = session, begin = isCall ? "Before the call" : "Power-on";
    this.#box.replaceChildren(`${begin}: no ${noun} of ${grouped(length)} is taken yet.`);
    return setText(this.#changes, "");
  }

  #showStep({ session, steps, before, after }) {
    const { outline } = session, entry = outline.entryOf(steps - 1);
    const words = outline.wordsOf(entry), answer = session.answerOf(steps - 1);
    const line = session.isCall ? "" : `, line ${grouped(outline.lineOf(entry))}`;
    this.#place.data = `After ${session.noun} ${grouped(steps)} of ${grouped(session.length)}${line}: `;
    setText(this.#step, words.slice(0, MOST_WORDS));
    setText(this.#answer, answer.slice(0, MOST_WORDS));
    if (this.#place.parentNode !== this.#box) {
      this.#box.replaceChildren(this.#place, this.#step, " answers ", this.#answer, " ", this.#into);
    }
    const isRefused = isRefusal(answer);
    setAll(this.#into, { hidden: !isCallAt(session, steps) || isRefused });
    setAll(this.#refusal, { hidden: !isRefused });
    if (isRefused) this.#showRefusal(answer, whyRefused(session, steps - 1, before));
    const changes = changesOf(before, after);
    setText(this.#changes, changes.length ? `Changed: ${changes.join("; ")}.` : "Nothing changed.");
  }

  /** Shows a refusal, and why: null for a step that the card, asked again, would take. */
  #showRefusal(answer, why) {
    const more = why && pageLink(this.#pages, why.link.page, why.link.anchor, `See ${why.link.title}.`);
    this.#refusal.replaceChildren(element("strong", {}, answer), ...why ? [` ${why.text} `, more] : []);
  }
}
