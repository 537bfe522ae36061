// The cards by which the page is asked about a dot, a byte, a register, a colour: what it is, the
// step that draws it, the last step that changed it, and whether to watch it.
import { PopCard } from "../common/popcard.js";
import { GROUPS } from "../script/registers.js";
import { Trouble } from "../common/trouble.js";
import { byId, cssColour, element, selectOf } from "../common/dom.js";
import { DotSearch, dotOfSeen } from "./dotsearch.js";
import { heldSource } from "./holding.js";
import { rowsOfDot } from "./dotrows.js";
import { subjectOf } from "./subjects.js";

/** What the buttons of the cards say. */
export const ACTIONS = { drawn: "the step that draws it", change: "the last step that changed it",
  moved: "the step that moved it here", watch: "watch it", stop: "stop when it changes" };

/** So many milliseconds a search for the step that drew a dot goes on at a time, and waits. */
const SLICE_TIME = 8, WAIT_TIME = 30;
/** What a search has found takes so many pixels of a card. */
const ANSWER_HEIGHT = 80;
/** So far from the left of what keys ask about its card stands at most, in pixels. */
const MOST_ASIDE = 160;

/** The cards of dots and of other subjects. */
export class Asking {
  #heard;
  #card = new PopCard("asked", undefined, byId("slider"), ANSWER_HEIGHT);
  #told = element("div");
  /** What is asked about: the words of a subject, and of a dot its place. */
  #words = "";
  #seen = null;
  /** What is known of the dot as it was drawn: of which words and state, and the dot. */
  #then = null;

  /**
   * `heard` has `drawn(line, dot)`, `change(subject)`, `watch(words)` and `stop(points)`;
   * `madeAt(words, seen)` answers a dot whose change is shown, as it is drawn, or null;
   * `colourAt(line, dot)` answers the colour of a dot of the picture, or null; `placeOf(line, dot)`
   * where it stands in the window; `isIdle()` whether the run searches for nothing; `answer(seen)` what a search has
   * found, if it has led to what is shown, or nothing.
   */
  constructor(heard) {
    this.#heard = heard;
  }

  /** What is shown has changed: an open card tells of that. */
  show(seen) {
    this.#seen = seen;
    if (this.#card.isOpen) this.#tell();
  }

  close() {
    this.#card.close();
  }

  /** What was asked about last; null for nothing yet. */
  get subject() {
    return subjectOf(this.#words);
  }

  /** The dot that was asked about last, as { line, dot }; null for none. */
  get dot() {
    return this.subject?.place ?? null;
  }

  /** Opens the card of a dot; it stands beside the dot. */
  askDot(line, dot) {
    this.ask(`dot ${line} ${dot}`, this.#heard.placeOf(line, dot));
  }

  /** Opens the card of a subject; `place` is { x, y } in the window. */
  ask(words, place) {
    const subject = this.#seen && subjectOf(words);
    if (!subject) return;
    this.#words = words;
    const choices = subject.isDot ? this.#picker(subject.place) : this.#fields(words);
    this.#told.replaceChildren();
    this.#tell();
    this.#card.open(place, subject.title, this.#actions(subject.isDot), ...choices, this.#told);
  }

  /** Opens the card of what an element, or one around it, shows; whether it shows a subject. */
  askAt(target, place = null) {
    const shown = target?.closest?.("[data-subject]");
    if (!shown) return false;
    const box = shown.getBoundingClientRect();
    this.ask(shown.dataset.subject,
      place ?? { x: box.left + Math.min(box.width, MOST_ASIDE), y: box.top });
    return true;
  }

  /** Writes the title, and what is told below the buttons. */
  #tell() {
    const { subject } = this;
    this.#card.title = subject.title;
    const answer = this.#heard.answer(this.#seen);
    this.#told.replaceChildren(...answer ? [element("p", { className: "found" }, answer)] : [],
      ...subject.isDot ? this.#tellDot(subject) : this.#tellValue(subject));
  }

  #action(name, does) {
    const made = element("button", { type: "button", onclick: does }, ACTIONS[name]);
    made.dataset.action = name;
    return made;
  }

  #actions(isDot) {
    const closing = does => () => {
      this.#card.close();
      does();
    };
    const change = this.#action("change", () => this.#heard.change(this.subject));
    const watch = this.#action("watch", closing(() => this.#heard.watch(this.#words)));
    const drawn = () => this.#heard.drawn(this.dot.line, this.dot.dot);
    const moved = () => this.#heard.change(subjectOf(`move ${this.dot.line} ${this.dot.dot}`));
    change.className = "chief";
    const buttons = isDot ? [change, this.#action("drawn", closing(drawn)), this.#action("moved", moved), watch]
      : [change, watch, this.#action("stop", closing(() => this.#heard.stop(this.subject.points)))];
    return element("p", { className: "actions" }, ...buttons);
  }

  #tellDot({ place }) {
    const { line, dot } = place, shown = this.#heard.colourAt(line, dot);
    if (!shown) return [element("p", {}, "The picture has no such dot.")];
    const found = this.#changed() ?? this.#foundThen() ?? dotOfSeen(this.#seen, place);
    // No cycle of a call draws a dot.
    if (found?.how === "now" && !this.#seen.session.isCall) this.#lookUp(place);
    if (found) {
      const colours = { "DAC entry": found.source.colour, "but shown": shown };
      return [this.#table(rowsOfDot(found, place, shown).slice(1), colours)];
    }
    return [element("p", {}, "The registers as they stand display no dot there.")];
  }

  /** The dot as the step that is shown has changed it, if a search for that change leads here. */
  #changed() {
    const { after } = this.#seen, made = this.#heard.madeAt(this.#words, this.#seen);
    return made && { state: after, ...heldSource(after.card, made), how: "changed" };
  }

  /** The dot as it was drawn, if that is known of what is shown. */
  #foundThen() {
    const { words, seen, found } = this.#then ?? {};
    return words === this.#words && seen === this.#seen ? found : null;
  }

  /** Searches for the step that drew a dot, while the card tells of it, a slice after the other. */
  #lookUp(place) {
    const words = this.#words, seen = this.#seen, { session, steps } = seen;
    const search = new DotSearch(session, place, steps, { isDrawn: true, isMadeOnly: true });
    const goOn = () => {
      if (!this.#card.isOpen || this.#words !== words || this.#seen !== seen) return;
      const told = this.#heard.isIdle() ? this.#taken(search) : null;
      if (!told) {
        setTimeout(goOn, this.#heard.isIdle() ? 0 : WAIT_TIME);
      } else if (told.made) {
        this.#then = { words, seen, found: { ...told.made, drawnBy: told.drawnBy, how: "then" } };
        this.#tell();
      }
    };
    setTimeout(goOn);
  }

  /** A slice of a search. If there is no memory for it, the card stays as it is. */
  #taken(search) {
    try {
      return search.take(SLICE_TIME);
    } catch (error) {
      if (error instanceof Trouble) return {};
      throw error;
    }
  }

  /** Rows, and colours by the names of rows before which a patch of them stands. */
  #table(rows, colours) {
    const body = rows.map(([name, value]) => element("tr", {},
      element("th", { scope: "row" }, name), element("td", {}, value)));
    for (const [name, colour] of Object.entries(colours)) {
      const swatch = element("span", { className: "swatch" });
      swatch.style.background = cssColour(colour);
      body[rows.findIndex(row => row[0] === name)]?.lastChild.prepend(swatch, " ");
    }
    return element("table", { className: "plain" }, element("tbody", {}, ...body));
  }

  /** Two numbers, by which keys reach any dot. */
  #picker({ line, dot }) {
    const number = (title, value) => element("input", { type: "number", min: 0, value, title,
      autocomplete: "off", onchange: () => choose() });
    const [dots, lines] = [number("dot", dot), number("line", line)];
    const choose = () => {
      const words = `dot ${Math.floor(Number(lines.value))} ${Math.floor(Number(dots.value))}`;
      if (!subjectOf(words)) return;
      this.#words = words;
      this.#tell();
    };
    return [element("p", { className: "picker" }, element("label", {}, "dot ", dots),
      element("label", {}, "line ", lines))];
  }

  #tellValue(subject) {
    const { before, after } = this.#seen, [was, is] = [before, after].map(subject.value);
    return [element("p", { className: "value" }, was === is ? is
      : `${was} before the last step, now ${is}`)];
  }

  /** Of a register a choice of its fields. */
  #fields(words) {
    const [kind, group, index] = words.split(" ");
    if (kind !== "register" && kind !== "field") return [];
    const { fields } = GROUPS.find(({ id }) => id === group).registers[parseInt(index, 16)];
    const options = [[`register ${group} ${index}`, "the whole register"],
      ...fields.map(({ bits, name }) =>
        [`field ${group} ${index} ${bits}`, `bits ${bits}: ${name}`])];
    const choice = selectOf("which bits", options, { onchange: ({ target }) => {
      this.#words = target.value;
      this.#tell();
    } });
    choice.value = words;
    return [element("p", {}, choice)];
  }
}
