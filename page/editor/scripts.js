// Which script stands in the page, the list of scripts, and what is kept of the user's own.
import { LONGEST_KEPT, newId, titleOf } from "./drafts.js";
import { byId, element } from "../common/dom.js";
import { grouped } from "../common/bytes.js";
import { isNewText } from "./history.js";

/** The name of a script that has none. */
export const NAMELESS = "script";
const KEPT = "kept ", SHORT_TITLE = 30;
/** What the list's entry of a program begins with, which runs on the machine. */
export const PROGRAM = "program ";
/** What the list's entry of a run begins with, which can be brought back; and that of the one that is on. */
export const RUN = "run ";
const NOW = "now";
// A text of more characters is kept so many milliseconds after it was typed.
const MUCH_TEXT = 30000, KEPT_AFTER = 500;
const WHY_LOST = {
  forbidden: "This browser keeps nothing for the page, so your script is gone after a reload: " +
    "save it as a file, or make a link.",
  full: "The browser's storage is full, so your script is gone after a reload: " +
    "save it as a file, or make a link.",
  long: `A script of more than ${grouped(LONGEST_KEPT)} characters is not kept: save it as a file.`,
};

function timeText(time) {
  const parts = { day: "numeric", month: "short", hour: "2-digit", minute: "2-digit" };
  return new Date(time).toLocaleString([], parts);
}

/** What a program shows, in few words: the first sentence of what it is about. */
const titleOfProgram = about => about.split(".", 1)[0];

/**
 * The scripts. Each is { name, about, isExample, id }: under its id the user's own is kept, and
 * other scripts have none. `tell` says something that stays. `programs` stand in the list too, and
 * so do the runs that `runs()` answers: { id, title, time } each.
 */
export class Scripts {
  /** The script that stands in the page. */
  now = null;
  list = byId("examples");
  #warned = new Set();
  #program = "";

  constructor(examples, drafts, tell, { programs = [], runs = () => [] } = {}) {
    this.examples = examples;
    this.programs = programs;
    this.runs = runs;
    this.drafts = drafts;
    this.tell = tell;
    for (const event of ["pointerdown", "focus"]) {
      this.list.addEventListener(event, () => this.fill());
    }
    addEventListener("pagehide", () => this.keepNow());
    document.addEventListener("visibilitychange", () => this.keepNow());
    this.fill();
  }

  /** Fills the list: the user's last scripts, and the examples. */
  fill() {
    const { list } = this;
    const last = this.drafts.list().filter(({ time }) => time);
    const kept = last.map(({ id, title, time }) =>
      new Option(`${title} · ${timeText(time)}`, KEPT + id));
    const runs = this.runs().map(({ id, title, time }) => new Option(`${title} · ${timeText(time)}`, RUN + id));
    const group = (label, options) => element("optgroup", { label }, ...options);
    list.replaceChildren(...this.#program ? [new Option(this.#program, NOW)] : [], new Option("your own script", ""),
      ...this.programs.length ? [group("Programs that run", this.programs
        .map(({ name, about }) => new Option(`${titleOfProgram(about)} · ${name}`, PROGRAM + name)))] : [],
      ...kept.length ? [group("Your last scripts", kept)] : [],
      ...runs.length ? [group("Your last runs", runs)] : [],
      group("Tutorial", this.examples.filter(({ title }) => title)
        .map(({ name, title }) => new Option(title, name))),
      group("Examples", this.examples.filter(({ title }) => !title)
        .map(({ name }) => new Option(name, name))));
    this.choose();
  }

  /** Names the program that is on, in the list and the title; "" where none is. */
  set program(words) {
    if (this.#program === words) return;
    this.#program = words;
    this.fill();
    this.#title();
  }

  #title() {
    document.title = `${this.#program || this.now?.name}: Zaklimot`;
  }

  /** Chooses the entry of the program that is on, or of the script that stands there. */
  choose() {
    const { list, now } = this;
    list.value = this.#program ? NOW : now?.isExample ? now.name : KEPT + now?.id;
    if (list.selectedIndex < 0) list.value = "";
  }

  /** What an entry of the list stands for, as { text, script }; null where it is gone. */
  chosen(value) {
    if (value.startsWith(KEPT)) return this.kept(value.slice(KEPT.length));
    return this.example(value);
  }

  example(name) {
    const found = this.examples.find(one => one.name === name);
    return found ? { text: found.text, script: this.scriptOf(found) } : null;
  }

  scriptOf({ name, about }) {
    return { name, about, isExample: true, id: "" };
  }

  /** A script that is kept, as { text, script }; null where it is gone. */
  kept(id) {
    const found = this.drafts.read(id);
    if (!found) return null;
    const { name, text, stored } = found;
    return { text, script: { name, about: "", isExample: false, id, stored } };
  }

  /** The script that was changed last, as { text, script }; null where none is kept. */
  get last() {
    const [first] = this.drafts.list();
    return first?.time ? this.kept(first.id) : null;
  }

  /** A script that came from a file, a link or a tool; an own one is kept. */
  made(name, about, isOwn) {
    const short = name.replace(/\.\w{1,6}$/, "") || NAMELESS;
    return { name: short, about, isExample: false, id: isOwn ? newId() : "" };
  }

  /** Which script a text is after it was typed over. `typed` has it: { length, text }. */
  afterChange(typed, change, old) {
    const isThis = one => one.text.length === typed.length && one.text === typed.text;
    const { now } = this, example = this.examples.find(isThis);
    if (example) return now.isExample && now.name === example.name ? now : this.scriptOf(example);
    const isNew = isNewText(old, change);
    if (now.id && !isNew) return now;
    const name = now.isExample || isNew ? NAMELESS : now.name;
    return { name, about: "", isExample: false, id: newId() };
  }

  /**
   * Shows which script stands there now; its text, which `typed` has, is kept if it is the user's
   * own. `isAsked` tells that the address asks for it.
   */
  show(script, typed, isAsked = false) {
    const isOther = this.now !== script;
    if (isOther) this.keepNow();
    this.now = script;
    if (isOther) {
      this.tellAbout(script.about);
      this.#title();
    }
    if (script.id) this.keepSoon(script, typed, isOther);
    if (isOther) this.choose();
    if (!isOther || script.id) return;
    this.note(script.isExample && !isAsked ? { example: script.name } : null);
  }

  /** Tells what a script is, in two lines; or whole, if it is about what can't be done with it. */
  tellAbout(text, isWhole = false) {
    const about = Object.assign(byId("about"), { textContent: text, title: text });
    about.classList.toggle("whole", isWhole);
  }

  /**
   * Keeps a short text at once. A long one takes time, so it is kept a moment after the first key.
   */
  keepSoon(script, typed, isOther) {
    if (isOther || typed.length <= MUCH_TEXT || typed.length > LONGEST_KEPT) {
      this.waiting = null;
      return this.keep(script, typed.length > LONGEST_KEPT ? null : typed.text);
    }
    this.waiting = { script, text: typed.text };
    this.timer ??= setTimeout(() => this.keepNow(), KEPT_AFTER);
    return null;
  }

  /** Keeps what still waits for it. */
  keepNow() {
    const { waiting } = this;
    clearTimeout(this.timer);
    this.timer = undefined;
    this.waiting = null;
    if (waiting) this.keep(waiting.script, waiting.text);
  }

  /** Keeps a text; null is one that is too long. */
  keep(script, text) {
    const wrong = text === null ? "long" : this.drafts.keep(script, text);
    if (!wrong) return this.note({ kept: script.id });
    if (!this.#warned.has(wrong)) this.tell(WHY_LOST[wrong]);
    return this.#warned.add(wrong);
  }

  /** Notes in the browser's history which script stands there, for a reload and for Back. */
  note(words) {
    const said = JSON.stringify(words);
    if (JSON.stringify(history.state) === said) return;
    try {
      history.replaceState(words, "");
    } catch {
      // A page that may not have a history of its own begins anew after a reload.
    }
  }

  /**
   * What the browser's history says stood here, as { text, script }; null where it says nothing.
   */
  get noted() {
    const { state } = history;
    if (typeof state?.kept === "string") return this.kept(state.kept);
    return typeof state?.example === "string" ? this.example(state.example) : null;
  }

  /** A few words for a script. */
  title(script, text) {
    const whole = script.isExample ? script.name : titleOf(text);
    return whole.length > SHORT_TITLE ? `${whole.slice(0, SHORT_TITLE)} …` : whole;
  }
}
