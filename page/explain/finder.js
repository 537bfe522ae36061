// The search for the last step that changed a subject, as the page's run takes it, and what it
// tells of the step that it has found.
import { KIND } from "../script/steplist.js";
import { grouped } from "../common/bytes.js";

const MOST_WORDS = 80;

/** Finds the last steps that changed things, one before the other. */
export class Finder {
  /** What was found last: { words, session, steps, text, isOlder, subject, told, isCall }. */
  found = null;
  /** The subject's words, the session of a call in which nothing more was found, and what was told. */
  #ended = null;
  #runner;
  #heard;

  /**
   * `heard` has `tell(text)`; and for the last frames of a machine, which begin with steps that rebuild what stood
   * there, `hasEarlier()`, whether there are frames before them, and `older(text)`, a change is none of these frames'.
   */
  constructor(runner, heard) {
    this.#runner = runner;
    this.#heard = heard;
  }

  /**
   * Goes to the last step that changed a subject. The step that is shown counts too; asked again at
   * the step that was found, it goes to the one before. Asked again where no cycle of a call has
   * changed it, it goes on before the call.
   */
  find(subject) {
    const { seen, session, steps } = this.#runner, ended = this.#ended;
    if (!session || !seen || seen.session !== session) return;
    this.#ended = null;
    if (ended?.words === subject.words && ended.session === session) return this.#findBefore(subject, ended.told);
    const isAgain = this.found?.words === subject.words && this.found.steps === steps &&
      this.found.session === session;
    const { isDot, place } = subject, { isWhole, drawn } = seen.picture;
    const isDrawn = isDot && (isWhole || place.dot < drawn[place.line]);
    const again = isAgain ? this.found.told : null;
    this.#search(subject, subject.search(session, steps, again, isDrawn), isAgain);
  }

  /** Goes on before the call whose cycles the page is in. */
  #findBefore(subject, told) {
    const { session: { call: { step } } } = this.#runner;
    this.#runner.leave({ steps: step });
    this.#search(subject, subject.search(this.#runner.session, step, told, false), true);
  }

  /** Whether what was found is a call that is shown, of which a cycle is the one that was meant. */
  leadsWithin(session, steps) {
    const { found } = this;
    return found !== null && found.session === session && found.steps === steps && found.isCall;
  }

  /** Goes to the cycle of the call that was found, once the page runs its session. */
  findWithin() {
    const { subject, told } = this.found;
    this.#search(subject, subject.within(this.#runner.session, told), false);
  }

  #search(subject, search, isAgain) {
    const { session } = this.#runner;
    this.#runner.findBy(search, told => this.#hear(subject, session, told, isAgain));
  }

  #hear(subject, session, told, isAgain) {
    const { words, title } = subject, { steps, differing = [] } = told;
    const rebuilt = session.outline.head?.length ?? 0, isOlder = rebuilt > 0 && this.#heard.hasEarlier();
    if (steps === undefined) return this.#hearNone(subject, session, { told, isAgain, isOlder });
    if (isOlder && steps <= rebuilt) {
      const text = `${title} was changed before these frames. Their first ${grouped(rebuilt)} steps rebuild ` +
        "what stood there.";
      this.found = { words, session, steps, isOlder, told, text: text[0].toUpperCase() + text.slice(1) };
      return null;
    }
    const { outline } = session, isCall = outline.kinds[outline.entryOf(steps - 1)] === KIND.int;
    const what = differing.length ? `: ${differing.join("; ")}` : "";
    const name = isCall ? "A cycle inside this BIOS call" : `This ${session.noun}`;
    const text = `${name} changed ${title}${what}.${this.#movedText(session, told)}`;
    this.found = { words, session, steps, text, subject, told, isCall };
    return null;
  }

  /** Which step moved a dot to where it is, in words, if that is another one than the step that changed it. */
  #movedText({ outline, noun }, { steps, moved }) {
    if (!moved || moved.steps === steps) return "";
    const words = outline.wordsOf(outline.entryOf(moved.steps - 1)).slice(0, MOST_WORDS);
    return ` ${noun[0].toUpperCase()}${noun.slice(1)} ${grouped(moved.steps)}, ${words}, moved the dot here: ` +
      `${moved.differing.join("; ")}.`;
  }

  #hearNone({ words, title }, session, { told, isAgain, isOlder }) {
    const earlier = isAgain ? "earlier " : "";
    if (isOlder) {
      return this.#heard.older(`No step of these frames changed ${title}: it was changed before them, if at all.`);
    }
    if (!session.isCall) {
      return this.#heard.tell(`No ${earlier}step changed ${title}: it is as at power-on.`);
    }
    this.#ended = { words, session, told };
    return this.#heard.tell(`No ${earlier}cycle of this call changed ${title}: it is as before the call. ` +
      "Ask again, or press C, and the search goes on before it.");
  }

  /** What to tell of a step that is shown: why the page is there, if a search has found it. */
  textAt(session, steps) {
    const { found } = this;
    // A run that is over is kept no longer.
    if (found && found.session !== session && found.session !== this.#runner.outer.session) {
      this.found = null;
    }
    return found && found.session === session && found.steps === steps ? found.text : "";
  }

  /** A subject's dot as it is drawn, { beam, source }, which a search has found changed at a step that is shown; else null. */
  madeAt(words, { session, steps }) {
    const { found } = this;
    const isFound = found?.words === words && found.session === session && found.steps === steps;
    return isFound ? found.told.made ?? null : null;
  }

  /** Whether what textAt tells of a step is that a change came before these frames. */
  isOlderAt(session, steps) {
    return this.textAt(session, steps) !== "" && this.found.isOlder === true;
  }
}
