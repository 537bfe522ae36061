// Beside the script's text: the numbers of its lines with their breakpoints, and the answers of its
// steps.
import { Rows, isWritten } from "../common/rows.js";
import { byId, classesOf, element, setAll, setText } from "../common/dom.js";
import { isPlainAnswer, isRefusal, shortAnswer } from "../script/expecting.js";

/** An answer of so many letters has room beside its line. */
const SHORT = 12;

/** The columns. `pointed(line)` hears of a line's number that was clicked, and `asked(step)` of a step's answer. */
export class Columns {
  constructor(pointed, asked) {
    const gutter = byId("gutter"), told = byId("told");
    this.numbers = new Rows(gutter,
      () => element("button", { type: "button", tabIndex: -1, className: "number" }));
    this.answers = new Rows(told, () => element("span", { className: "answer" }));
    gutter.addEventListener("click", event => {
      const line = Number(event.target.closest("button")?.dataset.line);
      if (line) pointed(line);
    });
    told.addEventListener("click", event => {
      const step = Number(event.target.closest(".answer")?.dataset.step);
      if (step) asked(step);
    });
  }

  /**
   * Shows so many lines from one on, the first at a place. `state` has what they tell: { session,
   * steps, mark, next, bad, isStale, points }.
   */
  show(count, first, top, state) {
    this.numbers.show(count, top, (made, i) => this.#fillNumber(made, first + i + 1, state));
    this.answers.show(count, top, (made, i) => this.#fillAnswer(made, first + i + 1, state));
  }

  #fillNumber(made, line, { points, mark, next, bad }) {
    const isPoint = points.has(line);
    const className = classesOf("number", isPoint && "point", mark === line && !bad && "here",
      next === line && !bad && "next", bad?.line === line && "bad");
    if (isWritten(made, line, className)) return;
    setAll(made, { className, ariaPressed: String(isPoint),
      title: isPoint ? `Line ${line}: remove the breakpoint` : `Line ${line}: set a breakpoint` });
    setText(made, String(line));
    made.dataset.line = line;
  }

  #fillAnswer(made, line, state) {
    const step = stepOfLine(line, state), isLater = step >= state.steps;
    const isHere = state.mark === line && !state.bad;
    if (isWritten(made, state.session, step, isLater, isHere)) return;
    const { text, title, className } = step < 0 ? { text: "", title: "", className: "answer nothing" }
      : answerOf(step, isLater, state.session);
    setText(made, text);
    setAll(made, { title, className: classesOf(className, isHere && "here") });
    made.dataset.step = step + 1;
  }
}

/**
 * The last step of a line so far, or its first one, which is to come; -1 where it has no answer.
 */
function stepOfLine(line, { session, steps, bad, isStale }) {
  if (!session || bad || isStale) return -1;
  const { outline, answers } = session, entry = outline.entryAtLine(line);
  if (entry < 0 || outline.lineOf(entry) !== line) return -1;
  const taken = outline.lastStepOfEntry(entry, steps);
  const step = taken < 0 ? outline.stepOfEntry(entry) : taken;
  return step < answers.length ? step : -1;
}

/** The answer of a step beside its line, pale where the step is still to come. */
function answerOf(step, isLater, session) {
  const { outline } = session, entry = outline.entryOf(step);
  const answer = session.answerOf(step), expected = outline.expectedOf(entry);
  const words = outline.wordsOf(entry), [first, ...more] = shortAnswer(answer, words).split("\n");
  const isWrong = expected !== null && session.isWrong(step), whole = first + (more.length ? " …" : "");
  // What is expected stands in the line, and a plain answer repeats its words.
  const text = isWrong ? `✗ ${whole}` : expected !== null ? "✓" : isPlainAnswer(answer, words) ? "" : whole;
  return {
    text,
    title: `step ${step + 1}: ${answer}${isWrong ? `\nexpected: ${expected}` : ""}\nClick it to go to this step.`,
    className: classesOf("answer", !text && "nothing", isLater && "later", isRefusal(answer) && "refused",
      isPlainAnswer(answer, words) && "plain", text.length > SHORT && "long", expected !== null && (isWrong ? "wrong" : "right")),
  };
}
