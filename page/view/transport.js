// The transport: the buttons, the slider and the form that go from step to step.
import { RUN } from "../run/runner.js";
import { Trouble } from "../common/trouble.js";
import { byId, setAll, setText } from "../common/dom.js";

const FRAMES = [{ kind: "frame" }];
const BACKWARD = ["first", "back", "framebefore", "runback"];
const FORWARD = ["next", "frameafter", "last"];
/** Those that lead out of a call. */
const OUTWARD = ["back", "framebefore", "next", "frameafter"];

/** The controls that go from step to step. */
export class Transport {
  #runner;
  #drawing;
  #points;

  /**
   * `drawing` shows a run of one picture as the beam draws it. `points` answers the breakpoints that are on. `guarded` calls what a control does, and tells
   * what went wrong.
   */
  constructor(runner, drawing, points, guarded) {
    this.#runner = runner;
    this.#drawing = drawing;
    this.#points = points;
    // No frame ends inside a call: who asks for one leaves the call.
    const outside = does => () => {
      runner.leave();
      return does();
    };
    const clicks = {
      first: () => runner.go(0),
      runback: () => runner.find(points(), { isBack: true }),
      framebefore: outside(() => runner.find(FRAMES, { isBack: true })),
      back: () => runner.step(-1),
      next: () => runner.step(1),
      frameafter: outside(() => runner.find(FRAMES)),
      run: () => this.run(),
      last: () => runner.toEnd(),
      play: outside(() => this.#play()),
    };
    for (const [name, does] of Object.entries(clicks)) {
      byId(name).addEventListener("click", () => guarded(does));
    }
    byId("slider").addEventListener("input", ({ target }) => runner.go(Number(target.value)));
    byId("goto").addEventListener("submit", event => {
      event.preventDefault();
      const number = byId("gotonumber");
      number.select();
      guarded(() => {
        this.goTo(byId("gotokind").value, number.value);
        // The page has the keys again. A number that leads nowhere is typed anew.
        number.blur();
      });
    });
  }

  /** Shows frame after frame; a run of one picture step after step. What plays is stopped. */
  #play() {
    const runner = this.#runner, { session } = runner;
    const isOne = session?.isDone && session.pictures <= 1 && !runner.isPlaying;
    if (!isOne) return runner.play(!runner.isPlaying);
    return this.#drawing.start(session.length, steps => runner.go(steps));
  }

  /** Runs to the next breakpoint, or to the end; stops what is under way. */
  run() {
    const runner = this.#runner, points = this.#points();
    if (runner.isBusy) return runner.stop();
    runner.resume();
    return points.length ? runner.find(points) : runner.toEnd();
  }

  /** Goes to a step, or to the next step of a line, whose number was typed. */
  goTo(kind, text) {
    const number = Number(text.replace(/[, ]/g, "")), runner = this.#runner;
    if (!/^[\d, ]+$/.test(text.trim())) throw new Trouble("Type a number of a step or a line.");
    if (!runner.session) throw new Trouble("There is no run: mend the script first.");
    // The cycles of a call have no lines.
    if (kind === "line") runner.leave();
    runner.go(kind === "step" ? number : this.#stepOfLine(number) + 1);
  }

  #stepOfLine(number) {
    const { session: { outline }, steps } = this.#runner, entry = outline.entryAtLine(number);
    if (entry < 0) throw new Trouble(`No step stands at line ${number} or after it.`);
    const next = outline.stepOfEntry(entry, steps);
    const step = next < 0 ? outline.stepOfEntry(entry) : next;
    if (step >= 0) return step;
    throw new Trouble(`The steps of line ${outline.lineOf(entry)} are never taken.`);
  }

  /** Shows what the runner does: which buttons do something, and where the slider stands. */
  update() {
    const runner = this.#runner, { session, goal, isAtEnd, isPlaying } = runner;
    setText(byId("run"), runner.isBusy && !isPlaying ? "stop ■" : "run ▶▶");
    setText(byId("play"), isPlaying || this.#drawing.isOn ? "pause" : "play");
    if (runner.run === RUN.none) return;
    setAll(byId("slider"), { max: String(session.ran) });
    const isOut = name => runner.isWithin && OUTWARD.includes(name);
    for (const name of BACKWARD) setAll(byId(name), { disabled: goal === 0 && !isOut(name) });
    for (const name of FORWARD) setAll(byId(name), { disabled: isAtEnd && !isOut(name) });
  }

  /** Puts the slider at the step that is shown. */
  show({ session, steps }) {
    setAll(byId("gotokind").options[0], { text: session.noun });
    // What is set anew is laid out anew, though it be the same.
    setAll(byId("slider"), { max: String(this.#runner.session.ran), value: String(steps) });
  }
}
