// The page: its parts, and what each hears of the others.
import { Adapter } from "../run/adapter.js";
import { aboutPage } from "./about.js";
import { BiosPanel } from "../panels/biospanel.js";
import { CallRoom } from "./callroom.js";
import { CellPanel } from "../panels/cellpanel.js";
import { CheckLine } from "./checkline.js";
import { ColourPanel } from "../panels/colourpanel.js";
import { Comparison } from "../compare/comparison.js";
import { Desk } from "./desk.js";
import { Drafts } from "../editor/drafts.js";
import { Drawers } from "./drawers.js";
import { Drawing } from "./drawing.js";
import { Editor } from "../editor/editor.js";
import { Fonts } from "../files/fonts.js";
import { Keyboard } from "./keyboard.js";
import { LastStep } from "./laststep.js";
import { Listing } from "../editor/listing.js";
import { MachineRoom, Runs } from "../machine/door.js";
import { MemoryPanel } from "../panels/memorypanel.js";
import { Notice } from "./notice.js";
import { Opener, listenToFiles } from "../files/opening.js";
import { PageClock } from "../run/clock.js";
import { Panes } from "./panes.js";
import { PictureSize } from "../picture/size.js";
import { PointPanel } from "../panels/pointpanel.js";
import { Questions } from "./questions.js";
import { RegisterPanel } from "../panels/registerpanel.js";
import { Runner, stateText } from "../run/runner.js";
import { Saver } from "../files/saver.js";
import { Screen } from "../picture/screen.js";
import { Scripts } from "../editor/scripts.js";
import { Session, judgedText } from "../run/session.js";
import { Settings } from "../common/settings.js";
import { TABS, Tabs } from "./tabs.js";
import { Transport } from "./transport.js";
import { Trouble } from "../common/trouble.js";
import { Welcome } from "./welcome.js";
import { WritePanel } from "../panels/writepanel.js";
import { byId, setAll, setText } from "../common/dom.js";
import { bytesOfBase64, grouped } from "../common/bytes.js";
import { Helper } from "../help/helper.js";
import { Judge, LONG_TEXT } from "../run/judging.js";
import { copyLink, showLink, showRunLink } from "../files/linking.js";
import { followFlyouts } from "../common/flyout.js";
import { followRowHeight } from "../common/rows.js";
import { frameSeconds } from "../run/speed.js";
import { keyTables } from "./keys.js";
import { pointText } from "../run/points.js";

/** The time of a frame while none is shown, in milliseconds. */
const NO_FRAME_TIME = 4;
const MOST_WORDS = 160, READING = "reading the script …";

/** The page over a module, with the data that it was built with. */
export class View {
  notice = new Notice();
  /** The trouble of the line that is no step; null if there is none. */
  bad = null;
  /** The program that runs, in words; nothing where none does. */
  #program = "";
  /** Whether the script is the one that the page begins with, which is drawn once it has run. */
  #isFirst = false;

  constructor(adapter, module, data) {
    this.adapter = adapter;
    this.module = module;
    this.data = data;
    this.fonts = new Fonts(bytesOfBase64(data.fonts));
    this.guarded = this.guarded.bind(this);
    this.#makeRun();
    this.#makeScript();
    this.#makeState();
    this.#makeFiles();
    this.#makeControls();
    followRowHeight(() => this.#resized());
    this.scripts.fill();
    this.#follow().then(() => this.room.offerLeft());
  }

  #makeRun() {
    this.runner = new Runner(new PageClock(), {
      shown: seen => this.#show(seen),
      changed: () => this.#update(),
      finished: session => this.#finished(session),
      ended: search => this.#tellNoneFound(search),
      stopped: steps => this.notice.tell(
        `The run is stopped at step ${grouped(steps)}: press R, and it goes on.`),
      failed: error => this.#failed(error),
      frameTime: seen => (seen ? 1000 * frameSeconds(seen.after.card) : NO_FRAME_TIME),
    });
    this.drawing = new Drawing(() => this.#update());
    this.transport = new Transport(this.runner, this.drawing, () => this.#activePoints, this.guarded);
    // The script that a worker runs too.
    const { textContent } = document.querySelector("script[type=module]");
    this.checkLine = new CheckLine(this.module, textContent);
    this.judge = new Judge(this.module, textContent);
    this.lastStep = new LastStep(this.data.pages, () => this.#enterCall());
    const settings = this.settings = new Settings();
    this.drawers = new Drawers(settings);
    this.panes = new Panes(settings, this.drawers);
    this.drawers.heard = () => this.#opened();
    this.screen = new Screen({ clicked: (line, dot) => this.questions.askDot(line, dot),
      asked: () => this.questions.ask() });
    this.size = new PictureSize(this.screen, settings);
    this.comparison = new Comparison(this.runner, this.screen, () => this.editor.isStale,
      this.guarded);
    this.listing = new Listing({ go: steps => this.runner.go(steps), step: by => this.runner.step(by),
      goal: () => this.runner.goal });
  }

  #makeScript() {
    this.scripts = new Scripts(this.data.scripts, new Drafts(),
      text => this.notice.tell(text, true),
      { programs: this.data.machine.programs, runs: () => this.room?.runs ?? [] });
    this.editor = new Editor({
      typed: (change, old) => this.desk.typed(change, old),
      switched: (change, old) => this.desk.switched(change.after.script, change, old),
      pointed: line => this.pointPanel.toggleLine(line),
      asked: step => this.runner.go(step),
    });
    this.pointPanel = new PointPanel({ changed: points => this.#pointsChanged(points) });
    this.desk = new Desk(this.editor, this.scripts, this.pointPanel, {
      changed: () => {
        this.#forget();
        this.runner.leave();
      },
      run: awaited => this.guarded(() => {
        this.room?.leave();
        this.#run(awaited);
      }),
      program: name => this.room.runProgram(name),
      leave: () => this.room?.leave(),
      bringBack: id => this.room.bringBack(id),
    });
    this.desk.listenTo(byId("examples"), this.guarded);
  }

  #makeState() {
    this.#makeQuestions();
    const { pages } = this.data;
    const panels = { registers: new RegisterPanel(pages), memory: new MemoryPanel(),
      cells: new CellPanel(), colours: new ColourPanel(pages), "BIOS data": new BiosPanel(pages),
      write: new WritePanel(pages), watches: this.questions.panel };
    const makers = Object.entries(panels).map(([name, panel]) => [name, seen => panel.made(seen)]);
    this.tabs = new Tabs({ ...Object.fromEntries(makers),
      breakpoints: () => this.pointPanel.box }, this.drawers);
    this.questions.titleWatches();
  }

  /** The questions, and the calls into which their answers lead. */
  #makeQuestions() {
    const { runner, screen, notice, pointPanel, guarded } = this;
    this.questions = new Questions({ runner, screen, notice, pointPanel, guarded, tabs: () => this.tabs,
      room: () => this.room });
    this.calls = new CallRoom(runner, this.questions.finder, outer => this.#showPlace(outer), guarded);
    byId("foundcycle").addEventListener("click", () => guarded(() => this.calls.enterFound()));
  }

  #enterCall() {
    return this.guarded(() => this.calls.enter());
  }

  #makeFiles() {
    const { runner, editor } = this;
    this.opener = new Opener(this.data, this.scripts, TABS, {
      adapter: () => this.adapter,
      isEmpty: () => !runner.session && !editor.script,
      script: (text, script, asked) => this.#open(text, script, asked),
      software: (bytes, name) => this.room.open(bytes, name),
      folder: (files, name) => this.room.openFiles(files, name),
      other: (found, name) => {
        runner.leave();
        return this.comparison.open(found, name);
      },
      fonts: (fonts, name) => (name ? this.#useFonts(fonts, name) : this.fonts.use(fonts)),
      tab: name => this.tabs.open(name),
      step: number => runner.go(number),
    });
    this.room = new MachineRoom(this.data, this.module, new Runs(), this.settings, {
      adapter: () => this.adapter,
      fonts: () => this.fonts.bytes,
      show: (session, saved) => this.#showSession(session, saved),
      steps: () => runner.outer.steps,
      script: (text, name) => this.desk.load(text, this.scripts.made(name, name, true)),
      end: () => this.#run(0),
      named: (words, isRunning) => this.#nameProgram(words, isRunning),
      left: run => this.desk.left(run),
      cameBack: id => this.desk.cameBack(id),
      tell: (text, isKept) => this.notice.tell(text, isKept),
      offer: (text, title, does) => this.notice.offer(text, title, does),
      withdraw: () => this.notice.withdraw(),
      guarded: this.guarded,
    });
    listenToFiles((files, entries) => this.guarded(() => this.opener.openFiles(files, entries)));
    this.saver = new Saver({
      text: () => this.room.frames?.text ?? editor.text,
      trace: () => this.room.trace,
      name: () => this.room.frames?.name ?? this.scripts.now.name,
      seen: () => (runner.isShown && !editor.isStale ? runner.seen : null),
      outer: () => runner.outer,
      drawn: () => this.#update(),
    }, this.guarded);
  }

  #makeControls() {
    const clicks = {
      openfile: () => byId("file").click(),
      share: () => this.#showLink(),
      copylink: () => copyLink(),
      help: () => byId("helpbox").showModal(),
      ownfonts: () => this.#useFonts(null),
      takeback: () => this.desk.takeBack(),
      olderframes: () => this.questions.lookBefore("backToBegin"),
      oldersecond: () => this.questions.lookBefore("back"),
    };
    for (const [name, does] of Object.entries(clicks)) {
      byId(name).addEventListener("click", () => this.guarded(does));
    }
    this.welcome = new Welcome(this.settings, { change: () => this.editor.focus(),
      drop: () => byId("file").click(), back: () => this.runner.step(-1) });
    followFlyouts();
    this.helper = new Helper(this.editor, this.runner, this.data, () => this.drawers.open("list"));
    this.keyboard = new Keyboard({ editor: this.editor, tabs: this.tabs, menu: this.saver.menu,
      goToLine: line => this.guarded(() => this.transport.goTo("line", String(line))),
      togglePoint: line => this.pointPanel.toggleLine(line),
      orders: { larger: () => this.size.step(1), smaller: () => this.size.step(-1),
        fill: () => this.size.choose(0), nextview: () => this.comparison.nextView(), ask: () => this.questions.ask(),
        again: () => this.questions.findAgain(), into: () => this.#enterCall(),
        intonext: () => this.guarded(() => this.calls.enterNext()), out: () => this.calls.leave() } });
    byId("keys").append(...aboutPage(), ...keyTables());
    byId("version").textContent = `Zaklimot ${this.data.version}.`;
    byId("pagedoc").href = `${this.data.pages}PAGE.md#what-is-proved`;
    addEventListener("hashchange", () => this.#follow());
  }

  #follow() {
    return this.guarded(() => this.opener.follow());
  }

  /** Opens a script. The one that the page begins with is drawn as the beam does it. */
  #open(text, script, { isFirst = false, ...asked } = {}) {
    const isStill = matchMedia("(prefers-reduced-motion: reduce)").matches;
    this.#isFirst = isFirst && asked.asked === undefined && this.welcome.isOpen && !isStill;
    return this.desk.load(text, script, this.#isFirst ? { ...asked, asked: 0 } : asked);
  }

  /** Shows what is in a part of the page that was opened or closed. */
  #opened() {
    this.panes.arrange();
    this.tabs.draw();
    this.listing.opened();
  }

  /** Shows lines and steps where their rows have another height. */
  #resized() {
    this.editor.resized();
    if (this.listing.session) this.listing.show(this.listing.session, this.listing.steps);
  }

  // The run.

  /** Runs the text, and shows so many steps: as many as before, if it is not told, or all. */
  #run(awaited = this.runner.wanted) {
    const { runner, editor: { text, length } } = this, here = () => judgedText(this.adapter, text);
    this.#forget();
    runner.halt();
    runner.leave({ isHalted: true });
    if (length <= LONG_TEXT) return this.#runJudged(text, awaited, here);
    this.judge.start(text, there =>
      this.guarded(() => this.#runJudged(text, awaited, there ?? here)));
    return this.#update();
  }

  /** Runs a text that was read, or tells why it can't. */
  #runJudged(text, awaited, judge) {
    const { runner } = this;
    try {
      const judged = judge();
      runner.close();
      runner.start(new Session(this.adapter, this.fonts.bytes, text, judged), awaited);
      this.#setStale(false, null);
    } catch (error) {
      const bad = error instanceof Trouble && error.line ? error : null;
      this.#setStale(true, bad);
      if (!bad) throw error;
    }
  }

  /**
   * Shows a session of the machine, whose steps have no text in the editor: at once the picture of its end, by the saved
   * state there, and all else once its steps are taken.
   */
  #showSession(session, saved) {
    this.#forget();
    this.runner.close();
    this.runner.start(session, session.length);
    if (saved) this.screen.show({ ...session.glimpse(saved), session });
    this.#setStale(false, null);
  }

  /** What is done with the text that stood there goes no further. */
  #forget() {
    this.judge.stop();
    this.checkLine.clear();
  }

  /** Tells whether what is shown is of another text than that in the editor, and its bad line. */
  #setStale(isStale, bad) {
    this.bad = bad;
    this.editor.isStale = isStale;
    this.editor.blame(bad);
    document.body.classList.toggle("stale", isStale);
    this.#update();
  }

  #show(seen) {
    const { session, steps } = seen;
    this.transport.show(seen);
    // While the page is inside a call, the script stays at it.
    if (!session.isCall) this.#showPlace(seen);
    this.listing.show(session, steps);
    session.spare = this.screen.show(seen);
    this.lastStep.show(seen);
    this.questions.show(seen);
    this.tabs.show(seen);
    this.comparison.shown();
    this.questions.lookOn();
    this.calls.shown(seen);
  }

  /** Shows the place in the script, or in the machine's code. */
  #showPlace(seen) {
    if (this.room.isOn) this.room.shown(seen);
    else this.editor.show(seen.session, seen.steps);
  }

  /** Shows what the run does. It may tell so before the page is put together. */
  #update() {
    this.transport?.update();
    this.calls?.update();
    const told = { bad: this.bad, drawn: this.saver?.drawn };
    const reading = this.judge.isAtWork ? READING : "";
    setText(byId("state"), this.#program || reading || stateText(this.runner, told));
  }

  /** Tells which program is on. While it runs, nothing is told of the script's run, or of frames before. */
  #nameProgram(words, isRunning) {
    this.scripts.program = words;
    this.#program = isRunning ? words : "";
    if (words) this.welcome.close();
    setAll(byId("compared"), { hidden: isRunning });
    this.#update();
  }

  /** All steps are taken: their answers stand there, and are compared with those of zak_run. */
  #finished(session) {
    const { runner } = this;
    if (session.isCall) this.calls.finished(session);
    else {
      this.checkLine.start(session);
      this.comparison.finished(session).catch(error => this.#failed(error));
    }
    if (!runner.isShown) return;
    this.questions.lookOn();
    this.#drawFirst(session);
    this.listing.show(session, runner.steps);
    if (!this.room.isOn && !session.isCall) this.editor.draw();
  }

  #drawFirst({ length }) {
    const isFirst = this.#isFirst && this.welcome.isOpen;
    this.#isFirst = false;
    if (!isFirst) return;
    this.drawing.start(length, steps => this.runner.go(steps));
  }

  #tellNoneFound({ points, isBack }) {
    const what = points.map(pointText).join(", ").slice(0, MOST_WORDS);
    const { isCall, noun } = this.runner.session;
    this.notice.tell(`No ${isBack ? "earlier" : "later"} ${noun}${isCall ? " of this call" : ""} meets ${what}.`);
  }

  get #activePoints() {
    return this.pointPanel.points.filter(point => point.isOn);
  }

  #pointsChanged(points) {
    const lines = points.filter(point => point.kind === "line" && point.isOn);
    this.editor.points = new Set(lines.map(point => point.line));
    this.editor.draw();
    this.tabs.setTitle("breakpoints",
      points.length ? `breakpoints (${points.length})` : "breakpoints");
  }

  // What can't be done.

  /** Does something for a control, and tells what went wrong. A run goes on. */
  async guarded(does) {
    try {
      this.notice.tell("");
      await does();
    } catch (error) {
      if (error instanceof Trouble) this.notice.tell(error.message);
      else await this.#failed(error);
    }
  }

  /** Ends what is under way, since it can't go on, and tells why. */
  async #failed(error) {
    const { runner, notice } = this;
    runner.fail();
    if (error instanceof WebAssembly.RuntimeError) return this.#openAnew(error);
    if (error instanceof Trouble) return notice.tell(error.message);
    if (error instanceof RangeError) {
      return notice.tell(`There is no memory left for this: ${error.message}.`);
    }
    notice.tell(`The page has a fault: ${error.message}. Please report it.`);
    throw error;
  }

  async #openAnew({ message }) {
    this.runner.close(true);
    this.#forget();
    this.adapter = await Adapter.of(this.module);
    this.notice.tell(`The module has stopped (${message}). It is opened anew: change the script, ` +
      "and it runs again.");
  }

  // Fonts and links.

  #useFonts(fonts, name = "") {
    this.fonts.use(fonts);
    this.desk.run();
    if (name) this.notice.tell(`Mode sets load the glyphs of ${name} now.`);
  }

  async #showLink() {
    if (this.room.isOn) return showRunLink(await this.room.runText());
    const { runner: { outer: { session, steps } }, tabs: { selected }, fonts } = this;
    return showLink({ text: this.editor.text,
      step: session && steps < session.length ? steps : undefined,
      tab: selected === TABS[0] ? undefined : selected,
      fonts: fonts.isOwn ? undefined : fonts.bytes });
  }
}
