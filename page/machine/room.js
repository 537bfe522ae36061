// The machine in the page: what is dropped runs, a pause shows its last frames in the debugger, and it goes
// on from any of their steps.
import { DEAD, Keeper } from "./keeper.js";
import { sumOf } from "./keptstate.js";
import { Live } from "./live.js";
import { Paused } from "./paused.js";
import { HELD, ROWS, bytesOfKey, typedAt } from "./pckeys.js";
import { SPEEDS, USUAL_SPEED, compiledModules } from "./machine.js";
import { MOST_MEDIA, isSavedRun, savedRunOf, savedRunText } from "./savedrun.js";
import { saveFile } from "../files/saving.js";
import { byId, element, setText } from "../common/dom.js";
import { bytesOfBase64, hex } from "../common/bytes.js";
import { STOPS, stopOf } from "./stops.js";
import { MOST_CHOICES, filesBeside, floppyOf, softwareIn, softwareOf } from "./software.js";
import { ask } from "../compare/asking.js";
import { filesOfZip, isZip } from "./zip.js";
import { traceOfRecording } from "./windowtrace.js";
import { Trouble } from "../common/trouble.js";
import { unzipped } from "../common/packed.js";

/** How many instructions stand before the one that is shown, and after it. */
const BEFORE = 12, AFTER = 24;
const REGISTER_LINES = ["EAX EBX ECX EDX", "ESI EDI EBP ESP", "CS DS ES SS FS GS", "EIP FLAGS"];
/** So many milliseconds after a step is shown, the processor's registers are. */
const REGISTERS_SOON = 250;
/** What is said of the steps before the software's own. */
const HEAD_TEXT = "The first steps make the display as it was when these frames began. What the software did " +
  "before that stands in earlier frames: press “back 1 s” or “back 10 s”.";
/** What is told of a run that was left behind by who stopped its way back, or went on from a step before its end. */
const NOT_WHOLE = "has not come back whole", HAS_LATER = "has the keys that came after this step";
/** What the browser's storage keeps: which colours mode 13 has, and that it was told of them. */
const THEIR_COLOURS = "their colours", COLOURS_TOLD = "colours told";
const TO_RESTART = [0x1d, 0x38, 0x53, 0xd3, 0xb8, 0x9d];

const placeText = ({ segment, offset, text }) => `${hex(segment, 4)}:${hex(offset, 4)}  ${text}`;

function codeLine(code, words, isNow) {
  return element("div", { className: isNow ? "now" : "" }, code.padEnd(46), element("span", {}, words));
}

/** What stands between the page and a machine. `heard` is told in the constructor. */
export class MachineRoom {
  #data;
  #settings;
  #module;
  #heard;
  #live = null;
  #paused = null;
  /** Whether steps of the machine stand in the debugger. */
  #hasWindow = false;
  /** Whether the last frames of a program that has ended are asked for. */
  #isExplained = false;
  #rom = null;
  /** Which of shiftKey, ctrlKey and altKey are held on the screen's keyboard. */
  #held = {};
  #timer = 0;
  #keeper;
  /** The machine that was switched off last, as Live.takeUp has it, with its run's `id`; null for none. */
  #aside = null;

  /**
   * `data` is what the page was built with, `module` the adapter's bytes, `runs` those that the browser
   * keeps, and `settings` what it keeps of the page's looks. `heard` has `adapter()`, `fonts()`, `show(session, saved)`, which shows a session in the debugger, with the state at its end,
   * `steps()`, how many are shown, `script(text, name)`, `end()`, after which the page has its own script
   * again, `named(words, isRunning)`, which program is on, `left({ id, title })`, a run was switched off, `cameBack(id)`, it
   * was brought back, `tell(text, isKept)`, `offer(text, title, does)`, `withdraw()`, which takes an offer away, and
   * `guarded(does)`.
   */
  constructor(data, module, runs, settings, heard) {
    this.#data = data;
    this.#settings = settings;
    this.#module = module;
    this.#heard = heard;
    this.#keeper = new Keeper(runs, () => this.#live, text => heard.tell(text, true));
    const clicks = {
      livepause: () => (this.#isOver ? this.#explain() : this.#live.pause()),
      livetheirs: () => this.#takeTheirs(),
      liveown: () => { byId("livecolours").hidden = true; },
      liverestart: () => this.#restart(),
      livekeyboard: () => this.#toggleKeyboard(),
      livefloppy: () => byId("file").click(),
      livedelete: () => this.#sendRestart(),
      liveclose: () => this.#close(),
      pausedgo: () => this.#goOn(),
      pausedstep: () => this.#goOnFromStep(),
      pausedback: () => this.back(1),
      pausedfar: () => this.back(10),
      pausedmode: () => this.#backToMode(),
      pausedsave: () => this.#saveRun(),
      pausedfiles: () => this.#saveWritten(),
      pausedstart: () => this.#restart(),
      pausedscript: () => this.#openScript(),
      pausedclose: () => this.#close(),
    };
    for (const [name, does] of Object.entries(clicks)) {
      byId(name).addEventListener("click", () => heard.guarded(does));
    }
    this.#makeSpeeds();
    this.#makeColours();
    this.#makeStops();
    this.#makeKeyboard();
  }

  #makeSpeeds() {
    const list = byId("livespeed");
    list.append(...Object.keys(SPEEDS).map(name => element("option", { value: name }, name)));
    list.value = USUAL_SPEED;
    list.addEventListener("change", () => {
      this.#live.speed = list.value;
      list.value = this.#live.speed;
      byId("live").focus();
    });
  }

  /** The choice of the colours of mode 13, which counts from the next start on. */
  #makeColours() {
    const box = byId("livepalette");
    box.checked = this.#settings.get(THEIR_COLOURS) === true;
    box.addEventListener("change", () => {
      this.#settings.set(THEIR_COLOURS, box.checked);
      if (this.#live) this.#live.hasTheirColours = box.checked;
    });
  }

  /** Starts the software again with the colours that PCs' BIOSes load. */
  #takeTheirs() {
    byId("livepalette").checked = this.#live.hasTheirColours = true;
    this.#settings.set(THEIR_COLOURS, true);
    byId("livecolours").hidden = true;
    this.#restart();
  }

  /** Tells once that mode 13 has other colours here than elsewhere. */
  #tellColours() {
    if (!this.#live.hasOwnColours || this.#settings.get(COLOURS_TOLD) === true) return;
    this.#settings.set(COLOURS_TOLD, true);
    byId("livecolours").hidden = false;
  }

  #makeStops() {
    const list = byId("stopkind"), words = byId("stopwords");
    list.append(...Object.keys(STOPS).map(name => element("option", { value: name }, name)));
    list.addEventListener("change", () => {
      const { example } = STOPS[list.value];
      Object.assign(words, { hidden: !example, placeholder: example, value: "" });
      if (example) words.focus();
      else this.#heard.guarded(() => this.#takeStop());
    });
    words.addEventListener("change", () => this.#heard.guarded(() => this.#takeTyped()));
    words.addEventListener("keydown", event => {
      if (event.key !== "Enter" || this.#live?.state !== "running") return;
      words.blur();
      byId("live").focus();
    });
  }

  /** Stops at what was chosen and typed; at nothing as long as nothing is typed. */
  #takeStop() {
    const kind = byId("stopkind").value, words = byId("stopwords").value.trim();
    const isWhole = words || !STOPS[kind].example;
    if (this.#live) this.#live.stop = stopOf(isWhole ? kind : "nothing", words);
  }

  /** The same for what was just typed; whether that can come is told. */
  #takeTyped() {
    this.#takeStop();
    if (this.#live?.stopText) this.#heard.tell(this.#live.stopText);
  }

  #makeKeyboard() {
    const box = byId("livekeys");
    for (const row of ROWS) {
      box.append(element("div", {}, ...row.map(([code, label]) => this.#screenKey(code, label))));
    }
    box.hidden = !matchMedia("(pointer: coarse)").matches;
  }

  #screenKey(code, label) {
    const made = element("button", { type: "button", title: code }, label), held = HELD[code];
    const send = type => this.#sendKey(type, code);
    made.addEventListener("pointerdown", event => {
      event.preventDefault();
      if (held) this.#toggleHeld(made, code);
      else send("keydown");
    });
    const release = () => {
      if (held) return;
      send("keyup");
      this.#releaseHeld();
    };
    for (const type of ["pointerup", "pointercancel"]) made.addEventListener(type, release);
    if (held) made.ariaPressed = "false";
    return made;
  }

  #sendKey(type, code) {
    const { shiftKey = false, ctrlKey = false, altKey = false } = this.#held;
    const key = typedAt(code, shiftKey);
    this.#live?.send(bytesOfKey({ type, code, key, shiftKey, ctrlKey, altKey }));
  }

  /** Shift, Ctrl and Alt of the keyboard on the screen are held from a press until the key after it. */
  #toggleHeld(button, code) {
    const isHeld = button.ariaPressed !== "true";
    this.#sendKey(isHeld ? "keydown" : "keyup", code);
    button.ariaPressed = String(isHeld);
    this.#held[HELD[code]] = isHeld;
  }

  #releaseHeld() {
    for (const button of byId("livekeys").querySelectorAll("[aria-pressed=true]")) {
      this.#toggleHeld(button, button.title);
    }
  }

  #toggleKeyboard() {
    byId("livekeys").hidden = !byId("livekeys").hidden;
    byId("live").focus();
  }

  /** Takes a file if it is software; whether it is. */
  async open(bytes, name) {
    if (isSavedRun(bytes)) return this.#openSaved(bytes);
    const { isFloppy, isBootable } = floppyOf(bytes, name);
    if (isFloppy && this.isOn) return this.#openFloppy(bytes, name, isBootable);
    if (isZip(bytes)) return this.#openZip(bytes, name);
    const found = softwareOf(bytes, name);
    if (!found) return false;
    if (found.rom) {
      this.#rom = found.rom;
      this.#heard.tell(`${name} serves the video calls of what you run next.`);
      return true;
    }
    return this.#start(found, name);
  }

  /** Puts a floppy into a drive of the machine that is on, or starts it in place of what is on. */
  async #openFloppy(bytes, name, isBootable) {
    const chosen = await ask(`${name} is a floppy.`, [["0", "Put it into drive A"], ["1", "Put it into drive B"],
      ...isBootable ? [["start", "Start it"]] : []]);
    if (chosen === "start") return this.#start({ a: bytes }, name);
    if (!chosen || !this.isOn) return true;
    if (this.#live.isComingBack) throw new Trouble("Wait until the run is back, or stop it.");
    const { machine } = this.#live;
    if (machine.software.media?.length === MOST_MEDIA) throw new Trouble(`A run may have ${MOST_MEDIA} floppies.`);
    // It comes as keys do: while the machine runs.
    if (this.#paused) this.#goOn();
    this.#live.changeFloppy(Number(chosen), bytes);
    this.#heard.tell(`${name} is in drive ${"AB"[Number(chosen)]} now.`);
    return true;
  }

  async #start(software, name) {
    await this.#prepare();
    this.#endRun("was switched off");
    this.#takeStop();
    this.#live.speed = byId("livespeed").value;
    this.#live.start({ ...software, rom: this.#rom }, name);
    return true;
  }

  /** What is on ends, since something else begins; a press brings it back. */
  #endRun(how) {
    this.#heard.withdraw();
    // The snapshots of one machine alone are kept.
    this.#aside = null;
    if (!this.isOn) return;
    const run = this.#keeper.end();
    this.#end();
    if (run) this.#offer(run, how);
  }

  #offer(run, how) {
    this.#heard.left(run);
    this.#heard.offer(`${run.title}: it ${how}.`, "bring it back", () =>
      this.#heard.guarded(() => this.bringBack(run.id)));
  }

  /** Brings back a run that was switched off: it pauses where it was. */
  async bringBack(id) {
    const run = await this.#keeper.read(id);
    if (!run) throw new Trouble("This run is gone from the browser's storage.");
    await this.#prepare();
    const aside = this.#aside?.id === id ? this.#aside : null;
    this.#endRun("was switched off");
    this.#takeStop();
    this.#keeper.begin(run);
    if (aside) this.#live.takeUp(aside);
    else this.#live.comeBack(run);
    byId("livespeed").value = this.#live.speed;
    this.#heard.cameBack(id);
  }

  /** The runs that can be brought back: { id, title, time } each. */
  get runs() {
    return this.#keeper.list();
  }

  /** Offers to bring back the run that was on when the page was left. */
  offerLeft() {
    const offer = () => {
      const run = this.isOn ? null : this.#keeper.left();
      if (run) this.#offer(run, "ran here when the page was left");
    };
    offer();
    // A page that was killed a moment ago, in another tab.
    setTimeout(offer, DEAD + 1000);
  }

  #restart(isWarm = false) {
    const run = this.#keeper.end();
    this.#end();
    this.#live.restart(isWarm);
    if (run.hasKeys) this.#offer(run, "was started again");
  }

  async #openZip(bytes, name) {
    if (await this.openFiles(await filesOfZip(bytes), name)) return true;
    throw new Trouble(`In ${name} nothing runs: no program for DOS, and no disk that starts.`);
  }

  /** Runs one of some files, with the others on drive C of DOS; whether there is one that runs. */
  async openFiles(files, name) {
    const found = softwareIn(files), names = found.map(one => one.name);
    if (!found.length) return false;
    const chosen = found.length === 1 ? names[0] :
      await ask(`What of ${name} is to run?`, names.slice(0, MOST_CHOICES).map(one => [one, one]));
    if (!chosen) return true;
    const { software } = found.find(one => one.name === chosen);
    return this.#start({ ...software, files: filesBeside(files, chosen) }, chosen);
  }

  async #openSaved(bytes) {
    const run = await savedRunOf(bytes);
    await this.#prepare();
    this.#endRun("was switched off");
    this.#takeStop();
    this.#live.startSaved(run);
    byId("livespeed").value = this.#live.speed;
    return true;
  }

  /** The software and what came from outside until now, or until it was paused, as the text of a file. */
  runText() {
    const { machine, name } = this.#live;
    this.#paused?.seekEnd();
    return savedRunText(name, machine.software, machine.inputs.slice(0, machine.cpu.inputs()));
  }

  async #saveRun() {
    const { name } = this.#live;
    saveFile(`${name}.run.json`, await this.runText(), "application/json");
  }

  /** Saves the files and disks that the software has written. */
  #saveWritten() {
    this.#paused.seekEnd();
    const { machine } = this.#live, files = [...machine.changedFiles(), ...machine.changedDisks()];
    if (!files.length) {
      this.#heard.tell(`${this.#live.name} has written no file, and no sector of a disk.`);
      return;
    }
    for (const { name, bytes } of files) saveFile(name, bytes, "application/octet-stream");
  }

  /** Runs one of the page's own programs. */
  async runProgram(name) {
    const { bytes } = this.#data.machine.programs.find(one => one.name === name);
    await this.open(bytesOfBase64(bytes), name);
  }

  async #prepare() {
    if (this.#live) return;
    const { machine } = this.#data, fonts = this.#heard.fonts();
    const [cpu, reads] = [await unzipped(machine.cpu), await unzipped(machine.reads)];
    const modules = await compiledModules({ adapter: this.#module, cpu, reads });
    this.#live = new Live(modules, fonts, { changed: () => this.#changed(), failed: error => this.#fail(error),
      told: () => this.#tellColours() }, { version: sumOf(this.#module, cpu, reads, fonts) });
    this.#live.hasTheirColours = byId("livepalette").checked;
  }

  /** The machine can't go on. What was typed can be looked at, up to where it stopped. */
  #fail(error) {
    this.leave();
    this.#heard.guarded(() => { throw error; });
  }

  /** Whether the page shows a machine, running or paused. */
  get isOn() {
    return this.#live !== null && this.#live.state !== "off";
  }

  /** The last frames of the machine, if it is paused: { text, name }; else null. */
  get frames() {
    return this.#paused && { text: this.#paused.recording.text, name: `${this.#live.name}-frames` };
  }

  /** The same as a trace. */
  get trace() {
    return traceOfRecording(this.#paused.recording, this.#heard.adapter(), this.#heard.fonts());
  }

  #changed() {
    const { state, isComingBack } = this.#live, split = this.#keeper.note();
    if (split) this.#offer(split, state === "paused" ? NOT_WHOLE : HAS_LATER);
    byId("liveway").hidden = !isComingBack;
    if (state !== "paused") this.#isExplained = false;
    const isOver = this.#isOver, isSeen = state === "running" || isOver, isPaused = state === "paused" && !isOver;
    setText(byId("livepause"), isComingBack ? "stop here" : isOver ? "explain its last frames" : "pause and explain");
    this.#heard.named(state === "off" ? "" : `${this.#live.name}, ${isOver ? "ended" : state}`, isSeen);
    byId("machine").hidden = !isSeen;
    byId("machine").classList.toggle("over", isOver);
    if (!isSeen) byId("livecolours").hidden = true;
    byId("pausedbar").hidden = byId("savetrace").hidden = !isPaused;
    document.body.classList.toggle("paused", isPaused);
    byId(isPaused ? "pausedstop" : "livestop").append(byId("stops"));
    setText(byId("livename"), this.#live.name ?? "");
    if (isOver) this.#showOver();
    if (isPaused) this.#heard.guarded(() => this.#showWindow());
  }

  /** Whether a program has ended, and its screen stands there. */
  get #isOver() {
    return this.#live.state === "paused" && this.#live.isOver && !this.#isExplained;
  }

  #showOver() {
    setText(byId("livestate"), this.#live.reason);
    byId("livepause").focus();
  }

  /** Shows the last frames of a program that has ended. */
  #explain() {
    this.#isExplained = true;
    this.#changed();
  }

  #showWindow() {
    this.#paused = new Paused(this.#live, this.#heard.adapter(), this.#heard.fonts());
    const session = this.#paused.session(), { reason = "" } = this.#live;
    const left = this.#paused.recording.leftOut;
    const more = left ? ` Of the last frames ${left} cycles are left out: a script has no room for more.` : "";
    setText(byId("pausedtime"), `${this.#live.name} is paused at ${this.#paused.time.toFixed(2)} s. ${reason}${more}`);
    this.#live.reason = "";
    this.#hasWindow = true;
    this.#heard.show(session, this.#paused.endState);
  }

  /** Shows the code that led to the step that is shown, and soon what the processor has then. */
  shown({ session, steps }) {
    clearTimeout(this.#timer);
    const { outline } = session;
    if (!this.#paused || !outline.placeOf) return;
    const isHead = steps <= outline.head.length;
    const lines = isHead ? [element("div", { className: "earlier" }, HEAD_TEXT)] : this.#linesBefore(outline, steps);
    byId("code").replaceChildren(...lines);
    byId("code").lastElementChild?.scrollIntoView({ block: "nearest" });
    byId("liveregisters").replaceChildren();
    this.#timer = setTimeout(() => this.#heard.guarded(() => this.#showProcessor(steps)), REGISTERS_SOON);
  }

  /** The last instructions that reached the display until a step, the step's own last. */
  #linesBefore(outline, steps) {
    const lines = [];
    let next = null;
    for (let step = steps - 1; step >= 0 && lines.length < BEFORE; step--) {
      const entry = outline.entryOf(step);
      if (outline.nameOf(entry) === "advance") continue;
      const place = outline.placeOf(entry);
      if (!place) break;
      const text = placeText(place);
      if (text !== next) lines.unshift(codeLine(text, outline.wordsOf(entry), !lines.length));
      next = text;
    }
    return lines;
  }

  /** The processor after so many steps, and the instructions that come next. */
  #showProcessor(steps) {
    const paused = this.#paused;
    paused.seekStep(steps);
    const { processor: registers } = this.#live.machine, line = names => names.split(" ")
      .map(name => `${name} ${hex(registers[name], name.length === 2 ? 4 : 8)}`).join("  ");
    byId("liveregisters").replaceChildren(...REGISTER_LINES.map(names => element("div", {}, line(names))));
    const next = this.#live.machine.disassembled(registers.CS, registers.EIP, AFTER);
    byId("code").append(...next.map(place => codeLine(placeText(place), "", false)));
  }

  #goOn() {
    this.#paused.seekEnd();
    this.#end();
    this.#live.goOn();
  }

  #goOnFromStep() {
    this.#paused.seekStep(this.#heard.steps());
    this.#end();
    this.#live.goOn();
  }

  /** Shows the frames of some seconds before. */
  back(seconds) {
    this.#goTo(this.#paused.momentBack(seconds));
  }

  /** Shows the frames until a moment: at once, or when the machine has run again to it. */
  #goTo(moment) {
    if (this.#live.goTo(moment)) {
      this.#showWindow();
      return;
    }
    // Its steps can be looked at until then, but the machine follows them no longer.
    clearTimeout(this.#timer);
    this.#paused = null;
  }

  /** Whether the machine runs again to a moment, and is not there yet. */
  get isComingBack() {
    return this.#live?.isComingBack ?? false;
  }

  /** Whether there are frames before those that are shown. */
  get hasEarlier() {
    return this.#paused?.hasEarlier ?? false;
  }

  /** Shows the frames that end where those begin that are shown. */
  backToBegin() {
    this.#goTo(this.#paused.beginMoment);
  }

  #backToMode() {
    this.#goTo(this.#paused.modeMoment);
  }

  #openScript() {
    const { text } = this.#paused.recording, name = this.#live.name;
    this.#close();
    this.#heard.script(text, `${name}, its last frames`);
  }

  #sendRestart() {
    this.#live.send(TO_RESTART.map(byte => [byte, 0]));
    this.#restart(true);
  }

  #end() {
    clearTimeout(this.#timer);
    if (this.#hasWindow) this.#heard.end();
    this.#hasWindow = false;
    this.#paused = null;
  }

  #close() {
    const hasWindow = this.#hasWindow;
    this.leave();
    if (hasWindow) this.#heard.end();
  }

  /** Switches the machine off, since a script stands there now; a press brings the run back. */
  leave() {
    if (!this.isOn) return;
    const run = this.#keeper.end();
    clearTimeout(this.#timer);
    this.#hasWindow = false;
    this.#paused = null;
    const aside = this.#live.close();
    this.#aside = run && aside && { ...aside, id: run.id };
    if (run) this.#offer(run, "was switched off");
  }
}
