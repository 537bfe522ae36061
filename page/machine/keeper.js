// Keeps the run that is under way as it goes on, and those that were switched off, so that a press brings
// each back: the same inputs give the same cycles.
import { newId } from "../editor/drafts.js";

/** Milliseconds between two times at which a run is kept. */
const KEPT_EVERY = 3000;
/** Nanoseconds of the machine between two times at which its state is kept too, which takes longer. */
const STATE_EVERY = 30e9;
/**
 * A run that was not noted for so many milliseconds was on in a page that is gone: browsers let a hidden one note it
 * each minute.
 */
export const DEAD = 90000;
const TAB = "zaklimot-tab";
const BY_FILE = "Pause it and save the run, and the file brings it back.";
const WHY_LOST = {
  forbidden: `This browser keeps nothing for the page, so a run is gone after a reload. ${BY_FILE}`,
  full: `The browser's storage is full, so this run is gone after a reload. ${BY_FILE}`,
  long: `This run has more keys than the browser keeps, so it is gone after a reload. ${BY_FILE}`,
  large: `The browser keeps software of 32 MiB at most, so this run is gone after a reload. ${BY_FILE}`,
};
/** What the page itself hands in when software starts. */
const OF_START = ["set_instruction_time", "set_palette"];
const isTyped = ({ does }) => !OF_START.includes(does);

/** What names this tab, also when the page is loaded anew in it; "" where the browser keeps nothing. */
function tabId() {
  try {
    if (!sessionStorage.getItem(TAB)) sessionStorage.setItem(TAB, newId());
    return sessionStorage.getItem(TAB);
  } catch {
    return "";
  }
}

/** Whether the page was loaded anew: a page that was killed is, too. */
const isReloaded = () => performance.getEntriesByType?.("navigation")[0]?.type === "reload";

/** A few words for a run. */
const titleOf = (name, seconds) => `${name}, ${seconds.toFixed(1)} s`;

/** The keeper of runs. `live` answers the machine, or null; `tell(text)` says something that stays. */
export class Keeper {
  /** The run that is on: { id, name, software, softwareId, moment, inputs }; null for none. */
  #now = null;
  /** The last run that was switched off: it is there even where the browser keeps nothing. */
  #gone = null;
  #runs;
  #live;
  #tell;
  #softwareIds = new WeakMap();
  #shelved = new Set();
  #warned = new Set();
  #timer = 0;
  /** The machine's time when its state was kept last. */
  #stateTime = 0;
  #isLeaving = false;
  #tab = tabId();

  constructor(runs, live, tell) {
    this.#runs = runs;
    this.#live = live;
    this.#tell = tell;
    addEventListener("pagehide", () => this.#leave(true));
    addEventListener("pageshow", ({ persisted }) => persisted && this.#leave(false));
    // It may come after the page is left, too.
    document.addEventListener("visibilitychange", () => document.hidden && this.note());
  }

  /** Notes how far the machine has come. The run that it was before, where keys of that one are in it no longer. */
  note() {
    const live = this.#live(), old = this.#now;
    if (!["running", "paused"].includes(live?.state) || live.isComingBack) return null;
    // Whoever looks at steps of a paused machine moves it; its run stays as it was paused.
    const pausedAt = live.state === "paused" ? live.snapshots.last : null;
    if (pausedAt && old?.pausedAt === pausedAt) return null;
    const { machine, name } = live, inputs = machine.inputs.slice(0, machine.cpu.inputs());
    const isSplit = old?.inputs.slice(inputs.length).some(isTyped) ?? false;
    if (isSplit) {
      this.#gone = old;
      this.#runs.rest(old.id);
    }
    this.#now = { id: old && !isSplit ? old.id : newId(), name, software: machine.software,
      softwareId: this.#idOf(machine.software), moment: machine.moment, inputs, pausedAt };
    const isKept = this.#keep();
    if (isKept && (pausedAt || Math.abs(this.#now.moment.time - this.#stateTime) >= STATE_EVERY)) this.#keepState(live);
    return isSplit ? this.#told(old) : null;
  }

  /** Keeps the machine's state beside its run, so that the run comes back soon. */
  #keepState(live) {
    const { id, moment } = this.#now, state = live.keptState;
    this.#stateTime = moment.time;
    if (state) this.#runs.keepState(id, state);
  }

  /** The identity of software. */
  #idOf(software) {
    if (!this.#softwareIds.has(software)) this.#softwareIds.set(software, newId());
    return this.#softwareIds.get(software);
  }

  /** A run that was kept comes back, and is the one that is on. */
  begin(run) {
    this.#now = { ...run, state: null, pausedAt: null };
    this.#stateTime = run.moment.time;
    this.#softwareIds.set(run.software, run.softwareId);
    this.#shelved.add(`${run.softwareId} ${run.software.media?.length ?? 0}`);
    this.#keepSoon();
  }

  /** No run is on any longer. What to tell of the one that was: { id, title, hasKeys }; null for none. */
  end() {
    this.note();
    const run = this.#now;
    clearTimeout(this.#timer);
    this.#now = null;
    if (run) {
      this.#gone = run;
      this.#runs.rest(run.id);
    }
    return run && this.#told(run);
  }

  #told({ id, name, moment, inputs }) {
    return { id, title: titleOf(name, moment.time / 1e9), name, hasKeys: inputs.some(isTyped) };
  }

  #keepSoon() {
    clearTimeout(this.#timer);
    this.#timer = setTimeout(() => {
      const live = this.#live();
      if (live?.state === "running" && !live.isComingBack) return this.note();
      if (this.#now) this.#runs.beat(this.#now.id, this.#tab);
      return this.#keepSoon();
    }, KEPT_EVERY);
  }

  /** Keeps the run that is on; whether it is kept. */
  #keep() {
    const run = this.#now, hasKeys = run.inputs.some(isTyped);
    const wrong = this.#runs.keep({ ...run, hasKeys }, this.#isLeaving);
    this.#warn(wrong);
    if (!wrong) this.#runs.beat(run.id, this.#tab);
    // Floppies that are put in while it runs are part of the software.
    const shelved = `${run.softwareId} ${run.software.media?.length ?? 0}`;
    if (!wrong && !this.#shelved.has(shelved)) {
      this.#shelved.add(shelved);
      this.#runs.keepSoftware(run.softwareId, run.software).then(reason => this.#warn(reason));
    }
    this.#keepSoon();
    return !wrong;
  }

  #warn(wrong) {
    if (wrong && !this.#warned.has(wrong)) this.#tell(WHY_LOST[wrong]);
    if (wrong) this.#warned.add(wrong);
  }

  /** The page closes, or is loaded anew; or is there again, as browsers keep it for Back. */
  #leave(isLeaving) {
    this.#isLeaving = isLeaving;
    this.note();
    if (this.#now) this.#keep();
  }

  /** The runs that were on in a page that is gone, though it was never left: the browser has killed it. */
  get #dead() {
    const isHere = tab => tab !== "" && tab === this.#tab && isReloaded();
    return this.#runs.beats().filter(({ id, age, tab }) => id !== this.#now?.id && (age > DEAD || isHere(tab)))
      .map(({ id }) => id);
  }

  /** The run that was on when a page was left, or was killed: { id, title, name }; null for none. It is told once. */
  left() {
    const dead = this.#dead, found = this.#runs.list().find(({ id, isLeft }) => isLeft || dead.includes(id));
    for (const id of dead) this.#runs.rest(id);
    if (!found) return null;
    this.#runs.rest(found.id);
    this.#runs.forgetLeft();
    return { ...found, title: titleOf(found.name, found.seconds) };
  }

  /** The runs that can be brought back, the newest first: { id, title, time } each. */
  list() {
    return this.#runs.list().filter(({ id }) => id !== this.#now?.id)
      .map(({ id, name, seconds, time }) => ({ id, time, title: titleOf(name, seconds) }));
  }

  /** A run that can be brought back; null where it is gone. */
  async read(id) {
    return this.#gone?.id === id ? { ...this.#gone, state: await this.#runs.stateOf(id) } : this.#runs.read(id);
  }
}
