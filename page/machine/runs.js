// The runs that the browser keeps. How far each has come, and what came from outside, lies in its storage,
// which is written at once, even while the page closes; the software, which may be large, in its database.
import { inputsOf, isSoftware, listedInputs } from "./savedrun.js";

const PREFIX = "zaklimot-run-", BEAT = "zaklimot-on-", DATABASE = "zaklimot-runs", SHELF = "software";
/** So many runs are kept, with so many characters each, and in all; of the software, so many bytes each. */
const MOST_RUNS = 6, LONGEST = 400000, MOST_TOGETHER = 600000, MOST_SOFTWARE = 1 << 25;

function lengthOf(software) {
  const parts = [software.program, software.a, software.b, software.c, software.rom,
    ...(software.files ?? []).map(({ bytes }) => bytes), ...software.media ?? []];
  return parts.reduce((sum, part) => sum + (part?.length ?? 0), 0);
}

function answerOf(request) {
  return new Promise((resolve, reject) => {
    request.onsuccess = () => resolve(request.result);
    request.onerror = () => reject(request.error);
  });
}

/** What lies in the browser's database, by keys. */
export class Shelf {
  #opened = null;

  #open() {
    const request = indexedDB.open(DATABASE, 1);
    request.onupgradeneeded = () => request.result.createObjectStore(SHELF);
    return answerOf(request);
  }

  async #do(mode, does) {
    this.#opened ??= this.#open();
    const shelf = (await this.#opened).transaction(SHELF, mode).objectStore(SHELF);
    return answerOf(does(shelf));
  }

  put(key, value) {
    return this.#do("readwrite", shelf => shelf.put(value, key));
  }

  get(key) {
    return this.#do("readonly", shelf => shelf.get(key));
  }

  delete(key) {
    return this.#do("readwrite", shelf => shelf.delete(key));
  }

  keys() {
    return this.#do("readonly", shelf => shelf.getAllKeys());
  }
}

/** The key of a run's state on the shelf. */
const stateKey = id => `state ${id}`;
const isNumber = value => Number.isFinite(value) && value >= 0;

/** What stands under a key: { name, time, softwareId, moment, inputs, hasKeys, isLeft }; null where it is no run. */
function readCourse(text) {
  try {
    const found = JSON.parse(text), { name, time, softwareId, moment, inputs } = found;
    const isWhole = typeof name === "string" && isNumber(time) && typeof softwareId === "string" &&
      isNumber(moment.time) && isNumber(moment.cycles) && Array.isArray(inputs);
    if (!isWhole) return null;
    return { name, time, softwareId, moment: { ...moment, isAmid: moment.isAmid === true }, inputs,
      hasKeys: found.hasKeys === true, isLeft: found.isLeft === true };
  } catch {
    return null;
  }
}

/** The runs in a storage and on a shelf. `storage` answers it, or throws where the browser forbids it. */
export class Runs {
  constructor(storage = () => localStorage, shelf = new Shelf(), now = () => Date.now()) {
    this.storage = storage;
    this.shelf = shelf;
    this.now = now;
  }

  /**
   * Keeps how far a run has come: { id, name, softwareId, moment, inputs, hasKeys }. `isLeft`: the page
   * closes while it is on. What is wrong: "", "forbidden", "full" or "long".
   */
  keep({ id, name, softwareId, moment, inputs, hasKeys }, isLeft = false) {
    const text = JSON.stringify({ name, time: this.now(), softwareId, moment, inputs: listedInputs(inputs), hasKeys,
      isLeft });
    if (text.length > LONGEST) return "long";
    try {
      const storage = this.storage();
      this.#makeRoom(storage, { id, name, length: text.length });
      return this.#put(storage, id, text) ? "" : "full";
    } catch {
      return "forbidden";
    }
  }

  /** Writes a text, if need be in place of the oldest run; whether it is written. */
  #put(storage, id, text) {
    const write = () => {
      try {
        storage.setItem(PREFIX + id, text);
        return true;
      } catch {
        return false;
      }
    };
    if (write()) return true;
    const oldest = this.list().filter(one => one.id !== id).at(-1);
    if (!oldest) return false;
    storage.removeItem(PREFIX + oldest.id);
    return write();
  }

  /** The oldest runs go where there would be too many, or too long ones; so does one without keys of the same name. */
  #makeRoom(storage, { id, name, length }) {
    let room = MOST_TOGETHER - length, count = 1;
    for (const one of this.list().filter(other => other.id !== id)) {
      const isWorthless = one.name === name && !one.hasKeys;
      if (isWorthless || room < one.length || count === MOST_RUNS) storage.removeItem(PREFIX + one.id);
      else [room, count] = [room - one.length, count + 1];
    }
  }

  /** Keeps software under its own key. What is wrong: "", "forbidden" or "large". */
  async keepSoftware(softwareId, software) {
    if (lengthOf(software) > MOST_SOFTWARE) return "large";
    try {
      await this.#dropUnused();
      await this.shelf.put(softwareId, software);
      return "";
    } catch {
      return "forbidden";
    }
  }

  /** Keeps a machine's state beside its run. Where that fails, the run comes back by running again. */
  async keepState(id, state) {
    try {
      await this.#dropUnused();
      await this.shelf.put(stateKey(id), state);
    } catch {
      // The run itself is kept.
    }
  }

  /** The state that is kept beside a run; null for none. Whoever takes it up looks whether it is whole. */
  async stateOf(id) {
    try {
      return await this.shelf.get(stateKey(id)) ?? null;
    } catch {
      return null;
    }
  }

  /** Software that no run names goes, and the state of a run that is gone. */
  async #dropUnused() {
    const used = new Set(this.list().flatMap(({ id, softwareId }) => [softwareId, stateKey(id)]));
    for (const key of await this.shelf.keys()) if (!used.has(key)) await this.shelf.delete(key);
  }

  /** Notes that a run is on now, in a tab. */
  beat(id, tab) {
    try {
      this.storage().setItem(BEAT + id, `${this.now()} ${tab}`);
    } catch {
      // What is not kept is not offered either.
    }
  }

  /** Notes that a run is on no longer. */
  rest(id) {
    try {
      this.storage().removeItem(BEAT + id);
    } catch {
      // Nothing was noted.
    }
  }

  /** The runs that were noted to be on: { id, age, tab }, of milliseconds since then. */
  beats() {
    try {
      const storage = this.storage(), keys = Array.from({ length: storage.length }, (_, i) => storage.key(i));
      return keys.filter(key => key.startsWith(BEAT)).map(key => {
        const [time, tab = ""] = storage.getItem(key).split(" ");
        return { id: key.slice(BEAT.length), age: this.now() - Number(time), tab };
      });
    } catch {
      return [];
    }
  }

  /** No run counts any longer as one that was on when the page was left. */
  forgetLeft() {
    const storage = this.storage();
    for (const { id } of this.list().filter(({ isLeft }) => isLeft)) {
      const text = storage.getItem(PREFIX + id);
      storage.setItem(PREFIX + id, JSON.stringify({ ...JSON.parse(text), isLeft: false }));
    }
  }

  /** The runs, the newest first: { id, name, time, softwareId, seconds, hasKeys, isLeft, length }. */
  list() {
    try {
      const storage = this.storage();
      const keys = Array.from({ length: storage.length }, (_, i) => storage.key(i));
      return keys.filter(key => key.startsWith(PREFIX)).flatMap(key => {
        const text = storage.getItem(key), found = readCourse(text);
        if (!found) return [];
        const { name, time, softwareId, hasKeys, isLeft, moment } = found;
        return [{ id: key.slice(PREFIX.length), name, time, softwareId, hasKeys, isLeft, seconds: moment.time / 1e9,
          length: text.length }];
      }).sort((one, other) => other.time - one.time);
    } catch {
      return [];
    }
  }

  /** A run that is kept: { id, name, softwareId, software, moment, inputs, state }; null where it is gone or bad. */
  async read(id) {
    try {
      const found = readCourse(this.storage().getItem(PREFIX + id));
      const software = found && await this.shelf.get(found.softwareId);
      if (!isSoftware(software)) return null;
      return { ...found, id, software, inputs: inputsOf(found.inputs), state: await this.stateOf(id) };
    } catch {
      return null;
    }
  }
}
