// The user's own scripts, which the browser's storage keeps: each under a key of its own, as a line
// of JSON { time, name } and the text. Several pages may use one storage at a time.

const PREFIX = "zaklimot-script-";
// Chromium and Firefox give an address five million characters. Where there is less room, the oldest scripts go.
const MOST_DRAFTS = 20, MOST_TOGETHER = 3500000, MUCH_MORE = 256;
/** A script of more characters is not kept. */
export const LONGEST_KEPT = 2000000;
const MOST_TITLE = 60, SEARCHED = 4000;

/** What a script is called in a list: its first comment, or else its first line. */
export function titleOf(text) {
  const begin = text.slice(0, SEARCHED), comment = begin.match(/^[^;\n]*;[ \t]*([^\s;=][^\n]*)$/m);
  const title = (comment?.[1] ?? begin.trim().split("\n", 1)[0]).trim();
  return title.length > MOST_TITLE ? `${title.slice(0, MOST_TITLE)} …` : title || "no words yet";
}

/** An identity that no other script has. */
export function newId() {
  const part = () => Math.floor(Math.random() * 2 ** 32).toString(36);
  return `${Date.now().toString(36)}-${part()}${part()}`;
}

/** What stands under a key, as { time, name, text }; null where it is none of the page's. */
function readValue(value) {
  const end = value?.indexOf("\n") ?? -1;
  if (end < 0) return null;
  try {
    const { time, name } = JSON.parse(value.slice(0, end));
    const isOurs = Number.isFinite(time) && typeof name === "string";
    return isOurs ? { time, name, text: value.slice(end + 1) } : null;
  } catch {
    return null;
  }
}

/** The scripts in a storage. `storage` answers it, or throws where the browser forbids it. */
export class Drafts {
  constructor(storage = () => localStorage, now = () => Date.now()) {
    this.storage = storage;
    this.now = now;
  }

  /**
   * Keeps the text of a script { id, name, stored }. Where another page has changed what stands
   * under its id, the script gets another id. What is wrong: "", "forbidden", "full" or "long".
   */
  keep(script, text) {
    if (text.length > LONGEST_KEPT) return "long";
    const value = `${JSON.stringify({ time: this.now(), name: script.name })}\n${text}`;
    try {
      const storage = this.storage(), there = storage.getItem(PREFIX + script.id);
      if (there !== null && there !== script.stored) script.id = newId();
      if (!this.put(storage, script.id, value)) return "full";
      script.stored = value;
      if (value.length - (there?.length ?? 0) > MUCH_MORE) this.drop(storage, script.id);
      return "";
    } catch {
      return "forbidden";
    }
  }

  /**
   * Writes a value; where there is no room, in place of the oldest scripts. Whether it is written.
   */
  put(storage, id, value) {
    const write = () => {
      try {
        storage.setItem(PREFIX + id, value);
        return true;
      } catch {
        return false;
      }
    };
    if (write()) return true;
    const gone = [];
    let room = 0;
    for (const old of this.list().reverse()) {
      if (room > value.length) break;
      if (old.id === id) continue;
      gone.push([PREFIX + old.id, storage.getItem(PREFIX + old.id)]);
      room += gone.at(-1)[1].length;
    }
    // Where the oldest make no room, they stay.
    if (room <= value.length) return false;
    for (const [key] of gone) storage.removeItem(key);
    if (write()) return true;
    for (const [key, text] of gone) storage.setItem(key, text);
    return false;
  }

  /** The oldest scripts go where they are too many, or too long. */
  drop(storage, id) {
    let size = 0;
    this.list().forEach(({ id: one, length }, i) => {
      size += length;
      const isTooMuch = i >= MOST_DRAFTS || size > MOST_TOGETHER;
      if (isTooMuch && one !== id) storage.removeItem(PREFIX + one);
    });
  }

  /** A script that is kept, as { id, name, time, text, stored }; null where there is none. */
  read(id) {
    try {
      const stored = this.storage().getItem(PREFIX + id), found = readValue(stored);
      return found && { id, stored, ...found };
    } catch {
      return null;
    }
  }

  /** The scripts, the newest first: { id, name, time, title, length }. A blank one comes last. */
  list() {
    try {
      const storage = this.storage();
      const keys = Array.from({ length: storage.length }, (_, i) => storage.key(i));
      const found = keys.filter(key => key.startsWith(PREFIX))
        .map(key => this.read(key.slice(PREFIX.length)));
      return found.filter(one => one).map(({ id, name, time, text }) =>
        ({ id, name, time: text.trim() ? time : 0, title: titleOf(text), length: text.length }))
        .sort((one, other) => other.time - one.time);
    } catch {
      return [];
    }
  }
}
