// What the browser's storage keeps of the page's looks. Where storage is forbidden or full, the
// page works all the same, and forgets.

const PREFIX = "zaklimot-look-";

/** Choices by name, each a value that JSON has. */
export class Settings {
  /** `storage` answers the storage, or throws if the browser forbids it. */
  constructor(storage = () => localStorage) {
    this.storage = storage;
  }

  /** What was kept under a name; undefined if nothing is, or nothing that can be read. */
  get(name) {
    try {
      return JSON.parse(this.storage().getItem(PREFIX + name) ?? "");
    } catch {
      return undefined;
    }
  }

  /** Keeps a value; whether the browser does it. */
  set(name, value) {
    try {
      this.storage().setItem(PREFIX + name, JSON.stringify(value));
      return true;
    } catch {
      return false;
    }
  }
}
