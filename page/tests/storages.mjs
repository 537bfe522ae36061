// What the browser keeps, for tests without one.

/** A storage as a browser's, of so many characters in all. */
export class Storage {
  constructor(most = Infinity) {
    Object.assign(this, { most, map: new Map() });
  }

  get length() {
    return this.map.size;
  }

  key(i) {
    return [...this.map.keys()][i];
  }

  getItem(key) {
    return this.map.get(key) ?? null;
  }

  setItem(key, value) {
    const others = [...this.map].reduce((sum, [name, text]) => sum + (name === key ? 0 : text.length), 0);
    if (others + value.length > this.most) throw new Error("full");
    this.map.set(key, value);
  }

  removeItem(key) {
    this.map.delete(key);
  }
}

/** A shelf of the browser's database. */
export class Shelf {
  map = new Map();

  async put(key, value) {
    this.map.set(key, value);
  }

  async get(key) {
    return this.map.get(key);
  }

  async delete(key) {
    this.map.delete(key);
  }

  async keys() {
    return [...this.map.keys()];
  }
}
