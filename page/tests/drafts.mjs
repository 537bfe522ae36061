// The user's own scripts in the browser's storage, and the changes that are undone.
import assert from "node:assert/strict";
import test from "node:test";
import { Drafts, LONGEST_KEPT, newId, titleOf } from "../editor/drafts.js";
import { History, changeBetween, isNewText, linesAfter } from "../editor/history.js";

/** A storage as a browser's, of so many characters in all. */
class Storage {
  constructor(most = 5000000) {
    Object.assign(this, { most, map: new Map() });
  }

  get length() {
    return this.map.size;
  }

  key(i) {
    return [...this.map.keys()][i];
  }

  getItem(key) {
    return this.map.get(key) ?? null;
  }

  setItem(key, value) {
    const others = [...this.map].reduce((sum, [name, text]) => sum + (name === key ? 0 : name.length + text.length), 0);
    if (others + key.length + value.length > this.most) throw new DOMException("full", "QuotaExceededError");
    this.map.set(key, value);
  }

  removeItem(key) {
    this.map.delete(key);
  }
}

/** Scripts in a storage, with a clock that goes on at each look. */
function draftsIn(storage) {
  let now = 1000;
  return new Drafts(() => storage, () => now++);
}

const script = (name = "script") => ({ name, id: newId() });

test("a script is kept as it changes, and read as it was last", () => {
  const storage = new Storage(), drafts = draftsIn(storage), own = script("own.vga");
  for (const text of ["f", "fr", "frame\n; é\ud83d\ude00\n\n"]) assert.equal(drafts.keep(own, text), "");
  const { name, text, time } = draftsIn(storage).read(own.id);
  assert.deepEqual({ name, text, time }, { name: "own.vga", text: "frame\n; é\ud83d\ude00\n\n", time: 1002 });
  assert.equal(drafts.read("none"), null);
});

test("the list has the last scripts by their first comment, the newest first", () => {
  const drafts = draftsIn(new Storage());
  const [one, other, blank] = [script(), script(), script()];
  drafts.keep(one, "version 2\n; = 5\n;  Bars of copper\nframe\n");
  drafts.keep(other, "in 3DA ; = 00\nframe\n");
  drafts.keep(blank, " \n");
  drafts.keep(one, "version 2\n; = 5\n;  Bars of copper\n");
  assert.deepEqual(drafts.list().map(({ title, time }) => [title, time]),
    [["Bars of copper", 1003], ["in 3DA ; = 00", 1001], ["no words yet", 0]]);
  assert.equal(titleOf(`; ${"long ".repeat(40)}`).length, 62);
});

test("two pages that change one script both keep theirs", () => {
  const storage = new Storage(), drafts = draftsIn(storage), here = script();
  drafts.keep(here, "frame\n");
  const there = draftsIn(storage).read(here.id);
  drafts.keep(here, "frame\nframe\n");
  assert.equal(drafts.keep(there, "int ax=3\n"), "");
  assert.notEqual(there.id, here.id);
  assert.deepEqual(drafts.list().map(({ id }) => drafts.read(id).text).sort(), ["frame\nframe\n", "int ax=3\n"]);
});

test("of too many scripts, or too long ones, the oldest go", () => {
  const storage = new Storage(), drafts = draftsIn(storage), all = [];
  for (let i = 0; i < 30; i++) drafts.keep(all[i] = script(), `; script ${i}\n${"frame\n".repeat(100)}`);
  assert.equal(drafts.list().length, 20);
  assert.equal(drafts.list().at(-1).title, "script 10");
  for (let i = 0; i < 5; i++) drafts.keep(script(), `; long ${i}\n`.padEnd(1000000, "; more\n"));
  assert.deepEqual(drafts.list().map(({ title }) => title), ["long 4", "long 3", "long 2"]);
  assert.equal(drafts.keep(script(), "; longest\n".padEnd(LONGEST_KEPT, "; more\n")), "");
  assert.deepEqual(drafts.list().map(({ title }) => title), ["longest", "long 4"]);
});

test("a storage that is full, or forbidden, and a script that is too long, are told", () => {
  const storage = new Storage(3000), drafts = draftsIn(storage), [old, own] = [script(), script()];
  storage.setItem("another page's", "x".repeat(1900));
  assert.equal(drafts.keep(old, "; old\n"), "");
  assert.equal(drafts.keep(own, "; own\n".repeat(50)), "");
  // Where the oldest would make no room, all stay, and the script as it stood last.
  assert.equal(drafts.keep(own, "; own\n".repeat(500)), "full");
  assert.equal(drafts.list().length, 2);
  assert.equal(drafts.read(own.id).text, "; own\n".repeat(50));
  // Where they make room, they go.
  assert.equal(drafts.keep(script(), "; new\n".repeat(51)), "");
  assert.equal(drafts.keep(script(), "; newest\n".repeat(200)), "full");
  assert.equal(drafts.keep(script(), "; newest\n".repeat(30)), "");
  assert.equal(drafts.list()[0].title, "newest");
  assert.equal(drafts.keep(own, "x".repeat(LONGEST_KEPT + 1)), "long");
  const none = new Drafts(() => { throw new DOMException("no", "SecurityError"); });
  assert.deepEqual([none.keep(own, "frame\n"), none.list(), none.read("a")], ["forbidden", [], null]);
});

test("what others have written into the storage is passed over", () => {
  const storage = new Storage(), drafts = draftsIn(storage);
  for (const [i, value] of ["", "junk", "{}\nframe", "null\nframe", '{"time":"1","name":"a"}\nframe',
    '{"time":1e999,"name":"a"}\n', '{"time":1,"name":["a"]}\n'].entries()) {
    storage.setItem(`zaklimot-script-${i}`, value);
  }
  storage.setItem("other", '{"time":1,"name":"a"}\nframe');
  assert.deepEqual(drafts.list(), []);
  drafts.keep(script(), "frame\n");
  assert.equal(drafts.list().length, 1);
});

/** What a change makes of a text. */
const changed = (text, { from, removed, added }) => text.slice(0, from) + added + text.slice(from + removed.length);

test("a change is found, and where it stands among lines that are alike", () => {
  for (const [old, now, caret, wanted] of [
    ["frame\n", "frame\nframe\n", 6, { from: 0, removed: "", added: "frame\n" }],
    ["frame\n", "frame\nframe\n", 12, { from: 6, removed: "", added: "frame\n" }],
    ["aaa", "aa", 1, { from: 1, removed: "a", added: "" }],
    ["abc", "aXc", 2, { from: 1, removed: "b", added: "X" }],
    ["", "abc", 3, { from: 0, removed: "", added: "abc" }],
    ["abc", "", 0, { from: 0, removed: "abc", added: "" }],
    ["abc", "abc", 1, { from: 1, removed: "", added: "" }],
    // A caret that isn't where the change ends leads to no wrong one.
    ["abcd", "abXd", 0, { from: 2, removed: "c", added: "X" }],
  ]) assert.deepEqual(changeBetween(old, now, caret), wanted, `${old} to ${now}`);
  let seed = 7;
  const random = most => (seed = Math.imul(seed, 48271) % 2147483647, Math.abs(seed) % most);
  const any = () => Array.from({ length: random(9) }, () => "ab\n"[random(3)]).join("");
  for (let i = 0; i < 20000; i++) {
    const old = any(), now = any();
    assert.equal(changed(old, changeBetween(old, now, random(now.length + 1))), now);
  }
  assert.ok(isNewText("frame\n", changeBetween("frame\n", "int ax=3\n", 9)));
  assert.ok(!isNewText("int ax=3\nframe\n", changeBetween("int ax=3\nframe\n", "int ax=13\nframe\n", 8)));
});

test("breakpoints follow their lines", () => {
  const old = "version 2\nint ax=3\n  put B8000 41\n\nframe\n";
  const after = (from, removed, added) => [1, 2, 3, 4, 5].map(linesAfter(old, { from, removed, added }));
  for (const [from, removed, added, wanted] of [
    [0, "", "; one\n; two\n", [3, 4, 5, 6, 7]], [9, "", "\nout 3C4 2", [1, 3, 4, 5, 6]],
    [10, "", "\n", [1, 3, 4, 5, 6]],
    // At the blanks before a line's first word; within it; at the end of the line.
    [20, "", "\n", [1, 2, 4, 5, 6]], [23, "", "\n", [1, 2, 3, 5, 6]], [33, "", "\nget B8000", [1, 2, 3, 5, 6]],
    [10, "int ax=3\n", "", [1, null, 2, 3, 4]], [10, "int ax=3", "int ax=13", [1, 2, 3, 4, 5]],
    [18, "\n", "", [1, 2, 2, 3, 4]], [0, old, "frame\n", [null, null, null, null, null]],
  ]) {
    assert.equal(old.slice(from, from + removed.length), removed);
    assert.deepEqual(after(from, removed, added), wanted, JSON.stringify([from, removed, added]));
  }
  assert.equal(linesAfter(old, { from: 0, removed: "", added: "\n" })(99), 99);
});

/** An editor's text with its history, as the page has them. */
class Typed {
  constructor(text, script) {
    Object.assign(this, { text, script, history: new History() });
  }

  type(now, script = this.script, isWhole = false, caret = now.length) {
    const change = isWhole ? { from: 0, removed: this.text, added: now } : changeBetween(this.text, now, caret);
    this.history.note({ ...change, before: { script: this.script }, after: { script }, isWhole });
    Object.assign(this, { text: now, script });
  }

  turn(way) {
    const change = this.history[way]();
    if (!change) return null;
    Object.assign(this, { text: changed(this.text, change), script: change.after.script });
    return `${this.script}: ${this.text}`;
  }
}

test("undo after loading gives back the script before, and never mixes two", () => {
  const typed = new Typed("", "own");
  for (const text of ["f", "fr", "fra", "fram", "frame", "frame\n", "frame\ni", "frame\nin"]) typed.type(text);
  typed.type("int ax=3\n", "hunt", true);
  typed.type("int ax=13\n", "other", false, 8);
  assert.equal(typed.turn("undo"), "hunt: int ax=3\n");
  assert.equal(typed.turn("undo"), "own: frame\nin");
  assert.equal(typed.turn("undo"), "own: frame\n");
  assert.equal(typed.turn("redo"), "own: frame\nin");
  assert.equal(typed.turn("redo"), "hunt: int ax=3\n");
  assert.equal(typed.turn("redo"), "other: int ax=13\n");
  assert.equal(typed.turn("redo"), null);
  for (const told of ["hunt: int ax=3\n", "own: frame\nin", "own: frame\n", "own: frame", "own: "]) {
    assert.equal(typed.turn("undo"), told);
  }
  assert.equal(typed.turn("undo"), null);
  typed.type("x");
  assert.equal(typed.turn("redo"), null);
});

test("letters that are taken back one by one come back as a word, and no history is without an end", () => {
  const typed = new Typed("frame", "own");
  for (const text of ["fram", "fra", "fr"]) typed.type(text);
  assert.equal(typed.turn("undo"), "own: frame");
  const { history } = typed, part = "x".repeat(1 << 20);
  for (let i = 0; i < 200; i++) {
    history.note({ from: 0, removed: part, added: part, before: {}, after: {}, isWhole: true });
  }
  assert.equal(history.done.length, 32);
});
