// What is dropped: files and folders by both interfaces of browsers, and what is refused with a reason.
import assert from "node:assert/strict";
import test from "node:test";
import { entriesOfDrop, filesOfEntries } from "../files/folders.js";
import { Trouble } from "../common/trouble.js";

const fileOf = (name, text) => ({ name, size: text.length,
  arrayBuffer: async () => new TextEncoder().encode(text).buffer });

/** A folder or a file by the older interface: folders are objects, and files texts. */
function entryOf(name, content) {
  if (typeof content === "string") {
    return { name, isDirectory: false, file: done => done(fileOf(name, content)) };
  }
  const createReader = () => {
    const left = Object.entries(content).map(([one, inside]) => entryOf(one, inside));
    // A part at a time, and nothing at last.
    return { readEntries: done => done(left.splice(0, 2)) };
  };
  return { name, isDirectory: true, createReader };
}

/** The same by the newer one. */
function handleOf(name, content) {
  if (typeof content === "string") return { name, kind: "file", getFile: async () => fileOf(name, content) };
  return { name, kind: "directory", async *values() {
    for (const [one, inside] of Object.entries(content)) yield handleOf(one, inside);
  } };
}

/** What a browser tells of a drop: by the older interface, or by both. */
const dropOf = (contents, isNew) => entriesOfDrop({ items: Object.entries(contents).map(([name, content]) => ({
  webkitGetAsEntry: () => entryOf(name, content),
  ...isNew ? { getAsFileSystemHandle: async () => handleOf(name, content) } : {} })) });

const GAME = { game: { "run.com": "run", "b.txt": "bee", deep: { more: { "x.dat": "x" } }, empty: {} }, "a.txt": "" };

for (const isNew of [false, true]) {
  const kind = isNew ? "newer" : "older";
  test(`files in folders by the ${kind} interface, with their names and in their order`, async () => {
    const entries = dropOf(GAME, isNew);
    assert.deepEqual(entries.map(({ name, isFolder }) => [name, isFolder]), [["game", true], ["a.txt", false]]);
    const files = await filesOfEntries(entries);
    assert.deepEqual(files.map(({ name, bytes }) => [name, Buffer.from(bytes).toString()]),
      [["a.txt", ""], ["game/b.txt", "bee"], ["game/deep/more/x.dat", "x"], ["game/run.com", "run"]]);
  });

  test(`too many files by the ${kind} interface, and a folder that leads to itself`, async () => {
    const many = count => ({ many: Object.fromEntries(Array.from({ length: count }, (_, i) => [`f${i}`, "x"])) });
    assert.equal((await filesOfEntries(dropOf(many(512), isNew))).length, 512);
    await assert.rejects(() => filesOfEntries(dropOf(many(513), isNew)), /more than 512 files/);
    await assert.rejects(() => filesOfEntries(dropOf(many(5000), isNew)), /more than 512 files/);
    const own = {};
    let looks = 0;
    Object.defineProperty(own, "again", { enumerable: true, get: () => {
      assert.ok(++looks < 5000, "it is looked into without end");
      return own;
    } });
    await assert.rejects(() => filesOfEntries(dropOf({ own }, isNew)), /more than 512 files/);
  });
}

test("files that are too large are read by none, and what can't be read is told", async () => {
  let isRead = false;
  const large = { name: "large", size: 40 << 20, arrayBuffer: async () => { isRead = true; } };
  const entries = Array.from({ length: 2 }, () => ({ name: "large", isFolder: false, handle: null,
    entry: { file: done => done(large) } }));
  await assert.rejects(() => filesOfEntries(entries), /more than 67,108,864 bytes/);
  assert.ok(!isRead);
  const failing = { name: "gone", isFolder: false, handle: null,
    entry: { file: (_, failed) => failed(new Error("it is gone")) } };
  await assert.rejects(() => filesOfEntries([failing]), error => {
    assert.ok(error instanceof Trouble);
    assert.match(error.message, /can't be read: it is gone/);
    return true;
  });
  // What is no file at all, such as a text that is dropped.
  assert.deepEqual(entriesOfDrop({ items: [{ webkitGetAsEntry: () => null }, {}] }), []);
});
