// What is dropped: a file, several files, or a folder, whose files are read with their names in it.
import { MOST_FILES, MOST_UNPACKED } from "../machine/door.js";
import { Trouble } from "../common/trouble.js";
import { grouped } from "../common/bytes.js";

/** So many files and folders are looked at. */
const MOST_ENTRIES = 2 * MOST_FILES;

/**
 * What stands in a drop, as the browser tells it while it is dropped alone: { name, isFolder, files() }, files
 * and folders. Chromium reads no folder by its older interface where the page was opened from disk, and Firefox
 * has no other one.
 */
export function entriesOfDrop({ items }) {
  return [...items].flatMap(item => {
    const entry = item.webkitGetAsEntry?.();
    if (!entry) return [];
    return [{ name: entry.name, isFolder: entry.isDirectory, handle: item.getAsFileSystemHandle?.() ?? null, entry }];
  });
}

const called = (target, name) => new Promise((resolve, reject) => { target[name](resolve, reject); });

/** What a folder has by the older interface, which tells a hundred at a time: { name, isFolder, .. } each. */
async function entriesIn(folder) {
  const reader = folder.createReader(), found = [];
  while (found.length <= MOST_ENTRIES) {
    const some = await called(reader, "readEntries");
    if (!some.length) break;
    found.push(...some);
  }
  return found.map(entry => ({ name: entry.name, isFolder: entry.isDirectory, handle: null, entry }));
}

/** The same by the newer interface. */
async function handlesIn(folder) {
  const found = [];
  for await (const handle of folder.values()) {
    found.push({ name: handle.name, isFolder: handle.kind === "directory", handle });
    if (found.length > MOST_ENTRIES) break;
  }
  return found;
}

/** The files of some entries, in folders too: { name, file } each. A Trouble where they are too many. */
async function listed(entries) {
  const waiting = [...entries], found = [];
  let count = 0;
  while (waiting.length) {
    const { name, isFolder, entry, ...one } = waiting.shift(), handle = await one.handle;
    if (isFolder) {
      const inside = await (handle ? handlesIn(handle) : entriesIn(entry));
      waiting.push(...inside.map(other => ({ ...other, name: `${name}/${other.name}` })));
    } else found.push({ name, file: await (handle ? handle.getFile() : called(entry, "file")) });
    // Folders have no end where one leads to itself.
    if (found.length > MOST_FILES || ++count > MOST_ENTRIES) {
      throw new Trouble(`These are more than ${MOST_FILES} files, and drive C has room for no more.`);
    }
  }
  return found;
}

/** The files of what was dropped, by their names: { name, bytes } each. A Trouble where they can't be read. */
export async function filesOfEntries(entries) {
  try {
    const found = await listed(entries), total = found.reduce((sum, { file }) => sum + file.size, 0);
    if (total > MOST_UNPACKED) throw new Trouble(`These files have more than ${grouped(MOST_UNPACKED)} bytes.`);
    const files = [];
    for (const { name, file } of found) files.push({ name, bytes: new Uint8Array(await file.arrayBuffer()) });
    return files.sort((one, other) => (one.name < other.name ? -1 : 1));
  } catch (error) {
    if (error instanceof Trouble) throw error;
    throw new Trouble(`What you dropped can't be read: ${error.message}.`);
  }
}
