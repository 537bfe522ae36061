// The files in a ZIP, unpacked by the browser's own streams. The names of its structures are those of
// PKWARE's APPNOTE.
import { Trouble } from "../common/trouble.js";
import { grouped, throughStream } from "../common/bytes.js";

const LOCAL_HEADER = 0x04034b50, CENTRAL_HEADER = 0x02014b50, END_RECORD = 0x06054b50;
const LOCAL_BYTES = 30, CENTRAL_BYTES = 46, END_BYTES = 22, MOST_COMMENT = 0xffff;
const STORED = 0, DEFLATED = 8, ENCRYPTED = 1, IN_ZIP64 = 0xffffffff;
/** Drive C of the machine has room for so many files, and a ZIP may have so many bytes in all. */
export const MOST_FILES = 512, MOST_UNPACKED = 1 << 26;
const decoder = new TextDecoder("latin1");

/** Whether some bytes are a ZIP with a file in it. */
export function isZip(bytes) {
  return bytes.length > LOCAL_BYTES && viewOf(bytes).getUint32(0, true) === LOCAL_HEADER;
}

function viewOf({ buffer, byteOffset, length }) {
  return new DataView(buffer, byteOffset, length);
}

const damaged = () => new Trouble("This ZIP is damaged, or cut off.");

/** The place of the record at the end, which may have a comment behind it. */
function endOf(view) {
  const first = Math.max(0, view.byteLength - END_BYTES - MOST_COMMENT);
  for (let at = view.byteLength - END_BYTES; at >= first; at--) {
    if (view.getUint32(at, true) === END_RECORD) return at;
  }
  throw damaged();
}

/** An entry of the directory: { name, method, packed, length, at, next }. */
function entryAt(view, bytes, at) {
  if (view.getUint32(at, true) !== CENTRAL_HEADER) throw damaged();
  const nameBytes = view.getUint16(at + 28, true);
  const name = decoder.decode(bytes.subarray(at + CENTRAL_BYTES, at + CENTRAL_BYTES + nameBytes));
  const rest = view.getUint16(at + 30, true) + view.getUint16(at + 32, true);
  return { name, isEncrypted: (view.getUint16(at + 8, true) & ENCRYPTED) !== 0,
    method: view.getUint16(at + 10, true), packed: view.getUint32(at + 20, true),
    length: view.getUint32(at + 24, true), at: view.getUint32(at + 42, true),
    next: at + CENTRAL_BYTES + nameBytes + rest };
}

function entriesOf(view, bytes) {
  const end = endOf(view), count = view.getUint16(end + 10, true), entries = [];
  if (count > MOST_FILES) {
    throw new Trouble(`This ZIP has ${grouped(count)} files, and drive C has room for ${MOST_FILES}.`);
  }
  for (let at = view.getUint32(end + 16, true); entries.length < count;) {
    const entry = entryAt(view, bytes, at);
    entries.push(entry);
    at = entry.next;
  }
  return entries;
}

async function unpackedEntry(view, bytes, { name, isEncrypted, method, packed, length, at }) {
  if (isEncrypted) throw new Trouble(`${name} in this ZIP is encrypted.`);
  if (![STORED, DEFLATED].includes(method) || at === IN_ZIP64) {
    throw new Trouble(`${name} in this ZIP is packed by a method that this page lacks.`);
  }
  if (view.getUint32(at, true) !== LOCAL_HEADER) throw damaged();
  const from = at + LOCAL_BYTES + view.getUint16(at + 26, true) + view.getUint16(at + 28, true);
  const part = bytes.subarray(from, from + packed);
  const found = method === STORED ? part.slice() :
    await throughStream(part, new DecompressionStream("deflate-raw"), length);
  if (found.length !== length) throw damaged();
  return { name, bytes: found };
}

/** The files of a ZIP, folders left out: { name, bytes } each. A Trouble where it can't be read. */
export async function filesOfZip(bytes) {
  const view = viewOf(bytes);
  try {
    const entries = entriesOf(view, bytes).filter(({ name }) => !name.endsWith("/"));
    const total = entries.reduce((sum, { length }) => sum + length, 0);
    if (total > MOST_UNPACKED) {
      throw new Trouble(`The files in this ZIP have more than ${grouped(MOST_UNPACKED)} bytes.`);
    }
    const files = [];
    for (const entry of entries) files.push(await unpackedEntry(view, bytes, entry));
    return files;
  } catch (error) {
    if (error instanceof Trouble) throw error;
    throw damaged();
  }
}
