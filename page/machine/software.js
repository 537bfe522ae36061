// What a file is that the machine can run: a program of DOS, a disk, a ROM of a video BIOS.
import { Trouble } from "../common/trouble.js";
import { grouped } from "../common/bytes.js";

const SECTOR = 512, SIGNATURE_AT = 510, MOST_FLOPPY = 2949120, MOST_DISK = 1 << 26;
const MOST_PROGRAM = 0x90000, MOST_COM = 0xff00, MOST_ROM = 0x10000;
const FLOPPIES = [163840, 184320, 327680, 368640, 737280, 1228800, 1474560, 1720320, MOST_FLOPPY];
const PROGRAM_NAME = /\.(com|exe)$/i, IMAGE_NAME = /\.(img|ima|dsk|flp|vfd|hdd)$/i;
const startsWith = (bytes, ...front) => front.every((byte, i) => bytes[i] === byte);
const isBootable = bytes => bytes.length >= SECTOR && bytes[SIGNATURE_AT] === 0x55 &&
  bytes[SIGNATURE_AT + 1] === 0xaa;

/** Whether some bytes are a ROM with a head: two bytes, and its length in units of 512. */
function isRom(bytes) {
  const length = bytes[2] * SECTOR;
  return startsWith(bytes, 0x55, 0xaa) && length > 0 && length <= bytes.length;
}

function checkSize(bytes, most, name, what) {
  if (bytes.length <= most) return;
  throw new Trouble(`${name} has ${grouped(bytes.length)} bytes, and ${what} may have ${grouped(most)}.`);
}

/**
 * What a file is as software: { program }, { a } (a floppy), { c } (a disk) or { rom }, each the file's
 * bytes; null where it is none.
 */
export function softwareOf(bytes, name) {
  if (isRom(bytes) && !PROGRAM_NAME.test(name)) {
    checkSize(bytes, MOST_ROM, name, "a ROM");
    return { rom: bytes };
  }
  const hasHead = startsWith(bytes, 0x4d, 0x5a), hasOldHead = startsWith(bytes, 0x5a, 0x4d);
  if (hasHead || (PROGRAM_NAME.test(name) && bytes.length)) {
    if (hasHead || hasOldHead) checkSize(bytes, MOST_PROGRAM, name, "a program");
    else checkSize(bytes, MOST_COM, name, "a program without a head");
    return { program: bytes };
  }
  if (isBootable(bytes)) {
    if (bytes.length <= MOST_FLOPPY) return { a: bytes };
    checkSize(bytes, MOST_DISK, name, "a disk");
    return { c: bytes };
  }
  if (FLOPPIES.includes(bytes.length) || IMAGE_NAME.test(name)) {
    throw new Trouble(`${name} does not start: a boot sector ends with 55 AA, and this one does not. ` +
      "Open it while software runs, and it is put into a drive.");
  }
  return null;
}

/** Whether some bytes are the image of a floppy, which may be put into a drive; and whether it starts. */
export function floppyOf(bytes, name) {
  const isFloppy = FLOPPIES.includes(bytes.length) && !PROGRAM_NAME.test(name);
  return { isFloppy, isBootable: isBootable(bytes) };
}

/** The most files among which the page lets you choose. */
export const MOST_CHOICES = 20;

/** Those of some files that run: { name, software } each. A Trouble where all that would are too large. */
export function softwareIn(files) {
  const found = [];
  let trouble = null;
  for (const { name, bytes } of files.filter(one => PROGRAM_NAME.test(one.name) || isBootable(one.bytes))) {
    try {
      const software = softwareOf(bytes, name);
      if (software && !software.rom) found.push({ name, software });
    } catch (error) {
      trouble ??= error;
    }
  }
  if (trouble && !found.length) throw trouble;
  return found;
}

/** The files as a program finds them on drive C, in whose first folder it stands. */
export function filesBeside(files, name) {
  const folder = name.slice(0, name.lastIndexOf("/") + 1);
  return files.map(file => (file.name.startsWith(folder) ?
    { ...file, name: file.name.slice(folder.length) } : file));
}
