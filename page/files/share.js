// A script in the fragment of a link, and what a file that is dropped is.
import { FONTS_SIZE, STATUS } from "../../javascript/zaklimot.js";
import { MOST_BYTES } from "../script/grammar.js";
import { Trouble } from "../common/trouble.js";
import { base64OfBytes, bytesOfBase64, counted, grouped, hex, throughStream }
  from "../common/bytes.js";
import { encodingTrouble } from "../script/foreign.js";
import { isReport } from "../run/report.js";
import { isSavedRun } from "../machine/door.js";
import { reasonOfBytes } from "../script/faults.js";
import { textOfTrace, traceForm } from "./trace.js";

const MARK = [0xef, 0xbb, 0xbf], MAGIC = [0x56, 0x47, 0x41, 0x53], GZIP = [0x1f, 0x8b],
  PNG = [0x89, 0x50, 0x4e, 0x47];
// Tab, newline, form feed, carriage return, and the mark that ends old text files.
const TEXT_CONTROLS = [9, 10, 12, 13, 26];
// A trace may be longer than a script.
const MOST_FILE = 1 << 28, MOST_WORD = 40;
const startsWith = (bytes, front) => front.every((byte, i) => bytes[i] === byte);

/** Bytes as they stand in a fragment. */
export async function packed(bytes) {
  return base64OfBytes(await throughStream(bytes, new CompressionStream("deflate-raw")));
}

/** The bytes that stand in a fragment, at most so many; a Trouble where the link is damaged. */
export async function unpacked(text, what = "script", most = MOST_BYTES) {
  try {
    return await throughStream(bytesOfBase64(text), new DecompressionStream("deflate-raw"), most);
  } catch (error) {
    const why = error instanceof RangeError ? `: ${error.message}` : ", or is cut off";
    throw new Trouble(`The ${what} in this link is damaged${why}.`);
  }
}

/** What each word of a fragment stands for; a Trouble where it stands for nothing. */
const WORDS = {
  step(text) {
    if (/^\d{1,15}$/.test(text)) return Number(text);
    throw new Trouble(`${saidWord("step", text)} names no step: a step is a whole number.`);
  },
  tab(text, { tabs }) {
    if (tabs.includes(text)) return text;
    throw new Trouble(`${saidWord("tab", text)} names none of ${tabs.join(", ")}.`);
  },
  example(text, { examples }) {
    if (examples.includes(text)) return text;
    throw new Trouble(`${saidWord("example", text)} names no example of this page.`);
  },
  async fonts(text) {
    const fonts = await unpacked(text, "font file", FONTS_SIZE);
    const size = counted(fonts.length, "byte");
    if (fonts.length === FONTS_SIZE) return fonts;
    throw new Trouble(`The font file in this link has ${size}, and needs ${grouped(FONTS_SIZE)}.`);
  },
  async run(text) {
    const run = await unpacked(text, "run");
    if (isSavedRun(run)) return run;
    throw new Trouble("The run in this link is damaged.");
  },
  async script(text) {
    const bytes = await unpacked(text);
    try {
      return new TextDecoder("utf-8", { fatal: true }).decode(bytes);
    } catch {
      throw new Trouble("The script in this link is damaged: it is no text in UTF-8.");
    }
  },
};

function saidWord(word, text) {
  return `${word}=${text.length > MOST_WORD ? `${text.slice(0, MOST_WORD)} …` : text}`;
}

/**
 * What a fragment asks for, by its words; `wrong` has a sentence for each that stands for nothing.
 */
export async function readFragment(fragment, names) {
  const words = new URLSearchParams(fragment.replace(/^#/, "")), asked = { wrong: [] };
  for (const [word, read] of Object.entries(WORDS)) {
    if (!words.has(word)) continue;
    try {
      asked[word] = await read(words.get(word), names);
    } catch (error) {
      if (!(error instanceof Trouble)) throw error;
      asked.wrong.push(error.message);
    }
  }
  return asked;
}

/**
 * The bytes of the one file of a list; a Trouble where there are more, or where it can't be read.
 */
export async function bytesOfFiles(files) {
  const [file] = files;
  if (files.length > 1) throw new Trouble(`These are ${files.length} files: open one at a time.`);
  if (file.size > MOST_FILE) {
    throw new Trouble(`${file.name} has more than ${grouped(MOST_FILE)} bytes.`);
  }
  try {
    return new Uint8Array(await file.arrayBuffer());
  } catch {
    throw new Trouble(`${file.name} is a folder, or a file that can't be read.`);
  }
}

/**
 * What a file is: { fonts }; { png } or { report }, the bytes of one; or { text } of a script,
 * which a trace is too, with the `trace` as it stands. `adapter` prints scripts of bytes, and tells a trace's time.
 */
export async function contentsOf(bytes, adapter) {
  if (startsWith(bytes, GZIP)) bytes = await gunzipped(bytes);
  if (startsWith(bytes, PNG)) return { png: bytes };
  if (isReport(bytes)) return { report: bytes };
  if (startsWith(bytes, MAGIC)) return { text: printedText(bytes, adapter) };
  const isFonts = bytes.length === FONTS_SIZE && bytes.some(byte => byte === 0 || byte > 126);
  if (isFonts) return { fonts: bytes };
  if (startsWith(bytes, MARK)) bytes = bytes.subarray(MARK.length);
  const text = new TextDecoder().decode(bytes), form = traceForm(text);
  if (form) return { text: textOfTrace(text, adapter), trace: text };
  const begin = bytes.subarray(0, 4096);
  if (begin.some(byte => byte > 0 && byte < 32 && !TEXT_CONTROLS.includes(byte))) {
    throw new Trouble(noneOf(bytes));
  }
  const trouble = encodingTrouble(bytes);
  if (trouble) throw new Trouble(`This file is not run: ${trouble}.`);
  if (begin.includes(0)) throw new Trouble(noneOf(bytes));
  if (bytes.length > MOST_BYTES) {
    throw new Trouble(`The text has more than ${grouped(MOST_BYTES)} bytes.`);
  }
  return { text };
}

async function gunzipped(bytes) {
  try {
    return await throughStream(bytes, new DecompressionStream("gzip"), MOST_FILE);
  } catch (error) {
    throw new Trouble(`This file begins as one of gzip, and can't be unpacked: ${error.message}.`);
  }
}

/** The text of a script of bytes. */
export function printedText(bytes, adapter) {
  try {
    return adapter.print(bytes.length > MOST_BYTES ? bytes.subarray(0, MOST_BYTES + 1) : bytes);
  } catch (error) {
    if (!error.status || error.status === STATUS.OUT_OF_MEMORY) throw error;
    const reason = reasonOfBytes(bytes, error.status, error.place ?? 0);
    throw new Trouble(`This script of bytes is not run: ${reason}.`);
  }
}

function noneOf(bytes) {
  const begins = Array.from(bytes.subarray(0, 8), byte => hex(byte, 2)).join(" ");
  return `This file of ${grouped(bytes.length)} bytes, which begins with ${begins}, ` +
    `is no script, no trace and no font file, and no report or PNG: ` +
    `a script is a text, or begins with 56 47 41 53, ` +
    `and a font file has ${grouped(FONTS_SIZE)} bytes.`;
}
