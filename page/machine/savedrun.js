// A run of a machine as a file: the software, and all that came from outside with its time. Since the
// same inputs give the same cycles, that is the whole run.
import { SPEEDS } from "./machine.js";
import { Trouble } from "../common/trouble.js";
import { MOST_FILES, MOST_UNPACKED } from "./zip.js";
import { bytesOfBase64, throughStream } from "../common/bytes.js";
import { packed } from "../files/share.js";

const MARK = "zaklimot run", VERSION = 1;
const PARTS = { program: 0x90000, a: 2949120, b: 2949120, c: 1 << 26, rom: 0x10000 };
/** What can be started. */
const STARTED = ["program", "a", "b", "c"];
/** So many floppies may be put in while software runs. */
export const MOST_MEDIA = 32;
const MOST_INPUTS = 1000000, MOST_TIME = 1e15, MOST_NAME = 200;
/** What comes from outside, and whether its values are right. */
const INPUTS = {
  key: values => values.length === 2 && values.every(isWord),
  mouse: values => values.length === 3 && values.every(isWord),
  set_instruction_time: ([time, ...more]) => !more.length && Object.values(SPEEDS).includes(time),
  set_palette: ([isTheirs, ...more]) => !more.length && [0, 1].includes(isTheirs),
  change: ([slot, number, ...more]) => !more.length && [0, 1].includes(slot) && isWord(number),
};

function isWord(value) {
  return Number.isInteger(value) && value >= 0 && value <= 0xffff;
}

/** Whether some bytes are a run that was saved. */
export function isSavedRun(bytes) {
  const front = `{"is":"${MARK}"`;
  return bytes.length > front.length && [...front].every((letter, i) => bytes[i] === letter.charCodeAt(0));
}

/** The text of a run: its name, its software as Machine.boot takes it, and its inputs. */
export async function savedRunText(name, software, inputs) {
  const parts = {};
  for (const part of Object.keys(PARTS)) if (software[part]) parts[part] = await packed(software[part]);
  const files = [];
  for (const file of software.files ?? []) files.push([file.name, await packed(file.bytes)]);
  if (files.length) parts.files = files;
  if (inputs.some(({ does }) => does === "change")) parts.media = await Promise.all(software.media.map(packed));
  return JSON.stringify({ is: MARK, version: VERSION, name, software: parts, inputs: listedInputs(inputs) });
}

/** Inputs as JSON has them. */
export function listedInputs(inputs) {
  return inputs.map(({ time, does, values }) => [time, does, ...values]);
}

/** The inputs that are listed; a Trouble where one is damaged. */
export function inputsOf(listed) {
  let before = 0;
  return listed.map(given => {
    const input = inputOf(given, before);
    before = input.time;
    return input;
  });
}

/** Whether something is software: parts that are bytes, of which the machine can start one. */
export function isSoftware(given) {
  const isBytes = (bytes, most) => bytes instanceof Uint8Array && bytes.length <= most;
  const isWhole = Object.entries(PARTS).every(([part, most]) => !given?.[part] || isBytes(given[part], most));
  const files = given?.files ?? [], media = given?.media ?? [];
  return isWhole && Array.isArray(media) && media.length <= MOST_MEDIA && media.every(one => isBytes(one, PARTS.a)) &&
    STARTED.some(part => given?.[part]?.length) && Array.isArray(files) &&
    files.length <= MOST_FILES &&
    files.every(({ name, bytes }) => typeof name === "string" && isBytes(bytes, MOST_UNPACKED));
}

function inputOf(given, before) {
  const [time, does, ...values] = Array.isArray(given) ? given : [];
  const isTime = Number.isFinite(time) && time >= before && time <= MOST_TIME;
  if (!isTime || !Object.hasOwn(INPUTS, does) || !INPUTS[does](values)) {
    throw new Trouble("In this run an input is damaged.");
  }
  return { time, does, values };
}

function parsed(bytes) {
  try {
    return JSON.parse(new TextDecoder().decode(bytes));
  } catch {
    throw new Trouble("This run is damaged: it is no JSON.");
  }
}

async function partOf(text, most) {
  try {
    return await throughStream(bytesOfBase64(text), new DecompressionStream("deflate-raw"), most);
  } catch {
    throw new Trouble("The software in this run is damaged.");
  }
}

async function filesOf(listed) {
  if (!Array.isArray(listed) || listed.length > MOST_FILES) throw new Trouble("This run is damaged.");
  const files = [];
  let left = MOST_UNPACKED;
  for (const given of listed) {
    const [name, text] = Array.isArray(given) ? given : [];
    if (typeof name !== "string" || typeof text !== "string") throw new Trouble("This run is damaged.");
    const bytes = await partOf(text, left);
    left -= bytes.length;
    files.push({ name, bytes });
  }
  return files;
}

/** The floppies that were put in while it ran. */
async function mediaOf(listed) {
  const isList = Array.isArray(listed) && listed.length <= MOST_MEDIA && listed.every(one => typeof one === "string");
  if (!isList) throw new Trouble("This run is damaged.");
  const media = [];
  for (const text of listed) media.push(await partOf(text, PARTS.a));
  return media;
}

/** The run of a file: { name, software, inputs }; a Trouble where it is damaged. */
export async function savedRunOf(bytes) {
  const { version, name, software, inputs } = parsed(bytes);
  if (version !== VERSION) throw new Trouble("This run is of another version of Zaklimot.");
  if (!Array.isArray(inputs) || inputs.length > MOST_INPUTS || typeof name !== "string" ||
    typeof software !== "object" || !software) throw new Trouble("This run is damaged.");
  const parts = {};
  for (const [part, most] of Object.entries(PARTS)) {
    if (typeof software[part] === "string") parts[part] = await partOf(software[part], most);
  }
  if (software.files !== undefined) parts.files = await filesOf(software.files);
  if (software.media !== undefined) parts.media = await mediaOf(software.media);
  if (!STARTED.some(part => parts[part]?.length)) throw new Trouble("This run has no software.");
  const found = inputsOf(inputs), changes = found.filter(({ does }) => does === "change");
  if (!changes.every(({ values }) => values[1] < (parts.media?.length ?? 0))) {
    throw new Trouble("In this run an input is damaged.");
  }
  return { name: name.slice(0, MOST_NAME), software: parts, inputs: found };
}
