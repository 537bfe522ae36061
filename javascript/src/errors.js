// The errors of calls. What a status means, the module itself says (zak_status_text).
import { STATUS } from "./statuses.js";

/** A call failed. The card is unchanged, unless the call says otherwise. */
export class ZaklimotError extends Error {
  /** `told` is { status, statusName, sentence, place }. */
  constructor(told) {
    super(told.message ?? told.sentence);
    this.name = this.constructor.name;
    /** The status that the call answers, one of `STATUS`. */
    this.status = told.status;
    /** The status by its name in include/zaklimot.h, as ZAK_NO_MODE. */
    this.statusName = told.statusName;
    /** What the status means. */
    this.sentence = told.sentence;
  }
}

/** The adapter refuses the call, and nothing changes. */
export class Refusal extends ZaklimotError {
  /** N of the refusal `EN` in a report. */
  get number() {
    return this.status;
  }
}

/** A script, or its text, has a fault. */
export class ScriptError extends ZaklimotError {
  constructor(told) {
    super(told);
    /** The number of the bad line from 1, or the offset of the bad step; null where there is none. */
    this.place = told.place ?? null;
  }
}

/** The bytes can't be restored, and the card is unchanged. */
export class StateError extends ZaklimotError {}

/** The card is closed. */
export class Closed extends ZaklimotError {}

/** The module has no memory left for the call. */
export class OutOfMemory extends ZaklimotError {}

/** What the place of a fault counts; other faults have no place. */
const COUNTED = { [STATUS.BAD_LINE]: "line", [STATUS.BAD_STEP]: "offset", [STATUS.TRUNCATED]: "offset",
  [STATUS.TOO_MANY]: "offset" };

function kindOf(status) {
  if (status >= STATUS.NOT_DECODED && status <= STATUS.BAD_HEIGHT) return Refusal;
  if (status >= STATUS.BAD_MAGIC && status <= STATUS.TOO_MANY) return ScriptError;
  if (status >= STATUS.STATE_MAGIC && status <= STATUS.STATE_CHECKSUM) return StateError;
  if (status === STATUS.NO_CARD) return Closed;
  return status === STATUS.OUT_OF_MEMORY ? OutOfMemory : ZaklimotError;
}

/** The error of a status, of which `text` is what the module says: "ZAK_NO_MODE: No mode is set yet.". */
export function errorOf(status, text, place = null) {
  const [statusName, ...rest] = text.split(": "), sentence = rest.join(": ");
  const counted = place === null ? undefined : COUNTED[status];
  const message = counted ? `${counted} ${place}: ${sentence}` : sentence;
  return new (kindOf(status))({ status, statusName, sentence, message, place: counted ? place : null });
}

/** Holds a number to 0 to `most`: no other is ever cut. */
export function inRange(name, value, most, least = 0) {
  if (typeof value !== "number") throw new TypeError(`${name} is to be a number, not ${typeOf(value)}`);
  if (!Number.isInteger(value) || value < least || value > most) {
    throw new RangeError(`${name} is ${value}, and ${least} to ${most} are its numbers`);
  }
  return value;
}

function typeOf(value) {
  return value === null ? "null" : Array.isArray(value) ? "an array" : typeof value;
}

/** Holds bytes to an array of bytes whose buffer is there. */
export function bytesOf(name, value) {
  const isBytes = value instanceof Uint8Array || value instanceof Uint8ClampedArray;
  if (!isBytes) throw new TypeError(`${name} are to be a Uint8Array, not ${typeOf(value)}`);
  // An array whose buffer went elsewhere has no bytes, and of such a buffer none can be made.
  if (!value.length) new Uint8Array(value.buffer);
  return value;
}
