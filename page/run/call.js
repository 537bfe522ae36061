// A BIOS call that is stepped into: its cycles (zak_cycles) as the steps of a session of their own, which
// begins with the state before the call.
import { Card, STATUS } from "../../javascript/zaklimot.js";
import { KIND, STEP_NAMES, StepList } from "../script/steplist.js";
import { MAGIC, Operations, SIZES } from "./scout.js";
import { MOST_BYTES } from "../script/grammar.js";
import { Session } from "./session.js";
import { savedBytes } from "./state.js";
import { Trouble } from "../common/trouble.js";
import { grouped, hex, joinedBytes } from "../common/bytes.js";
import { whyRefused } from "../explain/refusals.js";

const READS = [KIND.in, KIND.get];
/** Where the BIOS data stand in a saved state: from here to there (docs/STATE.md). */
const BIOS_DATA = [9, 40];
/** A call's line of a report has fewer bytes. */
const MOST_ANSWER = 4096;

/** How many cycles a list has. */
function countOf(script) {
  let count = 0;
  for (let at = MAGIC; at < script.length; at += SIZES[script[at]]) count++;
  return count;
}

/** The cycles of a call, of which each is a step that stands in no text. */
export class Cycles extends StepList {
  hasExpected = false;
  lines = new Uint32Array(0);

  /** `script` is the list, as the bytes of a script. */
  constructor(script) {
    super();
    this.script = script;
    this.operations = new Operations(script, countOf(script));
    this.kinds = Uint8Array.from(this.operations.starts, start => script[start]);
    this.addRun(1, 0, this.kinds.length, false);
  }

  /** No cycle has a line. */
  lineOf() {
    return 0;
  }

  wordsOf(entry) {
    const { operations, kinds } = this, kind = kinds[entry];
    const step = `${STEP_NAMES[kind]} ${hex(operations.place(entry), kind <= KIND.inw ? 3 : 5)}`;
    return READS.includes(kind) ? step : `${step} ${hex(operations.value(entry), 2)}`;
  }

  expectedOf() {
    return null;
  }

  /** The bytes of a script of entries that stand one after the other. */
  bytesOf(from, count) {
    const { script, operations: { starts } } = this;
    const to = starts[from + count] ?? script.length;
    return joinedBytes([script.subarray(0, MAGIC), script.subarray(starts[from], to)]);
  }
}

/** Whether two parts of saved states are the same. */
const isSame = (one, other, from, to) => one.length === other.length &&
  one.subarray(from, to).every((byte, i) => byte === other[from + i]);

/** The session of a call's cycles. */
export class CallSession extends Session {
  noun = "cycle";
  isCall = true;

  /**
   * `outer` is the session of the call. `call` is { step, words, script, before, after }: the number of
   * its step from 1, its words, its cycles, and the saved states before it and after it.
   */
  constructor(outer, call) {
    super(outer.adapter, outer.fonts, "", { outline: new Cycles(call.script), script: call.script },
      call.before);
    this.call = call;
  }

  /** Whether the cycles, once all are taken, leave what the call leaves: all but the BIOS data. */
  get isTrue() {
    const { call: { after } } = this, left = savedBytes(this.ahead), [from, to] = BIOS_DATA;
    return isSame(left, after, 0, from) && isSame(left, after, to, after.length);
  }

  /** Whether the call changes BIOS data. */
  get changesBios() {
    const { before, after } = this.call;
    return !before.subarray(...BIOS_DATA).every((byte, i) => byte === after[BIOS_DATA[0] + i]);
  }
}

/** Whether a step of a session, from 1, is a call of the video BIOS. */
export function isCallAt({ outline, length }, step) {
  return step >= 1 && step <= length && outline.kinds[outline.entryOf(step - 1)] === KIND.int;
}

/** Why a call has no cycles that could be shown; an empty text where it has some. */
function whyNone(cycles, status, session, step, before) {
  const name = `Step ${grouped(step)}`;
  if (status === STATUS.TOO_LONG) {
    return `${name} makes too many cycles: the list of them may have ${grouped(MOST_BYTES)} bytes, which ` +
      "are about 2,800,000 cycles.";
  }
  if (status) {
    return `${name} is refused, so it makes no cycle. ${whyRefused(session, step - 1, before)?.text ?? ""}`;
  }
  return cycles.length > MAGIC ? "" : `${name} makes no cycle: it takes and changes BIOS data alone.`;
}

/**
 * Opens the call that a step of a session, from 1, makes; `before` is the state before it. A Trouble
 * tells why there is nothing to see.
 */
export function openCall(session, step, before) {
  if (!isCallAt(session, step)) throw new Trouble(`Step ${grouped(step)} is no BIOS call.`);
  const { outline, adapter, fonts } = session, entry = outline.entryOf(step - 1);
  const words = outline.wordsOf(entry), bytes = session.pieces.bytes(entry, 1, 1);
  const card = new Card(adapter, fonts);
  try {
    card.restore(before.bytes);
    const { registers, block } = new Operations(bytes, 1).call(0), cycles = card.tryCycles(registers, block);
    const why = whyNone(cycles, card.status, session, step, before);
    if (why) throw new Trouble(why);
    card.runOn(bytes, { most: 1, room: MOST_ANSWER });
    return new CallSession(session, { step, words, script: cycles, before: before.bytes,
      after: savedBytes(card) });
  } finally {
    card.close();
  }
}
