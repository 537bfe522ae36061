// Steps that rebuild a state from power-on, and the cycles of a call, as lines of a script. Both are the
// adapter's (zak_rebuild, zak_cycles).
import { Card, STATUS } from "../../javascript/zaklimot.js";
import { Cycles } from "../run/call.js";
import { Trouble } from "../common/trouble.js";
import { readReport } from "../run/report.js";

/** So many bytes a report of some cycles may have. */
const REPORT = 1 << 20;
/** Where the BIOS data stand in a saved state: from here to there (docs/STATE.md). */
const BIOS_DATA = [9, 40];

/** Does something with a card that is open for as long, and answers what that answers. */
function withCard(adapter, fonts, does) {
  const card = new Card(adapter, fonts);
  try {
    return does(card);
  } finally {
    card.close();
  }
}

/** A script's steps as lines: ports have three digits, and addresses five. */
function linesOf(adapter, script) {
  return adapter.print(script).trim().split("\n").map(line => line.replace(/^((?:in|out)w?) 0(?=[0-9A-F]{3}\b)/, "$1 ")
    .replace(/^((?:put|get)w?) 000(?=[0-9A-F]{5}\b)/, "$1 "));
}

/** The bytes of the script that leads to a card's state; a Trouble tells that no such script was found. */
function rebuiltScript(card) {
  try {
    return card.rebuild().script;
  } catch (error) {
    const reason = { [STATUS.NOT_REBUILT]: "No steps from power-on are known that lead to this state.",
      [STATUS.TOO_LONG]: "The steps that rebuild this state would be too many." }[error.status];
    throw reason ? new Trouble(reason) : error;
  }
}

/** The bytes of the script that leads to a saved state. */
function scriptTo(adapter, fonts, bytes) {
  return withCard(adapter, fonts, card => {
    card.restore(bytes);
    return rebuiltScript(card);
  });
}

/** The lines of the steps from power-on to a saved state. */
export function rebuildingLines(adapter, fonts, bytes) {
  return linesOf(adapter, scriptTo(adapter, fonts, bytes));
}

/** What so many steps of a script answer on a card. */
function answersOf(card, script, count) {
  const answers = [];
  while (answers.length < count) {
    const first = answers.length, { taken, report } = card.runOn(script, { first, most: count - first, room: REPORT });
    readReport(report, first + 1, taken, (_, answer) => answers.push(answer));
  }
  return answers;
}

const isRead = line => /^(in|get)/.test(line);

/** Cycles with what they answer, if they read. */
const answered = (lines, answers) => lines.map((line, i) => ({ line, read: isRead(line) ? answers[i] : undefined }));

/**
 * The cycles that make a saved state but for its BIOS data, which no cycle leads to, from power-on:
 * { line, read }, and what each read answers.
 */
export function cyclesTo(adapter, fonts, bytes) {
  const bare = bytes.slice();
  bare.fill(0, ...BIOS_DATA);
  const script = scriptTo(adapter, fonts, bare), lines = linesOf(adapter, script);
  const answers = withCard(adapter, fonts, card => answersOf(card, script, lines.length));
  return answered(lines, answers).filter(({ line }) => !line.startsWith("advance"));
}

/** The cycles of a call, as `cyclesTo` tells them; `call` has its registers and block. None if it is refused. */
export function cyclesOfCall(before, { registers, block }) {
  const bytes = before.card.tryCycles(registers, block);
  if (!bytes) return [];
  const cycles = new Cycles(bytes), lines = Array.from(cycles.kinds, (_, entry) => cycles.wordsOf(entry));
  return answered(lines, answersOf(before.scratch, bytes, lines.length));
}
