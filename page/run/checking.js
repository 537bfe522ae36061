// The page's check of itself: each example answers as by zak_run, and as it expects.
import { Session } from "./session.js";

const SLICE_TIME = 200;

/**
 * Runs examples: { agree, differ, expected, lines }, how many agree and differ, how many answers
 * were expected, and a line of text for each example.
 */
export async function checkedExamples(adapter, fonts, examples) {
  const result = { agree: 0, differ: 0, expected: 0, lines: [] };
  for (const { name, text } of examples) {
    const session = new Session(adapter, fonts, text);
    while (session.runFor(SLICE_TIME)) await new Promise(resolve => setTimeout(resolve));
    const difference = session.compared(), isRight = !difference && !session.wrong;
    result[isRight ? "agree" : "differ"]++;
    result.expected += session.expected;
    result.lines.push(`${name}: ${session.summary()}; ${difference || "answers as by zak_run"}`);
    session.close();
  }
  return result;
}
