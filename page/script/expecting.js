// Answers that a script expects, held against those that came (tools/README.md, "An expected
// answer"). python/zaklimot/commands/report/expecting.py has the same rules; page/tests/expecting.mjs
// holds both to the same verdicts.
import { CALL_REGISTERS, READING } from "./grammar.js";
import { bytesOfCodes } from "../common/bytes.js";
import { md5 } from "../files/md5.js";

const REFUSAL = /^(E[1-9][0-9]?) [A-Za-z]+$/;

/** Whether an answer is a refusal. What a step reads has no blank, so E1 that was read is none. */
export function isRefusal(answer) {
  return REFUSAL.test(answer);
}

/**
 * The answer that a comment expects: what stands behind `=`, up to another `;`. Null where it
 * expects none.
 */
export function expectedIn(comment) {
  const text = comment.trim();
  if (!text.startsWith("=")) return null;
  return text.slice(1).split(";", 1)[0].split(/\s+/).filter(word => word).join(" ");
}

/**
 * An answer on one line. A picture is { size: "720x400", digest() }, a dump of several lines is
 * told by their digest.
 */
export function answerText(answer, picture) {
  if (picture) return `picture ${picture.size} ${picture.digest()}`;
  const lines = answer.split("\n");
  return lines.length > 1 ? `${lines.length} lines ${md5(bytesOfCodes(answer + "\n"))}` : answer;
}

/** Whether a step of this name answers what is expected of it. */
export function isAsExpected(answer, picture, expected, name) {
  const wanted = expected.toLowerCase();
  if (wanted === "*") return true;
  if (picture && wanted === `picture ${picture.size}`) return true;
  const text = answerText(answer, picture).toLowerCase();
  if (wanted === text) return true;
  if (wanted.endsWith("...") && text.startsWith(wanted.slice(0, -3))) return true;
  const refusal = answer.match(REFUSAL);
  if (refusal && !READING.includes(name)) return wanted === refusal[1].toLowerCase();
  if (picture) return false;
  const parts = wanted.split(" "), given = text.split(" ");
  return parts.every(part => part.includes("=") && given.includes(part));
}

/** The registers that a call hands in, as an answer tells them. */
function handedIn(words) {
  const pairs = words.toLowerCase().split(" ").filter(word => word.includes("="))
    .map(word => word.split("="));
  const given = new Map(pairs);
  return CALL_REGISTERS.map(name => `${name}=${(given.get(name) ?? "").padStart(4, "0")}`);
}

/**
 * Whether an answer tells nothing that the step's words don't: ok, or the registers that were
 * handed in.
 */
export function isPlainAnswer(answer, words) {
  return answer === "ok" || answer.toLowerCase() === handedIn(words).join(" ");
}

/**
 * An answer for a narrow column: of a call, the registers alone that differ from those handed in, and so nothing
 * of one that hands back AX to DX as they were given.
 */
export function shortAnswer(answer, words) {
  if (!answer.startsWith("ax=")) return answer;
  const given = handedIn(words);
  const others = answer.split(" ").filter(word => !given.includes(word.toLowerCase()));
  return others.join(" ");
}
