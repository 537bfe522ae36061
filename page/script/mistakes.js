// What is wrong in a text that spells no script: the adapter's own sentence (zak_explain_text). Where
// it lists the names that could stand there, and one of them is near, the page asks for that one.
import { nearest } from "./near.js";

/** Before the names that could stand at a word, by the kind of the mistake (ZAK_MISTAKE_..). */
const LISTS = { 3: "; the steps are ", 6: "; there are ", 7: "; a call has " };
const NEWLINE = 10;

/** A sentence that asks for the name that is nearest to a word, instead of listing all, if one is near. */
function withNearest(sentence, kind, word) {
  const list = LISTS[kind], at = list ? sentence.indexOf(list) : -1;
  if (at < 0) return sentence;
  const names = sentence.slice(at + list.length).split(/, | and /), near = nearest(word.toLowerCase(), names);
  return near ? `${sentence.slice(0, at)}; did you mean ${near}?` : sentence;
}

/** The bytes of a line by its number, from 1. */
function lineOf(bytes, number) {
  let at = 0;
  for (let passed = 1; passed < number; passed++) at = bytes.indexOf(NEWLINE, at) + 1;
  const end = bytes.indexOf(NEWLINE, at);
  return bytes.subarray(at, end < 0 ? bytes.length : end);
}

/**
 * What is wrong in a text, which is given as bytes: { line, at, width, reason }, the line's number
 * from 1, or 0 for the whole text, and the part of the line in letters. Null for a script.
 */
export function mistakeIn(adapter, bytes) {
  const told = adapter.explainText(bytes);
  if (!told) return null;
  const { line, start, length, kind, sentence } = told;
  if (!line) return { line, at: 0, width: 0, reason: sentence };
  const letters = new TextDecoder("utf-8", { ignoreBOM: true }), own = lineOf(bytes, line);
  const at = letters.decode(own.subarray(0, start)).length;
  const word = letters.decode(own.subarray(start, start + length));
  return { line, at, width: Math.max(1, word.length), reason: withNearest(sentence, kind, word) };
}
