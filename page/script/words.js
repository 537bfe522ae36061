/** The words of a line before its comment: { at, text }. */
export function wordsIn(line) {
  return Array.from(line.split(";", 1)[0].matchAll(/[^ \t\r]+/g),
    found => ({ at: found.index, text: found[0] }));
}
