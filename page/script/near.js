// Which of some names is nearest to a word, as Python's difflib finds it.

/**
 * The longest part that two texts share: where it begins in each, and how long it is; the first of
 * several.
 */
function longestMatch(a, b, [aFrom, aTo, bFrom, bTo]) {
  let best = [aFrom, bFrom, 0], lengths = new Map();
  for (let i = aFrom; i < aTo; i++) {
    const longer = new Map();
    for (let j = bFrom; j < bTo; j++) {
      if (a[i] !== b[j]) continue;
      const length = (lengths.get(j - 1) ?? 0) + 1;
      longer.set(j, length);
      if (length > best[2]) best = [i - length + 1, j - length + 1, length];
    }
    lengths = longer;
  }
  return best;
}

/** How many characters the matching parts of two texts have in all. */
function matching(a, b, [aFrom, aTo, bFrom, bTo] = [0, a.length, 0, b.length]) {
  const [i, j, length] = longestMatch(a, b, [aFrom, aTo, bFrom, bTo]);
  if (!length) return 0;
  return length + matching(a, b, [aFrom, i, bFrom, j]) +
    matching(a, b, [i + length, aTo, j + length, bTo]);
}

/**
 * The name that is most like a word, if one is like it by 0.6 of all characters; the last of equals
 * by the alphabet.
 */
export function nearest(word, names) {
  let best = null, most = 0.6;
  for (const name of names) {
    if (word.length > 100) break;
    const ratio = 2 * matching(name, word) / (name.length + word.length);
    const isBetter = ratio > most || (ratio === most && (best === null || name > best));
    if (isBetter) [best, most] = [name, ratio];
  }
  return best;
}
