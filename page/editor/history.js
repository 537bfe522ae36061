// The changes of the script's text, which are undone one by one: what was typed and what was
// loaded.

/** The changes that are kept have so many characters at most, removed and added. */
const MOST_CHANGED = 1 << 26;
const NEWLINE = 10;

/**
 * How a text became another: { from, removed, added }. The caret stands at the end of what was
 * added, which tells where a line was inserted among others like it.
 */
export function changeBetween(old, now, caret = now.length) {
  const shorter = Math.min(old.length, now.length);
  const isSameEnd = after =>
    old.charCodeAt(old.length - 1 - after) === now.charCodeAt(now.length - 1 - after);
  let after = 0, from = 0;
  while (after < Math.min(shorter, now.length - caret) && isSameEnd(after)) after++;
  while (from < shorter - after && old.charCodeAt(from) === now.charCodeAt(from)) from++;
  while (after < shorter - from && isSameEnd(after)) after++;
  const [removed, added] = [old, now].map(text => text.slice(from, text.length - after));
  return { from, removed, added };
}

/**
 * A text without a change that has made it what it is now: { length, text }. `now` has both too.
 */
export class OldText {
  #now;
  #change;

  constructor(now, change) {
    this.length = now.length - change.added.length + change.removed.length;
    this.#change = change;
    this.#now = now;
  }

  get text() {
    return changedBack(this.#now.text, this.#change);
  }
}

function changedBack(text, { from, removed, added }) {
  return text.slice(0, from) + removed + text.slice(from + added.length);
}

/**
 * Several changes that were made one after the other as one change; `now` is the text since then.
 */
export function changeOfAll(changes, now) {
  if (changes.length === 1) return changes[0];
  const old = changes.reduceRight((text, change) => changedBack(text, change), now.text);
  return changeBetween(old, now.text);
}

/** Whether a change leaves less than half of a text, so that another script stands there. */
export function isNewText(old, { removed }) {
  return 2 * removed.length > old.length;
}

/** How many lines end in a part of a text. */
function lineEnds(text, from = 0, to = text.length) {
  let count = 0;
  for (let at = from; at < to; at++) if (text.charCodeAt(at) === NEWLINE) count++;
  return count;
}

/**
 * The numbers that lines of a text have after a change of it, by their numbers; of a line that is
 * gone, none. A line goes where its first word goes.
 */
export function linesAfter(old, { from, removed, added }) {
  const to = from + removed.length, more = lineEnds(added) - lineEnds(removed);
  const first = lineEnds(old, 0, from) + 1, numbers = new Map();
  return line => {
    if (line < first) return line;
    if (!numbers.has(line)) numbers.set(line, moved(line));
    return numbers.get(line);
  };

  function moved(line) {
    let begin = 0;
    for (let number = 1; number < line; number++) {
      begin = old.indexOf("\n", begin) + 1;
      if (!begin) return line;
    }
    const word = begin + old.slice(begin).match(/^[ \t]*/)[0].length, end = old.indexOf("\n", word);
    if (word < from) return line;
    if (word >= to) return line + more;
    return end >= 0 && to > end ? null : first + lineEnds(added);
  }
}

/** Whether a change goes on with the one before it, as the letters of a word do. */
function goesOn(last, next) {
  if (!last || last.isWhole || next.isWhole) return false;
  const scripts = [last, next].flatMap(({ before, after }) => [before.script, after.script]);
  if (new Set(scripts).size > 1) return false;
  const isLetter = next.added.length === 1 && !next.removed && !/\s/.test(next.added);
  if (isLetter) return /\S$/.test(last.added) && next.from === last.from + last.added.length;
  const isBack = next.removed.length === 1 && !next.added && !/\s/.test(next.removed);
  return isBack && !last.added && next.from + 1 === last.from;
}

/**
 * The changes so far, and those that were undone. A change is { from, removed, added, before,
 * after, isWhole }: `before` and `after` are { script }, which script the text was, and `isWhole`
 * tells that another one was loaded.
 */
export class History {
  constructor(most = MOST_CHANGED) {
    Object.assign(this, { most, done: [], undone: [], size: 0 });
  }

  note(change) {
    for (const gone of this.undone.splice(0)) this.size -= sizeOf(gone);
    const last = this.done.at(-1);
    if (goesOn(last, change)) {
      if (change.added) last.added += change.added;
      else Object.assign(last, { from: change.from, removed: change.removed + last.removed });
      this.size += 1;
      return;
    }
    this.done.push(change);
    this.size += sizeOf(change);
    while (this.size > this.most && this.done.length > 1) this.size -= sizeOf(this.done.shift());
  }

  /** The change that is to be undone, turned round; null where there is none. */
  undo() {
    const change = this.done.pop();
    if (!change) return null;
    this.undone.push(change);
    const { from, removed, added, before, after, isWhole } = change;
    return { from, removed: added, added: removed, before: after, after: before, isWhole };
  }

  /** The change that is to be done again; null where there is none. */
  redo() {
    const change = this.undone.pop();
    if (!change) return null;
    this.done.push(change);
    return change;
  }
}

function sizeOf({ removed, added }) {
  return removed.length + added.length;
}
