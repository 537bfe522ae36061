// How long a search back over a million steps takes, of several kinds of scripts: a table. node
// page/tests/longsearches.mjs; in a browser the page runs `timesOfSearches` itself (see
// searchtimes.mjs).
import { DotSearch } from "../explain/dotsearch.js";
import { Search } from "../run/points.js";

/**
 * Scripts of a million steps and more, in which what is searched for changes in the first steps
 * alone.
 */
export const LONG_SCRIPTS = {
  "puts, the same byte": "version 2\nint ax=12\nput A0000 12\n" +
    "repeat 50000\nput A0000 12\nend\n".repeat(20),
  "puts of a window": "version 2\nint ax=12\nput A0000 12\n" +
    `repeat 1000\n${Array.from({ length: 1000 }, (_, i) => `put ${(0xa0001 + 8 * i).toString(
      16)} ${i & 1 ? "12" : "34"}`).join("\n")}\nend\n`,
  "registers": "version 2\nint ax=12\nput A0000 12\n" +
    "repeat 50000\noutw 3C4 0F02\noutw 3CE FF08\nout 3C8 5\nout 3C9 11\nend\n".repeat(5),
  "puts, gets and registers": "version 2\nint ax=13\nput A0000 12\n" +
    "repeat 50000\nput A0001 12\nget A0002\nout 3C8 3\nput A1234 77\nin 3DA\nend\n".repeat(4),
  "lines": "int ax=13\nput A0000 12\n" + "get A0001\nout 3CE 8\nput A0004 1\nput A0000 12\n".repeat(
    250000),
};
/** What is searched for. */
export const WATCHED = {
  "a byte": { kind: "bytes", planes: 1, from: 0, to: 0 },
  "bytes of all planes": { kind: "bytes", planes: 15, from: 0, to: 15 },
  "a register": { kind: "register", group: "crtc", index: 1, title: "" },
  "map mask": { kind: "register", group: "seq", index: 2, title: "" },
  "an entry of the DAC": { kind: "colour", index: 9 },
  "any entry": { kind: "register", group: "dac", index: null, title: "" },
};

/**
 * The milliseconds of each search in a session, from its end back; the last one is for the
 * picture's first dot. Each is the least of some rounds, which end once it is within `most`.
 */
export function timesOfSearches(session, rounds = 3, most = 0) {
  const searches = Object.entries(WATCHED).map(([name, point]) =>
    [name, () => new Search(session, [point], session.length + 1, true)]);
  searches.push(["a dot", () =>
    new DotSearch(session, { line: 0, dot: 0 }, session.length, { isDrawn: false })]);
  return Object.fromEntries(searches.map(([name, made]) => {
    let least = Infinity, steps = null;
    for (let round = 0; round < rounds && least > most; round++) {
      const begun = performance.now(), search = made();
      let told = null;
      while (!told) told = search.take(14);
      least = Math.min(least, performance.now() - begun);
      steps = told.steps ?? 0;
    }
    return [name, { time: least, steps }];
  }));
}
