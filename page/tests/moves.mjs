// The two chains of a dot: what wrote the byte that it is made of, and what moved it to where it is. Held to brute
// force for random scripts that turn pages, split the screen, pan, and change the offset register within frames.
// ZAKLIMOT_SCRIPTS is the number of these scripts.
import assert from "node:assert/strict";
import test from "node:test";
import { DotSearch } from "../explain/dotsearch.js";
import { Finder } from "../explain/finder.js";
import { MoveSearch } from "../explain/movesearch.js";
import { Session } from "../run/session.js";
import { subjectOf } from "../explain/subjects.js";
import { Card } from "../../javascript/zaklimot.js";
import { Random } from "./randomly.mjs";
import { FONTS, loadAdapter, runWhole } from "./loading.mjs";

const adapter = await loadAdapter(), SCRIPTS = Number(process.env.ZAKLIMOT_SCRIPTS ?? 250);
const hex = (value, count) => value.toString(16).toUpperCase().padStart(count, "0");

function found(search) {
  let told = null;
  while (!told) told = search.take(1000);
  return told;
}

/** The steps of a chain, the last one first. */
function chain(Search, session, place) {
  const steps = [];
  let told = found(new Search(session, place, session.length, { isDrawn: true }));
  while (told.steps !== undefined) {
    steps.push(told.steps);
    told = found(new Search(session, place, told.steps - 1, { told }));
  }
  return steps;
}

const chainsOf = (lines, line, dot) => {
  const session = runWhole(new Session(adapter, FONTS, lines.join("\n"))), place = { line, dot };
  assert.equal(session.refused, 0);
  const chains = [DotSearch, MoveSearch].map(Search => chain(Search, session, place));
  session.close();
  return chains;
};

test("a page that is turned to: who wrote the byte, and who moved it here", () => {
  const turned = ["int ax=13", "outw 3C4 0604", "outw 3D4 0014", "outw 3D4 E317", "outw 3C4 0F02", "frame",
    "outw 3C4 0202", "put A4001 44", "outw 3D4 400C", "frame"];
  assert.deepEqual(chainsOf(turned, 0, 10), [[8, 1], [9, 4, 3, 1]]);
  const back = [...turned, "outw 3D4 000C", "frame", "outw 3D4 400C", "frame"];
  assert.deepEqual(chainsOf(back, 0, 10), [[8, 1], [13, 11, 9, 4, 3, 1]]);
  // What was written before the registers came to the byte that way.
  const early = ["int ax=13", "outw 3C4 0604", "outw 3C4 0202", "put A4001 44", "outw 3D4 0014", "outw 3D4 E317",
    "outw 3D4 400C", "frame"];
  assert.deepEqual(chainsOf(early, 0, 10), [[4, 1], [7, 6, 5, 1]]);
  // By the BIOS: page 1 of text, whose letter was written while page 0 was shown.
  assert.deepEqual(chainsOf(["int ax=3", "int ax=941 bx=100 cx=1", "frame", "int ax=501", "frame"], 8, 3)[1].slice(0, 2),
    [4, 1]);
});

test("registers that change within each frame: the byte's write is reached", () => {
  const lines = ["int ax=13", "put A7D05 22",
    ...[0, 1, 2].flatMap(() => ["outw 3D4 2813", "advance 80000", "outw 3D4 1413", "frame"])];
  assert.deepEqual(chainsOf(lines, 300, 10), [[2, 1], [13, 11, 9, 7, 5, 1]]);
});

test("a step in which a frame passes draws the dot anew, from where the next frame has it", () => {
  const after = dots => chainsOf(["int ax=13", "put A0000 11", "put A4000 44", "frame", "advance 4000",
    "outw 3D4 100C", `advance ${dots}`], 8, 0);
  // A frame has 359,200 dots, and line 8 begins after 6,400 of them.
  assert.deepEqual(after(500000), [[1], [6, 1]]);
  assert.deepEqual(after(361601), [[1], [6, 1]]);
  assert.deepEqual(after(361600), [[1], [1]]);
  const byte = dots => chainsOf(["int ax=13", "put A0500 11", "put A4500 44", "frame", "advance 4000",
    "outw 3D4 100C", `advance ${dots}`], 8, 0)[0][0];
  assert.deepEqual([361601, 361600].map(byte), [3, 2]);
});

/** A step that moves the picture, or writes what it shows. */
const steps = {
  turn: random => `outw 3D4 ${hex(random.one([0, 0x10, 0x20]), 2)}0C`,
  low: random => `outw 3D4 ${hex(random.below(3), 2)}0D`,
  offset: random => `outw 3D4 ${random.one(["28", "14", "32"])}13`,
  split: random => `outw 3D4 ${hex(random.one([20, 60, 255]), 2)}18`,
  overflow: random => `outw 3D4 ${random.one(["0F", "1F"])}07`,
  scan: random => `outw 3D4 ${random.one(["00", "01"])}08`,
  panning: random => `in 3DA\nout 3C0 33\nout 3C0 ${hex(2 * random.below(3), 2)}`,
  put: random => `put ${hex(0xa0000 + random.one([0, 0x4000, 320, 640]) + random.below(5), 5)} ` +
    hex(random.below(4), 2),
  colour: random => `out 3C8 ${random.below(4)}\n${`out 3C9 ${hex(random.below(3), 2)}\n`.repeat(3).trim()}`,
  time: random => `advance ${1 + random.below(random.one([2000, 60000, 900000]))}`,
  frame: () => "frame",
};

function randomScript(random) {
  const names = [...Object.keys(steps), "put", "put", "time", "turn"];
  const lines = Array.from({ length: 24 }, () => steps[random.one(names)](random));
  return ["int ax=13", ...lines, "frame"].join("\n");
}

/** A card after each number of steps, as saved bytes, with the dots that have passed until then. */
function passed(session) {
  const card = new Card(adapter, FONTS), states = [];
  let dots = 0;
  for (let count = 0; count <= session.length; count++) {
    session.seek(count);
    const bytes = session.card.save().slice();
    if (count) {
      const { outline } = session, words = outline.wordsOf(outline.entryOf(count - 1)).split(" ");
      card.restore(states.at(-1).bytes);
      dots += words[0] === "advance" ? Number(words[1]) : words[0] === "frame" ? card.clock().toFrame : 0;
    }
    states.push({ bytes, dots });
  }
  return { states, card };
}

/** Where a dot comes from that is drawn at a moment, if no step comes after a state. */
function sourceFrom(card, { bytes, dots }, moment) {
  card.restore(bytes);
  card.advance(moment - dots);
  const { isDisplay, address, dot } = card.explainDot();
  return isDisplay ? `${address} ${dot}` : "";
}

/** The last step among the first that changed what each state tells; undefined for none. */
function lastOf(states, to, valueOf) {
  for (let count = to; count > 0; count--) {
    if (valueOf(states[count]) !== valueOf(states[count - 1])) return count;
  }
  return undefined;
}

test("the byte's write and the last move of random dots, as brute force finds them", () => {
  const random = new Random(96);
  let moved = 0, written = 0, within = 0;
  for (let time = 0; time < SCRIPTS; time++) {
    const session = runWhole(new Session(adapter, FONTS, randomScript(random))), { states, card } = passed(session);
    card.restore(states[1].bytes);
    const { frameDots, lineDots, toFrame } = card.clock(), end = states.at(-1).dots;
    // The frame that the last step ends.
    const begin = toFrame + frameDots * Math.floor((end - toFrame) / frameDots - 1);
    if (begin < 0) continue;
    for (let i = 0; i < 3; i++) {
      const place = { line: random.below(random.one([4, 4, 24, 400])), dot: random.below(random.one([10, 10, 640])) };
      const moment = begin + lineDots * place.line + place.dot;
      const at = states.findLastIndex(({ dots }) => dots <= moment);
      const told = [DotSearch, MoveSearch].map(Search =>
        found(new Search(session, place, session.length, { isDrawn: true })));
      const source = state => sourceFrom(card, state, moment), [address, dot] = source(states[at]).split(" ").map(Number);
      const about = `${JSON.stringify(place)}, ${address}\n${session.outline.text}`;
      assert.equal(told[1].steps, lastOf(states, at, source), `moved: ${about}`);
      const value = ({ bytes }) => {
        card.restore(bytes);
        const byte = card.plane(dot >> 1)[address], { red, green, blue } = card.colour(byte);
        return [byte, red, green, blue].join();
      };
      const wanted = lastOf(states, at, value);
      // The call that sets the mode changes all of it.
      assert.equal(told[0].steps, wanted ?? 1, `written: ${about}`);
      if (told[1].steps > 1) moved++;
      if (told[1].steps > 1 && states[told[1].steps].dots > begin) within++;
      if (wanted > 1) written++;
    }
    card.close();
    session.close();
  }
  console.log(`${SCRIPTS} scripts: ${moved} dots that were moved, ${within} within their frame, ${written} written`);
  assert.ok(moved > SCRIPTS && within > SCRIPTS / 20 && written > SCRIPTS / 10);
});

test("both chains are told where the last change of a dot is asked for", () => {
  const session = runWhole(new Session(adapter, FONTS, ["int ax=13", "put A4000 44", "frame", "outw 3D4 100C",
    "frame"].join("\n")));
  const subject = subjectOf("dot 0 0"), picture = { isWhole: true, drawn: [] };
  let search = null, hear = null;
  const runner = { session, steps: 5, seen: { session, picture }, findBy: (given, heard) => {
    [search, hear] = [given, heard];
  } };
  const finder = new Finder(runner, { tell: () => {}, hasEarlier: () => false });
  finder.find(subject);
  hear(found(search));
  assert.equal(finder.textAt(session, 2), "This step changed dot 0 of line 0: byte 00 → 44; colour 00 00 00 → 12 09 00. " +
    "Step 4, outw 3D4 100C, moved the dot here: offset 0000 → 4000.");
  finder.find(subjectOf("move 0 0"));
  hear(found(search));
  assert.equal(finder.textAt(session, 4), "This step changed where dot 0 of line 0 comes from: offset 0000 → 4000.");
  session.close();
});
