// The last step that changed something is found, whatever it is: held to the states after every
// step, of random scripts.
import assert from "node:assert/strict";
import test from "node:test";
import { DotSearch, differingHeld, dotOfSeen, partsOfDot } from "../explain/dotsearch.js";
import { MoveSearch } from "../explain/movesearch.js";
import { Search } from "../run/points.js";
import { Session } from "../run/session.js";
import { dotAhead } from "../explain/way.js";
import { heldParts, heldSource } from "../explain/holding.js";
import { LONG_SCRIPTS, WATCHED, timesOfSearches } from "./longsearches.mjs";
import { Random } from "./randomly.mjs";
import { FONTS, loadAdapter, runWhole } from "./loading.mjs";

/** A search back over a million steps takes less, in milliseconds. */
const MOST_TIME = 3000;
const adapter = await loadAdapter(), digits = (value, count) =>
  value.toString(16).padStart(count, "0");

/** Words for the graphics controller: modes, bit masks, memory maps. */
const GRAPHICS = ["0005", "0105", "0205", "0B05", "FF08", "0F08", "0006", "0406", "0C06", "0506",
  "0706"];

/** A step that writes something by chance: few places and values, so that much is written again. */
function writingStep(random) {
  const value = () => random.one(["00", "FF", "41", "0F", digits(random.byte(), 2)]);
  const address = () => digits(random.one([0xa0000, 0xb0000, 0xb8000]) + random.below(24), 5);
  const index = () => digits(random.below(25), 2);
  return random.one([() => `put ${address()} ${value()}`, () =>
    `putw ${address()} ${value()}${value()}`,
    () => `get ${address()}`, () =>
      `outw 3C4 ${random.one(["0F02", "0102", "0804", "0604", "0004"])}`,
    () => `outw 3CE ${random.one(GRAPHICS)}`,
    () => `outw 3D4 ${value()}${index()}`, () => "out 3C8 0", () => `out 3C9 ${value()}`, () =>
      `outw 3C8 ${value()}00`,
    () => "frame", () =>
      `in 3DA\nout 3C0 ${digits(random.below(21), 2)}\nout 3C0 ${value()}\nout 3C0 20`,
    () => "in 3DA", () => `out 3C0 ${index()}`, () => "out 3C0 20", () =>
      `advance ${random.below(60000)}`,
    () => `int ax=9${value()} bx=${value()} cx=${random.below(5)}`, () =>
      `int ax=1010 bx=${random.below(3)} cx=${value()}00 dx=1100`,
    () => `int ax=1000 bx=${value()}0${random.below(3)}`, () => `out 3C6 ${value()}`,
    () => `int ax=2 dx=${random.below(9)}`])();
}

function randomScript(random, count) {
  const steps = Array.from({ length: count }, () => writingStep(random)),
    third = Math.floor(count / 3);
  return ["version 2", `int ax=${random.one(["3", "d", "12", "13"])}`, ...steps.slice(0, third),
    `repeat ${1 + random.below(4)}`, ...steps.slice(third, 2 * third), "end",
      ...steps.slice(2 * third)].join("\n");
}

/** The states after each step of a session. */
function statesOf(session) {
  return Array.from({ length: session.length + 1 }, (_, steps) => {
    session.seek(steps);
    return session.state();
  });
}

function found(search) {
  let told = null;
  while (!told) told = search.take(1000);
  return told.ended ? null : told;
}

/** What a point watches, of a whole state, as a text. */
const VALUES = {
  bytes: (state, { planes, from, to }) => [0, 1, 2, 3].filter(plane => planes >> plane & 1)
    .map(plane => Buffer.from(state.plane(plane).slice(from, to + 1)).toString("latin1")).join(),
  colour: (state, { index }) => state.colour(index).join(),
  register: (state, { group, index, parts }) => (group === "dac" ? state.dac.join()
    : (parts ?? [{ group, index }]).map(part => valueOf(state.registers[part.group], part)).join()),
  bios: (state, { name, page }) => String([state.bda[name]].flat()[page]),
};

function valueOf(values, { index, mask = 255 }) {
  const list = typeof values === "number" ? [values] : values;
  return index === null ? list.join() : list[index] & mask;
}

const POINTS = [
  ...[0, 1, 5].map(offset => ({ kind: "bytes", planes: 1, from: offset, to: offset })),
  { kind: "bytes", planes: 15, from: 3, to: 3 }, { kind: "bytes", planes: 6, from: 2, to: 9 },
  { kind: "bytes", planes: 15, from: 0, to: 65535 }, { kind: "colour", index: 0 },
    { kind: "colour", index: 1 },
  { kind: "register", group: "dac", index: null }, { kind: "register", group: "seq", index: 2 },
  { kind: "register", group: "gfx", index: null }, { kind: "register", group: "attr", index: 1 },
  { kind: "register", parts: [{ group: "crtc", index: 12 },
    { group: "crtc", index: 13, mask: 0x0f }] },
  { kind: "register", parts: [{ group: "attrIndex", index: 0, mask: 0x20 }] },
  { kind: "register", parts: [{ group: "dacMask", index: 0 }] },
    { kind: "bios", name: "places", page: 0 },
];

test("the last step, and the next, that changed bytes, registers, colours or BIOS data", () => {
  const random = new Random(17);
  let changes = 0, again = 0;
  for (let time = 0; time < 20; time++) {
    const session = runWhole(new Session(adapter, FONTS, randomScript(random, 90))),
      states = statesOf(session);
    for (const point of POINTS) {
      const values = states.map(state => VALUES[point.kind](state, point));
      const wanted = [...values.keys()].filter(steps => steps &&
        values[steps] !== values[steps - 1]);
      changes += wanted.length;
      if (wanted.some((steps, i) => values[steps] === values[wanted[i - 2] ?? 0] && i > 1)) again++;
      for (const isBack of [true, false]) {
        const seen = [];
        for (let from = isBack ? session.length + 1 : 0; ;) {
          const told = found(new Search(session, [point], from, isBack));
          if (!told) break;
          seen.push(from = told.steps);
        }
        assert.deepEqual(isBack ? seen.reverse() : seen, wanted, JSON.stringify(point));
      }
    }
    session.close();
  }
  console.log(`${changes} changes, ${again} times a value that came back`);
  assert.ok(changes > 800 && again > 40);
});

/** The last step that changed a dot as it is drawn from a state on: of all states, with nothing left out. */
function lastChangeOf(states, place, at) {
  const made = dotAhead(states[at], place);
  if (!made) return null;
  const parts = steps => {
    const { card } = states[steps];
    return heldParts(card, made, heldSource(card, made), partsOfDot);
  };
  for (let steps = at; steps > 0; steps--) {
    if (differingHeld(parts(steps - 1), parts(steps)).length) return steps;
  }
  return null;
}

/** Whether a dot of a picture is drawn, and the number of steps before it was, or is to be. */
function drawingOf({ outline }, states, frames, place, steps) {
  const isIn = state => state.drawn[place.line] > place.dot;
  const isWhole = outline.nameOf(outline.entryOf(steps - 1)) === "frame", last = isWhole ? steps - 1
    : steps;
  if (!isIn(states[last])) {
    const isDrawn = isWhole && dotAhead(states[last], place)?.isThisFrame === true;
    return { isDrawn, at: isDrawn ? last : steps };
  }
  // The step that drew it: the first state of the frame in which it is drawn.
  let at = last;
  while (at > 0 && frames[at - 1] === frames[last] && isIn(states[at - 1])) at--;
  return { isDrawn: true, at: at - 1 };
}

/** A dot, and steps after which a picture is seen: half of the time one in which it is drawn. */
function randomDot(random, states) {
  const wanted = random.below(2) === 1;
  for (let trial = 0; ; trial++) {
    const place = { line: random.below(random.one([8, 400])), dot: random.below(64) };
    const steps = 1 + random.below(states.length - 1);
    const isDrawn = states[steps].drawn[place.line] > place.dot;
    if (!wanted || isDrawn || trial > 50) return { place, steps };
  }
}

/** The last step of a text that changed a dot. */
function last(text, place, isDrawn = true, Search = DotSearch) {
  const session = runWhole(new Session(adapter, FONTS, text));
  const told = found(new Search(session, place, session.length, { isDrawn }));
  session.close();
  return told?.steps ?? null;
}

test("each kind of register that shows in a dot is found changed", () => {
  const place = { line: 0, dot: 3 }, begin = "int ax=12\nput A0000 FF\nin 3DA\n";
  const wanted = { "out 3C0 32\nout 3C0 7": 5, "out 3C0 33\nout 3C0 1": 2,
    "out 3C0 34\nout 3C0 C": 5,
    "out 3C0 11\nout 3C0 3": 5, "out 3C6 0F": 4, "outw 3C4 2101": 4, "outw 3D4 010C": 1,
    "outw 3CE 0006": 4, "outw 3CE 4005": 4, "outw 3D4 0014\noutw 3D4 E317\noutw 3C4 0102": 2 };
  for (const [steps, found] of Object.entries(wanted)) {
    assert.equal(last(begin + steps, place, false), found, steps);
  }
  // Panning moves the dot.
  assert.equal(last(`${begin}out 3C0 33\nout 3C0 1`, place, false, MoveSearch), 5);
});

test("a register that moves the picture changes no dot: the search goes to what is shown", () => {
  const place = { line: 12, dot: 3 }, begin = "int ax=13\nput A0785 41\nput A0781 42\n";
  // The dot shows A0781 at first, and A0785 once the start address is 1.
  assert.equal(last(`${begin}frame\noutw 3D4 010D\nframe`, place), 2);
  assert.equal(last(`${begin}frame\nframe`, place), 3);
  // Within a frame the start address shows in the next one only.
  assert.equal(last(`${begin}advance 8000\noutw 3D4 010D\nadvance 8000`, place), 3);
  // The offset register moves lines at once, from the next row on.
  assert.equal(last("int ax=13\nput A0F01 41\nput A0781 42\noutw 3D4 1413\nframe", { line: 24, dot: 3 }), 3);
});

test("the last step that changed a dot", () => {
  const random = new Random(31);
  let dots = 0, none = 0;
  const drawn = {};
  for (let time = 0; time < 30; time++) {
    const session = runWhole(new Session(adapter, FONTS, randomScript(random, 60))),
      states = statesOf(session);
    const frames = [0];
    for (let steps = 1; steps < states.length; steps++) {
      const [old, now] = [states[steps - 1], states[steps]],
        isSame = old.beam.frame === now.beam.frame;
      frames.push(frames[steps - 1] + (isSame ? 0 : 1));
    }
    for (let i = 0; i < 6; i++) {
      const { place, steps } = randomDot(random, states);
      const { isDrawn, at } = drawingOf(session, states, frames, place, steps);
      const search = new DotSearch(session, place, steps, { isDrawn }), told = found(search);
      if (isDrawn) assert.equal(search.drawnBy, at + 1,
        `drawn: ${JSON.stringify(place)} at ${steps}`);
      const wanted = lastChangeOf(states, place, at);
      assert.equal(told?.steps ?? null, wanted,
        `${JSON.stringify(place)} at ${steps}, drawn after ${at}\n${session.outline.text}`);
      if (wanted === null) none++;
      else assert.ok(told.differing.length > 0);
      dots++;
      drawn[isDrawn] = (drawn[isDrawn] ?? 0) + 1;
    }
    session.close();
  }
  console.log(`${dots} dots, ${none} that nothing changed, drawn or not: ${JSON.stringify(drawn)}`);
  assert.ok(drawn.true > 40 && drawn.false > 40 && none < dots / 3);
});

test("what is seen of a dot: drawn by the last step, to be drawn, or by registers as they stand",
  () => {
  const session = runWhole(new Session(adapter, FONTS,
    "int ax=13\nadvance 8000\nout 3C6 0F\nadvance 8000\nframe"));
  const seenAt = steps => {
    session.seek(steps - 1);
    return session.seen(steps);
  };
  const how = (steps, line) => dotOfSeen(seenAt(steps), { line, dot: 3 })?.how;
  assert.deepEqual([how(2, 3), how(2, 12), how(4, 3), how(4, 12), how(4, 30), how(5, 3),
    how(5, 30)],
    ["drawn", "ahead", "now", "drawn", "ahead", "now", "drawn"]);
  assert.equal(dotOfSeen(seenAt(2), { line: 500, dot: 3 }), null);
  session.close();
});

test("back over a million steps within three seconds", () => {
  for (const [name, text] of Object.entries(LONG_SCRIPTS)) {
    const session = runWhole(new Session(adapter, FONTS, text)),
      times = timesOfSearches(session, 5, MOST_TIME);
    assert.ok(session.length > 1e6);
    const told = Object.entries(times).map(([what, { time }]) => `${what} ${time.toFixed(0)}`).join(
      ", ");
    console.log(`${name}, ${session.length} steps, in milliseconds: ${told}`);
    assert.equal(Object.keys(times).length, Object.keys(WATCHED).length + 1);
    for (const [what, { time, steps }] of Object.entries(times)) assert.ok(time < MOST_TIME &&
      steps < 10, `${name}, ${what}: ${time} ms to ${steps}`);
    session.close();
  }
});
