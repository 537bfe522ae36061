// How the page's panes share a window, without a document; and what the storage keeps of it.
import assert from "node:assert/strict";
import test from "node:test";
import { Arrangement, SPLITTER } from "../view/arrangement.js";
import { Settings } from "../common/settings.js";

const LAPTOP = [1366, 1366, 704], WIDE = [1920, 1920, 1018], PHONE = [390, 390, 800];

/** An arrangement, arranged, and its rectangles. */
function arranged(size, kept, closed) {
  const made = new Arrangement(kept);
  return { made, ...made.arrange(...size, closed) };
}

const area = ({ width, height }) => width * height;

for (const size of [LAPTOP, WIDE, [1280, 1280, 796], [861, 861, 400], [2560, 2560, 1300]]) {
  test(`panes and splitters fill a window of ${size[0]} pixels, and none covers another`, () => {
    const { panes, splitters } = arranged(size), all = [...panes.values(), ...splitters.values()];
    assert.deepEqual([...panes.keys()].sort(), ["list", "screen", "script", "state"]);
    assert.deepEqual([...splitters.keys()].sort(), ["list", "script", "state"]);
    assert.equal(all.reduce((sum, one) => sum + area(one), 0), size[1] * size[2]);
    for (const one of all) {
      assert.ok(one.left >= 0 && one.left + one.width <= size[1], JSON.stringify(one));
      assert.ok(one.top >= 0 && one.top + one.height <= size[2], JSON.stringify(one));
    }
    for (const other of all) {
      const covers = all.filter(one => one !== other && one.left < other.left + other.width &&
        other.left < one.left + one.width && one.top < other.top + other.height &&
        other.top < one.top + one.height);
      assert.deepEqual(covers, []);
    }
  });
}

for (const closed of [{ list: 34 }, { state: 106 }, { list: 34, state: 106 }]) {
  test(`with ${Object.keys(closed).join(" and ")} closed, each has its pixels, and the others the rest`, () => {
    for (const size of [LAPTOP, WIDE]) {
      const { panes, splitters } = arranged(size, undefined, closed), all = [...panes.values(), ...splitters.values()];
      assert.equal(all.reduce((sum, one) => sum + area(one), 0), size[1] * size[2]);
      for (const [name, high] of Object.entries(closed)) {
        assert.equal(panes.get(name).height, high);
        assert.equal(splitters.has(name), false);
      }
      if (closed.state) assert.equal(panes.get("screen").left, panes.get("state").left);
    }
  });
}

test("on a phone panes are stacked, and there is no splitter", () => {
  const { made, panes, splitters } = arranged(PHONE);
  assert.equal(made.name, "stacked");
  assert.deepEqual([panes.size, splitters.size], [0, 0]);
});

test("a laptop has two columns, and a wide window three", () => {
  const laptop = arranged(LAPTOP), wide = arranged(WIDE);
  assert.deepEqual([laptop.made.name, wide.made.name], ["two", "three"]);
  assert.equal(laptop.panes.get("state").left, laptop.panes.get("screen").left);
  assert.equal(wide.panes.get("state").height, 1018);
  assert.equal(wide.panes.get("list").left, wide.panes.get("screen").left);
});

test("a splitter goes to the pointer, and both panes keep their least", () => {
  const { made } = arranged(LAPTOP);
  made.moveTo("script", 700);
  const { splitters, panes } = made.arrange(...LAPTOP);
  assert.equal(splitters.get("script").left, 697);
  assert.equal(panes.get("script").width, 697);
  assert.equal(panes.get("screen").left, 697 + SPLITTER);
  for (const [place, left] of [[-50, 250], [0, 250], [5000, 1366 - SPLITTER - 330]]) {
    made.moveTo("script", place);
    assert.equal(made.arrange(...LAPTOP).splitters.get("script").left, left);
  }
});

test("a splitter within another pane counts from where that pane begins", () => {
  const { made } = arranged(WIDE), { left } = arranged(WIDE).panes.get("screen");
  made.moveTo("state", left + 600);
  const { width } = made.arrange(...WIDE).panes.get("screen");
  assert.ok(Math.abs(width - (600 - SPLITTER / 2)) < 1, String(width));
  made.moveBy("list", -100);
  const { height } = arranged(WIDE).panes.get("screen");
  assert.equal(made.arrange(...WIDE).panes.get("screen").height, height - 100);
});

test("keys move it by pixels, and it comes back", () => {
  const { made, splitters } = arranged(LAPTOP), { top } = splitters.get("state");
  made.moveBy("state", 16);
  assert.equal(made.arrange(...LAPTOP).splitters.get("state").top, top + 16);
  for (let press = 0; press < 100; press++) {
    made.moveBy("state", 16);
    made.arrange(...LAPTOP);
  }
  const { now, max } = made.valuesOf("state");
  assert.equal(now, max);
  made.reset("state");
  assert.equal(made.arrange(...LAPTOP).splitters.get("state").top, top);
  assert.deepEqual(made.shares, {});
});

test("what assistive technology is told lies between its ends", () => {
  for (const size of [LAPTOP, WIDE]) {
    const { made, splitters } = arranged(size);
    for (const name of splitters.keys()) {
      const { now, min, max } = made.valuesOf(name);
      assert.ok(0 <= min && min <= now && now <= max && max <= 100, `${name} ${min} ${now} ${max}`);
      assert.match(made.splitterOf(name).label, /^(width|height) of the (script|picture)$/);
    }
  }
});

test("shares are kept for two columns and for three", () => {
  const { made } = arranged(LAPTOP);
  made.moveTo("script", 400);
  made.arrange(...WIDE);
  made.moveTo("script", 800);
  const kept = JSON.parse(JSON.stringify(made.shares));
  assert.deepEqual(Object.keys(kept).sort(), ["three script", "two script"]);
  assert.equal(arranged(LAPTOP, kept).splitters.get("script").left, 397);
  assert.equal(arranged(WIDE, kept).splitters.get("script").left, 797);
});

test("what was kept may be anything", () => {
  const usual = arranged(LAPTOP).splitters;
  for (const kept of [undefined, null, 7, "x", [1], { "two script": "a" }, { "two script": NaN },
    { "two script": -3 }, { "two script": 1e9 }, { other: 0.5 }]) {
    assert.deepEqual(arranged(LAPTOP, kept).splitters, usual);
  }
});

test("where there is hardly any room, nothing has less than none", () => {
  for (const size of [[900, 900, 0], [900, 900, 5], [1700, 1700, 90], [861, 300, 40]]) {
    const { panes, made } = arranged(size);
    for (const { width, height } of panes.values()) assert.ok(width >= 0 && height >= 0);
    made.moveBy("script", 10);
    made.moveBy("list", -10);
    made.arrange(...size);
  }
});

test("settings come back, and a storage that fails is none", () => {
  const values = new Map();
  const storage = { getItem: name => values.get(name) ?? null,
    setItem: (name, value) => values.set(name, value) };
  const settings = new Settings(() => storage);
  assert.equal(settings.get("scale"), undefined);
  assert.equal(settings.set("scale", 2), true);
  assert.equal(new Settings(() => storage).get("scale"), 2);
  values.set("zaklimot-look-scale", "{");
  assert.equal(settings.get("scale"), undefined);
  const none = new Settings(() => { throw new Error("forbidden"); });
  assert.deepEqual([none.get("scale"), none.set("scale", 1)], [undefined, false]);
});
