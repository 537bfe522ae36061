// What the package's readers tell is what a saved state tells.
import assert from "node:assert/strict";
import test from "node:test";
import { State, biosDataOf } from "../run/state.js";
import { Card } from "../../javascript/zaklimot.js";
import { partsOfSaved } from "./saved.mjs";
import { Random, stateOf } from "./randomly.mjs";
import { FONTS, loadAdapter } from "./loading.mjs";

test("what the module's readers tell is what a saved state tells, of random states", async () => {
  const card = new Card(await loadAdapter(), FONTS), random = new Random(1), first = card.save();
  for (let time = 0; time < 50; time++) {
    card.restore(
      stateOf(first, random, (group, i) => (group === "crtc" && i === 0 ? 80 : random.byte())));
    card.advance(random.below(100000));
    const state = State.of(card), { rows, ...beam } = card.beam();
    const { registers, latches, bda, beam: saved } = partsOfSaved(card.save());
    assert.deepEqual(card.registers(), registers);
    assert.deepEqual(beam, saved);
    assert.equal(rows, state.drawn.filter(dots => dots).length);
    assert.deepEqual(card.latches(), latches);
    assert.deepEqual(biosDataOf(card), bda);
    const index = random.byte(), plane = random.below(4), offset = random.below(65536);
    assert.deepEqual(Object.values(card.colour(index)), state.colour(index));
    assert.deepEqual(card.plane(plane, offset), state.plane(plane).slice(offset));
  }
  card.close();
});
