// The table of keys, which the help shows.
import assert from "node:assert/strict";
import test from "node:test";
import { KEYS } from "../view/keys.js";

test("no key means two things", () => {
  const all = KEYS.flatMap(([, , names, control]) => names.map(name => [name, control]));
  const twice = all.filter(([name], i) => all.findIndex(([other]) => other === name) !== i);
  assert.deepEqual(twice, []);
  assert.ok(all.length > 40);
});
