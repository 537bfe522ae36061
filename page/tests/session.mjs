// A session gives each step's answer as zak_run does, and gets to any step's state, forward and
// back.
import assert from "node:assert/strict";
import test from "node:test";
import { Adapter } from "../run/adapter.js";
import { Answers } from "../run/answers.js";
import { Session, judgedText } from "../run/session.js";
import { FONTS, examples, loadAdapter, moduleBytes, runWhole, withMemory } from "./loading.mjs";

const adapter = await loadAdapter();

function sessionOf(text) {
  return runWhole(new Session(adapter, FONTS, text));
}

/** The state after so many steps, by steps from power-on and nothing else. */
function stateFromPowerOn(session, steps) {
  session.restore(session.checkpoints.before(0));
  while (session.at < steps) session.advance(steps - session.at);
  return session.card.save();
}

for (const { name, text } of examples()) {
  test(`${name} answers as by zak_run, and as it expects`, () => {
    const session = sessionOf(text);
    assert.equal(session.compared(), "");
    assert.equal(session.whyNotCompared, null);
    assert.equal(session.wrong, 0);
    session.close();
  });
}

test("an answer that differs from that of zak_run is found, and a picture too", () => {
  const session = sessionOf("int ax=3\nframe\nin 3CC\n");
  assert.equal(session.compared(), "");
  session.sums[0]++;
  assert.equal(session.compared(), "step 2 answers otherwise");
  session.sums[0]--;
  session.answers.texts[session.answers.numbers[2]] = "68";
  assert.equal(session.compared(), "step 3 answers otherwise");
  session.close();
});

test("the length of the whole report is known without it", () => {
  const block = "version 2\nint ax=3\nrepeat 999\nin 3CC\nshow bda\nend\nframe";
  for (const text of ["", "in 3CC\n".repeat(12345), block]) {
    const session = sessionOf(text), report = adapter.run(session.script, { fonts: FONTS });
    assert.equal(session.reported, report.length);
    assert.equal(session.comparable.reported, report.length);
    assert.equal(session.compared(), "");
    session.comparable.reported++;
    assert.match(session.compared(), /^its report has [\d,]+ bytes, and this run's [\d,]+$/);
    session.close();
  }
});

test("answers that are cut off are compared all the same", () => {
  const session = new Session(adapter, FONTS, "int ax=3\nshow regs\nint ax=F00\nint ax=3\nshow beam\n");
  session.answers = new Answers(20);
  runWhole(session);
  assert.ok(session.answers.cut.size > 0);
  assert.equal(session.compared(), "");
  session.sums[1]++;
  assert.match(session.compared(), /^step \d answers otherwise$/);
  session.close();
});

test("a text of the first steps has these steps", () => {
  const text = "version 2\nint ax=3\nrepeat 3\nin 3CC ; = 67\nget 0\nframe\nend\n" +
    "out 3C4 2\nrepeat 2\nin 3DA\nend";
  const { outline } = judgedText(adapter, text);
  const words = one => Array.from({ length: one.length }, (_, step) => one.wordsOf(one.entryOf(step)));
  for (let steps = 0; steps <= outline.length; steps++) {
    const found = judgedText(adapter, outline.firstSteps(steps)).outline;
    assert.deepEqual(words(found), words(outline).slice(0, steps));
  }
});

test("where the whole report is too long, the first steps are compared", () => {
  const text = "version 2\nint ax=3\nrepeat 40\nframe ; = picture 720x400\nin 3CC\nend\nput B8000 41\n";
  for (const [frames, steps] of [[10, 19], [39, 77]]) {
    const session = new Session(adapter, FONTS, text);
    session.mostCompared = 864040 * (frames - 0.5);
    runWhole(session);
    assert.equal(session.comparable.steps, steps);
    const { steps: compared, script } = session.whole;
    assert.equal(judgedText(adapter, session.outline.firstSteps(compared)).outline.length, compared);
    assert.notDeepEqual(script, session.script);
    assert.equal(session.compared(), "");
    session.sums[frames - 3]++;
    assert.match(session.compared(), /^step \d+ answers otherwise$/);
    session.close();
  }
});

test("a step's state is the same by whichever way one comes there", () => {
  const text = "version 2\nint ax=3\nrepeat 300\nint ax=E41\nout 3C8 1\nadvance 12345\n" +
    "frame\nin 3DA\nend\nint ax=13\nadvance 99";
  const session = sessionOf(text), { length } = session;
  assert.equal(length, 1503);
  assert.ok(session.checkpoints.length > 3);
  for (const steps of [length, 1, 750, 749, 751, 0, 1502, 1499, 3, 4, 1000]) {
    assert.ok(session.seek(steps));
    const found = session.card.save();
    assert.deepEqual(found, stateFromPowerOn(session, steps), `after step ${steps}`);
  }
  session.close();
});

test("what is seen of a step leaves the card after it", () => {
  const session = sessionOf("int ax=3\nadvance 200000\nint ax=E41\nframe");
  for (const steps of [0, 1, 2, 3, 4, 3]) {
    session.seek(Math.max(0, steps - 1));
    const seen = session.seen(steps);
    assert.equal(session.at, steps);
    assert.deepEqual(session.card.save(), stateFromPowerOn(session, steps));
    assert.equal(seen.picture.isWhole, steps === 4);
    if (steps === 4) assert.deepEqual([seen.picture.width, seen.picture.height], [720, 400]);
    if (steps === 3) assert.equal(seen.picture.drawn.reduce((sum, dots) => sum + dots, 0) > 100000, true);
  }
  session.close();
});

test("a step is seen as it is from power-on, wherever the card was before", () => {
  const text = "int ax=3\nadvance 200000\nint ax=E41\nput B8000 1\nadvance 100\nint ax=E42\n";
  const [session, other] = [text, text].map(sessionOf);
  for (const steps of [6, 2, 3, 5, 4, 1, 6, 0, 5]) {
    session.seek(Math.max(0, steps - 1));
    const { after, picture } = session.seen(steps), wanted = stateFromPowerOn(other, steps);
    assert.deepEqual(after.bytes, wanted, `step ${steps}`);
    assert.deepEqual(picture, other.pictureSoFar(other.state()), `step ${steps}`);
  }
  for (const one of [session, other]) one.close();
});

/** A way to a state takes less, in milliseconds. */
const MOST_WAY = 25;

/**
 * How long it takes to see a step from elsewhere: the least of some times, since others work too.
 */
function quickest(session, step) {
  let least = Infinity;
  for (let time = 0; time < 3 || (time < 10 && least >= MOST_WAY); time++) {
    session.seek(step < session.length / 2 ? session.length : 0);
    session.near.clear();
    const begun = performance.now();
    session.seek(step);
    session.seen(step + 1);
    least = Math.min(least, performance.now() - begun);
  }
  return least;
}

test("long scripts: any step of three million within 25 milliseconds, back as quick as forward", () => {
  const shapes = {
    "in blocks": "version 2\nint ax=13\n" +
      "repeat 60000\nput A0001 12\nget A0002\nout 3C8 3\nput A1234 77\nin 3DA\nend\n".repeat(10),
    "in lines": "int ax=13\n" + "get A0001\nin 3CC\nput A0000 1\n".repeat(400000),
    "with dots": "version 2\nint ax=3\n" +
      "repeat 60000\nput B8000 41\nadvance 33\nin 3DA\nend\n".repeat(7),
  };
  for (const [shape, text] of Object.entries(shapes)) {
    let times = [Infinity];
    // A machine may become slower behind the run, by whose time checkpoints stand apart: then it
    // runs again.
    for (let run = 0; run < 3 && Math.max(...times) >= MOST_WAY; run++) {
      const session = sessionOf(text);
      assert.ok(session.length >= 1200001, shape);
      times = [0.5, 0.999, 0.001, 0.3, 0.7, 0.2].flatMap(part =>
        [0, 1, 2].map(back => quickest(session, Math.floor(session.length * part) - back)));
      console.log(`${shape}: ${session.length} steps in ${session.time.toFixed(0)} ms, ` +
        `${session.checkpoints.length} states; to a step ${Math.max(...times).toFixed(1)} ms at most`);
      session.close();
    }
    assert.ok(Math.max(...times) < MOST_WAY, `${shape}: ${times.map(time => time.toFixed(1))}`);
  }
});

test("on a longer way there are checkpoints near the step that was asked for", () => {
  const session = new Session(adapter, FONTS, "version 2\nint ax=3\nrepeat 900\nint ax=E41\nframe\nend\n");
  session.checkpoints.most = 1 << 18;
  runWhole(session);
  const { spacing, checkpoints } = session;
  assert.ok(spacing > 100 && checkpoints.length <= 4, `${spacing} ms, ${checkpoints.length} checkpoints`);
  // The way is a whole one, from a checkpoint to the next; the one behind the last may be short.
  const steps = checkpoints.before(session.length).at - 1, far = checkpoints.before(steps).at;
  assert.ok(session.seek(steps));
  const near = session.checkpointBefore(steps - 1).at;
  assert.ok(near > far && steps - near < (steps - far) / 2, `${steps} from ${near}, not ${far}`);
  for (const back of [1, 2, 9, 60]) {
    assert.ok(session.seek(steps - back));
    const found = session.card.save();
    assert.deepEqual(found, stateFromPowerOn(session, steps - back), `${back} back`);
  }
  session.close();
});

test("bad lines are told with their line and reason", () => {
  for (const [text, line, reason] of [
    ["frame\nout 0x3C4 02", 2, "numbers are hexadecimal digits alone: write 3C4"],
    ["version 2\nrepeat 2\nframe", 2, "the repeat has no end"],
    ["\ufeffframe", 1, "the text begins with a byte order mark: save the text as UTF-8 without it"],
  ]) {
    assert.throws(() => judgedText(adapter, text), { line, message: reason });
  }
});

test("a step belongs to its line, in blocks each time", () => {
  const { outline } = judgedText(adapter,
    "version 2 ; x\n\nint ax=3 ; = *\nrepeat 3\n; c\nframe\n IN 3da ;= 5\nend\nrepeat 2\nend\nget 0");
  assert.equal(outline.length, 8);
  const lines = Array.from({ length: 8 }, (_, step) => outline.lineOf(outline.entryOf(step)));
  assert.deepEqual(lines, [3, 6, 7, 6, 7, 6, 7, 11]);
  assert.deepEqual([0, 1, 2, 3].map(entry => outline.expectedOf(entry)), ["*", null, "5", null]);
  assert.equal(outline.wordsOf(2), "IN 3da");
  assert.equal(outline.stepOfEntry(1, 2), 3);
  assert.equal(outline.stepOfEntry(1, 6), -1);
  assert.equal(outline.entryAtLine(4), 1);
});

test("texts of 16 MiB of any kind are judged", () => {
  const most = 1 << 24, begun = performance.now(), reasonOf = text => {
    try {
      return `${judgedText(adapter, text).outline.length} steps`;
    } catch (trouble) {
      return `${trouble.line}: ${trouble.message}`;
    }
  };
  assert.equal(reasonOf("\n".repeat(most)), "0 steps");
  assert.equal(reasonOf(";".repeat(most)), "0 steps");
  assert.equal(reasonOf("frame ; " + "x".repeat(most - 8)), "1 steps");
  assert.match(reasonOf("a".repeat(most)), /^1: there is no step 'a{22}\.\.'/);
  assert.equal(reasonOf("version 2\nrepeat 2\n" + "\n".repeat(most - 20)), "2: the repeat has no end");
  assert.equal(reasonOf("frame\n".repeat(2796000) + "end"),
    "2796001: repeats are of version 2: write version 2 before every other line");
  assert.equal(reasonOf("x".repeat(most + 1)), "0: The text has more than 16,777,216 bytes.");
  assert.match(reasonOf("version 2\nrepeat 65535\n" + "frame\n".repeat(300) + "end"),
    /^2: with this repeat the script means more/);
  assert.ok(performance.now() - begun < 60000);
});

test("where the module has no memory, it is told", async () => {
  const small = await Adapter.of(withMemory(moduleBytes(), 300));
  assert.throws(() => new Session(small, FONTS, "frame"), /no memory left/);
  assert.throws(() => judgedText(small, "frame\n".repeat(2700000)), /no memory left/);
  assert.equal(judgedText(small, "frame").outline.length, 1);
});

test("a picture's answer is shown by its size, and any other as it is", async () => {
  const session = runWhole(new Session(await loadAdapter(), FONTS, "int ax=3\nframe\nin 3DA\nint ax=13\nframe\n"));
  assert.deepEqual([0, 1, 2, 3, 4].map(step => session.answerOf(step)),
    ["ax=0003 bx=0000 cx=0000 dx=0000", "picture 720x400", "00", "ax=0013 bx=0000 cx=0000 dx=0000",
      "picture 640x400"]);
  assert.equal(session.answers.get(1), "picture 864014");
});
