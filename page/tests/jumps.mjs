// How long it takes in Chromium to go from any step to any other, drawing and all: from the
// slider's event to the end of the browser's work for the frame that shows the step.
//
// - The whole time is what a user waits.
// - The own work is that without the wait for the browser's frame, up to 16 ms. Left out is only the time in
//   which the page's thread has no task, after the step is shown in the document and before the frame.
// - The processor time is what the page's thread has computed. Other work of the machine adds least to it.
//
// node page/tests/jumps.mjs [COUNT]: so many jumps in the long script and in each example, 200 if
// not told.
import { cpus } from "node:os";
import { resolve } from "node:path";
import { fileURLToPath, pathToFileURL } from "node:url";
import { packed } from "../files/share.js";
import { Browser } from "./driving.mjs";
import { PAGE, examples } from "./loading.mjs";
import { openParts } from "./parts.mjs";

const WIDE = { width: 1280, height: 860 }, TABS = 8, SHARE_IDLE = 0.85;
/** 3,000,001 steps. */
export const LONG = "version 2\nint ax=13\n" +
  "repeat 60000\nput A0001 12\nget A0002\nout 3C8 3\nput A1234 77\nin 3DA\nend\n".repeat(10);
/** The page has run a script, and held it. */
export const IDLE = "document.getElementById('compared')?.ariaBusy === 'false' && " +
  "document.getElementById('compared').textContent.length > 0";

/** What is asked of the browser's tracing: the tasks of its threads, and the marks of a jump. */
const TRACED = ["disabled-by-default-devtools.timeline", "blink.user_timing"];
export const MARKS = ["jump begins", "step is shown", "frame begins", "frame ends"];

/** In the page: goes to each of some steps, and marks when. */
const JUMP = `async (steps, [begins, shows, draws, ends]) => {
  const slider = document.getElementById("slider"), told = document.getElementById("laststep");
  const { port1, port2 } = new MessageChannel(), seen = { childList: true, characterData: true, subtree: true };
  for (const step of steps) {
    await new Promise(done => setTimeout(done, 20));
    const shown = new Promise(done => new MutationObserver((_, observer) => {
      observer.disconnect();
      done();
    }).observe(told, seen));
    performance.mark(begins);
    slider.value = step;
    slider.dispatchEvent(new Event("input"));
    await shown;
    performance.mark(shows);
    await new Promise(requestAnimationFrame);
    performance.mark(draws);
    await new Promise(done => {
      port1.onmessage = done;
      port2.postMessage(0);
    });
    performance.mark(ends);
  }
}`;

/** How much of a stretch of time none of some tasks takes, which are in order. */
function idleTime(tasks, from, to) {
  let idle = 0, at = from;
  for (const { ts, dur } of tasks) {
    if (ts >= to) break;
    idle += Math.max(0, ts - at);
    at = Math.max(at, ts + dur);
  }
  return idle + Math.max(0, to - at);
}

/** The jumps of a trace: { whole, own, processor } of each, in milliseconds. */
export function jumpsOf(events) {
  const inOrder = [...events].sort((one, other) => one.ts - other.ts);
  const marks = inOrder.filter(({ name }) => MARKS.includes(name)), [{ pid, tid }] = marks, jumps = [];
  const tasks = inOrder.filter(one => one.name === "RunTask" && one.ph === "X" && one.pid === pid &&
    one.tid === tid);
  for (let at = 0; at < marks.length; at += MARKS.length) {
    const [begun, shown, frame, end] = marks.slice(at, at + MARKS.length), whole = end.ts - begun.ts;
    const times = { whole, own: whole - idleTime(tasks, shown.ts, frame.ts), processor: end.tts - begun.tts };
    jumps.push(Object.fromEntries(Object.entries(times).map(([name, time]) => [name, time / 1000])));
  }
  return jumps;
}

/** Numbers that look random, and are the same each time. */
function* randomSteps(length) {
  for (let seed = 7, last = 0;;) {
    seed = Math.imul(seed, 1103515245) + 12345 >>> 0;
    const step = Math.floor(length * seed / 2 ** 32) + 1;
    if (step !== last) yield last = step;
  }
}

/**
 * So many jumps in the script of a fragment, one tab after the other: a list of jumps for each tab.
 */
export async function jumpsIn(browser, page, hash, count) {
  await browser.open(pathToFileURL(resolve(page)).href + hash);
  await browser.until(IDLE);
  await openParts(browser);
  const length = await browser.value("Number(document.getElementById('slider').max)");
  const random = randomSteps(length), jumps = [];
  for (let tab = 1; tab <= TABS; tab++) {
    await browser.click(`#tab${tab}`);
    // The first makes the panel.
    const steps = Array.from({ length: Math.ceil(count / TABS) + 1 }, () => random.next().value);
    const events = await browser.traced(TRACED, () =>
      browser.value(`(${JUMP})(${JSON.stringify(steps)}, ${JSON.stringify(MARKS)})`));
    jumps.push(jumpsOf(events).slice(1));
  }
  return jumps;
}

/**
 * The average, the 95th percentile and the most of a kind of time of jumps: whole, own or
 * processor.
 */
export function figuresOf(jumps, kind) {
  const sorted = jumps.map(jump => jump[kind]).sort((one, other) => one - other), { length } = sorted;
  return { average: sorted.reduce((sum, time) => sum + time, 0) / length,
    most95: sorted[Math.floor(0.95 * (length - 1))], most: sorted.at(-1) };
}

const inWords = ({ average, most95, most }) => [average, most95, most].map(time => time.toFixed(1));

/** The figures of jumps in words. */
export function figuresText(jumps) {
  const [own, whole] = ["own", "whole"].map(kind => inWords(figuresOf(jumps, kind)));
  return `own work of ${own[0]} ms on average, 95 of 100 in ${own[1]} ms, ${own[2]} ms at most; ` +
    `with the wait for the frame ${whole.join(", ")} ms`;
}

/** Whether the processors have little to do, while this program waits. */
export async function isIdle() {
  const sums = () => cpus().reduce(([idle, all], { times }) =>
    [idle + times.idle, all + Object.values(times).reduce((sum, time) => sum + time, 0)], [0, 0]);
  const [idle, all] = sums();
  await new Promise(done => setTimeout(done, 500));
  const [idleThen, allThen] = sums();
  return (idleThen - idle) / (allThen - all) > SHARE_IDLE;
}

export async function fragmentOf(script) {
  return `#script=${await packed(new TextEncoder().encode(script))}`;
}

/**
 * A line of the table: a title, the figures of each kind of time, and the most own work with each
 * tab.
 */
function rowOf(title, jumps) {
  const kinds = ["own", "whole", "processor"].map(kind =>
    inWords(figuresOf(jumps.flat(), kind)).map(word => word.padStart(6)).join("").padEnd(21));
  const tabs = jumps.map(one => figuresOf(one, "own").most.toFixed(0).padStart(4));
  return `${title.padEnd(24)}${kinds.join("")}${tabs.join("")}`;
}

async function tellAll(count) {
  const browser = await Browser.started(), all = Array.from({ length: TABS }, () => []);
  try {
    await browser.look(WIDE);
    if (!await isIdle()) console.log("The machine has other work: look at the processor time.");
    console.log("Milliseconds: on average, 95 of 100 in, at most.");
    const heads = ["own work", "whole time", "processor time"].map(head => `  ${head}`.padEnd(21));
    console.log(`${"".padEnd(24)}${heads.join("")}  own, most of each tab`);
    const scripts = [["3,000,001 steps", await fragmentOf(LONG)],
      ...examples().map(({ name }) => [name, `#example=${name.replace(".vga", "")}`])];
    for (const [name, hash] of scripts) {
      const jumps = await jumpsIn(browser, PAGE, hash, count);
      jumps.forEach((some, tab) => all[tab].push(...some));
      console.log(rowOf(name, jumps));
    }
    console.log(rowOf(`all ${all.flat().length}`, all));
  } finally {
    await browser.stop();
  }
}

if (process.argv[1] === fileURLToPath(import.meta.url)) await tellAll(Number(process.argv[2] ?? 200));
