// The contrast of the page's text with its grounds, in light and dark, from the style's own colours
// (https://www.w3.org/TR/WCAG22/#dfn-contrast-ratio), and how high what is touched on a phone is.
import assert from "node:assert/strict";
import test from "node:test";
import { TOUCHED } from "../common/rows.js";
import { pageStyle } from "./loading.mjs";

const STYLE = pageStyle();
const LEAST = 4.5, LEAST_TOUCHED = 24;
const TEXTS = ["ink", "pale", "link", "bad", "good", "refused", "step"];
const GROUNDS = ["back", "soft", "mark", "changed", "shown"];
// What is paler by opacity and is no text that must be read: controls that do nothing now, what a
// mended line makes anew, dots and hairs.
const NO_TEXT = ["button:disabled", ".number:hover::before, .number.point::before",
  ".number.point::before", ".hair", "body.stale .shows-run"];

/** The rules of a style, [selector, declarations by name]; those of `@media` and `@container` by the condition. */
function rulesOf(style, media = null) {
  const blocks = [...style.matchAll(/@(?:media|container) ([^{]*) \{\n((?:  .*\n)*)\}/g)];
  if (media !== null) return rulesOf(blocks.find(([, condition]) => condition === media)[2]);
  const plain = style.replaceAll(/\/\*.*\*\/\n|@(?:media|container) [^{]* \{\n(?:  .*\n)*\}/g, "");
  return [...plain.matchAll(/([^{}]+)\{([^}]*)\}/g)].map(([, selector, body]) =>
    [selector.trim().replaceAll(/\s+/g, " "), declarationsOf(body)]);
}

function declarationsOf(body) {
  const pairs = [...body.matchAll(/([\w-]+):\s*([^;]+);/g)];
  return Object.fromEntries(pairs.map(([, name, value]) => [name, value]));
}

/** The style's variables in light or dark. */
function variables(isDark) {
  const root = media => rulesOf(STYLE, media).filter(([selector]) => selector === ":root");
  const rules = [...root(null), ...isDark ? root("(prefers-color-scheme: dark)") : []];
  return Object.assign({}, ...rules.map(([, declarations]) => declarations));
}

/** Red, green and blue of `#rgb` or `#rrggbb`, from 0 to 255. */
function parts(colour) {
  assert.match(colour, /^#([0-9a-f]{3}){1,2}$/);
  const size = (colour.length - 1) / 3;
  const digits = colour.slice(1).match(new RegExp(`.{${size}}`, "g"));
  return digits.map(digit => parseInt(digit.repeat(3 - size), 16));
}

function luminance(colour) {
  const [red, green, blue] = colour.map(part => part / 255)
    .map(part => part <= 0.04045 ? part / 12.92 : ((part + 0.055) / 1.055) ** 2.4);
  return 0.2126 * red + 0.7152 * green + 0.0722 * blue;
}

/** How a text stands out from its ground, from 1 to 21; it may be blended with the ground. */
function contrast(text, ground, opacity = 1) {
  const behind = parts(ground);
  const front = parts(text).map((part, i) => opacity * part + (1 - opacity) * behind[i]);
  const [light, dark] = [luminance(front), luminance(behind)].sort((a, b) => b - a);
  return (light + 0.05) / (dark + 0.05);
}

/** The colour that a value of the style is, where it is one that nothing shows through. */
function colourOf(value, named) {
  const name = value?.match(/^var\(--([\w]+)\)$/)?.[1];
  return name ? named[`--${name}`] : value?.match(/^#([0-9a-f]{3}){1,2}$/)?.[0];
}

test("contrast as the guidelines have it", () => {
  assert.equal(contrast("#000", "#fff"), 21);
  assert.equal(contrast("#777777", "#ffffff").toFixed(2), "4.48");
  assert.equal(contrast("#000", "#fff", 0), 1);
});

for (const isDark of [false, true]) {
  const named = variables(isDark), scheme = isDark ? "dark" : "light";
  test(`each colour of text stands out from each ground, in ${scheme}`, () => {
    const low = [];
    for (const text of TEXTS) {
      for (const ground of GROUNDS) {
        const found = contrast(named[`--${text}`], named[`--${ground}`]);
        if (!(found >= LEAST)) low.push(`${text} on ${ground}: ${found.toFixed(2)}`);
      }
    }
    assert.deepEqual(low, []);
  });

  test(`no rule makes text paler than that, in ${scheme}`, () => {
    const low = [], rules = rulesOf(STYLE);
    for (const [selector, { color, background, opacity = "1" }] of rules) {
      if (NO_TEXT.includes(selector)) continue;
      const ground = colourOf(background, named), text = colourOf(color, named);
      if (!text && opacity === "1") continue;
      for (const behind of ground ? [ground] : GROUNDS.map(name => named[`--${name}`])) {
        if (!ground && text && !/^var/.test(color)) continue;
        const found = contrast(text ?? named["--ink"], behind, Number(opacity));
        if (!(found >= LEAST)) low.push(`${selector}: ${found.toFixed(2)} on ${behind}`);
      }
    }
    assert.deepEqual(low, []);
    for (const selector of NO_TEXT) assert.ok(rules.some(([one]) => one === selector), selector);
  });
}

test("answers to come and bits without effect have a colour of text, and differ", () => {
  const colours = Object.fromEntries(rulesOf(STYLE).map(([name, { color }]) => [name, color]));
  for (const selector of [".answer.later", ".row.later", ".bits .stored, .stored"]) {
    assert.equal(colours[selector], "var(--pale)", selector);
  }
  assert.equal(colours[".bits"], "var(--ink)");
});

test("lines, and so the marks of breakpoints, are high enough to be touched on a phone", () => {
  const rows = media => rulesOf(STYLE, media).find(([selector]) => selector === ":root")[1]["--row"];
  assert.match(rows(null), /^\d+px$/);
  assert.ok(parseInt(rows(TOUCHED)) >= LEAST_TOUCHED);
  const isLine = ([selector]) => /^\.(number|answer|row|longrow)$|^#mark$/.test(selector);
  const heights = rulesOf(STYLE).filter(isLine);
  assert.equal(heights.length, 5);
  for (const [selector, { height }] of heights) assert.equal(height, "var(--row)", selector);
});
