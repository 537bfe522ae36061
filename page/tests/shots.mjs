// Pictures of a page in the browser, as small PNGs: a palette, and fewer levels of a component.
import { deflateSync } from "node:zlib";
import { crcOf } from "../picture/png.js";

// So many levels a component keeps: the first that leave a palette of at most so many colours.
const LEVELS = [16, 12, 9, 7, 6], MOST_COLOURS = 256;
const SIGNATURE = Buffer.from("\x89PNG\r\n\x1a\n", "latin1");

/** In the page: where an element stands, in whole pixels. */
const PLACE = `selector => {
  const { x, y, width, height } = document.querySelector(selector).getBoundingClientRect();
  return [x, y, width, height].map(Math.round);
}`;
/** In the page: the dots of a PNG, or of a place in it, four bytes each, row by row. */
const READ = `async (png, place) => {
  const bytes = Uint8Array.from(atob(png), letter => letter.charCodeAt(0));
  const image = await createImageBitmap(new Blob([bytes]));
  const [x, y, width, height] = place ?? [0, 0, image.width, image.height];
  const canvas = Object.assign(document.createElement("canvas"), { width, height });
  const brush = canvas.getContext("2d");
  brush.drawImage(image, -x, -y);
  const { data } = brush.getImageData(0, 0, width, height), parts = [];
  for (let at = 0; at < data.length; at += 8192) {
    parts.push(String.fromCharCode(...data.subarray(at, at + 8192)));
  }
  return { width, height, dots: btoa(parts.join("")) };
}`;

function chunk(kind, given) {
  const named = Buffer.concat([Buffer.from(kind), Buffer.from(given)]);
  const whole = Buffer.alloc(named.length + 8);
  whole.writeUInt32BE(given.length, 0);
  whole.set(named, 4);
  whole.writeUInt32BE(crcOf(named), named.length + 4);
  return whole;
}

/** A byte at the nearest of so many levels. */
function levelled(byte, levels) {
  const steps = levels - 1;
  return Math.round(Math.round(byte * steps / 255) * 255 / steps);
}

/** The PNG of dots with a palette, or nothing if they have too many colours at so many levels. */
function withPalette({ width, height, dots }, levels) {
  const palette = new Map(), rows = Buffer.alloc((width + 1) * height), head = Buffer.alloc(13);
  for (let dot = 0; dot < width * height; dot++) {
    const colour = [...dots.subarray(4 * dot, 4 * dot + 3)].map(byte => levelled(byte, levels)), name = colour.join();
    if (!palette.has(name)) palette.set(name, { entry: palette.size, colour });
    rows[dot + Math.floor(dot / width) + 1] = palette.get(name).entry;
  }
  if (palette.size > MOST_COLOURS) return null;
  head.writeUInt32BE(width, 0);
  head.writeUInt32BE(height, 4);
  head.set([8, 3, 0, 0, 0], 8);
  const colours = [...palette.values()].flatMap(({ colour }) => colour);
  return Buffer.concat([SIGNATURE, chunk("IHDR", head), chunk("PLTE", colours),
    chunk("IDAT", deflateSync(rows, { level: 9 })), chunk("IEND", [])]);
}

/** A small PNG of what is seen of the page, or of an element of it. */
export async function smallShot(browser, selector) {
  // WebKit's driver draws an element alone without what lies over it, so it is cut out of the
  // whole.
  const isCut = selector && browser.hasWholePixels;
  const place = isCut ? await browser.value(`(${PLACE})("${selector}")`) : null;
  const data = await browser.screenshot(isCut ? undefined : selector);
  const words = `"${data.toString("base64")}", ${JSON.stringify(place)}`;
  const read = await browser.value(`(${READ})(${words})`);
  const seen = { ...read, dots: Buffer.from(read.dots, "base64") };
  for (const levels of LEVELS) {
    const made = withPalette(seen, levels);
    if (made) return made;
  }
  return data;
}
