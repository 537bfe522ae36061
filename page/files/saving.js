// What is saved: text, bytes, report, the picture, and all pictures as one that moves.
import { Card } from "../../javascript/zaklimot.js";
import { Trouble } from "../common/trouble.js";
import { apngOf, packedRows, padded, pngOf } from "../picture/png.js";
import { element } from "../common/dom.js";
import { frameSeconds } from "../run/speed.js";
import { readReport } from "../run/report.js";

const MOST_FRAMES = 2000, MOST_PACKED = 1 << 28, MOST_SAVED = 1 << 28;

/** Hands a file to the browser to be saved. */
export function saveFile(name, bytes, kind) {
  const address = URL.createObjectURL(new Blob([bytes], { type: kind }));
  element("a", { href: address, download: name }).click();
  setTimeout(() => URL.revokeObjectURL(address), 60000);
}

/** The report of a run, as `vga` writes it. */
export function reportOf(session) {
  if (session.reported > MOST_SAVED) {
    throw new Trouble("The report has more than 256 MiB: run the script by `vga go`.");
  }
  return session.adapter.run(session.script, { fonts: session.fonts, room: session.reported });
}

/**
 * The picture that is seen, as { width, height, rgb }; a Trouble where its lines differ in width.
 */
export function wholePicture({ picture }) {
  if (picture.isWhole) return picture;
  const widths = picture.widths.filter(width => width > 0);
  if (!widths.length) throw new Trouble("The frame has no dot.");
  if (widths.some(width => width !== widths[0])) {
    throw new Trouble("Lines of this frame differ in width, so it has no picture.");
  }
  return { width: widths[0], height: widths.length, rgb: picture.rgb };
}

/** The picture that is seen, as the bytes of a PNG. */
export function pngOfSeen(seen) {
  return pngOf(wholePicture(seen));
}

/**
 * All pictures of a run as a PNG that moves. `done` is called with how many steps are done; it
 * answers false to end.
 */
export async function apngOfRun(session, done) {
  const card = new Card(session.adapter, session.fonts), frames = [];
  let size = 0, first = null, widest = 0, highest = 0;
  try {
    for (let step = 0; step < session.length;) {
      const pictures = [];
      const { taken, first: number, report } = session.pieces.runOn(card, step, session.length, 8);
      readReport(report, number, taken, (_, answer, picture) => picture &&
        pictures.push({ width: picture.width, height: picture.height, rgb: picture.rgb.slice() }));
      for (const picture of pictures) {
        first ??= picture;
        widest = Math.max(widest, picture.width);
        highest = Math.max(highest, picture.height);
        const packed = await packedRows(picture);
        size += packed.length;
        frames.push({ width: picture.width, height: picture.height, packed,
          seconds: frameSeconds(card) });
      }
      if (frames.length > MOST_FRAMES || size > MOST_PACKED) {
        throw new Trouble(`There are more pictures than ${MOST_FRAMES}, or than fit.`);
      }
      step += taken;
      if (await done(step) === false) return null;
    }
  } finally {
    card.close();
  }
  if (!frames.length) throw new Trouble("The script has no `frame` that answers a picture.");
  const whole = padded(first, widest, highest);
  if (widest > first.width || highest > first.height) {
    Object.assign(frames[0], { width: widest, height: highest, packed: await packedRows(whole) });
  }
  return apngOf(frames);
}
