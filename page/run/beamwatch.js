// Watches of the beam: that it passes a place or the end of a frame, and that it draws a dot of the
// picture. How many dots lead there, the adapter's clock tells.
import { KIND } from "../script/steplist.js";
import { dotsAhead, isDisplayed } from "../explain/way.js";
import { drawnDots } from "./state.js";

/** A watch of steps that let dots pass. */
class ClockWatch {
  mayChange({ kind }) {
    return kind === KIND.advance || kind === KIND.frame;
  }

  start(scout) {
    this.old = this.read(scout);
  }

  /** Whether a step meets what is watched, which lets so many dots pass. */
  isChanged(scout, { kind, place }) {
    const { old } = this;
    this.old = this.read(scout);
    return this.isMet(old, kind === KIND.frame ? old.clock.toFrame : place);
  }
}

/** A place of the beam, by a line and a dot that may lie beyond the picture; or the end of a frame. */
export class BeamWatch extends ClockWatch {
  constructor(point) {
    super();
    this.point = point;
  }

  read({ card }) {
    return { clock: card.clock() };
  }

  isMet({ clock: { toFrame, lineDots, frameDots } }, dots) {
    const { kind, line, dot } = this.point;
    if (kind === "frame") return dots >= toFrame;
    const place = line * lineDots + dot, ahead = place - (frameDots - toFrame);
    const isInFrame = place < frameDots && ahead >= 0 && ahead < dots;
    return isInFrame || (place < frameDots && toFrame + place < dots);
  }
}

/** A dot of the picture, by the line and the number of the dot among those of its line. */
export class DrawnWatch extends ClockWatch {
  constructor({ line, dot }) {
    super();
    Object.assign(this, { line, dot });
  }

  /** After how many dots the dot of the picture is drawn, in this frame and in the next. */
  read({ card }) {
    const { line } = this, beam = card.beam(), clock = card.clock();
    const from = { registers: card.registers(), beam, clock };
    // Dots drawn so far matter only while the beam is in the line.
    const drawn = beam.line === line ? drawnDots(card.saveView(), line) : 0;
    const found = dotsAhead(from, this, drawn).filter(one => one && isDisplayed(card, { line, ...one }));
    return { clock, ahead: found.map(({ dots }) => dots) };
  }

  isMet({ ahead }, dots) {
    return ahead.some(one => one < dots);
  }
}
