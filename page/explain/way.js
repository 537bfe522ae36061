// The beam's way from a state to dots of the picture. Where the beam is at the first dot of a line,
// the adapter's own card tells, which goes there; its clock tells how many dots that takes.
import { characterWidth } from "../run/state.js";
import { dotFields } from "./dotfields.js";

/** Where the beam is so many dots later in a line: { character, dot }. */
function alongLine({ character, dot }, dots, width) {
  const own = Math.max(1, width - dot), past = dots - own;
  if (past < 0) return { character, dot: dot + dots };
  return { character: character + 1 + Math.floor(past / width), dot: past % width };
}

/** How many dots are left of the line under way. */
const restOfLine = ({ toFrame, lineDots, lines }, { line }) => toFrame - lineDots * Math.max(0, lines - 1 - line);

/**
 * Where a dot of the picture comes: { dots, character, dot, isThisFrame }, after so many dots, in a
 * line's character. It may come in the frame under way, and in the next; null where it does not.
 * `from` is { registers, beam, clock }, and `drawn` how many dots the line under way has.
 */
export function dotsAhead({ registers, beam, clock }, { line, dot }, drawn) {
  const { toFrame, lineDots, lines } = clock, width = characterWidth(registers), left = dot - drawn;
  const whole = { character: Math.floor(dot / width), dot: dot % width }, isLine = line < lines && dot < lineDots;
  const isUnderWay = line === beam.line && left >= 0 && left < restOfLine(clock, beam);
  const isAhead = isLine && line > beam.line;
  return [
    isUnderWay ? { dots: left, ...alongLine(beam, left, width), isThisFrame: true }
      : isAhead ? { dots: toFrame - lineDots * (lines - line) + dot, ...whole, isThisFrame: true } : null,
    isLine ? { dots: toFrame + lineDots * line + dot, ...whole, isThisFrame: false } : null,
  ];
}

/** Of each state the beams at the first dots of lines, by the dots that lead there. */
const begins = new WeakMap();

/** The beam at the first dot of a line that begins after so many dots. */
function beginOfLine(state, line, dots) {
  if (!begins.has(state)) begins.set(state, new Map());
  const known = begins.get(state), old = known.get(dots);
  if (old) return old;
  const { scratch } = state;
  // At a frame's first dot the adapter takes the start address, so it is told once that dot is drawn.
  scratch.advance(dots + 1);
  const beam = { ...scratch.beam(), character: 0, dot: 0 };
  if (beam.line !== line) throw new Error(`line ${line} begins elsewhere`);
  known.set(dots, beam);
  return beam;
}

const isFirst = ({ line, character, dot }) => !line && !character && !dot;

/**
 * A dot of the picture as the beam draws it from a state on, in the frame under way or in the next:
 * { beam, source, registers, isThisFrame, dots }, the source as zak_explain_dot tells it, after so many
 * dots. Null where no such dot is drawn. `wanted` is true for the frame under way alone, and false for the next.
 */
export function dotAhead(state, place, wanted = null) {
  const { registers, beam } = state, { line } = place, clock = state.card.clock();
  for (const found of dotsAhead({ registers, beam, clock }, place, state.drawnOf(line))) {
    const isWanted = found && (wanted === null || found.isThisFrame === wanted);
    const isShown = isWanted && isDisplayed(state.card, { line, ...found });
    if (!isShown) continue;
    const { dots, character, dot, isThisFrame } = found, isUnderWay = isThisFrame && line === beam.line;
    const begin = isUnderWay && !isFirst(beam) ? beam
      : beginOfLine(state, line, isUnderWay ? 0 : dots - place.dot);
    const at = { ...begin, character, dot };
    return { beam: at, source: sourceAt(state.card, at), registers, isThisFrame, dots };
  }
  return null;
}

/** Whether the picture has the dot at a place of the beam, by the registers as they are. */
export function isDisplayed(card, { line, character, dot }) {
  return dotFields(card, { line }, [[character, dot]], ["isDisplay"])[0]?.[0] === 1;
}

/**
 * Where a dot comes from that was drawn at a beam, by a card's registers and memory. At a frame's
 * first dot the card would take the start address as it is now. A line below it takes none.
 */
export function sourceAt(card, beam) {
  const source = card.tryExplainDot(steady(beam));
  if (!source) return null;
  const { colour: { red, green, blue } } = source;
  return { ...source, colour: [red, green, blue] };
}

/** A beam by which a card tells the dot with the start of the frame as it was taken. */
export function steady(beam) {
  return isFirst(beam) ? { ...beam, line: 1 } : beam;
}
