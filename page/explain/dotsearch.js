// The search for the last step that changed a dot of the picture. The page goes to the state in
// which the dot was drawn, and asks the adapter there where the dot comes from (zak_explain_dot). It
// then asks the same after each step before, at the dot's own place of memory. So a step counts if it changes
// a byte, a register or a colour that the drawn dot comes from, also while the picture shows another part of memory,
// or shows this part elsewhere.
import { KIND } from "../script/steplist.js";
import { Search } from "../run/points.js";
import { State } from "../run/state.js";
import { dotAhead, sourceAt, steady } from "./way.js";
import { Layout, heldParts, heldSource, isSamePlace } from "./holding.js";
import { placeBeam } from "./dotfields.js";
import { colourBy, kindOf } from "./dotrows.js";
import { hex } from "../common/bytes.js";
import { sizeOfStruct } from "../../javascript/zaklimot.js";

/** The steps that may change where a dot comes from; the others read, or let dots pass. */
const WRITES = [KIND.out, KIND.outw, KIND.put, KIND.putw, KIND.int];
const SOURCE_SIZE = sizeOfStruct("zak_dot_source");

const TOLD_BY = { "screen off": "the screen is off",
  overscan: "overscan, since the palette is not shown", palette: "the palette", byte: "the byte" };

/**
 * What a dot is made of, as { name: value in words }; two dots are the same if all of these are.
 */
export function partsOfDot(source) {
  if (!source?.isDisplay) return { shown: "no dot" };
  const kind = kindOf(source), by = colourBy(source), { dot, bytes } = source;
  const parts = { shown: kind, offset: hex(source.address, 4), "dot of its character": String(dot),
    "colour by": TOLD_BY[by] };
  if (kind === "text") {
    Object.assign(parts, { character: hex(source.character, 2), attribute: hex(source.attribute, 2),
      "glyph's offset": hex(source.glyphAddress, 4), "glyph's bit": source.isGlyphDot ? "1" : "0",
      "dot is": source.isForeground ? "ink" : "ground" });
  }
  // Bits of planes that the palette does not see are no part of the dot.
  if (kind === "16 colours") parts.bits = hex(source.paletteRegister, 1);
  if (kind === "256 colours") parts.byte = hex(dot > 7 ? 0 : bytes[dot >> 1], 2);
  if (by === "palette") {
    Object.assign(parts, { "palette register": hex(source.paletteRegister, 1),
      "value of the palette register": hex(source.paletteValue, 2),
      "colour's number": hex(source.number, 2) });
  }
  if (by !== "screen off") parts["entry of the DAC"] = hex(source.entry, 2);
  return { ...parts, colour: source.colour.map(six => hex(six, 2)).join(" ") };
}

/** The parts from a dot's bits to its entry of the DAC: each of them follows from those before. */
const CHAIN = ["palette register", "value of the palette register", "colour's number",
  "entry of the DAC"];

/**
 * What differs between the parts of two dots, a few words each: of parts that follow from others
 * that differ, the colour alone.
 */
export function differingParts(old, now) {
  const all = [...new Set([...Object.keys(old), ...Object.keys(now)])]
    .filter(name => old[name] !== now[name]);
  const causes = all.filter(name => name !== "colour" && !CHAIN.includes(name));
  const kept = causes.length ? causes : CHAIN.filter(name => all.includes(name)).slice(0, 1);
  if (all.includes("colour")) kept.push("colour");
  return kept.map(name => `${name} ${old[name] ?? "none"} → ${now[name] ?? "none"}`);
}

/** The same for what a dot is made of at its own place: see heldParts. */
export function differingHeld(old, now) {
  const name = old.isHeld && now.isHeld ? "parts" : "memory";
  return differingParts(old[name], now[name]);
}

/** Watches what a dot is made of, at its own place of memory. */
class DotWatch {
  /** The struct as the card told it last. */
  #told = new Uint8Array(SOURCE_SIZE);
  #made;
  #layout = new Layout();

  constructor(made) {
    this.#made = made;
    this.beam = made.beam;
  }

  mayChange({ kind }) {
    return WRITES.includes(kind);
  }

  /** Asks before a step. */
  start(scout) {
    this.old = this.#hold(scout);
  }

  /** What the dot is made of, by a beam that leads to its place. */
  #hold(scout) {
    const held = heldSource(scout.card, this.#made);
    this.beam = held.beam;
    this.#layout.isOther(scout);
    placeBeam(scout.adapter, steady(held.beam), scout.beam);
    this.#isOther(scout);
    return heldParts(scout.card, this.#made, held, partsOfDot);
  }

  #now(scout) {
    const { card } = scout, { isHeld } = this.old, isOther = this.#layout.isOther(scout), source = sourceAt(card, this.beam);
    if (isHeld ? isSamePlace(source, this.#made.source) : !isOther) {
      return heldParts(card, this.#made, { source, isHeld }, partsOfDot);
    }
    return this.#hold(scout);
  }

  /** Asks the card; whether it tells something else than before. */
  #isOther({ adapter, card, room, beam }) {
    adapter.calls.zak_explain_dot(card.address, beam, room);
    const { bytes } = adapter, told = this.#told;
    let isOther = false;
    for (let at = 0; at < SOURCE_SIZE; at++) {
      if (bytes[room + at] === told[at]) continue;
      told[at] = bytes[room + at];
      isOther = true;
    }
    return isOther;
  }

  isChanged(scout) {
    if (!this.#isOther(scout) && this.old.isHeld) return false;
    const { old } = this;
    this.old = this.#now(scout);
    this.differing = differingHeld(old, this.old);
    return this.differing.length > 0;
  }
}

/**
 * A dot of what is seen, as cheaply as it is had: { state, source, beam, how }. `how` is "drawn" by
 * the last step, "ahead" if it is still to be drawn, or "now": it was drawn before, and this is told
 * by the registers as they stand. Null where no dot is.
 */
export function dotOfSeen({ before, after, picture, steps }, { line, dot }) {
  const isDrawn = picture.isWhole || dot < picture.drawn[line];
  const told = (state, how) => {
    const found = dotAhead(state, { line, dot });
    return found && { state, ...found, how };
  };
  if (!isDrawn) return told(after, "ahead");
  const isByLast = steps > 0 && (picture.isWhole || before.beam.frame !== after.beam.frame ||
    before.drawn[line] <= dot) && before.drawn[line] <= dot;
  return isByLast ? told(before, "drawn") : told(after, "now");
}

/**
 * The search for the step that draws a dot, and then for the last step that changed it. `take` goes
 * on for some milliseconds: null while time is over, else { steps, differing, made }, the last of
 * them the dot as it was drawn, or { ended: true, made }.
 */
export class DotSearch {
  /** After how many steps the dot was drawn; null if it was not. */
  drawnBy = null;
  /** The dot as it was drawn: { state, beam, source }; null if none is known. */
  made = null;
  search = null;

  /**
   * `place` is { line, dot }. `steps` are those after which the picture is seen. A dot that is
   * drawn there was drawn by a step before; one that is not is taken as it would be drawn from there
   * on. With `isMadeOnly` the search ends with the step that drew it, as { made, drawnBy }. `told` is
   * what a search has told before: the dot is taken as it was there, and only steps count up to
   * these.
   */
  constructor(session, place, steps, { isDrawn = false, isMadeOnly = false, told = null } = {}) {
    this.session = session;
    this.place = place;
    this.steps = steps;
    this.isDrawn = isDrawn;
    this.isMadeOnly = isMadeOnly;
    this.made = told?.made ?? null;
    this.turns = this.made ? this.lastChange(this.made, steps) : this.find();
  }

  get looked() {
    return this.search?.looked ?? this.steps;
  }

  take(milliseconds) {
    const until = performance.now() + milliseconds;
    while (performance.now() < until) {
      const { done, value } = this.turns.next();
      if (done) return value ?? { ended: true, made: this.made };
    }
    return null;
  }

  /** Goes back among the first steps to the last that meets a point; after how many steps that is. */
  * back(point, to) {
    this.search = new Search(this.session, [point], to, true, true);
    for (;;) {
      const { done, value } = this.search.turns.next();
      if (done) return value;
      yield null;
    }
  }

  /** The state in which the dot was drawn, or from which it would be, and after how many steps. */
  * make() {
    const { session, place } = this;
    let at = this.steps;
    if (this.isDrawn) {
      const drawn = yield* this.back({ kind: "drawn", ...place }, at);
      if (drawn !== undefined) [this.drawnBy, at] = [drawn, drawn - 1];
    }
    while (session.scout.at !== at && !session.scout.seek(at, 8)) yield null;
    const state = State.of(session.scout.card), found = this.#drawnFrom(state, at);
    return { at, made: found && { state, ...found } };
  }

  /** The dot as it is drawn from a state on: where a step lets a frame pass and draws it anew, as it is then. */
  #drawnFrom(state, at) {
    const { place, session: { outline, scout } } = this, entry = outline.entryOf(at);
    const isLong = this.drawnBy === at + 1 && scout.operations.kind(entry) === KIND.advance;
    const next = isLong ? dotAhead(state, place, false) : null;
    return next && next.dots < scout.operations.place(entry) ? next : dotAhead(state, place);
  }

  * find() {
    const { at, made } = yield* this.make();
    this.made = made;
    if (!made) return undefined;
    if (this.isMadeOnly) return { made, drawnBy: this.drawnBy };
    return yield* this.lastChange(made, at);
  }

  * lastChange(made, to) {
    const watch = new DotWatch(made);
    let differing = [];
    // The search meets steps forward from a checkpoint on, and the last of them counts.
    const point = { kind: "watch", watch: { mayChange: operation => watch.mayChange(operation),
      start: scout => watch.start(scout), isChanged: scout => {
        const isChanged = watch.isChanged(scout);
        if (isChanged) ({ differing } = watch);
        return isChanged;
      } } };
    const steps = yield* this.back(point, to);
    return steps === undefined ? undefined : { steps, differing, made };
  }
}
