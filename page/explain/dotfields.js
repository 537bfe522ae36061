// Where many dots of a line come from, by calls of the module that stand close together: of a struct
// only some fields are read (zak_explain_dot).
import { fieldReader, placeInStruct, sizeOfStruct, writeStruct } from "../../javascript/zaklimot.js";

/** Writes a beam into the module's memory, to a place there. */
export function placeBeam(adapter, beam, place) {
  writeStruct("zak_beam", beam, adapter.view, place);
}

/**
 * Where dots of a card's line come from, of each a list of some fields of one number, by their names;
 * null for a beam that no registers lead to. `dots` is a list of [character, dot], whose beam is
 * otherwise this one.
 */
export function dotFields(card, beam, dots, names) {
  const { library, address } = card, { calls, struct: room } = library;
  const place = room + sizeOfStruct("zak_dot_source");
  placeBeam(library, beam, place);
  const [character, dot] = ["character", "dot"].map(name => place + placeInStruct("zak_beam", name));
  const reads = names.map(name => fieldReader("zak_dot_source", name, room)), { view } = library;
  return dots.map(([own, within]) => {
    view.setUint16(character, own, true);
    view.setUint16(dot, within, true);
    return calls.zak_explain_dot(address, place, room) ? null : reads.map(read => read(view));
  });
}
