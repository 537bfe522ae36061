// A card that is open: how its calls are made, and how it is closed.
import { MOST_TEXT, CARD_SIZE } from "./statuses.js";
import { inRange } from "./errors.js";
import { writeStruct } from "./structs.js";

export const BYTE = 0xFF, WORD = 0xFFFF, LONG = 0xFFFFFFFF;
const decoder = new TextDecoder();
const NO_BYTES = new Uint8Array();
const REGISTERS = ["ax", "bx", "cx", "dx"];
const NO_LIBRARY = "a card is opened by `await Card.open()`, or of a library that `load` has loaded";

/** Frees what a card has in the module's memory. */
function release(library, { address, rooms }) {
  library.calls.zak_close(address);
  for (const at of [...rooms.values(), address]) library.give(at);
  rooms.clear();
}

/** Closes cards that nobody has closed, and says so. With a library that is gone its memory is, too. */
const forgotten = new FinalizationRegistry(held => {
  const library = held.library.deref();
  if (!library) return;
  console.warn("zaklimot: a card was not closed: call its close(), or open it by `using`.");
  try {
    release(library, held);
  } catch (error) {
    // A module that has trapped takes no call, and nobody is there to be told.
    if (!(error instanceof WebAssembly.RuntimeError)) throw error;
  }
});

/** A card of a library, from when it is opened until it is closed. */
export class OpenCard {
  _held;
  /** Where the `zak_card` is in the module's memory. */
  _address;

  constructor(library, fonts) {
    if (!library?.calls) throw new TypeError(NO_LIBRARY);
    /** The library that has the card. */
    this.library = library;
    this._calls = library.calls;
    /** The bytes of the font file that it was opened with. */
    this.fonts = library.fontsOf(fonts);
    const font = library.given("fonts", this.fonts), address = library.take(CARD_SIZE);
    library.bytes.fill(0, address, address + CARD_SIZE);
    const status = this._calls.zak_open(address, font.at, font.length);
    if (status) {
      library.give(address);
      throw library.error(status);
    }
    this._address = address;
    this._held = { library: new WeakRef(library), address, rooms: new Map() };
    forgotten.register(this, this._held, this);
  }

  /** Whether the card is open. */
  get isOpen() {
    return this._held !== null;
  }

  /** The address of the `zak_card` in the module's memory: of a card that is closed if this one is. */
  get address() {
    return this._address;
  }

  /** Frees the card. A card that is closed stays closed. */
  close() {
    if (!this._held) return;
    forgotten.unregister(this);
    const held = this._held;
    this._held = null;
    this._address = this.library.closedCard;
    release(this.library, held);
  }

  /** Memory of the module that is this card's own until it is closed: its address. */
  _own(name, size) {
    // A closed card has none, and its calls write nothing.
    if (!this._held) return this.library.closedCard;
    const { rooms } = this._held;
    if (!rooms.has(name)) rooms.set(name, this.library.take(size));
    return rooms.get(name);
  }

  // How calls are made.

  _check(status, place) {
    if (status) throw this.library.error(status, place);
  }

  /** What a call writes into a struct; its other arguments stand before that. */
  _read(name, call, ...more) {
    const { library } = this;
    this._check(this._calls[call](this._address, ...more, library.struct));
    return library.told(name);
  }

  /** What `_read` answers, or null where the call is refused; `status` tells why. */
  _tried(name, call, ...more) {
    const { library } = this;
    this.status = this._calls[call](this._address, ...more, library.struct);
    return this.status ? null : library.told(name);
  }

  /** A dump as text. */
  _text(call, ...more) {
    const { library } = this, room = library.room("dump", MOST_TEXT), { lengths } = library;
    this._check(this._calls[call](this._address, ...more, room.at, room.length, lengths));
    return decoder.decode(library.copied(room.at, library.number(0)));
  }

  /** The registers of a call in the module's memory, as a `zak_regs`. */
  _registers(registers) {
    const { library } = this, isObject = typeof registers === "object" && registers !== null;
    // What a call has answered may be given to the next one.
    const isOther = name => !REGISTERS.includes(name) && name !== "table";
    const other = isObject ? Object.keys(registers).find(isOther) : "";
    if (other !== undefined) {
      const told = `the registers are to be an object, as { ax: 0x13 }: ${other || String(registers)} is none`;
      throw new TypeError(`${told} of ${REGISTERS.join(", ")}`);
    }
    writeStruct("zak_regs", registers, library.view, library.struct);
    return library.struct;
  }
}

if (Symbol.dispose) OpenCard.prototype[Symbol.dispose] = OpenCard.prototype.close;

/** The status of the last call that answers null where it is refused. */
OpenCard.prototype.status = 0;

/** A cycle has a number that none can have: says which. */
export function refuseCycle(...numbers) {
  for (const [name, value, most] of numbers) inRange(name, value, most);
}

export { NO_BYTES };
