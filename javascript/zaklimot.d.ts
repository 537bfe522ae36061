/**
 * Zaklimot: a VGA display adapter with its video BIOS, as a WebAssembly module.
 *
 *     import { Card } from "zaklimot";
 *
 *     const card = await Card.open();
 *     card.int10({ ax: 0x13 });                  // mode 13: 320 by 200, a byte a pixel
 *     card.put(0xA0000, 15);                     // white, top left
 *     const { pixels, width, height } = card.frame();
 *     canvas.getContext("2d").putImageData(new ImageData(pixels, width, height), 0, 0);
 *     card.close();
 *
 * Ports, addresses and registers are hexadecimal in these comments, other numbers decimal.
 *
 * A view of the module's memory is valid until the next call of the library or of any of its cards.
 */

/** The bytes that calls take. Those of `Buffer` are such bytes. */
export type Bytes = Uint8Array | Uint8ClampedArray;

declare global {
  // Compilers before TypeScript 5.2 have no such name.
  interface SymbolConstructor {
    readonly dispose: unique symbol;
  }
}

/** A script: its text, or its bytes as `assemble` makes them. */
export type Script = string | Bytes;

/** Bytes of a picture, in a buffer of their own. */
export type Pixels = ReturnType<Uint8ClampedArray["slice"]>;
/** The bytes of zaklimot.wasm, or the WebAssembly.Module that was compiled of them. */
export type Module = ArrayBuffer | ArrayBufferView | { readonly [Symbol.toStringTag]?: string };

/** What `load` is given. What is left out is read from the files of this package. */
export interface Sources {
  module?: Module;
  /** The bytes of a font file, for cards that are opened without one. */
  fonts?: Bytes;
}

/**
 * Loads the module. Without `given`, the two files of this package are read, once for all calls. With
 * it, each call makes a library of its own; a bundle that has no such files beside it gives their bytes.
 */
export function load(given?: Sources | null): Promise<Library>;

/** A module that is running, with its memory: the calls that need no card, and the cards' memory. */
export class Library {
  /** A library of the module's bytes, or of a WebAssembly.Module. */
  static of(module: Module, fonts?: Bytes | null): Promise<Library>;
  /** A library of a WebAssembly.Instance, which nothing else uses. */
  constructor(instance: { readonly exports: object }, fonts?: Bytes | null);

  /** The font of cards that are opened without one; null if there is none. */
  readonly fonts: Bytes | null;
  /** The version of the module's interface, as zaklimot.h tells it. */
  readonly version: { major: number; minor: number };

  /** Opens a card at power-on. It takes 7.4 MB of the module's memory until it is closed. */
  open(fonts?: Bytes | null): Card;
  /** Assembles a text into the bytes of a script. Throws a `ScriptError` with the line's number. */
  assemble(text: string | Bytes): Uint8Array;
  /** Disassembles a script: a line for each step, every number at full width. Throws a `ScriptError`. */
  print(script: Bytes): string;
  /**
   * Makes a whole run from power-on, with no card: the bytes of its report. A report of more than `room`
   * bytes takes a second run. Throws a `ScriptError`.
   */
  run(script: Script, options?: { fonts?: Bytes | null; room?: number }): Uint8Array;
  /** What is wrong in a text that `assemble` refuses; null if it spells a script. */
  explainText(text: string | Bytes): Mistake | null;
  /** What a status means, as "ZAK_NO_MODE: No mode is set yet.". */
  statusText(status: number): string;
  /** The error of a status. A class of yours may make others. */
  error(status: number, place?: number | null): Error;
  /** Throws the error of a status that is not 0. */
  check(status: number, place?: number | null): void;
  /** Gives back the module's memory that long scripts, states and pictures have taken. */
  trim(): void;

  // The module as it is, for another module that is linked with it, and for loops of your own.

  /** The module's exports: `memory`, `page_take`, `page_give`, and the calls of zaklimot.h. */
  readonly calls: ModuleCalls;
  /** The module's memory as it is now. Calls may make it grow: do not keep it. */
  readonly bytes: Uint8Array;
  /** The same as a DataView. */
  readonly view: DataView;
  /** Where calls may write lengths, 8 bytes each: room for eight. */
  readonly lengths: number;
  /** Where calls may write a struct: 1,984 bytes. The next call of a card writes there too. */
  readonly struct: number;
  /** The address of a card that is closed, and stays so. */
  readonly closedCard: number;
  /** Takes so many bytes of the module's memory: their address, a multiple of 16. */
  take(size: number): number;
  /** Gives back what `take` has taken. */
  give(address: number): void;
  /** Memory under a name, of at least so many bytes. It is kept for the next who ask by this name. */
  room(name: string, size: number): { at: number; length: number };
  /** Copies bytes into the memory of a name, one part after the other. */
  given(name: string, ...parts: Bytes[]): { at: number; length: number };
  /** A copy of bytes of the module's memory. */
  copied(address: number, length: number): Uint8Array;
  /** The first, second .. of the lengths that a call has written, from 0. */
  number(which: number): number;
  /** The struct that a call has written, by the names of its fields. */
  told(struct: string): Record<string, unknown>;
  /** What a call writes into a room and tells the length of, which is made with a larger room if need be. */
  written(name: string, first: number, call: (room: { at: number; length: number }) => number): Uint8Array;
  /** Bytes that stay where they are if memory grows: a copy of those that are the module's own. */
  outside<T extends Bytes>(bytes: T): T;
  /** The bytes of a script that is given as its text or as its bytes. */
  scriptOf(script: Script): Bytes;
  /** Holds fonts to be bytes that are there. */
  fontsOf(fonts: Bytes | null | undefined): Bytes;
}

/** The exports of zaklimot.wasm. Pointers and lengths are 32-bit integers, and lengths written have 8 bytes. */
export interface ModuleCalls {
  readonly memory: { readonly buffer: ArrayBuffer };
  page_take(size: number): number;
  page_give(address: number): number;
  readonly [call: `zak_${string}`]: (...numbers: number[]) => number;
}

/** The processor's registers for a call of the video BIOS, 0 to FFFF each. What is left out is 0. */
export interface Registers16 {
  ax?: number;
  bx?: number;
  cx?: number;
  dx?: number;
}

/** What a call of the video BIOS answers. */
export interface Int10Answer extends Required<Registers16> {
  /** What the function writes into the caller's memory; no bytes if it writes none. */
  table: Uint8Array;
}

/** What the clock comes to next, if no register is written until then. */
export interface Timing {
  /** Dots to the end of the frame under way. */
  toFrame: number;
  /** Dots until bit 0 of input status 1 changes; `NEVER` if no number of dots does it. */
  toDisplay: number;
  /** Dots until bit 3 of input status 1 changes; `NEVER` if no number of dots does it. */
  toRetrace: number;
  lineDots: number;
  frameDots: number;
  /** Lines of a frame. */
  lines: number;
  /** `rate / rateDivisor` is the number of dots per second. */
  rate: number;
  rateDivisor: number;
}

/** The size of a picture in pixels, and what a pixel stands for. */
export interface PictureSize {
  width: number;
  height: number;
  /** Dots of a line, and scan lines, that a pixel stands for. */
  across: number;
  down: number;
}

/** A picture for a canvas. */
export interface Picture extends PictureSize {
  /**
   * Red, green, blue and alpha of each pixel, as `ImageData` takes them without a copy. The card lends
   * them: its next `frame` writes them anew. They do not lie in the module's memory.
   */
  pixels: Pixels;
}

/** A picture for a canvas, with the rows that have changed. */
export interface UpdatedPicture extends Picture {
  /** The first row that has changed; 0 if none has. */
  first: number;
  /** How many rows there are from it to the last one that has changed; 0 if none has. */
  count: number;
}

/** A picture as words 00RRGGBB, or FFRRGGBB if they are asked to be opaque. */
export interface WordPicture {
  width: number;
  height: number;
  /** Row y begins at words[pitch * y]. */
  pitch: number;
  /** A view of the module's memory, valid until the next call. */
  words: Uint32Array;
}

/** A picture as numbers of a palette. */
export interface IndexedPicture {
  width: number;
  height: number;
  /** Words 00RRGGBB, each colour of the picture once. */
  palette: Uint32Array;
  /** A view of the module's memory, valid until the next call: numbers[width * y + x]. */
  numbers: Uint8Array;
}

/** A line as it ends. */
export interface ScanLine {
  /** Its number in the frame, from 0. */
  number: number;
  /** Its dots; 0 for a line with none. */
  width: number;
  endsFrame: boolean;
  /** A view of the module's memory, valid until the next call: the words of its dots. */
  words: Uint32Array;
}

/** The dots of a frame, line by line. */
export interface Lines {
  /** How many dots each of 1,024 lines has. */
  widths: Uint32Array;
  /** Red, green and blue of each dot, 0 to 63 each: line 0 from the left, then line 1, and so on. */
  rgb: Uint8Array;
}

/** The forms of a picture: each pixel once if `once`, as 320 by 200 in mode 13. It is usual. */
export interface FrameOptions {
  once?: boolean;
}

/** The same for words: FFRRGGBB if `opaque`, which is not usual. */
export interface WordOptions extends FrameOptions {
  opaque?: boolean;
}

/** The registers, by the names of the groups. */
export interface Registers {
  /** Miscellaneous output. */
  misc: number;
  seqIndex: number;
  seq: Uint8Array;
  crtcIndex: number;
  crtc: Uint8Array;
  gfxIndex: number;
  gfx: Uint8Array;
  /** The index with bit 5. */
  attrIndex: number;
  /** Whether 3C0 takes data next. */
  attrIsData: boolean;
  attr: Uint8Array;
  dacIndex: number;
  /** Next is 0 red, 1 green, 2 blue. */
  dacComponent: number;
  dacMask: number;
  dacWaitingRed: number;
  dacWaitingGreen: number;
}

/** A colour of the DAC, 0 to 63 each. */
export interface Colour {
  red: number;
  green: number;
  blue: number;
}

/** Where the beam is: at the next dot. */
export interface Beam {
  line: number;
  character: number;
  dot: number;
  /** The counter of the row's first character. */
  base: number;
  /** The scan line of the row of characters. */
  scan: number;
  /** Rows of this frame with a dot so far. */
  rows: number;
  /** The frame's number, 0 to 31. */
  frame: number;
  /** 1 on the second line of two under double scan. */
  half: number;
  /** 1 if line compare was reached in this frame. */
  split: number;
}

/** The data of the video BIOS; all 0 until a mode is set. */
export interface BiosData {
  columns: number;
  /** Bytes of a page. */
  size: number;
  /** First byte of the active page. */
  start: number;
  /** The cursor positions of pages 0 to 7: 256 * row + column. */
  cursorPlaces: Uint16Array;
  /** 256 * first scan line + last. */
  cursorType: number;
  /** The port of the CRT controller. */
  crtcAddress: number;
  /** Lines of a character. */
  height: number;
  mode: number;
  page: number;
  lastRow: number;
}

/** The plain screen, as programs that use only the video BIOS see it. */
export interface Screen {
  /** In pixels; 0 in text. */
  width: number;
  height: number;
  columns: number;
  rows: number;
  mode: number;
  isText: boolean;
  /** The active page, and the number of pages. */
  page: number;
  pages: number;
}

/** A cell of text. */
export interface Cell {
  character: number;
  attribute: number;
}

/** A cursor position. */
export interface Position {
  row: number;
  column: number;
}

/** Why a step is refused. */
export interface Reason {
  /** What the step would answer: one of `STATUS`, 1 to 13. */
  status: number;
  /** One of `WHY`. */
  kind: number;
  /** The numbers that the kind lists in zaklimot.h, in its order, and 0 behind them. */
  numbers: Uint32Array;
  /** Whether it is the high byte of a word that is refused. */
  isHigh: boolean;
  sentence: string;
}

/** What is wrong in a text. */
export interface Mistake {
  /** The line's number, from 1; 0 if the mistake is in none. */
  line: number;
  /** The part of the line: in characters of a string, in bytes of bytes. `start` is 0 at its first. */
  start: number;
  length: number;
  /** One of `MISTAKE`. */
  kind: number;
  /** A sentence in lower case, with no full stop. */
  sentence: string;
}

/** Where the colour of a dot comes from. What is for text is 0 in graphics, and the palette's in 256 colours. */
export interface DotSource {
  /** The counter of the character that the dot comes from. */
  counter: number;
  /** Where it is fetched in each plane. */
  address: number;
  /** Text: where the row of the glyph is in plane 2. */
  glyphAddress: number;
  isDisplay: boolean;
  /** Dots by which the picture is panned left, 0 to 8. */
  panning: number;
  /** The dot of the character, 0 to 8, after panning. */
  dot: number;
  /** The bytes of planes 0 to 3 at the address. */
  bytes: Uint8Array;
  isText: boolean;
  character: number;
  attribute: number;
  /** The character map, 0 to 7. */
  map: number;
  /** The row of the glyph; its left dot is bit 7. */
  glyphRow: number;
  isCursor: boolean;
  isBlinkedAway: boolean;
  isUnderlined: boolean;
  isGlyphDot: boolean;
  isForeground: boolean;
  /** True unless the adapter shows 256 colours. */
  hasPalette: boolean;
  /** The four bits of the dot. */
  nibble: number;
  /** Those of planes that are enabled. */
  paletteRegister: number;
  /** What the palette register holds, 0 to 63. */
  paletteValue: number;
  isColourSelectWide: boolean;
  /** Bits 5 and 4 of the number; bits 7 and 6. */
  middle: number;
  high: number;
  /** False: the overscan colour is shown instead. */
  isPaletteShown: boolean;
  /** The number of the colour. */
  number: number;
  /** The DAC's mask, and its entry, 0 to 255. */
  mask: number;
  entry: number;
  isScreenOff: boolean;
  colour: Colour;
}

/** What a write of a byte does on its way. The arrays have the byte of each plane. */
export interface WriteStages {
  /** The offset in the window, and in each plane. */
  inWindow: number;
  offset: number;
  /** 0 to 3. In write mode 1 the planes get the latches. */
  writeMode: number;
  /** The byte, rotated right. */
  rotated: number;
  /** What goes into the function: it, or set/reset. */
  data: Uint8Array;
  /** What comes out of the function with the latches. */
  combined: Uint8Array;
  /** The bits that may change; others are the latches'. */
  mask: number;
  /** Bit p: the write reaches plane p. */
  planes: number;
  before: Uint8Array;
  /** What the planes get that it reaches. */
  written: Uint8Array;
}

/** What a read of a byte does on its way. */
export interface ReadStages {
  inWindow: number;
  offset: number;
  /** What the latches get. */
  loaded: Uint8Array;
  /** Whether read mode 1 compares colours. */
  isCompare: boolean;
  /** The plane that read mode 0 reads. */
  plane: number;
  /** The byte that the read returns. */
  value: number;
}

/**
 * A VGA adapter with its video BIOS, at power-on.
 *
 * A call that the adapter refuses throws a `Refusal` and changes nothing. The same call with `try`
 * before its name throws none: it answers the status instead, or null where it answers an object, and
 * `status` says why. A number out of range is a RangeError, and what is no number a TypeError: none is
 * cut. A closed card throws `Closed`, and its calls with `try` answer `STATUS.NO_CARD`.
 *
 * Cycles take no time on the card. Its clock runs in `advance`, and in the calls that draw a line or a
 * frame.
 */
export class Card {
  /** Opens a card of the module that `load` loads once. */
  static open(fonts?: Bytes): Promise<Card>;
  /** Opens a card of a library that is loaded. */
  constructor(library: Library, fonts?: Bytes | null);

  readonly library: Library;
  /** The bytes of the font file that the card was opened with. A state does not contain them. */
  readonly fonts: Bytes;
  /** Whether the card is open. */
  readonly isOpen: boolean;
  /** The address of the `zak_card` in the module's memory: of a closed one if this card is closed. */
  readonly address: number;
  /** The status of the last call with `try` that answers null if it is refused. */
  status: number;
  /** Frees the card. A card that is closed stays closed. */
  close(): void;
  /** Closes the card at the end of the block in which it is declared by `using`. */
  [Symbol.dispose](): void;

  // Cycles of ports and of display memory.

  /** Writes a byte, 0 to FF, to a port, 0 to FFFF. Refused with NOT_DECODED and NOT_IN_PROFILE. */
  out(port: number, value: number): void;
  /** Writes a word, 0 to FFFF: its low byte to the port, its high byte to the next. */
  outWord(port: number, value: number): void;
  /** Reads a byte from a port, 0 to FFFF. */
  in(port: number): number;
  /** Reads a word: the low byte from the port, the high byte from the next. */
  inWord(port: number): number;
  /**
   * Writes a byte, 0 to FF, to display memory at one of the processor's addresses, A0000 to BFFFF. The
   * registers say which of them the adapter decodes.
   */
  put(address: number, value: number): void;
  /** Writes a word, 0 to FFFF: its low byte to the address, its high byte to the next. */
  putWord(address: number, value: number): void;
  /** Reads a byte of display memory, which loads the latches. */
  get(address: number): number;
  /** Reads a word: the low byte at the address, the high byte at the next. */
  getWord(address: number): number;
  /** Lets the clock run for 0 to 16,777,216 dots. Refused with TOO_FAR for more. */
  advance(dots: number): void;

  /** The status: 0 if the byte is written. */
  tryOut(port: number, value: number): number;
  tryOutWord(port: number, value: number): number;
  /** The byte, 0 to FF; or the status with a minus, if the adapter refuses. */
  tryIn(port: number): number;
  tryInWord(port: number): number;
  tryPut(address: number, value: number): number;
  tryPutWord(address: number, value: number): number;
  tryGet(address: number): number;
  tryGetWord(address: number): number;
  tryAdvance(dots: number): number;

  // Many cycles at once, each as the single call makes it. An address that the adapter does not decode is
  // not refused: a write there changes nothing, and a read gives FF. With `down` the last address comes
  // first. Each throws BAD_ARGUMENT if an address is above FFFFFFFF.

  /** Writes bytes to consecutive addresses: how many of them the adapter decodes. */
  putBytes(address: number, bytes: Bytes, down?: boolean): number;
  /** Writes a byte to `count` addresses: how many of them the adapter decodes. */
  fillBytes(address: number, value: number, count: number, down?: boolean): number;
  /** Reads `count` consecutive addresses: the bytes. */
  getBytes(address: number, count: number, down?: boolean): Uint8Array;
  /** Reads as many addresses as `into` has bytes: how many of them the adapter decodes. */
  getBytes(address: number, into: Bytes, down?: boolean): number;
  /**
   * Reads each of `count` addresses and writes its byte, one after another. In write mode 1 all four
   * planes are copied. How many of the reads and writes together the adapter decodes.
   */
  moveBytes(from: number, to: number, count: number, down?: boolean): number;

  // The clock, and frames.

  /** When the frame ends, and when input status 1 changes next. */
  clock(): Timing;
  /**
   * Lets the clock run to the end of the frame under way, and gives its picture for a canvas. Throws
   * RAGGED if two rows differ in width; the frame has passed even then.
   */
  frame(options?: FrameOptions): Picture;
  /** The same; null if there is no picture. */
  tryFrame(options?: FrameOptions): Picture | null;
  /**
   * The same, in pixels that the card keeps, with the rows that have changed since its last
   * `frameUpdate`. All have changed if the size has, or the form. The first one takes 9.4 MB of the
   * module's memory, until the card is closed.
   */
  frameUpdate(options?: FrameOptions): UpdatedPicture;
  tryFrameUpdate(options?: FrameOptions): UpdatedPicture | null;
  /** Lets the clock run to the frame's end, and gives a word for each pixel. */
  frameWords(options?: WordOptions): WordPicture & PictureSize;
  /** Lets the clock run to the frame's end, and gives a word 00RRGGBB for each dot. */
  frameXrgb(): WordPicture;
  /**
   * Lets the clock run to the frame's end, and gives red, green and blue of each dot, 0 to 63 each, as a
   * view of the module's memory, valid until the next call.
   */
  frameRgb(): { width: number; height: number; rgb: Uint8Array };
  /** Lets the clock run to the frame's end, and gives the picture as numbers. Throws MANY_COLOURS. */
  frameIndexed(): IndexedPicture;
  /** Lets the clock run to the end of the line under way, and gives its dots. */
  line(options?: { opaque?: boolean }): ScanLine;
  /** Lets the clock run to the frame's end, and gives its dots line by line, even if it is ragged. */
  frameLines(into?: Bytes | null): Lines;
  /**
   * What is drawn until now of the frame under way, or of the frame before at a frame's first dot. The
   * dots are written into `into` if they are exactly as many bytes.
   */
  peek(into?: Bytes | null): Lines;
  /** Lets the clock run to the frame's end, and draws nothing. */
  skipFrame(): void;

  // The video BIOS.

  /** Calls interrupt 10. `block` is what the caller's memory contains at ES:BP or ES:DX. */
  int10(registers: Registers16, block?: Bytes): Int10Answer;
  tryInt10(registers: Registers16, block?: Bytes): Int10Answer | null;
  /** How many bytes such a call reads from the caller's memory, and whether at ES:DX, else ES:BP. */
  block(registers: Registers16): { length: number; isAtDx: boolean };
  /** The cycles that such a call would make, as the bytes of a script. The card stays as it is. */
  cycles(registers: Registers16, block?: Bytes): Uint8Array;
  tryCycles(registers: Registers16, block?: Bytes): Uint8Array | null;

  // The state. Nothing changes, not even an index, a latch or the flip-flop.

  registers(): Registers;
  /** An entry of the DAC, 0 to 255. */
  colour(entry: number): Colour;
  beam(): Beam;
  /** The latches of planes 0 to 3. */
  latches(): Uint8Array;
  biosData(): BiosData;
  /** Bytes of a plane, 0 to 3, from an offset on: `count` of them, or all to its end at 65,536. */
  plane(plane: number, offset?: number, count?: number): Uint8Array;
  /** The plain screen. Throws NO_SCREEN if the adapter shows none. */
  screen(): Screen;
  /** A cell of text. Each call reads the whole screen. */
  cell(row: number, column: number, page?: number): Cell;
  /** The number of a pixel's colour. Each call reads the whole screen. */
  pixel(x: number, y: number, page?: number): number;
  /** The cursor position of a page, 0 to 7. */
  cursor(page?: number): Position;

  // Dumps, as text with a newline at its end.

  showRegs(): string;
  showBeam(): string;
  showLatches(): string;
  showBda(): string;
  /** The cells of the active page. Refused with NO_MODE and WRONG_KIND. */
  showCells(): string;
  /** An entry of the DAC, 0 to 255. */
  showDac(entry: number): string;
  /** 1 to 256 bytes of plane 0 to 3 from an offset on. */
  showPlane(plane: number, offset: number, count: number): string;

  // Snapshots.

  /**
   * The state, from which this card or another goes on as if it had never stopped. It has 265,086 bytes
   * at a frame's first dot, and three more for each dot drawn since.
   */
  save(): Uint8Array;
  /** The same as a view of the module's memory, valid until the next call. */
  saveView(): Uint8Array;
  /** Writes the state to the beginning of bytes of yours: how many it has. Throws NO_ROOM. */
  saveInto(bytes: Bytes): number;
  /** How many bytes the state has now. */
  saveSize(): number;
  /** Restores a state, which may come in parts. Throws a `StateError`, and then the card is unchanged. */
  restore(...parts: Bytes[]): void;
  /** The state in so many bytes, with zeros and a checksum behind it; 7,342,978 are always enough. */
  saveFixed(length: number): Uint8Array;
  /** Restores what `saveFixed` has saved. Throws a `StateError`. */
  restoreFixed(state: Bytes): void;

  // Scripts on the card.

  /**
   * Skips the first `first` steps of a script, and takes at most `most` steps after them: the report's
   * bytes, and how many steps were taken. Throws a `ScriptError` before any step is taken. If you know
   * that the report has at most `room` bytes, say so: otherwise the state is saved first, so that steps
   * can be taken again with more room.
   */
  runOn(script: Script, options?: { first?: number; most?: number; room?: number }):
    { report: Uint8Array; taken: number };

  // What the card says of itself. Nothing changes.

  /** Why the card would refuse a step of a script, from 0; null if it would do it. */
  explainStep(script: Script, step?: number): Reason | null;
  /** Where the dot at a beam comes from, or the next dot, by the registers and the memory as they are. */
  explainDot(beam?: Partial<Beam> | null): DotSource;
  tryExplainDot(beam?: Partial<Beam> | null): DotSource | null;
  /** What a write of a byte would do on its way. Refused as `put` is. */
  explainPut(address: number, value: number): WriteStages;
  tryExplainPut(address: number, value: number): WriteStages | null;
  /** What a read would do on its way. Refused as `get` is. */
  explainGet(address: number): ReadStages;
  tryExplainGet(address: number): ReadStages | null;
  /**
   * The bytes of a script that leads from power-on to the card's state. If `areDotsOther`, the frame
   * under way was drawn otherwise until now. Throws NOT_REBUILT if no such script was found.
   */
  rebuild(): { script: Uint8Array; areDotsOther: boolean };
}

/** A call failed. The card is unchanged, unless the call says otherwise. */
export class ZaklimotError extends Error {
  constructor(told: { status: number; statusName: string; sentence: string; message?: string; place?: number | null });
  /** What the call answers: one of `STATUS`. */
  readonly status: number;
  /** Its name in zaklimot.h, as ZAK_NO_MODE. */
  readonly statusName: string;
  /** What it means. */
  readonly sentence: string;
}
/** The adapter refuses the call, and nothing changes. */
export class Refusal extends ZaklimotError {
  /** N of the refusal `EN` in a report, 1 to 13. */
  readonly number: number;
}
/** A script, or its text, has a fault. */
export class ScriptError extends ZaklimotError {
  /** The number of the bad line from 1, or the offset of the bad step; null if there is none. */
  readonly place: number | null;
}
/** Bytes can't be restored, and the card is unchanged. */
export class StateError extends ZaklimotError {}
/** The card is closed. */
export class Closed extends ZaklimotError {}
/** The module has no memory left for the call. */
export class OutOfMemory extends ZaklimotError {}

/** What a call answers. 1 to 13 are refusals, and 102 and up faults of scripts. */
export const STATUS: Readonly<Record<"OK" | "NOT_DECODED" | "NOT_IN_PROFILE" | "NO_MODE" | "BAD_FUNCTION" | "BAD_MODE"
  | "WRONG_KIND" | "BAD_PAGE" | "OUTSIDE" | "COUNT_PAST" | "BAD_REGISTER" | "BAD_BLOCK" | "TOO_FAR" | "BAD_HEIGHT"
  | "NO_CARD" | "OPEN_ALREADY" | "FONT_SIZE" | "OUT_OF_MEMORY" | "RAGGED" | "NO_ROOM" | "BAD_ARGUMENT" | "BAD_CARD"
  | "NO_SCREEN" | "BROKEN" | "STATE_MAGIC" | "STATE_VERSION" | "STATE_LENGTH" | "STATE_PART" | "STATE_CHECKSUM"
  | "MANY_COLOURS" | "NOT_REBUILT" | "BAD_MAGIC" | "BAD_VERSION" | "BAD_STEP" | "TRUNCATED" | "TOO_LONG" | "BAD_LINE"
  | "TOO_MANY", number>>;
/** Why a step is refused: the `kind` of a reason. */
export const WHY: Readonly<Record<"NO_PORT" | "OTHER_CRT_CONTROLLER" | "READ_ONLY" | "PORT_LEFT_OUT" | "NO_REGISTER"
  | "BIT_LEFT_OUT" | "FIELD_LEFT_OUT" | "MEMORY_OFF" | "OUTSIDE_WINDOW" | "LAST_PORT" | "LAST_ADDRESS" | "NO_MODE_SET"
  | "NO_SERVICE" | "NO_SUCH_MODE" | "NO_PIXELS" | "NO_CHARACTER_MAP" | "NO_PAGE" | "CURSOR_OUTSIDE"
  | "POSITION_OUTSIDE" | "PIXEL_OUTSIDE" | "CELLS_PAST" | "GLYPHS_PAST" | "NO_PALETTE_REGISTER" | "NO_BLINKING"
  | "NO_ENTRY" | "NO_ENTRIES" | "WRONG_BLOCK" | "NO_HEIGHT" | "TOO_MANY_DOTS" | "NO_CELLS_YET" | "NO_CELLS", number>>;
/** A group of registers with an index, among the numbers of a reason. */
export const GROUP: Readonly<Record<"SEQUENCER" | "GRAPHICS_CONTROLLER" | "CRT_CONTROLLER" | "ATTRIBUTE_CONTROLLER",
  number>>;
/** A part of the VGA that the adapter leaves out, among the numbers of a reason. */
export const PART: Readonly<Record<"INPUT_STATUS_0" | "SUBSYSTEM_ENABLE" | "DAC_STATE" | "FEATURE_CONTROL", number>>;
/** What is wrong in a text: the `kind` of a mistake. */
export const MISTAKE: Readonly<Record<"CHARACTER" | "COMMENT" | "STEP" | "FORM" | "NUMBER" | "SHOW" | "CALL" | "BLOCK"
  | "ORDER" | "UNKNOWN" | "LONG_TEXT" | "LONG_SCRIPT", number>>;

/** Bytes of a font file. */
export const FONTS_SIZE: number;
/** Dots of one `advance`, at most. */
export const MOST_DOTS: number;
/** Of `clock`: the bit never changes. */
export const NEVER: number;
/** Dots in a row of a picture, at most. */
export const WIDEST: number;
/** Rows of a picture, at most. */
export const HIGHEST: number;
/** Bytes of a picture with three bytes a dot, at most. */
export const MOST_RGB: number;
/** Bytes of the table of `int10`, at most. */
export const MOST_TABLE: number;
/** Bytes of a dump, at most. */
export const MOST_TEXT: number;
/** Bytes of what `statusText` says, at most. */
export const MOST_STATUS_TEXT: number;
/** Bytes of the sentence of `explainStep`, at most. */
export const MOST_REASON_TEXT: number;
/** Bytes of the sentence of `explainText`, at most. */
export const MOST_MISTAKE_TEXT: number;
/** A form of words: FFRRGGBB. */
export const OPAQUE: number;
/** A form of words: each pixel once. */
export const ONCE: number;
/** Bytes of a state at a frame's first dot. */
export const FIRST_STATE: number;
/** Bytes of a state at any dot, at most. */
export const MOST_STATE: number;
/** Bytes of a plane. */
export const PLANE_SIZE: number;
/** Bytes of a `zak_card` in the module's memory. */
export const CARD_SIZE: number;
/** The interface that this package is made for: 65,536 times its major number, plus its minor number. */
export const API_VERSION: number;

/** A field of a struct: its name in zaklimot.h and its own, its bytes, and how many numbers it has. */
export interface Field {
  name: string;
  own: string;
  bytes: number;
  count: number;
  isFlag: boolean;
  struct?: string;
}
/** The structs of zaklimot.h as they lie in the module's memory, by their names there. */
export const STRUCTS: Readonly<Record<string, Field[]>>;
/** How many bytes a struct has. */
export function sizeOfStruct(struct: string): number;
/** Where a field of a struct begins, by its own name. */
export function placeInStruct(struct: string, own: string): number;
/** The values of a struct that begins at a place of a view, by their own names. */
export function readStruct(struct: string, view: DataView, begin?: number): Record<string, unknown>;
/** What reads one field of a number, in a view in which the struct begins at a place. */
export function fieldReader(struct: string, own: string, begin: number): (view: DataView) => number;
/** Writes the numbers of a struct, by their own names; a field that is not given is 0. */
export function writeStruct(struct: string, values: object, view: DataView, begin?: number): void;
