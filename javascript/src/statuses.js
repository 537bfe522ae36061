// The numbers of include/zaklimot.h that have names. tests/header.mjs holds each of them to it.

/** What a call answers. 1 to 13 are refusals, and 102 and up faults of scripts. */
export const STATUS = Object.freeze({
  OK: 0, NOT_DECODED: 1, NOT_IN_PROFILE: 2, NO_MODE: 3, BAD_FUNCTION: 4, BAD_MODE: 5, WRONG_KIND: 6,
  BAD_PAGE: 7, OUTSIDE: 8, COUNT_PAST: 9, BAD_REGISTER: 10, BAD_BLOCK: 11, TOO_FAR: 12, BAD_HEIGHT: 13,
  NO_CARD: 20, OPEN_ALREADY: 21, FONT_SIZE: 22, OUT_OF_MEMORY: 23, RAGGED: 24, NO_ROOM: 25,
  BAD_ARGUMENT: 26, BAD_CARD: 27, NO_SCREEN: 28, BROKEN: 29, STATE_MAGIC: 30, STATE_VERSION: 31,
  STATE_LENGTH: 32, STATE_PART: 33, STATE_CHECKSUM: 34, MANY_COLOURS: 35, NOT_REBUILT: 36,
  BAD_MAGIC: 102, BAD_VERSION: 103, BAD_STEP: 104, TRUNCATED: 105, TOO_LONG: 106, BAD_LINE: 107,
  TOO_MANY: 111,
});

/** Why a step is refused: the `kind` of a reason. */
export const WHY = Object.freeze({
  NO_PORT: 1, OTHER_CRT_CONTROLLER: 2, READ_ONLY: 3, PORT_LEFT_OUT: 4, NO_REGISTER: 5, BIT_LEFT_OUT: 6,
  FIELD_LEFT_OUT: 7, MEMORY_OFF: 8, OUTSIDE_WINDOW: 9, LAST_PORT: 10, LAST_ADDRESS: 11, NO_MODE_SET: 12,
  NO_SERVICE: 13, NO_SUCH_MODE: 14, NO_PIXELS: 15, NO_CHARACTER_MAP: 16, NO_PAGE: 17, CURSOR_OUTSIDE: 18,
  POSITION_OUTSIDE: 19, PIXEL_OUTSIDE: 20, CELLS_PAST: 21, GLYPHS_PAST: 22, NO_PALETTE_REGISTER: 23,
  NO_BLINKING: 24, NO_ENTRY: 25, NO_ENTRIES: 26, WRONG_BLOCK: 27, NO_HEIGHT: 28, TOO_MANY_DOTS: 29,
  NO_CELLS_YET: 30, NO_CELLS: 31,
});

/** A group of registers with an index, among the numbers of a reason. */
export const GROUP = Object.freeze({
  SEQUENCER: 0, GRAPHICS_CONTROLLER: 1, CRT_CONTROLLER: 2, ATTRIBUTE_CONTROLLER: 3,
});

/** A part of the VGA that the adapter leaves out, among the numbers of a reason. */
export const PART = Object.freeze({
  INPUT_STATUS_0: 0, SUBSYSTEM_ENABLE: 1, DAC_STATE: 2, FEATURE_CONTROL: 3,
});

/** What is wrong in a text: the `kind` of a mistake. */
export const MISTAKE = Object.freeze({
  CHARACTER: 1, COMMENT: 2, STEP: 3, FORM: 4, NUMBER: 5, SHOW: 6, CALL: 7, BLOCK: 8, ORDER: 9,
  UNKNOWN: 10, LONG_TEXT: 11, LONG_SCRIPT: 12,
});

/** Bytes of a font file. */
export const FONTS_SIZE = 9728;
/** Dots of one `advance`. */
export const MOST_DOTS = 16777216;
/** `clock`: the bit never changes. */
export const NEVER = 0xFFFFFFFF;
/** Dots in a row of a picture, and rows, at most. */
export const WIDEST = 2304, HIGHEST = 1024;
/** Bytes of a picture with three bytes a dot, at most. */
export const MOST_RGB = 3 * WIDEST * HIGHEST;
/** Bytes of a table of `int10`, of a dump, and of the sentences of statuses, steps and texts, at most. */
export const MOST_TABLE = 768, MOST_TEXT = 32768;
export const MOST_STATUS_TEXT = 128, MOST_REASON_TEXT = 160, MOST_MISTAKE_TEXT = 256;
/** Forms of words: FFRRGGBB, and each pixel once. */
export const OPAQUE = 1, ONCE = 2;
/** Bytes of a state at a frame's first dot, and of the longest state. */
export const FIRST_STATE = 265086, MOST_STATE = 7342974;
/** Bytes of a plane. */
export const PLANE_SIZE = 65536;
/** Bytes of a `zak_card` in the module's memory. */
export const CARD_SIZE = 24;
/** The interface that this package is made for: 65,536 times its major number, plus its minor number. */
export const API_VERSION = 0x10006;
