// The keys of a PC by those of the browser: scan codes by the key's place, letters by what is typed.

const EXTENDED = 0xe0, RELEASED = 0x80;
/** Scan codes by the browser's names of places, as an AT keyboard sends them. */
const SCANS = Object.fromEntries([
  ["Escape", 0x01], ...[..."1234567890"].map((digit, i) => [`Digit${digit}`, 0x02 + i]),
  ["Minus", 0x0c], ["Equal", 0x0d], ["Backspace", 0x0e], ["Tab", 0x0f],
  ...[..."QWERTYUIOP"].map((letter, i) => [`Key${letter}`, 0x10 + i]),
  ["BracketLeft", 0x1a], ["BracketRight", 0x1b], ["Enter", 0x1c], ["ControlLeft", 0x1d],
  ...[..."ASDFGHJKL"].map((letter, i) => [`Key${letter}`, 0x1e + i]),
  ["Semicolon", 0x27], ["Quote", 0x28], ["Backquote", 0x29], ["ShiftLeft", 0x2a], ["Backslash", 0x2b],
  ...[..."ZXCVBNM"].map((letter, i) => [`Key${letter}`, 0x2c + i]),
  ["Comma", 0x33], ["Period", 0x34], ["Slash", 0x35], ["ShiftRight", 0x36], ["NumpadMultiply", 0x37],
  ["AltLeft", 0x38], ["Space", 0x39], ["CapsLock", 0x3a],
  ...Array.from({ length: 10 }, (_, i) => [`F${i + 1}`, 0x3b + i]),
  ["NumLock", 0x45], ["ScrollLock", 0x46], ["Numpad7", 0x47], ["Numpad8", 0x48], ["Numpad9", 0x49],
  ["NumpadSubtract", 0x4a], ["Numpad4", 0x4b], ["Numpad5", 0x4c], ["Numpad6", 0x4d], ["NumpadAdd", 0x4e],
  ["Numpad1", 0x4f], ["Numpad2", 0x50], ["Numpad3", 0x51], ["Numpad0", 0x52], ["NumpadDecimal", 0x53],
  ["IntlBackslash", 0x56], ["F11", 0x57],
]);
/** The same of keys that send E0 before their code. */
const EXTENDED_SCANS = { NumpadEnter: 0x1c, ControlRight: 0x1d, NumpadDivide: 0x35, AltRight: 0x38,
  Home: 0x47, ArrowUp: 0x48, PageUp: 0x49, ArrowLeft: 0x4b, ArrowRight: 0x4d, End: 0x4f, ArrowDown: 0x50,
  PageDown: 0x51, Insert: 0x52, Delete: 0x53 };
/** The places of what is typed, on a keyboard as it is sold in the USA: some keyboards on a screen tell no place. */
const PLACES = Object.fromEntries([
  ...[..."abcdefghijklmnopqrstuvwxyz"].map(letter => [letter, `Key${letter.toUpperCase()}`]),
  ...[..."1234567890"].map(digit => [digit, `Digit${digit}`]),
  ...[..."!@#$%^&*()"].map((sign, i) => [sign, `Digit${(i + 1) % 10}`]),
  ...Object.entries({ "-_": "Minus", "=+": "Equal", "[{": "BracketLeft", "]}": "BracketRight",
    ";:": "Semicolon", "'\"": "Quote", "`~": "Backquote", "\\|": "Backslash", ",<": "Comma",
    ".>": "Period", "/?": "Slash", " ": "Space" }).flatMap(([signs, code]) => [...signs].map(sign => [sign, code])),
]);

/** The browser's name of the place of a key. */
export function placeOfKey({ code, key }) {
  return code || PLACES[key.toLowerCase()] || key;
}

/** What a key at a place types, by the same keyboard; its name where it types nothing. */
export function typedAt(code, isShifted) {
  const [plain, shifted] = Object.keys(PLACES).filter(sign => PLACES[sign] === code);
  if (!plain) return code;
  return isShifted ? shifted ?? plain.toUpperCase() : plain;
}

/** The keys that are held while others are pressed, and what a key's event calls them. */
export const HELD = { ShiftLeft: "shiftKey", ControlLeft: "ctrlKey", AltLeft: "altKey" };

/** Letters of keys that the browser tells by a name. */
const NAMED_LETTERS = { Enter: 13, Escape: 27, Backspace: 8, Tab: 9 };
const SHIFTS = new Set([0x1d, 0x2a, 0x36, 0x38, 0x3a, 0x45, 0x46]);
const FIRST_FUNCTION = 0x3b, LAST_FUNCTION = 0x44, F11 = 0x57;
/** What is added to the scan code of F1 to F10 where a shift key is held. */
const FUNCTION_SHIFTS = { shiftKey: 0x19, ctrlKey: 0x23, altKey: 0x2d };
/** The scan codes that the BIOS tells of some keys while Ctrl is held. */
const CONTROL_SCANS = { 0x4b: 0x73, 0x4d: 0x74, 0x4f: 0x75, 0x51: 0x76, 0x47: 0x77, 0x49: 0x84 };

function functionWord(event, scan) {
  const held = Object.keys(FUNCTION_SHIFTS).find(name => event[name]);
  if (scan === F11) return 0x8500;
  return scan + (held ? FUNCTION_SHIFTS[held] : 0) << 8;
}

/** The letter that a key types; 0 for none, -1 for one that a PC has not. */
function letterOf({ key, ctrlKey, altKey }) {
  const letter = NAMED_LETTERS[key] ?? (key.length === 1 ? key.charCodeAt(0) : 0);
  if (altKey && !ctrlKey) return 0;
  if (ctrlKey && /^[a-z@[\\\]^_]$/i.test(key)) return letter & 0x1f;
  return letter > 255 ? -1 : letter;
}

/** The word that the BIOS makes of a key that is pressed: scan code and letter; 0 for none. */
function wordOf(event, scan, isExtended) {
  if (SHIFTS.has(scan)) return 0;
  if ((scan >= FIRST_FUNCTION && scan <= LAST_FUNCTION) || scan === F11) return functionWord(event, scan);
  if (isExtended && scan > 0x40) {
    return (event.ctrlKey ? CONTROL_SCANS[scan] ?? scan : scan) << 8 | EXTENDED;
  }
  const letter = letterOf(event);
  return letter < 0 ? 0 : scan << 8 | letter;
}

/**
 * The bytes that a keyboard sends for a key's event, each with the BIOS' word: [[byte, word], ..];
 * none for a key that a PC has not.
 */
export function bytesOfKey(event) {
  const place = placeOfKey(event), isExtended = Object.hasOwn(EXTENDED_SCANS, place);
  const scan = isExtended ? EXTENDED_SCANS[place] : SCANS[place];
  if (!scan) return [];
  const front = isExtended ? [[EXTENDED, 0]] : [];
  if (event.type === "keyup") return [...front, [scan | RELEASED, 0]];
  return [...front, [scan, wordOf(event, scan, isExtended)]];
}

/** The keys of a keyboard on the screen, row by row: the browser's name of a key's place, and what stands on it. */
export const ROWS = [
  ["Escape Esc", ...Array.from({ length: 10 }, (_, i) => `F${i + 1} F${i + 1}`)],
  [..."1234567890"].map(digit => `Digit${digit} ${digit}`).concat("Backspace ⌫"),
  ["Tab ⇥", ...[..."qwertyuiop"].map(letter => `Key${letter.toUpperCase()} ${letter}`)],
  [..."asdfghjkl"].map(letter => `Key${letter.toUpperCase()} ${letter}`).concat("Semicolon ;", "Enter ⏎"),
  ["ShiftLeft ⇧", ...[..."zxcvbnm"].map(letter => `Key${letter.toUpperCase()} ${letter}`), "Comma ,",
    "Period .", "ArrowUp ↑"],
  ["ControlLeft Ctrl", "AltLeft Alt", "Space  ", "Slash /", "Minus -", "Equal =", "Quote '", "ArrowLeft ←",
    "ArrowDown ↓", "ArrowRight →"],
].map(row => row.map(key => [key.slice(0, key.indexOf(" ")), key.slice(key.indexOf(" ") + 1)]));
