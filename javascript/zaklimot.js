// Zaklimot: a VGA display adapter with its video BIOS. README.md is the guide, and zaklimot.d.ts tells
// what each call does.
//
// SPDX-License-Identifier: MIT
export { Card } from "./src/card.js";
export { Library } from "./src/library.js";
export { load } from "./loading.js";
export { Closed, OutOfMemory, Refusal, ScriptError, StateError, ZaklimotError } from "./src/errors.js";
export * from "./src/statuses.js";
export { STRUCTS, fieldReader, placeInStruct, readStruct, sizeOfStruct, writeStruct } from "./src/structs.js";
