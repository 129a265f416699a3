// Both ends of a smart card dialogue, over a proved library: what a program imports.
import { GT } from "./header.js";

export { Answer, Atr, Edc, Pps, Refused, find, head, objects, words } from "./answers.js";
export { Card } from "./card.js";
export {
    AtrError, BlockError, BuildError, CallError, Code, CommandError, GalliumtoadError, LineError,
    ObjectsError, OutOfMemory, Outcome, PpsError, TransportError,
} from "./errors.js";
export { fromHex, toHex } from "./handle.js";
export { kind } from "./library.js";
export { OwnCard } from "./own_card.js";
export { Get, Level, Put, Select, Send, T1, Terminal } from "./terminal.js";

/** The version: that of the header for C. */
export const version = [GT.VERSION_MAJOR, GT.VERSION_MINOR, GT.VERSION_PATCH].join(".");
