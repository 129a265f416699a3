// The library: a module of WebAssembly and its memory. Every other file calls it by this one.
import { RECORDS } from "./header.js";
import { moduleBytes } from "./module_bytes.js";

// A module with nothing but a memory of 64 bits.
const WIDE = Uint8Array.of(0, 97, 115, 109, 1, 0, 0, 0, 5, 3, 1, 4, 1);
const is64 = WebAssembly.validate(WIDE);

/** Which module runs: `wasm64` where the engine has memories of 64 bits, else `wasm32`. */
export const kind = is64 ? "wasm64" : "wasm32";

const { instance } = await WebAssembly.instantiate(await moduleBytes(kind));

/** The module's functions. */
export const lib = instance.exports;

/** A place or a size, as the module's functions take it. */
export const size = is64 ? BigInt : (it) => it;

/** The module's memory. It moves when it grows, so nobody keeps this. */
export const memory = () => new DataView(lib.memory.buffer);

/** Reads bytes: a copy. */
export function copied(place, count) {
    return new Uint8Array(lib.memory.buffer, Number(place), count).slice();
}

/** Reads a size that a function has set. */
export function counted(place) {
    const at = Number(place);
    return is64 ? Number(memory().getBigUint64(at, true)) : memory().getUint32(at, true);
}

/** Reads a number of 1, 2, 4 or 8 bytes. */
export function numberAt(place, bytes) {
    const at = Number(place);
    if (bytes === 8) return Number(memory().getBigUint64(at, true));
    return memory()[`getUint${8 * bytes}`](at, true);
}

/** Reads text up to its 0. */
export function textAt(place) {
    const all = new Uint8Array(lib.memory.buffer, Number(place));
    return new TextDecoder().decode(all.slice(0, all.indexOf(0)));
}

const camel = (name) => name.replace(/_(\w)/g, (_, it) => it.toUpperCase());

/** Reads a record of the header: its numbers by name, and lists of bytes. */
export function recordAt(place, name) {
    const found = {};
    for (const [field, [at, bytes, count]] of Object.entries(RECORDS[name].fields)) {
        const there = Number(place) + at;
        if (count > 1) found[camel(field)] = copied(there, count);
        else if (field === "t1") found.t1 = recordAt(there, "gt_atr_t1");
        else found[camel(field)] = numberAt(there, bytes);
    }
    return found;
}
