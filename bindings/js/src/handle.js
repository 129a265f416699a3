// What calls take and return, and handles of the library, which are freed.
import { checked } from "./errors.js";
import { GT } from "./header.js";
import { copied, counted, lib, size } from "./library.js";

// What a list of bytes is, whatever its class says of itself.
const TYPED = Object.getPrototypeOf(Uint8Array.prototype);
const typeOf = Object.getOwnPropertyDescriptor(TYPED, Symbol.toStringTag).get;

/** Copies a Uint8Array, which a Buffer is too. Throws `TypeError` for anything else. */
export function plain(data) {
    if (typeOf.call(data) !== "Uint8Array") throw new TypeError("bytes are a Uint8Array");
    return new Uint8Array(data);
}

/** Returns an integer from `least` to `most`. Throws `TypeError` or `RangeError`. */
export function within(value, least, most, what) {
    if (!Number.isInteger(value)) throw new TypeError(`${what} is no integer`);
    if (value < least || value > most) {
        throw new RangeError(`${what} is ${value}, not from ${least} to ${most}`);
    }
    return value;
}

/** Returns a tag: the number of its one to three bytes. */
export const tagNumber = (tag) => within(tag, 0, 0xFFFFFF, "a tag");

/** Returns the bytes that pairs of hexadecimal digits spell. Spaces between bytes are skipped. */
export function fromHex(digits) {
    if (typeof digits !== "string") throw new TypeError("digits are a string");
    const pairs = digits.match(/[0-9A-Fa-f]{2}|\S/g) ?? [];
    if (pairs.some((it) => it.length < 2)) throw new RangeError("no pairs of hex digits");
    return Uint8Array.from(pairs, (it) => parseInt(it, 16));
}

/** Returns the digits of bytes, in upper case. */
export function toHex(bytes) {
    const digits = Array.from(plain(bytes), (it) => it.toString(16).padStart(2, "0"));
    return digits.join("").toUpperCase();
}

/** The memory that one call reads and writes. It is wiped and freed when the call ends. */
class Places {
    constructor() {
        this.all = [];
    }

    /** Returns a place of this many bytes. */
    room(bytes) {
        const place = lib.js_take(size(Math.max(bytes, 1)));
        if (!place) checked(GT.MEMORY);
        this.all.push(place);
        return place;
    }

    /** Returns a place and a size for a call: a copy of the data. */
    bytes(data) {
        const kept = plain(data);
        const place = this.room(kept.length);
        new Uint8Array(lib.memory.buffer, Number(place), kept.length).set(kept);
        kept.fill(0);
        return [place, size(kept.length)];
    }

    free() {
        for (const place of this.all) lib.js_give(place);
    }
}

/** Calls `use` with memory, and frees that. */
export function withPlaces(use) {
    const places = new Places();
    try {
        return use(places);
    } finally {
        places.free();
    }
}

// Frees the handles that nobody closes. It runs between calls, never in one.
const LEFT = new FinalizationRegistry(([free, place]) => {
    free(place);
    lib.js_give(place);
});

/** An object over a handle of the library. `close` or the collector frees it. */
export class Handle {
    /** `free` frees the handle. Each of `starts` makes it, with the handle's place and memory. */
    constructor(free, starts) {
        const place = lib.js_take(size(16));
        if (!place) checked(GT.MEMORY);
        this._place = place;
        this._isBusy = false;
        LEFT.register(this, [free, place]);
        this._free = free;
        try {
            for (const start of starts) withPlaces((places) => checked(start(place, places)));
        } catch (error) {
            free(place);
            throw error;
        }
    }

    /** Throws if another call of this handle is in progress. */
    _alone() {
        if (this._isBusy) throw new Error("another call of this handle is in progress");
    }

    /** Calls a function of the library with the handle and these words. */
    _call(call, words = [], but = [], place = null) {
        this._alone();
        return checked(call(this._place, ...words), but, place);
    }

    /** Returns what a function writes to a room, and counts. */
    _copied(call, room, before = () => []) {
        return withPlaces((places) => {
            const made = places.room(room);
            const count = places.room(8);
            this._call(call, [...before(places), made, size(room), count]);
            return copied(made, counted(count));
        });
    }

    /** Passes characters on, and returns the number that was taken. */
    _received(call, data, but) {
        return withPlaces((places) => {
            const taken = places.room(8);
            this._call(call, [...places.bytes(data), taken], but, () => counted(taken));
            return counted(taken);
        });
    }

    /** Wipes and frees what the handle holds. A second call does nothing. */
    close() {
        this._alone();
        this._free(this._place);
    }
}

if (Symbol.dispose) Handle.prototype[Symbol.dispose] = Handle.prototype.close;
