// The errors that calls of the library throw: one class for each kind of code.
import { GT } from "./header.js";
import { lib, textAt } from "./library.js";

const FAULTS = Object.entries(GT).filter(([, it]) => it < 0);
const NAMES = new Map(FAULTS.map(([name, it]) => [it, name]));

/** Why a call failed: the codes of galliumtoad.h below 0, without GT_. */
export const Code = Object.freeze(Object.fromEntries(FAULTS));

/** What is known of a command at which an end at T=1 gave up. */
export const Outcome = Object.freeze({
    NOT_CARRIED_OUT: GT.NOT_CARRIED_OUT, UNKNOWN: GT.UNKNOWN, IN_PART: GT.IN_PART,
});

/** The library refused a call, or could not end it. */
export class GalliumtoadError extends Error {
    constructor(code, place = null) {
        const text = textAt(lib.gt_text(code));
        super(place === null ? text : `${text} at byte ${place}`);
        this.name = new.target.name;
        this.code = code;
        this.codeName = `GT_${NAMES.get(code)}`;
        this.place = place;
    }
}

/** The state or the arguments do not fit the call, or memory ran out. Nothing has changed. */
export class CallError extends GalliumtoadError {}

/** Memory ran out. */
export class OutOfMemory extends CallError {}

/** A card can't have these tables. */
export class BuildError extends GalliumtoadError {}

/** A received character or answer does not fit. */
export class LineError extends GalliumtoadError {}

/** The bytes are not a list of data objects. */
export class ObjectsError extends GalliumtoadError {}

/** The bytes are not a command. */
export class CommandError extends GalliumtoadError {}

/** A whole TPDU, or the answer to a TPDU or command, does not fit. */
export class TransportError extends GalliumtoadError {}

/** The bytes are not an answer to reset. */
export class AtrError extends GalliumtoadError {}

/** The bytes are not a PPS response. */
export class PpsError extends GalliumtoadError {}

/** A terminal's end at T=1 gave up. */
export class BlockError extends GalliumtoadError {
    constructor(code, outcome = Outcome.UNKNOWN) {
        super(code);
        this.outcome = outcome;
    }
}

// The header numbers its codes by kind, ten for each; CallError has twenty.
const KINDS = [CallError, CallError, BuildError, LineError, ObjectsError, CommandError,
    TransportError, AtrError, PpsError, BlockError];
const WITH_PLACE = [LineError, ObjectsError, AtrError];

/**
 * Returns a code of 0 or above, or one in `but`. Throws every other, with the place that `place`
 * returns.
 */
export function checked(code, but = [], place = null) {
    if (code >= 0 || but.includes(code)) return code;
    const Kind = code === GT.MEMORY ? OutOfMemory : KINDS[Math.trunc(-code / 10)];
    throw WITH_PLACE.includes(Kind) && place ? new Kind(code, place()) : new Kind(code);
}
