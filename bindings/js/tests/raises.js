// What tests expect of an error.
import assert from "node:assert/strict";
import { GalliumtoadError } from "../src/index.js";

function isIt(error, kind, codeName, place) {
    assert.equal(error.constructor, kind);
    assert.ok(error instanceof GalliumtoadError && error instanceof Error);
    assert.deepEqual([error.name, error.codeName, error.place], [kind.name, codeName, place]);
    assert.equal(error.message.endsWith(` at byte ${place}`), place !== null);
    return true;
}

/** Expects an error of exactly this kind, with the header's name and this place. */
export function raises(call, kind, codeName, place = null) {
    assert.throws(call, (error) => isIt(error, kind, codeName, place));
}

/** The same of a promise. */
export function rejects(promise, kind, codeName, place = null) {
    return assert.rejects(promise, (error) => isIt(error, kind, codeName, place));
}
