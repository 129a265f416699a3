// Tests that codes and texts are those of the header for C, and that the types name what is there.
import assert from "node:assert/strict";
import { readFileSync } from "node:fs";
import test from "node:test";
import { checked } from "../src/errors.js";
import { GT } from "../src/header.js";
import * as gt from "../src/index.js";

const read = (path) => readFileSync(new URL(path, import.meta.url), "utf8");
const HEADER = read("../../c/include/galliumtoad.h");
const TYPES = read("../src/index.d.ts");

test("each code has its kind, its name and its text", () => {
    const kinds = [gt.CallError, gt.CallError, gt.BuildError, gt.LineError, gt.ObjectsError,
        gt.CommandError, gt.TransportError, gt.AtrError, gt.PpsError, gt.BlockError];
    const texts = [...HEADER.matchAll(/case GT_(\w+): return "(.*)";/g)];
    const faults = texts.filter(([, name]) => GT[name] < 0);
    assert.ok(faults.length >= 50);
    assert.deepEqual(new Set(faults.map(([, name]) => name)), new Set(Object.keys(gt.Code)));
    for (const [, name, text] of faults) {
        const code = gt.Code[name];
        assert.equal(Number(HEADER.match(new RegExp(`GT_${name} = (-\\d+)`))[1]), code);
        const kind = name === "MEMORY" ? gt.OutOfMemory : kinds[Math.floor(-code / 10)];
        assert.throws(() => checked(code), (error) => error.constructor === kind
            && error.codeName === `GT_${name}` && error.message === text && error.code === code);
        assert.equal(checked(code, [code]), code);
    }
    assert.deepEqual([checked(0), checked(4)], [0, 4]);
});

test("constants", () => {
    assert.deepEqual(gt.Outcome, { NOT_CARRIED_OUT: 0, UNKNOWN: 1, IN_PART: 2 });
    assert.deepEqual(gt.Edc, { RESERVED: 0, LRC: 1, CRC: 2 });
    assert.deepEqual(gt.version.split("."), ["MAJOR", "MINOR", "PATCH"].map((it) =>
        HEADER.match(new RegExp(`#define GT_VERSION_${it} (\\d+)`))[1]));
    assert.equal(JSON.parse(read("../package.json")).version, gt.version);
});

/** The names that a class of the types has, its own and those of what it extends. */
function typed(name) {
    const [, base, body] = TYPES.match(new RegExp(
        `class ${name}(?: extends (\\w+))? \\{([^]*?)\\n?\\}\\n`));
    const own = [...body.matchAll(/^ {4}(?:readonly |get )?(\w+)\??[(:]/gm)].map((it) => it[1]);
    return [...own, ...(base && base !== "Error" ? typed(base) : [])];
}

/** Those of a class that have no underscore. */
function real(kind) {
    const found = [];
    for (let it = kind.prototype; it && ![Object, Error].includes(it.constructor);
        it = Object.getPrototypeOf(it)) {
        found.push(...Object.getOwnPropertyNames(it).filter((name) => !name.startsWith("_")));
    }
    return found;
}

test("the types name what there is", () => {
    const exported = [...TYPES.matchAll(/^export (?:class|const|function) (\w+)/gm)];
    assert.deepEqual(exported.map((it) => it[1]).sort(), Object.keys(gt).sort());
    const made = { Atr: [gt.fromHex("3B02144E")], Pps: [0], Answer: [0, new Uint8Array(0)],
        Select: [1], Get: [1], Put: [1, 2], Send: [1], Refused: [1], Card: [[]], Terminal: [],
        T1: [() => null], OwnCard: [{ takesData() {}, carryOut() {} }] };
    const errors = Object.keys(gt).filter((it) => gt[it].prototype instanceof gt.GalliumtoadError);
    for (const name of ["GalliumtoadError", ...errors]) made[name] = [-1];
    for (const [name, words] of Object.entries(made)) {
        const it = new gt[name](...words);
        const own = Object.keys(it).filter((field) => !field.startsWith("_") && field !== "name");
        assert.deepEqual(new Set(typed(name)), new Set([...real(gt[name]), ...own]), name);
    }
    assert.deepEqual(Object.keys(made).sort(), Object.keys(gt).filter((it) =>
        /^class/.test(String(gt[it]))).sort());
});
