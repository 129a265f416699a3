// Reads a script of `card_trace play` (docs/SCRIPTS.md), and writes one.
import { fromHex } from "../src/handle.js";

const TAG = /^(?![579BDF]F$)([4-9A-F][0-9A-F])$|^([579BDF]F|FF)(0[1-9A-F]|[1-7][0-9A-F])$/i;
const HEX = /^([0-9A-F]{2})+$/i;
const PUT_LIMIT = 16320;

function hexOf(word) {
    if (!HEX.test(word)) throw new Error("bad hex");
    return fromHex(word);
}

function tagOf(word) {
    if (!TAG.test(word)) throw new Error(HEX.test(word) ? "bad tag" : "bad hex");
    return parseInt(word, 16);
}

function valueOf(word) {
    if (word === "-") return new Uint8Array(0);
    const run = /^([0-9A-F]{2})\*([1-9]\d{0,4})$/i.exec(word);
    const value = run && Number(run[2]) <= 0xFFFF
        ? new Uint8Array(Number(run[2])).fill(parseInt(run[1], 16)) : hexOf(word);
    if (value.length > PUT_LIMIT) throw new Error("value too long");
    return value;
}

function stepsOf(word) {
    if (!/^(-|[noa]+)$/.test(word)) throw new Error("bad plan");
    return word === "-" ? "" : word;
}

function cutOf(word) {
    if (!/^[1-9]\d{0,2}$/.test(word) || Number(word) > 256) throw new Error("bad number");
    return Number(word);
}

/** The fields of each kind of line, in order: a name, and what reads it. */
export const LINES = {
    app: [["aid", hexOf]],
    object: [["tag", tagOf], ["value", valueOf]],
    locked: [["tag", tagOf], ["value", valueOf]],
    select: [["aid", hexOf]],
    get: [["tag", tagOf]],
    put: [["tag", tagOf], ["value", valueOf]],
    send: [["command", hexOf]],
    plan: [["steps", stepsOf], ["cut", cutOf]],
    reset: [],
    table: [],
};
/** The lines that say what the card holds. */
export const OF_CARD = ["app", "object", "locked"];

function lineOf(text) {
    const [kind, ...given] = text.split(" ").filter(Boolean);
    const fields = Object.hasOwn(LINES, kind) ? LINES[kind] : null;
    if (!fields) throw new Error("unknown word");
    if (given.length !== fields.length) throw new Error("wrong number of words");
    const values = fields.map(([name, read], at) => [name, read(given[at])]);
    return { kind, ...Object.fromEntries(values) };
}

/** Reads a script: what the card holds, and the other lines. Throws `line N: REASON`. */
export function readScript(text) {
    const [apps, steps] = [[], []];
    for (const [at, line] of text.split(/\r?\n/).entries()) {
        if (/^#|^ *$/.test(line)) continue;
        try {
            const it = { ...lineOf(line), line: at + 1 };
            if (!OF_CARD.includes(it.kind)) {
                steps.push(it);
                continue;
            }
            if (steps.length > 0) throw new Error("table line after the first run line");
            if (it.kind === "app") apps.push({ ...it, objects: [] });
            else if (apps.length === 0) throw new Error("no app");
            else apps.at(-1).objects.push(it);
        } catch (error) {
            throw new Error(`line ${at + 1}: ${error.message}`);
        }
    }
    return { apps, steps };
}
