// Tests the dialogues of play.html: they are those of `card_trace play`, in examples, and of
// `gt_serial` at T=1.
import assert from "node:assert/strict";
import { readFileSync, readdirSync } from "node:fs";
import test from "node:test";
import { play, textOf } from "../page/play.js";
import { readScript } from "../page/script.js";
import * as gt from "../src/index.js";

const { fromHex, toHex } = gt;
const BOOK = new URL("../../../examples/", import.meta.url);
const read = (name) => readFileSync(new URL(name, BOOK), "utf8");

function scripts(folder = "") {
    return readdirSync(new URL(folder, BOOK), { withFileTypes: true }).flatMap((it) => {
        if (it.isDirectory()) return scripts(`${folder}${it.name}/`);
        return it.name.endsWith(".play") ? [`${folder}${it.name}`] : [];
    });
}

const answers = (text) => text.split("\n").filter((it) => it.startsWith("= "));
const NAMES = scripts();

test("the book has scripts", () => assert.ok(NAMES.length >= 30));

for (const name of NAMES) {
    test(`${name} at T=0`, async () => {
        const events = await play(readScript(read(name)));
        assert.equal(textOf(events), read(name.replace(".play", ".out")));
        for (const it of events.filter(({ kind }) => kind === "bytes")) {
            assert.equal(it.parts.map(({ bytes }) => toHex(bytes)).join(""), toHex(it.bytes));
            assert.ok(it.parts.every(({ words }) => words.length > 1));
            assert.ok(!it.parts.some(({ words }) => /out of turn|no procedure/.test(words)));
        }
    });
}

test("operations get the same answers at T=1", async () => {
    // RULES: an operation has the same commands as over TPDUs
    const names = NAMES.filter((it) => !/^send /m.test(read(it)));
    assert.ok(names.length >= 10);
    for (const name of names) {
        const text = textOf(await play(readScript(read(name)), { protocol: 1 }));
        assert.deepEqual(answers(text), answers(read(name.replace(".play", ".out"))), name);
    }
});

/** The blocks and answers of a dialogue of examples/blocks, after the answer to reset. */
function blocks(name) {
    const lines = read(`blocks/${name}.talk`).split("\n").filter((it) => /^[<>=] /.test(it));
    return lines.slice(1).map((it) => it.replace(/ {2}.*/, ""));
}

const CARD = "app A0000000031010\nobject 5F20 4A4F45\n";
const SELECT = "select A0000000031010\n";

/** Plays at T=1, and returns lines as `blocks` does: what arrives at the terminal. */
async function atT1(steps, faults, more = {}) {
    const script = readScript(CARD + SELECT + steps);
    const events = await play(script, { protocol: 1, faults: new Map(faults), ...more });
    return events.filter((it) => ["bytes", "answer", "fault"].includes(it.kind)).map((it) => {
        const isChanged = it.kind === "bytes" && it.from === "card";
        return textOf([isChanged ? { ...it, bytes: it.arrived } : it]).trim();
    });
}

/** The dialogue with its answers last, as those files have it. */
function ordered(lines) {
    return [...lines.filter((it) => !it.startsWith("=")), ...lines.filter((it) => it[0] === "=")];
}

test("blocks at T=1", async () => {
    assert.deepEqual(ordered(await atT1("get 5F20", [])), blocks("fine"));
});

test("a damaged block", async () => {
    assert.deepEqual(await atT1("", [[3, { at: 4, change: 0x76 }]]), blocks("damaged"));
});

test("what blocks mean", async () => {
    const faults = new Map([[2, {}]]);
    const events = await play(readScript(CARD + SELECT), { protocol: 1, faults });
    const pcbs = events.filter((it) => it.kind === "bytes").map((it) => it.parts[1].words);
    assert.deepEqual(pcbs, ["S(IFS request)", "S(IFS response)", "I-block, number 0",
        "R-block, awaits number 0: wrong check or parity", "I-block, number 0",
        "I-block, number 0"]);
});

test("a lost block", async () => {
    assert.deepEqual(await atT1("", [[2, { isLost: true }]]), blocks("lost"));
});

test("the terminal gives up, and goes on after a reset", async () => {
    const lost = [2, 3, 4, 5, 6].map((it) => [it, { isLost: true }]);
    const lines = await atT1("get 5F20", lost);
    assert.deepEqual(lines.slice(0, 7), blocks("given_up_unknown"));
    assert.equal(lines[7],
        "! too many tries without progress: the card may have carried the command out.");
    // the card was reset, so nothing is selected: 6985
    assert.equal(lines.at(-1), "= 6985");
});

test("a card that asks for more time", async () => {
    let asked = 0;
    const application = {
        takesData: () => true,
        moreTime: () => (asked++ === 0 ? 2 : 0),
        carryOut: () => [0x9000, fromHex("6F098407A0000000031010")],
    };
    assert.deepEqual(await atT1("", [], { application }), blocks("more_time"));
});

/** The words of a dialogue at T=0 with faults on the line. */
async function words(steps, faults) {
    const events = await play(readScript(CARD + steps), { faults: new Map(faults) });
    return textOf(events).trim().split("\n");
}

test("lost and changed characters at T=0", async () => {
    // a lost header: nobody sends; a changed procedure byte: no dialogue continues with it
    assert.deepEqual(await words(SELECT, [[0, { isLost: true }]]), ["> 00A4040007",
        "! Both ends wait."]);
    assert.deepEqual(await words(SELECT, [[1, {}]]), ["> 00A4040007", "< A4",
        "! bad procedure byte at byte 0. The terminal reads no further."]);
    // 00A4 becomes 00A5: 6D00, and then a dialogue without a fault
    assert.deepEqual((await words(`${SELECT}${SELECT}`, [[0, { at: 1 }]])).slice(0, 4),
        ["> 00A4040007", "< 6D00", "= 6D00", "> 00A4040007"]);
});

test("a card of one's own", async () => {
    const application = {
        count: 0,
        takesData: () => false,
        carryOut({ header }) {
            return toHex(header) === "80100000" ? [0x9000, Uint8Array.of(++this.count)] : [0x6D00];
        },
    };
    const script = readScript("send 8010000001\nsend 8010000001\nreset\ntable\nselect A000000003");
    for (const [protocol, last] of [[0, "= 6D00"], [1, "= 6700"]]) {
        application.count = 0;
        const found = answers(textOf(await play(script, { application, protocol })));
        assert.deepEqual(found, ["= 9000 01", "= 9000 02", last]);
    }
    const failing = { takesData: () => false, carryOut() { throw new Error("my fault"); } };
    const text = textOf(await play(readScript("send 8010000001"), { application: failing }));
    assert.match(text, /! my fault\.\n$/);
});

test("scripts that are refused", () => {
    for (const [text, reason] of [
        ["get", "line 1: wrong number of words"],
        ["app A0000000031010\n\n# a\nput 5F20 4", "line 4: bad hex"],
        ["hasOwnProperty 1", "line 1: unknown word"],
        ...["5F", "FF", "3F", "40FF", "5F80", "5F00"].map((it) => [`get ${it}`, "line 1: bad tag"]),
        ["get 0", "line 1: bad hex"], ["plan x 1", "line 1: bad plan"],
        ["plan - 257", "line 1: bad number"], ["plan - 0", "line 1: bad number"],
        ["put 50 AA*0", "line 1: bad hex"], ["put 50 AA*65536", "line 1: bad hex"],
        ["put 50 AA*16321", "line 1: value too long"],
        ["object 50 -", "line 1: no app"],
        ["app A0000000031010\nreset\nobject 50 -", "line 3: table line after the first run line"],
    ]) {
        assert.throws(() => readScript(text), (error) => error.message === reason, text);
    }
    const { steps } = readScript("put ff01 AA*16320\r\nget FE\n  plan  noa  256");
    assert.deepEqual([steps[0].tag, steps[0].value.length, steps[1].tag, steps[2].steps,
        steps[2].cut], [0xFF01, 16320, 0xFE, "noa", 256]);
});
