// Tests cards of data objects, and of an application of one's own. Answers are by docs/RULES.md.
import assert from "node:assert/strict";
import test from "node:test";
import * as gt from "../src/index.js";
import { raises } from "./raises.js";

const { Card, OwnCard, fromHex, toHex } = gt;
const AID = fromHex("A0000000031010");
const OTHER = fromHex("A0000000041010");
const JOE = fromHex("4A4F45");

function talked(card, digits) {
    // Passes a TPDU by characters, as a terminal at T=0 does. Returns data, SW1 and SW2.
    const tpdu = fromHex(digits.length > 8 ? digits : `${digits}00`);
    assert.equal(card.receiveBytes(tpdu.slice(0, 5)), 5);
    let [left, asked] = [tpdu.slice(5), tpdu[4] || 256];
    const answer = [];
    for (;;) {
        const [byte] = card.sendBytes(1);
        if (byte !== tpdu[1] && byte !== (tpdu[1] ^ 0xFF)) {
            return toHex(Uint8Array.of(...answer, byte, ...card.sendBytes(1)));
        }
        const count = byte === tpdu[1] ? left.length || asked : 1;
        if (left.length > 0) {
            assert.equal(card.receiveBytes(left.slice(0, count)), count);
            left = left.slice(count);
        } else {
            answer.push(...card.sendBytes(count));
            asked -= count;
        }
    }
}

test("what a card holds", () => {
    const card = new Card(new Map([[AID, new Map([[0x5F20, JOE], [0x50, new Uint8Array(600)]])],
        [OTHER, []]]), { locked: new Set([[AID, 0x50]]) });
    assert.deepEqual(card.applications, [AID, OTHER]);
    assert.equal(card.selected, null);
    assert.deepEqual(card.entries(AID), [{ tag: 0x5F20, value: JOE, isLocked: false },
        { tag: 0x50, value: new Uint8Array(600), isLocked: true }]);
    assert.deepEqual(card.entries(OTHER), []);
    assert.throws(() => card.entries(new Uint8Array(5)), RangeError);
    assert.equal(toHex(card.tpdu(fromHex("00A4040007A0000000031010"))), "610B");
    assert.deepEqual(card.selected, AID);
    assert.equal(toHex(card.tpdu(fromHex("00DA00500101"))), "6982");
    card.reset();
    assert.equal(card.selected, null);
});

test("tables that no card can have", () => {
    const build = (values, ...more) => new Card([[AID, values], ...more]);
    raises(() => build([], [AID, []]), gt.BuildError, "GT_APP_TWICE");
    raises(() => build([[0x50, new Uint8Array(8193)]]), gt.BuildError, "GT_VALUE_TOO_LONG");
    raises(() => build([[0x70, JOE]]), gt.BuildError, "GT_NOT_OBJECTS");
    raises(() => build([[0x5F, JOE]]), gt.CallError, "GT_ARGUMENT");
    raises(() => new Card([[new Uint8Array(4), []]]), gt.CallError, "GT_ARGUMENT");
    const many = Array.from({ length: 9 }, (_, at) => [Uint8Array.of(1, 2, 3, 4, at), []]);
    raises(() => new Card(many), gt.BuildError, "GT_TOO_MANY_APPS");
    assert.equal(new Card(many.slice(1)).applications.length, 8);
    const tags = Array.from({ length: 65 }, (_, at) => [0x9F01 + at, JOE]);
    raises(() => build(tags), gt.BuildError, "GT_TABLE_FULL");
    for (const wrong of [5, null, [[AID, 5]], [[AID, [[0x50, "JOE"]]]], [["A0", []]]]) {
        assert.throws(() => new Card(wrong), TypeError);
    }
    assert.throws(() => build([["50", JOE]]), TypeError);
    assert.throws(() => build([], { locked: 5 }), TypeError);
});

test("a card by characters, with plans", () => {
    const card = new Card([[AID, [[0x5F20, JOE]]]]);
    assert.equal(talked(card, "00A4040007A0000000031010"), "610B");
    assert.equal(talked(card, "00CA5F2000"), "6C06");
    card.plan("noa");
    // RULES, plans: a NULL, one byte after INS xor FF, all that are left after INS
    card.receiveBytes(fromHex("00CA5F2006"));
    assert.equal(toHex(card.sendBytes()), "60355FCA20034A4F459000");
    card.plan("", 5);
    assert.equal(talked(card, "00A4040007A0000000031010"), "6105");
    assert.equal(card.receiveBytes(fromHex("00C000000BFFFF")), 5);
    assert.equal(card.sendBytes(0).length, 0);
    assert.equal(toHex(card.sendBytes(3)), "C06F09");
    assert.throws(() => card.plan("o\0n"), RangeError);
    assert.throws(() => card.plan("ö"), RangeError);
    raises(() => card.plan("o0n"), gt.CallError, "GT_ARGUMENT");
    raises(() => card.plan("", 257), gt.CallError, "GT_ARGUMENT");
    raises(() => card.plan("", 0), gt.CallError, "GT_ARGUMENT");
    raises(() => card.tpdu(fromHex("00CA5F2000")), gt.CallError, "GT_STATE");
    card.reset();
    raises(() => card.tpdu(fromHex("00CA5F")), gt.TransportError, "GT_NO_TPDU");
});

test("whole commands, and blocks of T=1", () => {
    const card = new Card([[AID, [[0x5F20, JOE]]]]);
    assert.equal(toHex(card.apdu(fromHex("00A4040007A000000003101000"))),
        "6F098407A00000000310109000");
    assert.equal(toHex(card.apdu(fromHex("00CA5F2004"))), "5F20034A6102");
    assert.equal(toHex(card.apdu(fromHex("00CA5F20"))), "6700");
    raises(() => card.apdu(fromHex("00CA5F")), gt.CommandError, "GT_TOO_SHORT");
    raises(() => card.block(new Uint8Array(0)), gt.CallError, "GT_STATE");
    card.beginT1();
    raises(() => card.beginT1(), gt.CallError, "GT_STATE");
    // examples/blocks/fine.talk
    assert.equal(toHex(card.block(fromHex("00C101FE3E"))), "00E101FE1E");
    assert.equal(toHex(card.block(fromHex("00000500CA5F2000B0"))), "0000085F20034A4F459000A4");
    // no block, and one that stops: error 2 (RULES, blocks)
    assert.equal(toHex(card.block(new Uint8Array(0))), "00920092");
    assert.equal(toHex(card.block(fromHex("0000"))), "00920092");
    assert.equal(toHex(card.block(fromHex("00000500CA5F2000B1"))), "00910091");
});

/** INS A4, D6 and 20 take data. P1-P2 is the number of bytes of a response of A4, B0 and B2. */
class Probe {
    log = [];
    multiple = 0;
    fault = null;
    answer = null;

    note(...words) {
        this.log.push(words.join(" "));
        if (this.fault === words[0]) throw new Error(words[0]);
    }

    takesData(header) {
        if (this.fault === "header") throw new Error("header");
        return [0xA4, 0xD6, 0x20].includes(header[1]);
    }

    moreTime({ header, data, le }) {
        if (this.multiple > 0) {
            this.note("waits", toHex(header), toHex(data), le, this.multiple);
            return this.multiple--;
        }
        return 0;
    }

    carryOut({ header, data, le }) {
        this.note("did", toHex(header), toHex(data), le);
        const [, ins, p1, p2] = header;
        const statuses = { 0xB0: 0x9000, 0xA4: 0x9000, 0xD6: 0x9000, 0xB2: 0x6283, 0x20: 0x63C2 };
        const some = [0xB0, 0xB2, 0xA4].includes(ins) ? p1 * 256 + p2 : 0;
        return this.answer ?? [statuses[ins] ?? 0x6D00, made(some)];
    }

    settle() {
        this.note("settled");
    }

    reset() {
        this.note("reset");
    }

    seen() {
        return this.log.splice(0);
    }
}

const made = (count) => Uint8Array.from({ length: count }, (_, at) => at * 7 + (at >> 8) + 3);
const digits = (count) => toHex(made(count));

test("a card of one's own over T=0", () => {
    const probe = new Probe();
    const card = new OwnCard(probe);
    for (const [sent, answer, seen] of [
        ["00B0000505", `${digits(5)}9000`, ["did 00B00005  5", "settled"]],
        ["00B0000500", "6C05", ["did 00B00005  256", "settled"]],
        ["00B0000505", `${digits(5)}9000`, []],
        ["80B2000503", `${digits(3)}6102`, ["did 80B20005  3", "settled"]],
        ["00C0000002", `${digits(5).slice(6)}6283`, []],
        ["00A4001003414243", "6110", ["did 00A40010 414243 0", "settled"]],
        ["00C0000010", `${digits(16)}9000`, []],
        ["00200001020102", "63C2", ["did 00200001 0102 0", "settled"]],
        ["0060000002", "6D00", []],
    ]) {
        assert.equal(talked(card, sent), answer);
        assert.deepEqual([card.sendBytes().length, probe.seen()], [0, seen]);
        card.reset();
        probe.seen();
        if (answer !== "6C05" && !answer.endsWith("6102") && answer !== "6110") continue;
        assert.equal(talked(card, sent), answer);
        probe.seen();
    }
});

test("a card of one's own by whole TPDUs and commands", () => {
    const probe = new Probe();
    const card = new OwnCard(probe);
    assert.equal(toHex(card.tpdu(fromHex("00A4001003414243"))), "6110");
    assert.deepEqual(probe.seen(), ["did 00A40010 414243 0", "settled"]);
    for (const [sent, answer, seen] of [
        ["00B0000500", `${digits(5)}9000`, ["did 00B00005  256", "settled"]],
        ["80B2000503", `${digits(3)}6102`, ["did 80B20005  3", "settled"]],
        ["00C0000000", `${digits(5).slice(6)}6283`, []],
        ["00A400100341424300", `${digits(16)}9000`, ["did 00A40010 414243 0", "settled"]],
        ["00B000050141", "6700", []],
        ["00B0100000", `${digits(256)}6100`, ["did 00B01000  256", "settled"]],
    ]) {
        assert.equal(toHex(card.apdu(fromHex(sent))), answer);
        assert.deepEqual(probe.seen(), seen);
    }
    raises(() => card.apdu(fromHex("0060000000")), gt.CommandError, "GT_INVALID_INS");
    probe.seen();
    raises(() => card.tpdu(fromHex("00D6000005")), gt.TransportError, "GT_WANTS_DATA");
    assert.deepEqual(probe.seen(), ["reset"]);
});

test("more time", () => {
    const probe = new Probe();
    const card = new OwnCard(probe);
    probe.multiple = 2;
    card.receiveBytes(fromHex("00D6000001"));
    assert.equal(toHex(card.sendBytes()), "D6");
    card.receiveBytes(fromHex("41"));
    assert.deepEqual([0, 0, 0].map(() => toHex(card.sendBytes())), ["60", "60", "9000"]);
    assert.deepEqual(probe.seen(), ["waits 00D60000 41 0 2", "waits 00D60000 41 0 1",
        "did 00D60000 41 0", "settled"]);
    card.beginT1();
    probe.multiple = 3;
    // I(0,0); S(WTX request) of 3, S(WTX response), and again for 2 and 1
    assert.equal(toHex(card.block(fromHex("00000600D60000014190"))), "00C30103C1");
    assert.equal(toHex(card.block(fromHex("00E30103E1"))), "00C30102C0");
    assert.equal(toHex(card.block(fromHex("00E30102E0"))), "00C30101C3");
    assert.equal(toHex(card.block(fromHex("00E30101E3"))), "000002900092");
    assert.equal(probe.seen().at(-1), "settled");
});

test("no more time for what came whole", () => {
    for (const way of ["tpdu", "apdu"]) {
        const probe = new Probe();
        probe.multiple = 2;
        assert.equal(toHex(new OwnCard(probe)[way](fromHex("00D600000141"))), "9000");
        assert.deepEqual(probe.seen(), ["did 00D60000 41 0", "settled"]);
    }
});

test("what an application throws resets the card", () => {
    const probe = new Probe();
    const card = new OwnCard(probe);
    const count = fromHex("00B0000505");
    for (const fault of ["header", "did", "settled"]) {
        probe.fault = fault;
        assert.throws(() => card.apdu(count), new RegExp(fault));
        assert.equal(probe.seen().at(-1), "reset");
        probe.fault = null;
        assert.equal(toHex(card.apdu(count)), `${digits(5)}9000`);
        probe.seen();
    }
    for (const [answer, kind] of [[[0x6105], gt.CallError], [[0x9000, new Uint8Array(4097)],
        gt.CallError], [[0x10000], RangeError], [["9000"], TypeError], [[0x9000, "A"], TypeError],
    [5, TypeError], [Promise.resolve([0x9000]), TypeError]]) {
        probe.answer = answer;
        assert.throws(() => card.apdu(count), kind);
        assert.deepEqual(probe.seen(), ["did 00B00005  5", "reset"]);
    }
    probe.answer = null;
    assert.equal(toHex(card.apdu(count)), `${digits(5)}9000`);
});

test("an application that calls its card", () => {
    const carryOut = () => [0x9000, card.sendBytes()];
    const card = new OwnCard({ takesData: () => false, carryOut });
    assert.throws(() => card.apdu(fromHex("00B0000505")), /another call of this handle/);
    for (const wrong of [null, {}, { takesData: () => false }, { carryOut: () => [0x9000] }]) {
        assert.throws(() => new OwnCard(wrong), TypeError);
    }
});
