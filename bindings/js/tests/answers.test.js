// Tests data objects, answers to reset, PPS, statuses and answers. Expected values are those of the
// standards and of docs/RULES.md.
import assert from "node:assert/strict";
import test from "node:test";
import * as gt from "../src/index.js";
import { raises } from "./raises.js";

const { fromHex, toHex } = gt;

test("objects and their faults", () => {
    raises(() => gt.objects(fromHex("5F2003414E")), gt.ObjectsError, "GT_VALUE_CUT", 0);
    raises(() => gt.find(fromHex("500141005F"), 0x84), gt.ObjectsError, "GT_TAG_CUT", 4);
    assert.equal(gt.find(new Uint8Array(0), 0x84), null);
    assert.deepEqual(gt.objects(new Uint8Array(0)), []);
    raises(() => gt.find(new Uint8Array(0), 0x5F), gt.CallError, "GT_ARGUMENT");
    raises(() => gt.head(0x5F, 1), gt.CallError, "GT_ARGUMENT");
    const long = new Uint8Array(70_001);
    long[70_000] = 0x5F;
    raises(() => gt.objects(long), gt.ObjectsError, "GT_TAG_CUT", 70_000);
});

test("the deepest level is 16", () => {
    let list = fromHex("5000");
    for (let level = 1; level < 16; level++) list = Uint8Array.of(0x70, list.length, ...list);
    assert.deepEqual(gt.objects(list).map((it) => it.level), [...Array(16).keys()].map((it) =>
        it + 1));
    raises(() => gt.objects(Uint8Array.of(0x70, list.length, ...list)), gt.ObjectsError,
        "GT_TOO_DEEP", 32);
});

test("the fields of an object", () => {
    const data = fromHex("006F0584034A4F45");
    const [outer, inner, last] = gt.objects(Uint8Array.of(...data, ...fromHex("5001AA")));
    assert.deepEqual([toHex(last.encoded), toHex(last.value)], ["5001AA", "AA"]);
    assert.deepEqual([outer.tag, outer.level, outer.isConstructed, outer.place],
        [0x6F, 1, true, 1]);
    assert.deepEqual([outer.encoded, outer.value], [data.slice(1), data.slice(3)]);
    assert.deepEqual([inner.tag, inner.level, inner.isConstructed, inner.place],
        [0x84, 2, false, 3]);
    assert.deepEqual([inner.encoded, toHex(inner.value)], [data.slice(3), "4A4F45"]);
    assert.deepEqual(gt.find(Uint8Array.of(...data, 0), 0x6F, 0x84), inner);
    assert.equal(gt.find(data, 0x84), null);
    assert.equal(gt.find(data), null);
});

test("how an object begins", () => {
    assert.equal(toHex(gt.head(0x5F20, 200)), "5F2081C8");
    assert.equal(toHex(gt.head(0xFF8101, 0xFFFF)), "FF810182FFFF");
});

test("digits", () => {
    assert.deepEqual(fromHex("00 fFa0"), Uint8Array.of(0, 255, 160));
    assert.equal(toHex(Uint8Array.of(0, 255, 160)), "00FFA0");
    for (const wrong of ["0", "0G", "0 0", "0x00", "-1"]) {
        assert.throws(() => fromHex(wrong), RangeError);
    }
    assert.throws(() => fromHex(Uint8Array.of(0)), TypeError);
});

test("what statuses mean", () => {
    assert.equal(gt.words(0x9001), "no known meaning");
    assert.equal(gt.words(0x63C2), "a warning: a counter is at 2");
    assert.equal(gt.words(0x63C2, 0x7F, 0x20), "a warning: 2 tries are left");
    assert.equal(gt.words(0x63C2, 0x20, 0x7F), "a warning: a counter is at 2");
    assert.equal(gt.words(0x9F16, 0xA0, 0xA4), "22 bytes of the response wait");
});

test("every status but 9000 is thrown", () => {
    const data = fromHex("5F20034A4F45");
    for (const status of [0x6110, 0x6282, 0x63C0, 0x6A82, 0x9001, 0x0000, 0xFFFF]) {
        const answer = new gt.Answer(status, data);
        assert.throws(() => answer.throwForStatus(), (error) => error instanceof gt.Refused
            && error.status === status && error.name === "Refused"
            && error.message === `${toHex(Uint8Array.of(status >> 8, status))} ${answer.text}`);
        assert.equal(answer.isOk, false);
    }
    const answer = new gt.Answer(0x9000, data);
    assert.equal(answer.throwForStatus(), answer);
    assert.equal(answer.isOk, true);
});

test("the object of an answer is all of its data", () => {
    const objectOf = (digits) => new gt.Answer(0x9000, fromHex(digits)).object(0x5F20);
    assert.equal(toHex(objectOf("5F20034A4F45").value), "4A4F45");
    for (const other of ["4A4F45", "5F20034A4F4500", "005F20034A4F45", "5F21034A4F45", ""]) {
        assert.equal(objectOf(other), null);
    }
});

test("answers to reset", () => {
    raises(() => new gt.Atr(fromHex("3B")), gt.AtrError, "GT_ATR_CUT", 1);
    raises(() => new gt.Atr(fromHex("00")), gt.AtrError, "GT_ATR_NO_TS", 0);
    // a contactless storage card, by PC/SC part 3
    const atr = new gt.Atr(fromHex("3B8F8001804F0CA0000003060300030000000068"));
    assert.deepEqual([atr.protocols, atr.fi, atr.di, atr.historicalCount], [[0, 1], 372, 1, 15]);
    assert.equal(toHex(atr.historical), "804F0CA00000030603000300000000");
    // the defaults of ISO/IEC 7816-3, clause 11: IFSC 32, LRC, BWI 4, CWI 13
    const { ifsc, edc, bwi, cwi, cwtEtu } = atr.t1;
    assert.deepEqual([ifsc, edc, bwi, cwi, cwtEtu], [32, gt.Edc.LRC, 4, 13, 11 + 2 ** 13]);
    assert.throws(() => { atr.fi = 1; }, TypeError);
});

test("each field of an answer to reset", () => {
    // By ISO/IEC 7816-3, 8.2 and 8.3: TA1; TA2, the mode is specific; TA3, TB3 and TC3 for T=1; TA4
    // for T=15, the clock may stop at either level, classes A and B; one historical byte
    const atr = new gt.Atr(fromHex("3B91959181F17D45011FC34343"));
    assert.deepEqual({ ...atr }, {
        length: 13, historical: Uint8Array.of(0x43), historicalCount: 1, category: 5,
        convention: 0, protocolCount: 1, protocols: [1], names15: true, rateCode: 0x95, di: 16,
        extraGuardTime: 0, waitingInteger: 10, specific: true, specificT: 1, canChange: false,
        implicit: false, clockStop: 3, classes: 3, fi: 512, maxKhz: 5000, guardEtu: 12,
        guardEtuT1: 12, guardIndicated: 0, waitingTime: 10 * 960 * 512,
        t1: { ifsc: 0x7D, edc: gt.Edc.CRC, bwi: 4, cwi: 5, cwtEtu: 11 + 2 ** 5, bwtEtu: 11,
            bgtEtu: 22, bwtCycles: 2 ** 4 * 960 * 372 },
    });
});

test("PPS", () => {
    assert.equal(toHex(new gt.Pps(1, { pps1: 0x95 }).request), "FF11957B");
    assert.equal(toHex(new gt.Pps(0).request), "FF00FF");
    assert.ok(toHex(new gt.Pps(15, { pps1: 255, pps2: 0 }).request).startsWith("FF3FFF00"));
    assert.equal(toHex(new gt.Pps(0, { pps3: 1 }).request), "FF4001BE");
    raises(() => new gt.Pps(0).isAgreed(fromHex("00")), gt.PpsError, "GT_PPS_NO_PPSS");
    const pps = new gt.Pps(1, { pps1: 0x95 });
    assert.equal(pps.isAgreed(fromHex("FF10957A")), false);
    assert.equal(pps.isAgreed(pps.request), true);
    assert.equal(pps.isAgreed(fromHex("FF01FE")), true);
});
