// Tests the terminal's end at T=1: what its line is given, and that it gives up.
import assert from "node:assert/strict";
import test from "node:test";
import * as gt from "../src/index.js";
import { raises, rejects } from "./raises.js";

const { OwnCard, T1, Terminal, fromHex, toHex } = gt;
const NONE = new Uint8Array(0);
const { NOT_CARRIED_OUT, UNKNOWN, IN_PART } = gt.Outcome;

/** A block with NAD 00 and its LRC. */
function block(pcb, ...field) {
    const all = [0, pcb, field.length, ...field];
    return Uint8Array.of(...all, all.reduce((sum, it) => sum ^ it));
}

test("it gives up, and talks after a reset", async () => {
    const card = new gt.Card([[new Uint8Array(5), []]]);
    card.beginT1();
    let line = () => null;
    const [end, terminal] = [new T1((...words) => line(...words)), new Terminal()];
    const select = new gt.Select(new Uint8Array(5));
    await assert.rejects(terminal.run(end, select), (error) => error instanceof gt.BlockError
        && error.codeName === "GT_TRIES_SPENT" && error.outcome === UNKNOWN);
    await rejects(terminal.run(end, select), gt.CallError, "GT_STATE");
    end.reset();
    line = async (data) => card.block(data);
    assert.ok((await terminal.run(end, select)).isOk);
});

test("another check or size is refused", () => {
    for (const settings of [{ edc: 2 }, { ifsc: 0 }, { ifsc: 255 }]) {
        raises(() => new T1(() => NONE, settings), gt.CallError, "GT_ARGUMENT");
    }
    assert.throws(() => new T1(() => NONE, { ifsc: 256 }), RangeError);
    assert.throws(() => new T1(() => NONE, { edc: "1" }), TypeError);
    assert.throws(() => new T1(5), TypeError);
});

test("time and size", async () => {
    // each block of the card comes in two parts
    const [seen, left] = [[], []];
    const end = new T1((data, waits) => {
        if (data.length === 0) {
            assert.equal(waits, 1);
            return left.pop();
        }
        seen.push([data[1], data[2], waits]);
        const answers = { 0xC1: [0xE1, data[3]], 0x20: [0x90], 0x40: [0xC3, 3] };
        const answer = block(...answers[data[1]] ?? [0x00, 0x90, 0x00]);
        left.push(answer.slice(2));
        return answer.slice(0, 2);
    }, { ifsc: 8 });
    assert.equal(end.level, gt.Level.APDU);
    assert.equal(toHex(await end.transmit(fromHex("00DA00500556414C5545"))), "9000");
    // S(IFS request), the command in two blocks, and the answer to the card's request for time
    assert.deepEqual(seen, [[0xC1, 1, 1], [0x20, 8, 1], [0x40, 2, 1], [0xE3, 1, 3]]);
});

const COUNT = fromHex("8010000000");

/** A counter, and an end on whose line this many blocks arrive at it. Its IFSC is 4. */
function over(arrive) {
    const counter = {
        count: 0,
        takesData: () => false,
        carryOut() {
            this.count += 1;
            return [0x9000, new Uint8Array(300)];
        },
    };
    const card = new OwnCard(counter);
    card.beginT1();
    let left = arrive;
    return [counter, new T1((data) => (left-- > 0 ? card.block(data) : NONE), { ifsc: 4 })];
}

test("a fault speaks of the operation", async () => {
    // S(IFS request), two blocks of the command, R for the rest of 256 bytes, two of GET RESPONSE
    const told = [NOT_CARRIED_OUT, NOT_CARRIED_OUT, UNKNOWN, IN_PART, IN_PART, IN_PART];
    for (const [arrive, outcome] of told.entries()) {
        const [counter, end] = over(arrive);
        await assert.rejects(new Terminal().run(end, new gt.Send(COUNT)),
            (error) => error instanceof gt.BlockError && error.outcome === outcome);
        assert.equal(counter.count, Number(arrive > 2));
    }
    const [, end] = over(told.length);
    assert.ok((await new Terminal().run(end, new gt.Send(COUNT))).isOk);
    await assert.rejects(end.transmit(COUNT), (error) => error.outcome === NOT_CARRIED_OUT);
});

test("a command that goes again may be carried out", async () => {
    const ack = block(0x90);
    for (const [later, outcome] of [
        [[block(0, 0x6C, 3)], UNKNOWN],
        [[block(0, 0x61, 3), ack, block(0x40, 0x6C, 3)], IN_PART],
        [[block(0, 0x61, 3), ack, block(0x60, 1)], IN_PART],
    ]) {
        const answers = [block(0xE1, 0xFE), ack, ...later];
        const end = new T1(() => answers.shift(), { ifsc: 4 });
        await assert.rejects(new Terminal().run(end, new gt.Send(COUNT)),
            (error) => error.outcome === outcome);
    }
});

test("what the line throws, and a second command meanwhile", async () => {
    const end = new T1(() => { throw new Error("pulled"); });
    await assert.rejects(end.transmit(COUNT), /pulled/);
    await rejects(end.transmit(COUNT), gt.CallError, "GT_STATE");
    end.reset();
    end.line = () => "00";
    await assert.rejects(end.transmit(COUNT), TypeError);
    end.reset();
    end.line = async () => null;
    const first = end.transmit(COUNT);
    await assert.rejects(end.transmit(COUNT), /another call of this handle is in progress/);
    assert.throws(() => end.reset(), /another call/);
    await assert.rejects(first, gt.BlockError);
});

test("an outcome that is not known is unknown", () => {
    assert.equal(new gt.BlockError(gt.Code.ABORTED).outcome, UNKNOWN);
    assert.equal(new gt.BlockError(gt.Code.ABORTED, NOT_CARRIED_OUT).outcome, NOT_CARRIED_OUT);
});
