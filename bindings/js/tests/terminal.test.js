// Tests the terminal: operations over transports, by characters, TPDUs and commands.
import assert from "node:assert/strict";
import test from "node:test";
import * as gt from "../src/index.js";
import { raises, rejects } from "./raises.js";

const { Get, Put, Select, Send, Terminal, fromHex, toHex } = gt;
const AID = fromHex("A0000000031010");
const NAME = new Put(0x5F20, fromHex("414E4E"));
const OK = fromHex("9000");

const card = () => new gt.Card([[AID, [[0x5F20, fromHex("4A4F45")], [0x50, new Uint8Array(600)]]]]);

/** A transport that keeps what it is given, and answers in turn. */
function levelled(level, ...answers) {
    const sent = [];
    const transmit = (data) => {
        sent.push(toHex(data));
        return answers.length > 0 ? answers.shift() : OK;
    };
    return { level, sent, transmit };
}

test("operations over whole TPDUs and whole commands", async () => {
    for (const name of ["tpdu", "apdu"]) {
        const [held, terminal] = [card(), new Terminal()];
        const level = name === "tpdu" ? gt.Level.TPDU : gt.Level.APDU;
        const transport = Object.assign((it) => held[name](it), { level });
        const run = async (operation) => {
            const { status, data } = await terminal.run(transport, operation);
            return `${status.toString(16)} ${toHex(data)}`;
        };
        assert.equal(await run(new Select(AID)), "9000 6F098407A0000000031010");
        assert.equal(await run(NAME), "9000 ");
        assert.equal(await run(new Get(0x5F20)), "9000 5F2003414E4E");
        assert.equal(await run(new Get(0x50)), `9000 50820258${"00".repeat(600)}`);
        assert.equal(await run(new Get(0x51)), "6a88 ");
        assert.equal(await run(new Put(0x50, new Uint8Array(8193))), "6700 ");
        assert.equal(await run(new Put(0x50, new Uint8Array(8192))), "9000 ");
        assert.equal(held.entries(AID)[1].value.length, 8192);
        assert.equal(await run(new Send(fromHex("00CA5F2004"))), "6102 5F200341");
        assert.equal(await run(new Send(fromHex("00CA5F2000"))), "9000 5F2003414E4E");
    }
});

test("what a terminal sends", async () => {
    // RULES, from command to TPDUs: case 4 has Le in a command alone
    for (const [level, sent] of [[gt.Level.APDU, "00A4040007A000000003101000"],
        [gt.Level.TPDU, "00A4040007A0000000031010"]]) {
        const transport = levelled(level);
        assert.ok((await new Terminal().run(transport, new Select(AID))).isOk);
        assert.deepEqual(transport.sent, [sent]);
    }
});

test("a wrong level is a type error, and nothing is sent", async () => {
    const terminal = new Terminal();
    const wrong = [undefined, "apdu", true, null, 3].map((it) => levelled(it));
    const text = Object.assign(() => OK, { level: "apdu" });
    for (const it of [...wrong, text, { level: gt.Level.APDU }, 5, null, undefined]) {
        await assert.rejects(terminal.run(it, new Select(AID)), TypeError);
        assert.deepEqual([it?.sent ?? [], terminal.tpdu()], [[], null]);
    }
});

test("what is no operation is refused", async () => {
    const terminal = new Terminal();
    class Other extends Get {}
    for (const it of [Get, 0x50, null, undefined, {}, new Other(0x50)]) {
        assert.throws(() => terminal.begin(it), /^TypeError: an operation is a Select/);
        await assert.rejects(terminal.run(() => OK, it), TypeError);
    }
    assert.throws(() => terminal.begin(new Select("A0000000031010")), TypeError);
    assert.throws(() => terminal.begin(new Put(0x50, [1, 2])), TypeError);
    assert.throws(() => terminal.begin(new Get("50")), TypeError);
    assert.throws(() => terminal.begin(new Get(-1)), RangeError);
    raises(() => terminal.begin(new Select(new Uint8Array(4))), gt.CallError, "GT_ARGUMENT");
    raises(() => terminal.begin(new Get(0x5F)), gt.CallError, "GT_ARGUMENT");
    raises(() => terminal.begin(new Send(fromHex("00A404"))), gt.CommandError, "GT_TOO_SHORT");
    raises(() => terminal.begin(new Send(fromHex("0060000000"))), gt.CommandError,
        "GT_INVALID_INS");
    assert.equal(terminal.tpdu(), null);
});

test("a terminal is reset after what its transport throws", async () => {
    const [sent, terminal] = [[], new Terminal()];
    const pulled = (tpdu) => {
        sent.push(toHex(tpdu));
        throw new Error("pulled");
    };
    await assert.rejects(terminal.run(pulled, new Select(AID)), /pulled/);
    await assert.rejects(terminal.run(async (it) => pulled(it), new Select(AID)), /pulled/);
    assert.deepEqual([sent.length, terminal.tpdu()], [2, null]);
    await rejects(terminal.run(() => new Uint8Array(0), NAME), gt.TransportError, "GT_NO_STATUS");
    for (const wrong of ["9000", null, undefined, [0x90, 0], new Uint16Array([0x90])]) {
        await assert.rejects(terminal.run(() => wrong, NAME), TypeError);
    }
    const held = card();
    assert.ok((await terminal.run((it) => held.tpdu(it), new Select(AID))).isOk);
    terminal.begin(new Get(0x50));
    await rejects(terminal.run((it) => held.tpdu(it), NAME), gt.CallError, "GT_STATE");
    assert.notEqual(terminal.tpdu(), null);
});

test("a byte beside the status of an answer", async () => {
    const rows = [["9000DA", "GT_NO_STATUS"], ["DA9000", "GT_NOT_ASKED"],
        ["90009000", "GT_NOT_ASKED"]];
    for (const [answer, name] of rows) {
        for (const [level, due, give] of [[gt.Level.TPDU, "tpdu", "answered"],
            [gt.Level.APDU, "apdu", "responded"]]) {
            const terminal = new Terminal();
            terminal.begin(NAME);
            const asked = terminal[due]();
            raises(() => terminal[give](fromHex(answer)), gt.TransportError, name);
            assert.deepEqual([terminal[due](), terminal.answer()], [asked, null]);
            terminal[give](OK);
            assert.deepEqual({ ...terminal.answer() }, { status: 0x9000, data: new Uint8Array(0) });
            const left = levelled(level, fromHex(answer));
            await rejects(terminal.run(left, NAME), gt.TransportError, name);
            assert.deepEqual([left.sent.length, terminal.answer()], [1, null]);
        }
    }
});

test("data that have left, and have not", () => {
    // a card may end a command before it takes the data: then 9000 is no success
    for (const [put, came, sent] of [
        [NAME, ["9000"], false],
        [NAME, ["25", "25", "DA", "9000"], true],
        [new Put(0x5F20, new Uint8Array(300)), ["DA", "9000", "9000"], false],
    ]) {
        const terminal = new Terminal();
        raises(() => terminal.dataSent(), gt.CallError, "GT_STATE");
        terminal.begin(put);
        for (const characters of came) {
            terminal.sendBytes();
            terminal.receiveBytes(fromHex(characters));
        }
        assert.deepEqual([terminal.answer().isOk, terminal.dataSent()], [true, sent]);
    }
    const terminal = new Terminal();
    terminal.begin(NAME);
    terminal.answered(OK);
    assert.equal(terminal.dataSent(), null);
});

test("a status and a procedure byte at once", () => {
    for (const [came, name, place, due] of [["9000DA", "GT_AFTER_END", 2, ""],
        ["DA9000", "GT_NOT_LISTENING", 1, "414E4E"], ["259000", "GT_NOT_LISTENING", 1, "41"],
        ["606000", "GT_BAD_PROCEDURE", 2, null]]) {
        const terminal = new Terminal();
        terminal.begin(NAME);
        assert.equal(toHex(terminal.sendBytes()), "00DA5F2003");
        raises(() => terminal.receiveBytes(fromHex(came)), gt.LineError, name, place);
        if (due === null) raises(() => terminal.sendBytes(), gt.CallError, "GT_FAILED");
        else assert.equal(toHex(terminal.sendBytes()), due);
    }
});

test("the limit on a response", async () => {
    const held = card();
    const terminal = new Terminal({ limit: 10 });
    await rejects(terminal.run((it) => held.tpdu(it), new Select(AID)), gt.LineError,
        "GT_TOO_LONG");
    assert.ok((await new Terminal({ limit: 11 }).run((it) => held.tpdu(it), new Select(AID))).isOk);
    raises(() => new Terminal({ limit: 16385 }), gt.CallError, "GT_ARGUMENT");
    raises(() => new Terminal({ limit: 2 ** 32 + 5 }), gt.CallError, "GT_ARGUMENT");
    assert.throws(() => new Terminal({ limit: -1 }), RangeError);
    assert.throws(() => new Terminal({ limit: null }), TypeError);
});

test("another call while a transport works is refused", async () => {
    const [held, terminal] = [card(), new Terminal()];
    let goOn;
    const waits = new Promise((resolve) => { goOn = resolve; });
    const slow = async (tpdu) => {
        await waits;
        return held.tpdu(tpdu);
    };
    const first = terminal.run(slow, new Select(AID));
    const busy = /another call of this handle is in progress/;
    await assert.rejects(terminal.run(slow, new Get(0x50)), busy);
    for (const call of [() => terminal.reset(), () => terminal.close(), () => terminal.tpdu(),
        () => terminal.answer(), () => terminal.begin(NAME)]) {
        assert.throws(call, busy);
    }
    goOn();
    assert.ok((await first).isOk);
    terminal.close();
});
