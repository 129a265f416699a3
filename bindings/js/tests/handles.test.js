// Tests arguments, handles and their memory: what calls refuse, and what is freed and wiped.
import assert from "node:assert/strict";
import test from "node:test";
import { setFlagsFromString } from "node:v8";
import { runInNewContext } from "node:vm";
import * as gt from "../src/index.js";
import { lib, size } from "../src/library.js";
import { raises, rejects } from "./raises.js";

const { fromHex } = gt;
const AID = fromHex("A0000000031010");
const NONE = new Uint8Array(0);
const card = () => new gt.Card([[AID, [[0x5F20, fromHex("4A4F45")]]]]);
const megabytes = () => lib.memory.buffer.byteLength / 2 ** 20;

test("the module is the one that the engine can run", () => {
    const wanted = process.execArgv.includes("--experimental-wasm-memory64") ? "wasm64" : null;
    assert.ok(["wasm32", "wasm64"].includes(gt.kind));
    if (wanted) assert.equal(gt.kind, wanted);
});

test("a number is an integer in its range", () => {
    for (const [most, call] of [
        [0xFFFFFF, (it) => new gt.Terminal().begin(new gt.Get(it))],
        [0xFFFFFF, (it) => new gt.Terminal().begin(new gt.Put(it, NONE))],
        [0xFFFFFF, (it) => gt.find(NONE, it)],
        [0xFFFFFF, (it) => gt.head(it, 0)],
        [0xFFFFFF, (it) => new gt.Answer(0x9000, NONE).object(it)],
        [0xFFFFFF, (it) => new gt.Card([[AID, [[it, NONE]]]])],
        [0xFFFFFF, (it) => new gt.Card([], { locked: [[AID, it]] })],
        [0xFFFF, (it) => gt.head(0x50, it)],
        [0xFFFF, (it) => card().plan("", it)],
        [0xFFFF, gt.words],
        [255, (it) => gt.words(0, it)],
        [255, (it) => gt.words(0, 0, it)],
        [15, (it) => new gt.Pps(it)],
        [255, (it) => new gt.Pps(0, { pps2: it })],
        [255, (it) => new gt.T1(() => NONE, { edc: it })],
        [255, (it) => new gt.T1(() => NONE, { ifsc: it })],
        [1 << 24, (it) => card().sendBytes(it)],
        [Number.MAX_SAFE_INTEGER, (it) => new gt.Terminal({ limit: it })],
    ]) {
        for (const wrong of ["50", 5.5, NaN, Infinity, true, {}, 5n]) {
            assert.throws(() => call(wrong), TypeError);
        }
        for (const wrong of [-1, most + 1]) assert.throws(() => call(wrong), RangeError);
    }
});

test("bytes are a Uint8Array, whatever it says of itself", () => {
    class Longer extends Uint8Array {
        get length() {
            return 4000;
        }
    }
    class Other extends Uint8Array {
        get [Symbol.toStringTag]() {
            return "Other";
        }
    }
    const list = fromHex("5000");
    for (const it of [Buffer.from(list), Longer.from(list), new Other(list), list.subarray(0),
        runInNewContext("new Uint8Array([0x50, 0])")]) {
        assert.equal(gt.find(it, 0x50).encoded.length, 2);
    }
    for (const it of ["5000", [0x50, 0], 5, null, undefined, list.buffer, new DataView(list.buffer),
        new Uint16Array(1), new Uint8ClampedArray(2), Object.create(Uint8Array.prototype),
        { length: 2, 0: 0x50, 1: 0, [Symbol.toStringTag]: "Uint8Array" }]) {
        for (const call of [gt.objects, gt.find, gt.toHex, (wrong) => new gt.Atr(wrong),
            (wrong) => card().tpdu(wrong), (wrong) => card().receiveBytes(wrong)]) {
            assert.throws(() => call(it), TypeError);
        }
    }
});

test("what is passed and returned is a copy", async () => {
    const given = fromHex("5001AA");
    const [found] = gt.objects(given);
    given.fill(0);
    assert.deepEqual([found.value, found.encoded], [fromHex("AA"), fromHex("5001AA")]);
    const [held, terminal] = [card(), new gt.Terminal()];
    const select = await terminal.run((it) => held.tpdu(it), new gt.Select(AID));
    const before = select.data.slice();
    for (let at = 0; at < 500; at++) card();
    assert.deepEqual(select.data, before);
});

test("a closed handle is empty", () => {
    const own = new gt.OwnCard({ takesData: () => false, carryOut: () => [0x9000] });
    for (const [handle, ...calls] of [
        [card(), "applications", "sendBytes", "beginT1", "reset", "selected"],
        [own, "sendBytes", "beginT1", "reset"],
        [new gt.Terminal(), "tpdu", "apdu", "sendBytes", "reset", "dataSent", "answer"],
        [new gt.T1(() => NONE), "reset", "_block"],
    ]) {
        handle.close();
        for (const name of calls) {
            const call = () => (typeof handle[name] === "function" ? handle[name]() : null);
            raises(call, gt.CallError, "GT_EMPTY");
        }
        handle.close();
        assert.equal(handle[Symbol.dispose ?? "close"], handle.close);
    }
});

async function used() {
    const [held, terminal] = [card(), new gt.Terminal()];
    assert.ok((await terminal.run((it) => held.tpdu(it), new gt.Select(AID))).isOk);
    return [held, terminal];
}

test("closed handles give their memory back", async () => {
    for (const it of await used()) it.close();
    const before = megabytes();
    for (let at = 0; at < 300; at++) for (const it of await used()) it.close();
    assert.equal(megabytes(), before);
    for (let at = 0; at < 100; at++) assert.throws(() => new gt.Card([[AID, [[0x70, AID]]]]));
    assert.equal(megabytes(), before);
});

test("the collector frees what nobody closes", async () => {
    setFlagsFromString("--expose-gc");
    const collect = runInNewContext("gc");
    const before = megabytes();
    for (let round = 0; round < 10; round++) {
        for (let at = 0; at < 60; at++) await used();
        collect();
        await new Promise((resolve) => { setTimeout(resolve, 1); });
    }
    // all of them would take 25 megabytes
    assert.ok(megabytes() < before + 12, `${megabytes()} megabytes`);
});

test("what is freed is wiped", async () => {
    const secret = Uint8Array.from({ length: 64 }, () => Math.floor(Math.random() * 256));
    const count = () => Buffer.from(lib.memory.buffer).toString("latin1")
        .split(Buffer.from(secret.slice(8, 40)).toString("latin1")).length - 1;
    const [held, terminal] = await used();
    for (const operation of [new gt.Put(0x5F20, secret), new gt.Get(0x5F20)]) {
        assert.ok((await terminal.run((it) => held.tpdu(it), operation)).isOk);
    }
    assert.ok(count() > 0);
    terminal.reset();
    held.close();
    assert.equal(count(), 0);
    gt.objects(gt.fromHex(`5040${gt.toHex(secret)}`));
    assert.equal(count(), 0);
});

test("memory runs out, and nothing has changed", async () => {
    const [held, terminal] = await used();
    const hoard = [];
    for (let bytes = 2 ** 27; bytes >= 1024; bytes /= 2) {
        for (let it = lib.js_take(size(bytes)); it; it = lib.js_take(size(bytes))) hoard.push(it);
    }
    assert.ok(lib.memory.buffer.byteLength > 2 ** 28 - 2 ** 20);
    raises(() => card(), gt.OutOfMemory, "GT_MEMORY");
    raises(() => gt.objects(new Uint8Array(8192)), gt.OutOfMemory, "GT_MEMORY");
    const name = new gt.Put(0x5F20, new Uint8Array(8000));
    await rejects(terminal.run((it) => held.tpdu(it), name), gt.OutOfMemory, "GT_MEMORY");
    for (const it of hoard.slice(4)) lib.js_give(it);
    assert.ok((await terminal.run((it) => held.tpdu(it), new gt.Get(0x5F20))).isOk);
    assert.equal(card().applications.length, 1);
});
