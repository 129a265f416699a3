// Cards: `Card`, which holds data objects, and what it shares with a card of your own.
import { Handle, plain, tagNumber, toHex, within, withPlaces } from "./handle.js";
import { GT } from "./header.js";
import { copied, counted, lib, numberAt, size } from "./library.js";

/** What every card does. */
export class AnyCard extends Handle {
    /** Takes characters of the terminal while the card listens. Returns the number taken. */
    receiveBytes(data) {
        return this._received(lib.gt_card_receive_bytes, data, [GT.NOT_LISTENING]);
    }

    /** Adds a plan: how the card answers one more of the TPDUs to come. */
    plan(steps, cut = 256) {
        if (typeof steps !== "string") throw new TypeError("the steps of a plan are a string");
        if (!/^[\x01-\x7F]*$/.test(steps)) throw new RangeError("steps that are not ASCII");
        const most = within(cut, 0, 0xFFFF, "a cut");
        const text = new TextEncoder().encode(`${steps}\0`);
        withPlaces((places) => this._call(lib.gt_card_plan, [places.bytes(text)[0], most]));
    }

    /** Lets the card speak T=1 until the next reset. */
    beginT1() {
        this._call(lib.gt_card_t1_begin);
    }

    /** Takes a terminal's block at T=1. One that is not whole counts as one that stopped. */
    _takeBlock(came) {
        withPlaces((places) => {
            const words = [...places.bytes(came), places.room(8)];
            if (this._call(lib.gt_card_t1_receive_bytes, words) !== GT.SENDS) {
                this._call(lib.gt_card_t1_missed);
            }
        });
    }
}

/** A card with these applications and their data objects. */
export class Card extends AnyCard {
    constructor(tables, { locked = [] } = {}) {
        const named = (aid, tag) => `${toHex(aid)} ${tagNumber(tag)}`;
        const pairs = new Set(Array.from(locked, ([aid, tag]) => named(aid, tag)));
        const starts = [(it) => lib.gt_card_new(it)];
        for (const [aid, values] of tables) {
            const kept = plain(aid);
            starts.push((it, places) => lib.gt_card_app(it, ...places.bytes(kept)));
            for (const [tag, value] of values) {
                const [number, bytes] = [tagNumber(tag), plain(value)];
                const isLocked = Number(pairs.has(named(kept, tag)));
                starts.push((it, places) =>
                    lib.gt_card_object(it, number, ...places.bytes(bytes), isLocked));
            }
        }
        super(lib.gt_card_free, [...starts, (it) => lib.gt_card_finish(it)]);
    }

    /** Carries out a whole TPDU under the next plan. Returns the card's data and SW1 SW2. */
    tpdu(tpdu) {
        return this._copied(lib.gt_card_tpdu, GT.ANSWER_LIMIT, (places) => places.bytes(tpdu));
    }

    /** Carries out a whole command. Returns at most Le bytes of data, and SW1 SW2. */
    apdu(command) {
        return this._copied(lib.gt_card_apdu, GT.ANSWER_LIMIT, (places) => places.bytes(command));
    }

    /** Returns the card's next characters, at most `room`. They count as sent. */
    sendBytes(room = 1024) {
        return this._copied(lib.gt_card_send_bytes, within(room, 0, 1 << 24, "the room"));
    }

    /** Takes a block of a terminal at T=1, and returns the card's. */
    block(came) {
        this._takeBlock(came);
        return this._copied(lib.gt_card_t1_send_bytes, GT.BLOCK_LIMIT);
    }

    /** Drops what is in progress, selected or pending. Data objects and plans stay. */
    reset() {
        this._call(lib.gt_card_reset);
    }

    _aid(call, words = []) {
        return withPlaces((places) => {
            const [aid, count] = [places.room(GT.AID_LIMIT), places.room(8)];
            const code = this._call(call, [...words, aid, count], [GT.NOT_FOUND]);
            return code === GT.NOT_FOUND ? null : copied(aid, counted(count));
        });
    }

    /** The identifier of the selected application, or null. */
    get selected() {
        return this._aid(lib.gt_card_selected);
    }

    /** The identifiers of all applications. */
    get applications() {
        const found = [];
        const next = () => this._aid(lib.gt_card_app_at, [size(found.length)]);
        for (let aid = next(); aid !== null; aid = next()) found.push(aid);
        return found;
    }

    /** Returns the data objects of an application. Throws `RangeError` if it is not there. */
    entries(aid) {
        const app = this.applications.map(toHex).indexOf(toHex(aid));
        if (app < 0) throw new RangeError("no application has this identifier");
        const found = [];
        const next = () => this._entry(app, found.length);
        for (let it = next(); it !== null; it = next()) found.push(it);
        return found;
    }

    _entry(app, number) {
        return withPlaces((places) => {
            const [tag, locked, count] = [places.room(4), places.room(4), places.room(8)];
            const value = places.room(GT.VALUE_LIMIT);
            const code = this._call(lib.gt_card_entry_at, [size(app), size(number), tag, locked,
                value, size(GT.VALUE_LIMIT), count], [GT.NOT_FOUND]);
            if (code === GT.NOT_FOUND) return null;
            const isLocked = numberAt(locked, 4) === 1;
            return { tag: numberAt(tag, 4), value: copied(value, counted(count)), isLocked };
        });
    }
}
