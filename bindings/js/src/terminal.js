// The terminal: `Terminal` for operations, `T1` for a line at T=1.
import { Answer, Edc } from "./answers.js";
import { BlockError, Outcome, checked } from "./errors.js";
import { Handle, plain, tagNumber, within, withPlaces } from "./handle.js";
import { GT } from "./header.js";
import { copied, counted, lib, numberAt, size } from "./library.js";

/** What a transport carries: whole TPDUs, as at T=0, or whole commands, as at T=1. */
export const Level = Object.freeze({ TPDU: 1, APDU: 2 });

/** Selects the application with this identifier, of 5 to 16 bytes. */
export class Select {
    constructor(aid) {
        this.aid = aid;
    }
}

/** Reads the data object with this tag. */
export class Get {
    constructor(tag) {
        this.tag = tag;
    }
}

/** Stores a value under a tag. */
export class Put {
    constructor(tag, value) {
        this.tag = tag;
        this.value = value;
    }
}

/** Sends one command, and fetches as much of the response as its Le asks for. */
export class Send {
    constructor(command) {
        this.command = command;
    }
}

// How each operation is begun: the function of the library, and its words.
const BEGINS = new Map([
    [Select, (it, places) => [lib.gt_terminal_select, ...places.bytes(it.aid)]],
    [Get, (it) => [lib.gt_terminal_get, tagNumber(it.tag)]],
    [Put, (it, places) => [lib.gt_terminal_put, tagNumber(it.tag), ...places.bytes(it.value)]],
    [Send, (it, places) => [lib.gt_terminal_send, ...places.bytes(it.command)]],
]);

/** Returns a transport as a function and its level. */
function carrierOf(transport) {
    const isFunction = typeof transport === "function";
    const carry = isFunction ? transport : transport?.transmit;
    const level = isFunction ? transport.level ?? Level.TPDU : transport?.level;
    if (typeof carry !== "function" || ![Level.TPDU, Level.APDU].includes(level)) {
        throw new TypeError("a transport is a function, or has a level and a function transmit");
    }
    return [(data) => carry.call(transport, data), level];
}

/** Carries out one operation after another. */
export class Terminal extends Handle {
    constructor({ limit = GT.RESPONSE_LIMIT } = {}) {
        const most = within(limit, 0, Number.MAX_SAFE_INTEGER, "a limit");
        super(lib.gt_terminal_free, [(it) => lib.gt_terminal_new_within(it, size(
            Math.min(most, 0xFFFFFFFF)))]);
    }

    /** Begins an operation, and drops the last answer. */
    begin(operation) {
        const begins = BEGINS.get(operation?.constructor);
        if (!begins) throw new TypeError("an operation is a Select, Get, Put or Send");
        withPlaces((places) => {
            const [call, ...given] = begins(operation, places);
            this._call(call, given);
        });
    }

    /** Returns all characters that go to the card now. They count as sent. */
    sendBytes() {
        return this._copied(lib.gt_terminal_send_bytes, GT.TPDU_LIMIT + 1);
    }

    /** Takes characters of the card. */
    receiveBytes(data) {
        this._received(lib.gt_terminal_receive_bytes, data);
    }

    /** Returns the whole TPDU that goes to the card now, or null. */
    tpdu() {
        return this._due(lib.gt_terminal_tpdu, GT.TPDU_LIMIT);
    }

    /** Takes the answer to the TPDU of `tpdu`. */
    answered(answer) {
        withPlaces((places) => this._call(lib.gt_terminal_answered, places.bytes(answer)));
    }

    /** Returns the whole command that goes to the card now, or null. */
    apdu() {
        return this._due(lib.gt_terminal_apdu, GT.APDU_LIMIT);
    }

    /** Takes the response to the command of `apdu`. */
    responded(response) {
        withPlaces((places) => this._call(lib.gt_terminal_responded, places.bytes(response)));
    }

    _due(call, room) {
        return withPlaces((places) => {
            const [made, count, most] = [places.room(room), places.room(8), places.room(8)];
            const code = this._call(call, [made, count, most], [GT.NOT_DUE]);
            if (code === GT.NOT_DUE) return null;
            return { data: copied(made, counted(count)), most: counted(most) };
        });
    }

    /** Returns whether all data have left the terminal, or null if that is not known. */
    dataSent() {
        const code = this._call(lib.gt_terminal_data_sent);
        return code === GT.SENT_UNKNOWN ? null : code === GT.ALL_SENT;
    }

    /** Returns the status and the data of the last command, or null. */
    answer() {
        return withPlaces((places) => {
            const [status, count] = [places.room(2), places.room(8)];
            const room = places.room(GT.RESPONSE_LIMIT);
            const code = this._call(lib.gt_terminal_answer,
                [status, room, size(GT.RESPONSE_LIMIT), count], [GT.STATE]);
            if (code === GT.STATE) return null;
            return new Answer(numberAt(status, 2), copied(room, counted(count)));
        });
    }

    /** Drops the operation and its answer. Reset the card too. */
    reset() {
        this._call(lib.gt_terminal_reset);
    }

    /** Carries out an operation over a transport, and returns the card's answer. */
    async run(transport, operation) {
        const [carry, level] = carrierOf(transport);
        this.begin(operation);
        const seen = [];
        try {
            return await this._carried(carry, level === Level.APDU, seen);
        } catch (error) {
            this._isBusy = false;
            if (error instanceof BlockError && seen.length > 0) {
                // 61XX announces the response of a command that the card has carried out
                const known = seen.includes(0x61) ? Outcome.IN_PART : Outcome.UNKNOWN;
                error.outcome = Math.max(known, error.outcome);
            }
            this.reset();
            throw error;
        }
    }

    /** Carries each TPDU or command. `seen` gets SW1 of each response to a whole command. */
    async _carried(carry, isWhole, seen) {
        for (;;) {
            const due = isWhole ? this.apdu() : this.tpdu();
            if (due === null) return this.answer();
            this._isBusy = true;
            const came = plain(await carry(due.data));
            this._isBusy = false;
            if (isWhole) seen.push(came[came.length - 2]);
            if (isWhole) this.responded(came);
            else this.answered(came);
        }
    }
}

/** A terminal's end of a line at T=1, as a transport. */
export class T1 extends Handle {
    constructor(line, { edc = Edc.LRC, ifsc = 32 } = {}) {
        if (typeof line !== "function") throw new TypeError("the line is no function");
        const said = [within(edc, 0, 255, "EDC"), within(ifsc, 0, 255, "IFSC")];
        const limits = [GT.T1_TRIES, GT.T1_EXTENSIONS, size(GT.ANSWER_LIMIT)];
        super(lib.gt_t1_free, [(it) => lib.gt_t1_new(it, ...said, ...limits)]);
        this.line = line;
    }

    get level() {
        return Level.APDU;
    }

    /** Carries a command to the card, and returns the response. */
    async transmit(command) {
        withPlaces((places) => this._call(lib.gt_t1_begin, places.bytes(command)));
        for (let due = this._block(); due !== null; due = this._block()) {
            this._isBusy = true;
            try {
                await this._passed(due);
            } finally {
                this._isBusy = false;
            }
        }
        this._throwFault();
        return this._copied(lib.gt_t1_response, GT.ANSWER_LIMIT);
    }

    /** The block to send, and how long the card has, or null at the end. */
    _block() {
        return withPlaces((places) => {
            const [made, count, waits] = [places.room(GT.BLOCK_LIMIT), places.room(8),
                places.room(1)];
            const code = this._call(lib.gt_t1_send_bytes, [made, size(GT.BLOCK_LIMIT), count,
                waits], [GT.FAILED]);
            if (code !== GT.OK) return null;
            return { data: copied(made, counted(count)), waits: numberAt(waits, 1) };
        });
    }

    /** Sends a block, and takes one of the card, or that none came. */
    async _passed(due) {
        let [sent, waits] = [due.data, due.waits];
        for (;;) {
            const came = plain(await this.line(sent, waits) ?? new Uint8Array(0));
            [sent, waits] = [new Uint8Array(0), 1];
            if (came.length === 0) {
                checked(lib.gt_t1_missed(this._place));
                return;
            }
            const isWhole = withPlaces((places) => checked(lib.gt_t1_receive_bytes(
                this._place, ...places.bytes(came), places.room(8)))) === GT.SENDS;
            if (isWhole) return;
        }
    }

    _throwFault() {
        withPlaces((places) => {
            const [cause, outcome] = [places.room(4), places.room(4)];
            if (this._call(lib.gt_t1_fault, [cause, outcome], [GT.NOT_FOUND]) === GT.OK) {
                throw new BlockError(numberAt(cause, 4) | 0, numberAt(outcome, 4));
            }
        });
    }

    /** Makes the end as it was at first. Reset the card too. */
    reset() {
        this._call(lib.gt_t1_reset);
    }
}
