// `OwnCard`, a card of an application of your own.
import { AnyCard } from "./card.js";
import { checked } from "./errors.js";
import { plain, within, withPlaces } from "./handle.js";
import { GT, RECORDS } from "./header.js";
import { copied, counted, lib, recordAt, size } from "./library.js";

/** A card of an application: you write what a command does. */
export class OwnCard extends AnyCard {
    constructor(application) {
        for (const name of ["takesData", "carryOut"]) {
            if (typeof application?.[name] !== "function") {
                throw new TypeError(`an application has a function ${name}`);
            }
        }
        super(lib.gt_card_free, [(it) => lib.gt_card_own(it, size(0))]);
        this.application = application;
        this._isSettled = true;
    }

    /** Resets the card, and then the application. */
    reset() {
        this._alone();
        this._reset();
    }

    _reset() {
        checked(lib.gt_card_reset(this._place));
        this.application.reset?.();
    }

    /** Returns the card's next characters, at most `room`. A NULL comes alone. */
    sendBytes(room = 1024) {
        let left = within(room, 0, 1 << 24, "the room");
        const parts = [];
        this._run(left, false, (...given) => {
            const code = lib.gt_card_send_bytes(this._place, given[2], size(left), given[3]);
            if (code >= 0) parts.push(copied(given[2], counted(given[3])));
            left = room - parts.reduce((sum, it) => sum + it.length, 0);
            return code;
        });
        return Uint8Array.from(parts.flatMap((it) => [...it]));
    }

    /** Carries out a whole TPDU under the next plan. */
    tpdu(tpdu) {
        return this._whole(lib.gt_card_tpdu, tpdu);
    }

    /** Carries out a whole command, which then settles. */
    apdu(command) {
        return this._whole(lib.gt_card_apdu, command);
    }

    /** Takes a block of a terminal at T=1, and returns the card's. */
    block(came) {
        this._takeBlock(came);
        return this._run(GT.BLOCK_LIMIT, false, (_data, _n, made, count) =>
            lib.gt_card_t1_send_bytes(this._place, made, size(GT.BLOCK_LIMIT), count));
    }

    _whole(call, data) {
        return this._run(GT.ANSWER_LIMIT, true, (bytes, n, made, count) =>
            call(this._place, bytes, n, made, size(GT.ANSWER_LIMIT), count), data);
    }

    /**
     * Makes a call with these bytes, and again without bytes until nothing waits for the
     * application, which then settles, or until that needs more time. Returns what it wrote.
     */
    _run(room, isWhole, call, data = new Uint8Array(0)) {
        this._alone();
        return withPlaces((places) => {
            const [made, count] = [places.room(room), places.room(8)];
            const given = places.bytes(data);
            this._isBusy = true;
            try {
                this._answer(call(...given, made, count), isWhole, () =>
                    call(size(0), size(0), made, count));
            } finally {
                this._isBusy = false;
            }
            return copied(made, counted(count));
        });
    }

    _answer(code, isWhole, again) {
        if (code === GT.WANTS_DATA || code === GT.SENDS_DATA) this.application.reset?.();
        checked(code);
        try {
            for (let it = code; it === GT.HEADER || it === GT.COMMAND; it = checked(again())) {
                this._ask(it, isWhole);
            }
            if (!this._isSettled && checked(lib.gt_card_settled(this._place)) === 1) {
                this._isSettled = true;
                this.application.settle?.();
            }
        } catch (error) {
            this._reset();
            throw error;
        }
    }

    /** Asks the application about the header or the command that waits. */
    _ask(code, isWhole) {
        const waits = withPlaces((places) => {
            const record = places.room(RECORDS.gt_command.size);
            checked(lib.gt_card_command(this._place, record));
            return recordAt(record, "gt_command");
        });
        const header = Uint8Array.of(waits.cla, waits.ins, waits.p1, waits.p2);
        if (code === GT.HEADER) {
            const toCard = Number(Boolean(this.application.takesData(header)));
            checked(lib.gt_card_direction(this._place, toCard));
            return;
        }
        const command = { header, data: waits.data.slice(0, waits.size), le: waits.le };
        const multiple = isWhole ? 0 : this.application.moreTime?.(command) ?? 0;
        if (within(multiple, 0, 255, "a multiple of BWT") > 0) {
            checked(lib.gt_card_more_time(this._place, multiple));
            return;
        }
        const [status, data = new Uint8Array(0)] = this.application.carryOut(command);
        const word = within(status, 0, 0xFFFF, "a status");
        withPlaces((places) => {
            checked(lib.gt_card_respond(this._place, ...places.bytes(plain(data)), word));
        });
        this._isSettled = false;
    }
}
