// What a card sends: statuses, answers, data objects, answers to reset and PPS responses.
import { checked } from "./errors.js";
import { plain, tagNumber, within, withPlaces } from "./handle.js";
import { GT, RECORDS } from "./header.js";
import { copied, counted, lib, recordAt, size, textAt } from "./library.js";

/** What a status word means after a command with this CLA and INS. */
export function words(status, cla = 0, ins = 0) {
    const number = within(status, 0, 0xFFFF, "a status");
    const header = [within(cla, 0, 255, "CLA"), within(ins, 0, 255, "INS")];
    return withPlaces((places) => {
        const room = places.room(GT.WORDS_ROOM);
        lib.gt_status_words(...header, number, room, size(GT.WORDS_ROOM));
        return textAt(room);
    });
}

function objectOf(record, data) {
    const { tag, level, constructed, place, value, length } = record;
    const encoded = data.slice(place, place + record.size);
    const isConstructed = constructed === 1;
    return { tag, level, isConstructed, place, encoded, value: data.slice(value, value + length) };
}

/** Returns all objects of a list, a template before the objects in it. */
export function objects(data) {
    const kept = plain(data);
    const { size: each } = RECORDS.gt_object;
    return withPlaces((places) => {
        const bytes = places.bytes(kept);
        const [count, place] = [places.room(8), places.room(8)];
        const call = (room, found) =>
            checked(lib.gt_objects(...bytes, found, size(room), count, place), [],
                () => counted(place));
        call(0, size(0));
        const room = counted(count);
        const found = places.room(room * each);
        call(room, found);
        return Array.from({ length: room }, (_, at) =>
            objectOf(recordAt(Number(found) + at * each, "gt_object"), kept));
    });
}

/** Returns the first object whose tags, from level 1 to its own, are this path, or null. */
export function find(data, ...path) {
    const kept = plain(data);
    const tags = Uint8Array.from(new Uint8Array(Uint32Array.from(path, tagNumber).buffer));
    return withPlaces((places) => {
        const [steps] = places.bytes(tags);
        const [found, place] = [places.room(RECORDS.gt_object.size), places.room(8)];
        const code = checked(lib.gt_find(...places.bytes(kept), steps, size(path.length), found,
            place), [GT.NOT_FOUND], () => counted(place));
        return code === GT.NOT_FOUND ? null : objectOf(recordAt(found, "gt_object"), kept);
    });
}

/** Returns how an object begins: its tag, and the length of its value in the shortest form. */
export function head(tag, length) {
    const given = [tagNumber(tag), within(length, 0, 0xFFFF, "a length")];
    return withPlaces((places) => {
        const [made, count] = [places.room(6), places.room(8)];
        checked(lib.gt_head(...given, made, count));
        return copied(made, counted(count));
    });
}

/** The card's status is another than 9000. */
export class Refused extends Error {
    constructor(status) {
        super(`${status.toString(16).toUpperCase().padStart(4, "0")} ${words(status)}`);
        this.name = "Refused";
        this.status = status;
    }
}

/** The status of a card, a number, and its data. */
export class Answer {
    constructor(status, data) {
        this.status = status;
        this.data = data;
    }

    /** Whether the status is 9000. 61XX is not: a response waits. */
    get isOk() {
        return this.status === 0x9000;
    }

    /** What the status means. */
    get text() {
        return words(this.status);
    }

    /** Returns the answer if its status is 9000. Throws `Refused` for every other. */
    throwForStatus() {
        if (!this.isOk) throw new Refused(this.status);
        return this;
    }

    /** Returns the object if the data are exactly one, with this tag, or null. */
    object(tag) {
        const named = tagNumber(tag);
        const isIt = withPlaces((places) => lib.gt_is_object(...places.bytes(this.data), named));
        return isIt === 1 ? find(this.data, named) : null;
    }
}

/** The error detection code of blocks at T=1, by the number of its bytes. */
export const Edc = Object.freeze({ RESERVED: 0, LRC: GT.LRC, CRC: GT.CRC });

const IS = ["names15", "specific", "canChange", "implicit"];

/** What an answer to reset says: the fields of `gt_atr` in the header. */
export class Atr {
    constructor(data) {
        const kept = plain(data);
        const record = withPlaces((places) => {
            const [atr, place] = [places.room(RECORDS.gt_atr.size), places.room(8)];
            checked(lib.gt_atr_read(...places.bytes(kept), atr, place), [], () => counted(place));
            return recordAt(atr, "gt_atr");
        });
        const { historical: first, historicalCount, protocols, protocolCount } = record;
        Object.assign(this, record, {
            historical: kept.slice(first, first + historicalCount),
            protocols: Array.from(protocols.slice(0, protocolCount)),
        });
        for (const name of IS) this[name] = record[name] === 1;
        Object.freeze(this);
    }
}

/** A terminal's PPS request for protocol `t`. What is null is not sent. */
export class Pps {
    constructor(t, { pps1 = null, pps2 = null, pps3 = null } = {}) {
        const asked = [pps1, pps2, pps3].map((it) =>
            it === null ? GT.ABSENT : within(it, 0, 255, "a PPS byte"));
        within(t, 0, 15, "T");
        this.request = withPlaces((places) => {
            const [made, count] = [places.room(GT.PPS_LIMIT), places.room(8)];
            checked(lib.gt_pps_request(t, ...asked, made, count));
            return copied(made, counted(count));
        });
    }

    /** Whether the card's response accepts the request. */
    isAgreed(response) {
        return withPlaces((places) => checked(lib.gt_pps_agreed(
            ...places.bytes(this.request), ...places.bytes(response)))) === 1;
    }
}
