// What the bytes of a dialogue mean: each transmission as parts, some bytes with a few words.
import { words as statusWords } from "../src/answers.js";

const INSTRUCTIONS = { 0xA4: "SELECT", 0xCA: "GET DATA", 0xDA: "PUT DATA", 0xC0: "GET RESPONSE" };

const part = (bytes, words) => ({ bytes: Uint8Array.from(bytes), words });
const isStatus = (byte) => byte > 0x60 && (byte >> 4 === 6 || byte >> 4 === 9);
const plural = (count, what) => `${count} ${what}${count === 1 ? "" : "s"}`;

/** What P1-P2 of a command say, if this card's commands have it so. */
function parameters(ins, p1, p2) {
    if (ins === 0xCA || ins === 0xDA) {
        return p1 === 0 ? ["one byte of tag", "the tag"] : ["the tag ..", ".. its second byte"];
    }
    if (ins === 0xA4 && p1 === 4) return ["by identifier", p2 === 0 ? "the first" : "P2"];
    return ["P1", "P2"];
}

/** The parts of CLA, INS, P1 and P2. */
function headerParts([cla, ins, p1, p2]) {
    const [of1, of2] = parameters(ins, p1, p2);
    const chain = cla & 0x10 ? ", the chain goes on" : "";
    return [part([cla], `CLA${chain}`), part([ins], INSTRUCTIONS[ins] ?? "INS"), part([p1], of1),
        part([p2], of2)];
}

/** Reads a dialogue at T=0, character by character. */
export class MeaningAtT0 {
    constructor() {
        this.begin();
    }

    /** Begins a TPDU, as after a reset. */
    begin() {
        this.header = [];
        this.moves = 0;
        this.sw1 = null;
        this.moved = 0;
    }

    /** The parts of characters that one end sends. */
    parts(bytes, isCard) {
        const found = [];
        let last = null;
        for (const byte of bytes) {
            const it = this.one(byte, isCard);
            if (last && it.words === "data" && last.words === "data") last.bytes.push(byte);
            else found.push(last = { bytes: [byte], words: it.words });
        }
        for (const it of found) {
            if (it.words === "data") it.words = plural(it.bytes.length, "byte") + " of data";
        }
        return found.map((it) => part(it.bytes, it.words));
    }

    one(byte, isCard) {
        if (!isCard && this.moves === 0) return part([byte], this.ofHeader(byte));
        if (this.moves > 0) {
            this.moves -= 1;
            this.moved += 1;
            return part([byte], "data");
        }
        return part([byte], this.ofCard(byte));
    }

    ofHeader(byte) {
        if (this.header.length >= 5) this.begin();
        this.header.push(byte);
        const [cla, ins, p1, p2] = this.header;
        if (this.header.length === 5) return `P3: ${plural(byte, "byte")}${byte ? "" : ", or 256"}`;
        return headerParts([cla, ins, p1, p2])[this.header.length - 1].words;
    }

    ofCard(byte) {
        const [cla, ins, , , p3] = this.header;
        if (this.sw1 !== null) {
            const status = this.sw1 * 256 + byte;
            this.begin();
            return `SW2: ${statusWords(status, cla ?? 0, ins ?? 0)}`;
        }
        if (this.header.length < 5) return "out of turn";
        if (byte === 0x60) return "NULL: wait on";
        if (isStatus(byte)) {
            this.sw1 = byte;
            return "SW1";
        }
        const left = (p3 || 256) - this.moved;
        if (byte === ins) {
            this.moves = left;
            return `INS: all ${left} move`;
        }
        if (byte === (ins ^ 0xFF)) {
            this.moves = Math.min(1, left);
            return "INS xor FF: one byte moves";
        }
        return "no procedure byte";
    }
}

const REQUESTS = ["RESYNCH", "IFS", "ABORT", "WTX"];

function pcbWords(pcb) {
    const chained = pcb & 0x20 ? ", more follows" : "";
    if ((pcb & 0x80) === 0) return `I-block, number ${pcb >> 6 & 1}${chained}`;
    if ((pcb & 0x40) === 0) {
        const why = ["taken so far", "wrong check or parity"][pcb & 0xF] ?? "another error";
        return `R-block, awaits number ${pcb >> 4 & 1}: ${why}`;
    }
    return `S(${REQUESTS[pcb & 3]} ${pcb & 0x20 ? "response" : "request"})`;
}

/** Reads a dialogue at T=1: a block is one transmission. */
export class MeaningAtT1 {
    constructor() {
        this.begin();
    }

    begin() {
        this.command = [0, 0];
        this.inChain = { true: false, false: false };
    }

    /** The parts of a block that one end sends. */
    parts(bytes, isCard) {
        const [nad, pcb, len] = bytes;
        const field = bytes.slice(3, -1);
        return [part([nad], "NAD"), part([pcb], pcbWords(pcb)),
            part([len], `LEN: ${plural(field.length, "byte")}`),
            ...this.fieldParts(field, pcb, isCard),
            part(bytes.slice(-1), "LRC: the exclusive-or of all before")];
    }

    fieldParts(field, pcb, isCard) {
        if (field.length === 0) return [];
        if ((pcb & 0x80) !== 0) return [part(field, `the value ${field[0]}`)];
        const isLater = this.inChain[isCard];
        this.inChain[isCard] = (pcb & 0x20) !== 0;
        return isCard ? this.ofResponse(field) : this.ofCommand(field, isLater);
    }

    ofCommand(field, isLater) {
        if (isLater || field.length < 4) return [part(field, "more of the command")];
        this.command = [field[0], field[1]];
        const rest = field.slice(4);
        const found = headerParts(field);
        if (rest.length === 1) return [...found, part(rest, "Le")];
        if (rest.length > 0) found.push(part(rest.slice(0, 1), `Lc: ${plural(rest[0], "byte")}`));
        const data = rest.slice(1, 1 + rest[0]);
        if (data.length > 0) found.push(part(data, `${plural(data.length, "byte")} of data`));
        if (rest.length > 1 + rest[0]) found.push(part(rest.slice(-1), "Le"));
        return found;
    }

    ofResponse(field) {
        if (this.inChain.true) return [part(field, `${plural(field.length, "byte")} of data`)];
        const [data, status] = [field.slice(0, -2), field.slice(-2)];
        const words = statusWords(status[0] * 256 + (status[1] ?? 0), ...this.command);
        const last = part(status, `SW1 SW2: ${words}`);
        if (data.length === 0) return [last];
        return [part(data, `${plural(data.length, "byte")} of data`), last];
    }
}
