// Plays a terminal and a card that talk, and shows what passes between them, event by event.
import { Card } from "../src/card.js";
import { BlockError, GalliumtoadError, LineError } from "../src/errors.js";
import { toHex } from "../src/handle.js";
import { OwnCard } from "../src/own_card.js";
import { Get, Put, Select, Send, T1, Terminal } from "../src/terminal.js";
import { MeaningAtT0, MeaningAtT1 } from "./meaning.js";

const NONE = new Uint8Array(0);
const MEANINGS = { 0: MeaningAtT0, 1: MeaningAtT1 };
const OPERATIONS = {
    select: (it) => new Select(it.aid),
    get: (it) => new Get(it.tag),
    put: (it) => new Put(it.tag, it.value),
    send: (it) => new Send(it.command),
};
const OUTCOMES = ["the card has not carried the command out",
    "the card may have carried the command out", "only a part of the response arrived"];

/** What arrives of bytes on a line with a fault, which loses them or changes one. */
function arriving(bytes, fault) {
    if (!fault) return bytes;
    if (fault.isLost) return NONE;
    const changed = bytes.slice();
    const at = Math.min(fault.at ?? bytes.length >> 1, bytes.length - 1);
    changed[at] ^= fault.change ?? 1;
    return changed;
}

/** A dialogue of a terminal and a card. `tell` gets each event. */
class Dialogue {
    constructor(card, { protocol = 0, faults = new Map(), tell }) {
        Object.assign(this, { card, protocol, faults, tell });
        this.terminal = new Terminal();
        this.meaning = new MEANINGS[protocol]();
        this.number = 0;
        this.plans = [];
        this.isChain = false;
        this.reset();
    }

    /** Resets both ends. */
    reset() {
        this.isChain = false;
        this.terminal.reset();
        this.card.reset();
        this.meaning.begin();
        if (this.protocol === 0) return;
        this.card.beginT1();
        this.end?.close();
        this.end = new T1((data) => this.passBlock(data));
    }

    close() {
        for (const it of [this.terminal, this.card, this.end]) it?.close();
    }

    /** Passes bytes that one end sends, and returns those that arrive. */
    pass(from, bytes) {
        const number = this.number++;
        const fault = this.faults.get(number) ?? null;
        const arrived = arriving(bytes, fault);
        const parts = this.meaning.parts(bytes, from === "card");
        this.tell({ kind: "bytes", number, from, bytes, arrived, fault, parts });
        return arrived;
    }

    /** Carries a block to the card, and the card's back. */
    passBlock(data) {
        const arrived = this.pass("terminal", data);
        if (arrived.length === 0) {
            this.tell({ kind: "note", words: "The card hears nothing, and the terminal waits." });
            return NONE;
        }
        const back = this.pass("card", this.card.block(arrived));
        if (back.length === 0) {
            this.tell({ kind: "note", words: "Nothing comes in time." });
        }
        return back;
    }

    /** Carries characters until the terminal has its answer, or nobody sends. */
    talk() {
        for (;;) {
            const isHeader = this.terminal.tpdu() !== null;
            const sent = this.terminal.sendBytes();
            if (sent.length > 0) this.toCard(sent, isHeader);
            else if (this.terminal.answer()) return this.terminal.answer();
            const came = this.fromCard();
            if (came.length > 0) this.terminal.receiveBytes(this.pass("card", came));
            else if (sent.length === 0) throw new Error("Both ends wait.");
        }
    }

    toCard(sent, isHeader) {
        const arrived = this.pass("terminal", sent);
        if (isHeader && arrived.length === sent.length && this.plans.length > 0) {
            const { steps, cut } = this.plans.shift();
            this.card.plan(steps, cut);
        }
        const taken = this.card.receiveBytes(arrived);
        if (taken < arrived.length) {
            this.tell({ kind: "note", words: "The card is sending, and does not listen." });
        }
    }

    fromCard() {
        const parts = [];
        for (let it = this.card.sendBytes(); it.length > 0; it = this.card.sendBytes()) {
            parts.push(...it);
        }
        return Uint8Array.from(parts);
    }

    async carryOut(step) {
        if (this.isChain && step.kind !== "send") {
            this.plans = [];
            this.tell({ kind: "busy" });
            return;
        }
        const operation = OPERATIONS[step.kind](step);
        try {
            const answer = await this.answer(operation);
            // RULES: a chain is pending after a command of one that gets 9000
            this.isChain = step.kind === "send" && (step.command[0] & 0x10) !== 0 && answer.isOk
                && this.card instanceof Card;
            this.tell({ kind: "answer", status: answer.status, data: answer.data });
        } catch (error) {
            this.giveUp(error);
        }
        this.plans = [];
    }

    async answer(operation) {
        if (this.protocol === 1) return this.terminal.run(this.end, operation);
        this.terminal.begin(operation);
        return this.talk();
    }

    giveUp(error) {
        const outcome = error instanceof BlockError ? `: ${OUTCOMES[error.outcome]}` : "";
        const place = error instanceof LineError ? " The terminal reads no further." : "";
        this.tell({ kind: "fault", words: `${error.message}${outcome}.${place}`.replace("..", "."),
            isOwn: !(error instanceof GalliumtoadError) });
        this.tell({ kind: "note", words: "The terminal resets the card." });
        this.reset();
    }

    table() {
        return this.card.applications.map((aid) => ({ aid, entries: this.card.entries(aid) }));
    }

    async step(step) {
        if (step.kind === "plan") this.plans.push(step);
        else if (step.kind === "table") {
            this.tell({ kind: "table", apps: this.card instanceof Card ? this.table() : [] });
        } else if (step.kind === "reset") {
            this.reset();
            this.tell({ kind: "reset" });
        } else await this.carryOut(step);
    }
}

/** Makes the card that a script describes. */
function cardOf(apps) {
    const locked = apps.flatMap(({ aid, objects }) => {
        const last = new Map(objects.map((it) => [it.tag, it.kind]));
        return [...last].filter(([, kind]) => kind === "locked").map(([tag]) => [aid, tag]);
    });
    const tables = apps.map(({ aid, objects }) => [aid, objects.map((it) => [it.tag, it.value])]);
    return new Card(tables, { locked });
}

/**
 * Plays a script that `readScript` has read, and returns its events. `application` is a card of
 * one's own in place of the script's. `faults` has by number what happens to a transmission:
 * `isLost`, or which byte is changed.
 */
export async function play({ apps, steps }, { application = null, ...more } = {}) {
    const events = [];
    const card = application ? new OwnCard(application) : cardOf(apps);
    const dialogue = new Dialogue(card, { ...more, tell: (it) => events.push(it) });
    try {
        for (const step of steps) await dialogue.step(step);
    } finally {
        dialogue.close();
    }
    return events;
}

const tagDigits = (tag) => {
    const digits = tag.toString(16).toUpperCase();
    return digits.length % 2 ? `0${digits}` : digits;
};

function tableLines({ apps }) {
    return apps.flatMap(({ aid, entries }) => [`app ${toHex(aid)}`, ...entries.map((it) =>
        `  ${tagDigits(it.tag)} ${toHex(it.value) || "-"}${it.isLocked ? " locked" : ""}`)]);
}

const TEXTS = {
    bytes: (it) => [`${it.from === "card" ? "<" : ">"} ${toHex(it.bytes)}`],
    answer: (it) => [`= ${it.status.toString(16).toUpperCase().padStart(4, "0")}`
        + (it.data.length > 0 ? ` ${toHex(it.data)}` : "")],
    busy: () => ["! card busy"],
    reset: () => ["reset"],
    table: tableLines,
    note: () => [],
    fault: (it) => [`! ${it.words}`],
};

/** The lines that `card_trace play` prints of the same. */
export function textOf(events) {
    const lines = events.flatMap((it) => TEXTS[it.kind](it));
    return lines.map((it) => `${it}\n`).join("");
}
