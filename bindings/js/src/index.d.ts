// The types of index.js.

/** Whole bytes: a Uint8Array, which a Buffer is too. */
export type Bytes = Uint8Array;
export type Hex = string;

/** Which module runs: `wasm64` where the engine has memories of 64 bits. */
export const kind: "wasm32" | "wasm64";
/** The version: that of the header for C. */
export const version: string;

export function fromHex(digits: Hex): Uint8Array;
export function toHex(bytes: Bytes): Hex;

/** The codes of galliumtoad.h below 0, by name without GT_. */
export const Code: { readonly [name: string]: number };
export const Outcome: {
    readonly NOT_CARRIED_OUT: 0; readonly UNKNOWN: 1; readonly IN_PART: 2;
};
export const Level: { readonly TPDU: 1; readonly APDU: 2 };
export const Edc: { readonly RESERVED: 0; readonly LRC: 1; readonly CRC: 2 };

/** The library refused a call, or could not end it. */
export class GalliumtoadError extends Error {
    constructor(code: number, place?: number | null);
    /** One of `Code`. */
    readonly code: number;
    /** Its name in galliumtoad.h. */
    readonly codeName: string;
    /** The index of the faulty byte, from 0, or null. */
    readonly place: number | null;
}
/** The state or the arguments do not fit the call, or memory ran out. Nothing has changed. */
export class CallError extends GalliumtoadError {}
export class OutOfMemory extends CallError {}
/** A card can't have these tables. There is no card. */
export class BuildError extends GalliumtoadError {}
/** A received character or answer does not fit. */
export class LineError extends GalliumtoadError {}
export class ObjectsError extends GalliumtoadError {}
export class CommandError extends GalliumtoadError {}
/** A whole TPDU, or the answer to a TPDU or command, does not fit. */
export class TransportError extends GalliumtoadError {}
export class AtrError extends GalliumtoadError {}
export class PpsError extends GalliumtoadError {}
/** A terminal's end at T=1 gave up. */
export class BlockError extends GalliumtoadError {
    constructor(code: number, outcome?: number);
    /** One of `Outcome`: of the command, or from `Terminal.run` of the operation. */
    outcome: number;
}

/** Returns what a status word means after a command with this CLA and INS. */
export function words(status: number, cla?: number, ins?: number): string;

/** A data object of a list. */
export interface DataObject {
    readonly tag: number;
    /** 1 to 16: one more in each template. */
    readonly level: number;
    readonly isConstructed: boolean;
    /** The index of its first byte. */
    readonly place: number;
    readonly encoded: Uint8Array;
    readonly value: Uint8Array;
}
/** Returns all objects of a list, a template before the objects in it. Throws ObjectsError. */
export function objects(data: Bytes): DataObject[];
/** Returns the first object at this path of tags, or null. */
export function find(data: Bytes, ...path: number[]): DataObject | null;
/** Returns how an object begins: its tag, and the length of its value in the shortest form. */
export function head(tag: number, length: number): Uint8Array;

/** The card's status is another than 9000. */
export class Refused extends Error {
    constructor(status: number);
    readonly status: number;
}

/** The status of a card, and its data. */
export class Answer {
    constructor(status: number, data: Bytes);
    readonly status: number;
    readonly data: Uint8Array;
    /** Whether the status is 9000. */
    get isOk(): boolean;
    /** What the status means. */
    get text(): string;
    /** Throws `Refused` for every status but 9000. */
    throwForStatus(): this;
    /** Returns the object if the data are exactly one, with this tag, or null. */
    object(tag: number): DataObject | null;
}

/** What an answer to reset says of T=1: the fields of `gt_atr_t1` in galliumtoad.h. */
export interface AtrT1 {
    readonly ifsc: number; readonly edc: number; readonly bwi: number; readonly cwi: number;
    readonly cwtEtu: number; readonly bwtEtu: number; readonly bgtEtu: number;
    readonly bwtCycles: number;
}

/** What an answer to reset says: the fields of `gt_atr` in galliumtoad.h. Throws AtrError. */
export class Atr {
    constructor(data: Bytes);
    readonly length: number;
    readonly historical: Uint8Array;
    readonly historicalCount: number;
    readonly category: number;
    readonly convention: number;
    readonly protocolCount: number;
    readonly protocols: readonly number[];
    readonly names15: boolean;
    readonly rateCode: number;
    readonly di: number;
    readonly extraGuardTime: number;
    readonly waitingInteger: number;
    readonly specific: boolean;
    readonly specificT: number;
    readonly canChange: boolean;
    readonly implicit: boolean;
    readonly clockStop: number;
    readonly classes: number;
    readonly fi: number;
    readonly maxKhz: number;
    readonly guardEtu: number;
    readonly guardEtuT1: number;
    readonly guardIndicated: number;
    readonly waitingTime: number;
    readonly t1: AtrT1;
}

/** A terminal's PPS request for protocol `t`. What is null or left out is not sent. */
export class Pps {
    constructor(t: number, bytes?: {
        pps1?: number | null; pps2?: number | null; pps3?: number | null;
    });
    readonly request: Uint8Array;
    /** Whether the card's response accepts the request. Throws PpsError. */
    isAgreed(response: Bytes): boolean;
}

export class Select {
    constructor(aid: Bytes);
    readonly aid: Bytes;
}
export class Get {
    constructor(tag: number);
    readonly tag: number;
}
export class Put {
    constructor(tag: number, value: Bytes);
    readonly tag: number;
    readonly value: Bytes;
}
export class Send {
    constructor(command: Bytes);
    readonly command: Bytes;
}
export type Operation = Select | Get | Put | Send;

/** Sends bytes to a card, and returns the card's data and SW1 SW2. */
export type Carry = (data: Uint8Array) => Bytes | Promise<Bytes>;
/** A function carries whole TPDUs, or what its `level` says. */
export type Transport = (Carry & { level?: number }) | { level: number; transmit: Carry };

/** What goes to the card now, and the most bytes of data that may come back. */
export interface Due {
    readonly data: Uint8Array;
    readonly most: number;
}

/** A handle of the library. `close`, `using` or the collector frees it. */
declare class Handle {
    /** Wipes and frees what the handle holds. */
    close(): void;
}

/** Carries out one operation after another. */
export class Terminal extends Handle {
    constructor(options?: { limit?: number });
    run(transport: Transport, operation: Operation): Promise<Answer>;
    begin(operation: Operation): void;
    sendBytes(): Uint8Array;
    receiveBytes(data: Bytes): void;
    tpdu(): Due | null;
    answered(answer: Bytes): void;
    apdu(): Due | null;
    responded(response: Bytes): void;
    dataSent(): boolean | null;
    answer(): Answer | null;
    reset(): void;
}

/**
 * Sends the bytes, if there are any, and returns those received since: none if none came in time.
 * `waits` multiplies BWT.
 */
export type Line = (data: Uint8Array, waits: number) =>
    Bytes | null | undefined | Promise<Bytes | null | undefined>;

/** A terminal's end of a line at T=1, as a transport of whole commands. */
export class T1 extends Handle {
    constructor(line: Line, settings?: { edc?: number; ifsc?: number });
    line: Line;
    get level(): 2;
    transmit(command: Bytes): Promise<Uint8Array>;
    reset(): void;
}

declare class AnyCard extends Handle {
    tpdu(tpdu: Bytes): Uint8Array;
    apdu(command: Bytes): Uint8Array;
    receiveBytes(data: Bytes): number;
    sendBytes(room?: number): Uint8Array;
    plan(steps: string, cut?: number): void;
    beginT1(): void;
    block(came: Bytes): Uint8Array;
    reset(): void;
}

export interface Entry {
    readonly tag: number;
    readonly value: Uint8Array;
    readonly isLocked: boolean;
}
export type Tables = Iterable<readonly [Bytes, Iterable<readonly [number, Bytes]>]>;

/** A card with these applications and their data objects. */
export class Card extends AnyCard {
    constructor(tables: Tables, options?: { locked?: Iterable<readonly [Bytes, number]> });
    get selected(): Uint8Array | null;
    get applications(): Uint8Array[];
    entries(aid: Bytes): Entry[];
}

/** A command that reached a card of your own: with data, or with Le. */
export interface Command {
    /** CLA, INS, P1 and P2. */
    readonly header: Uint8Array;
    readonly data: Uint8Array;
    /** 1 to 256, or 0 if the application takes data. */
    readonly le: number;
}

/** What a card of your own does. */
export interface Application {
    /** Whether data of the terminal follow this header. */
    takesData(header: Uint8Array): boolean;
    /** Carries out a command, once. Returns its status and up to 4,096 bytes of data. */
    carryOut(command: Command): readonly [number, Bytes?];
    /** How many times BWT the terminal waits before this is asked again; 0 if it may begin. */
    moreTime?(command: Command): number;
    /** The last command takes effect. */
    settle?(): void;
    /** The card is reset. A command that has not settled is dropped: undo it. */
    reset?(): void;
}

/** A card of an application of your own. */
export class OwnCard extends AnyCard {
    constructor(application: Application);
    readonly application: Application;
}
