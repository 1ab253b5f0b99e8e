// Made by web/types of web/values.mjs.
/** @param {Calls} calls */
export function use(calls: Calls): void;
/**
 * Returns the calls of the module that `load` has loaded.
 * @returns {Calls}
 */
export function sedge(): Calls;
/**
 * Returns the name in JavaScript for a name in C.
 * @param {string} name
 * @returns {string}
 */
export function camel(name: string): string;
/**
 * Returns a count of 64 bits as a number. Throws a RangeError for one that a number cannot represent exactly.
 * @param {bigint | undefined} count
 * @returns {number}
 */
export function countOf(count?: bigint | undefined): number;
/**
 * @param {number} number
 * @returns {Alert | null}
 */
export function alertOf(number: number): Alert | null;
/**
 * Returns the CLCW with the fields of a struct.
 * @param {Partial<import('./sedgechisel.mjs').sedge_clcw>} it
 * @returns {Clcw}
 */
export function clcwOf({ status, vcid, flags, farm_b: farmB, value }: Partial<import('./sedgechisel.mjs').sedge_clcw>): Clcw;
/**
 * What the spacecraft makes of received octets: their `kind`, and its own fields. INVALID: `fault`. AD: the number
 * `n`, the `verdict`, how many packets became `ready` with it, and why octets on its MAP were `dropped`, in the word that
 * tctool prints, or null. BD: whether it carried a packet, which is then `kept`. BC: the `command`, and the number `vr` of
 * Set V(R).
 * @typedef {{ kind: 'INVALID' | 'FOREIGN' | 'AD' | 'BD' | 'BC', fault: TcFault | null, n: number, verdict: Verdict | null,
 * ready: number, dropped: string | null, kept: boolean, command: Command | null, vr: number }} Received
 */
/**
 * @param {Partial<import('./sedgechisel.mjs').sedge_received>} it
 * @returns {Received}
 */
export function receivedOf(it: Partial<import('./sedgechisel.mjs').sedge_received>): Received;
/**
 * What the ground makes of received octets: their `kind`, and its own fields. INVALID: `fault`. TM: how many frames are
 * missing before it (`gap`), or null for the first; how many `packets` it added to those that wait to be taken; what became
 * of its CLCW (`report`); the CLCW itself (`word`), or the `wordFault` if the report is REFUSED; and why the sender has
 * given up (`alert`), or null. CLCW: `report`, `word`, `wordFault` and `alert`, as for TM. The `word` is of any virtual
 * channel; from a `Link` it is null, because `report` has returned it.
 * @typedef {{ kind: 'INVALID' | 'FOREIGN' | 'TM' | 'CLCW', fault: TmFault | null, gap: number | null, packets: number,
 * report: Report | null, wordFault: ClcwFault | null, alert: Alert | null, word: Clcw | null }} Heard
 */
/**
 * @param {Partial<import('./sedgechisel.mjs').sedge_heard>} it
 * @param {Uint8Array} [ocf] the octets of the CLCW
 * @returns {Heard}
 */
export function heardOf(it: Partial<import('./sedgechisel.mjs').sedge_heard>, ocf?: Uint8Array | undefined): Heard;
/** A refusal by the library: its `number` and `name`, as in the C headers, and its `meaning`. The message contains all three. */
export class Fault extends Error {
    /**
     * @param {number} number
     * @param {string} name
     * @param {string} meaning
     */
    constructor(number: number, name: string, meaning: string);
    number: number;
    meaning: string;
}
/** Why a node refuses a call. */
export class LinkFault extends Fault {
    /** @param {number} number */
    constructor(number: number);
}
/** Why the sender refuses a directive. */
export class CopFault extends Fault {
    /** @param {number} number */
    constructor(number: number);
}
/** Why octets do not form a valid telecommand frame (232.0-B-4). */
export class TcFault extends Fault {
    /** @param {number} number */
    constructor(number: number);
}
/** Why octets do not form a valid telemetry frame (132.0-B-3). */
export class TmFault extends Fault {
    /** @param {number} number */
    constructor(number: number);
}
/** Why a packet is not queued on board as telemetry, by two of the numbers of a TmFault: 7 (Memory) and 8 (NotAPacket). */
export class TelemetryFault extends Fault {
    /** @param {number} number */
    constructor(number: number);
}
/** Why octets are not a valid CLCW (232.0-B-4). */
export class ClcwFault extends Fault {
    /** @param {number} number */
    constructor(number: number);
}
/** Why an event does not take place on a simulated link. */
export class SimFault extends Fault {
    /** @param {number} number */
    constructor(number: number);
}
/** Why a board does not take a packet, a status is not read, or a packet is not written. */
export class LogFault extends Fault {
    /** @param {number} number */
    constructor(number: number);
}
/** Why a commander refuses a call. */
export class LedgerFault extends Fault {
    /** @param {number} number */
    constructor(number: number);
}
/** The first managed parameter that is out of range: its number, its name, and its range. */
export class ConfigFault extends Fault {
    /** @param {number} number */
    constructor(number: number);
}
/** Why the sender has given up: its `number`, its `name` as tctool prints it, what to do next (`advice`), and whether it
 * shows that a condition of the promises is broken (`showsABrokenCondition`). */
export class Alert {
    /** @param {number} number */
    constructor(number: number);
    number: number;
    name: string;
    advice: string;
    showsABrokenCondition: boolean;
    toString(): string;
}
/** A communications link control word, CLCW (232.0-B-4, 4.2): the report on the receiver. */
export class Clcw {
    /**
     * Reads four octets as a CLCW.
     * @param {Uint8Array} octets
     * @returns {Clcw}
     * @throws {ClcwFault} the first that applies
     */
    static decode(octets: Uint8Array): Clcw;
    /**
     * @param {{ status?: number, vcid?: number, flags?: number, farmB?: number, value?: number }} [fields] those that are
     * not 0
     */
    constructor(fields?: {
        status?: number | undefined;
        vcid?: number | undefined;
        flags?: number | undefined;
        farmB?: number | undefined;
        value?: number | undefined;
    } | undefined);
    /** The status field, 3 bits, which is carried and not interpreted. */
    status: number;
    /** The virtual channel that the CLCW reports on. */
    vcid: number;
    /** The flags, as bits. */
    flags: number;
    /** The FARM-B counter, 2 bits. */
    farmB: number;
    /** The report value, V(R) of the receiver. */
    value: number;
    /**
     * Returns the CLCW as four octets.
     * @returns {Uint8Array}
     * @throws {ClcwFault} 5 (Range)
     */
    encode(): Uint8Array;
    /** Whether frames must be retransmitted, from the report value on. */
    get retransmit(): boolean;
    /** Whether there is no room for a further frame. */
    get wait(): boolean;
    /** Whether the receiver is in its state Lockout. */
    get lockout(): boolean;
    /** Whether the receiver has no bit lock. */
    get noBitLock(): boolean;
    /** Whether the radio frequency channel is not available. */
    get noRf(): boolean;
}
/**
 * What the spacecraft makes of received octets: their `kind`, and its own fields. INVALID: `fault`. AD: the number
 * `n`, the `verdict`, how many packets became `ready` with it, and why octets on its MAP were `dropped`, in the word that
 * tctool prints, or null. BD: whether it carried a packet, which is then `kept`. BC: the `command`, and the number `vr` of
 * Set V(R).
 */
export type Received = {
    kind: 'INVALID' | 'FOREIGN' | 'AD' | 'BD' | 'BC';
    fault: TcFault | null;
    n: number;
    verdict: Verdict | null;
    ready: number;
    dropped: string | null;
    kept: boolean;
    command: Command | null;
    vr: number;
};
/**
 * What the ground makes of received octets: their `kind`, and its own fields. INVALID: `fault`. TM: how many frames are
 * missing before it (`gap`), or null for the first; how many `packets` it added to those that wait to be taken; what became
 * of its CLCW (`report`); the CLCW itself (`word`), or the `wordFault` if the report is REFUSED; and why the sender has
 * given up (`alert`), or null. CLCW: `report`, `word`, `wordFault` and `alert`, as for TM. The `word` is of any virtual
 * channel; from a `Link` it is null, because `report` has returned it.
 */
export type Heard = {
    kind: 'INVALID' | 'FOREIGN' | 'TM' | 'CLCW';
    fault: TmFault | null;
    gap: number | null;
    packets: number;
    report: Report | null;
    wordFault: ClcwFault | null;
    alert: Alert | null;
    word: Clcw | null;
};
export type Calls = import('./sedgechisel.mjs').Calls;
export type Verdict = import('./meanings.mjs').Verdict;
export type Report = import('./meanings.mjs').Report;
export type Command = import('./meanings.mjs').Command;
