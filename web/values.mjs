// What the nodes for JavaScript share: the calls of the loaded module, faults, alerts, CLCWs, and what became of
// received octets. The meanings and names of numbers are in web/meanings.mjs, which web/bindings generates.
import { numberOf, objectOf } from './arguments.mjs';
import { meanings, members, ranges } from './meanings.mjs';

/** @typedef {import('./sedgechisel.mjs').Calls} Calls */
/** @typedef {import('./meanings.mjs').Verdict} Verdict */
/** @typedef {import('./meanings.mjs').Report} Report */
/** @typedef {import('./meanings.mjs').Command} Command */

/** @type {Calls | undefined} */
let loaded;

/** @param {Calls} calls */
export function use(calls) {
    loaded = calls;
}

/**
 * Returns the calls of the module that `load` has loaded.
 * @returns {Calls}
 */
export function sedge() {
    if (loaded === undefined) throw new Error('nothing is loaded: `await load()` comes before the first node');
    return loaded;
}

/**
 * Returns the name in JavaScript for a name in C.
 * @param {string} name
 * @returns {string}
 */
export function camel(name) {
    return name.replace(/_(.)/g, (_, letter) => letter.toUpperCase());
}

/**
 * Returns a count of 64 bits as a number. Throws a RangeError for one that a number cannot represent exactly.
 * @param {bigint | undefined} count
 * @returns {number}
 */
export function countOf(count = 0n) {
    if (count > Number.MAX_SAFE_INTEGER) throw new RangeError(`${count} is more than a number counts exactly`);
    return Number(count);
}

// ---- Faults. ----

/** A refusal by the library: its `number` and `name`, as in the C headers, and its `meaning`. The message contains all three. */
export class Fault extends Error {
    /**
     * @param {number} number
     * @param {string} name
     * @param {string} meaning
     */
    constructor(number, name, meaning) {
        super(`${number} ${name}: ${meaning}`);
        this.number = number;
        this.name = name;
        this.meaning = meaning;
    }
}

/** Why a node refuses a call. */
export class LinkFault extends Fault {
    /** @param {number} number */
    constructor(number) {
        super(number, sedge().sedge_link_fault_name(number), meanings.node_status[number] ?? '?');
    }
}

/** Why the sender refuses a directive. */
export class CopFault extends Fault {
    /** @param {number} number */
    constructor(number) {
        super(number, sedge().sedge_cop_fault_name(number), meanings.cop_fault[number] ?? '?');
    }
}

/** Why octets do not form a valid telecommand frame (232.0-B-4). */
export class TcFault extends Fault {
    /** @param {number} number */
    constructor(number) {
        super(number, sedge().sedge_tc_fault_name(number), meanings.tc_fault[number] ?? '?');
    }
}

/** Why octets do not form a valid telemetry frame (132.0-B-3). */
export class TmFault extends Fault {
    /** @param {number} number */
    constructor(number) {
        super(number, sedge().sedge_tm_fault_name(number), meanings.tm_fault[number] ?? '?');
    }
}

/** Why a packet is not queued on board as telemetry, by two of the numbers of a TmFault: 7 (Memory) and 8 (NotAPacket). */
export class TelemetryFault extends Fault {
    /** @param {number} number */
    constructor(number) {
        super(number, sedge().sedge_tm_fault_name(number), meanings.tm_fault[number] ?? '?');
    }
}

/** Why octets are not a valid CLCW (232.0-B-4). */
export class ClcwFault extends Fault {
    /** @param {number} number */
    constructor(number) {
        const name = number === 254 ? 'WrongCount' : sedge().sedge_clcw_fault_name(number);
        super(number, name, meanings.clcw_fault[number] ?? meanings.status[number] ?? '?');
    }
}

/** Why an event does not take place on a simulated link. */
export class SimFault extends Fault {
    /** @param {number} number */
    constructor(number) {
        super(number, sedge().sedge_sim_fault_name(number), meanings.sim_fault[number] ?? '?');
    }
}

/** Why a board does not take a packet, a status is not read, or a packet is not written. */
export class LogFault extends Fault {
    /** @param {number} number */
    constructor(number) {
        super(number, sedge().sedge_log_fault_name(number), meanings.log_fault[number] ?? '?');
    }
}

/** Why a commander refuses a call. */
export class LedgerFault extends Fault {
    /** @param {number} number */
    constructor(number) {
        super(number, sedge().sedge_ledger_fault_name(number), meanings.ledger_fault[number] ?? '?');
    }
}

/** The first managed parameter that is out of range: its number, its name, and its range. */
export class ConfigFault extends Fault {
    /** @param {number} number */
    constructor(number) {
        const name = sedge().sedge_parameter_name(number);
        super(number, camel(name), `its range is ${ranges[name]}`);
    }
}

// ---- Alerts. ----

/** Why the sender has given up: its `number`, its `name` as tctool prints it, what to do next (`advice`), and whether it
 * shows that a condition of the promises is broken (`showsABrokenCondition`). */
export class Alert {
    /** @param {number} number */
    constructor(number) {
        this.number = number;
        this.name = sedge().sedge_alert_name(number);
        this.advice = sedge().sedge_alert_advice(number);
        this.showsABrokenCondition = sedge().sedge_alert_shows_broken_condition(number);
    }

    toString() {
        return this.name;
    }
}

/**
 * @param {number} number
 * @returns {Alert | null}
 */
export function alertOf(number) {
    return number === 0 ? null : new Alert(number);
}

// ---- CLCWs. ----

const FLAGS = { retransmit: 0x08, wait: 0x10, lockout: 0x20, noBitLock: 0x40, noRf: 0x80 };
const FIELDS = ['status', 'vcid', 'flags', 'farmB', 'value'];

/** A communications link control word, CLCW (232.0-B-4, 4.2): the report on the receiver. */
export class Clcw {
    /**
     * @param {{ status?: number, vcid?: number, flags?: number, farmB?: number, value?: number }} [fields] those that are
     * not 0
     */
    constructor(fields = {}) {
        for (const [name, value] of Object.entries(objectOf('fields', fields, false))) {
            if (!FIELDS.includes(name)) throw new TypeError(`a Clcw has no field ${name}`);
            numberOf(name, 'uint8_t', value);
        }
        const { status = 0, vcid = 0, flags = 0, farmB = 0, value = 0 } = fields;
        /** The status field, 3 bits, which is carried and not interpreted. */
        this.status = status;
        /** The virtual channel that the CLCW reports on. */
        this.vcid = vcid;
        /** The flags, as bits. */
        this.flags = flags;
        /** The FARM-B counter, 2 bits. */
        this.farmB = farmB;
        /** The report value, V(R) of the receiver. */
        this.value = value;
    }

    /**
     * Reads four octets as a CLCW.
     * @param {Uint8Array} octets
     * @returns {Clcw}
     * @throws {ClcwFault} the first that applies
     */
    static decode(octets) {
        /** @type {Partial<import('./sedgechisel.mjs').sedge_clcw>} */
        const word = {}, number = sedge().sedge_clcw_decode(octets, word);
        if (number !== 0) throw new ClcwFault(number);
        return clcwOf(word);
    }

    /**
     * Returns the CLCW as four octets.
     * @returns {Uint8Array}
     * @throws {ClcwFault} 5 (Range)
     */
    encode() {
        const out = new Uint8Array(4), { farmB: farm_b, ...others } = this;
        const number = sedge().sedge_clcw_encode({ ...others, farm_b }, out);
        if (number !== 0) throw new ClcwFault(number);
        return out;
    }

    /** Whether frames must be retransmitted, from the report value on. */
    get retransmit() {
        return (this.flags & FLAGS.retransmit) !== 0;
    }

    /** Whether there is no room for a further frame. */
    get wait() {
        return (this.flags & FLAGS.wait) !== 0;
    }

    /** Whether the receiver is in its state Lockout. */
    get lockout() {
        return (this.flags & FLAGS.lockout) !== 0;
    }

    /** Whether the receiver has no bit lock. */
    get noBitLock() {
        return (this.flags & FLAGS.noBitLock) !== 0;
    }

    /** Whether the radio frequency channel is not available. */
    get noRf() {
        return (this.flags & FLAGS.noRf) !== 0;
    }
}

/**
 * Returns the CLCW with the fields of a struct.
 * @param {Partial<import('./sedgechisel.mjs').sedge_clcw>} it
 * @returns {Clcw}
 */
export function clcwOf({ status, vcid, flags, farm_b: farmB, value }) {
    return new Clcw({ status, vcid, flags, farmB, value });
}

// ---- Received octets. ----

/**
 * What the spacecraft makes of received octets: their `kind`, and its own fields. INVALID: `fault`. AD: the number
 * `n`, the `verdict`, how many packets became `ready` with it, and why octets on its MAP were `dropped`, in the word that
 * tctool prints, or null. BD: whether it carried a packet, which is then `kept`. BC: the `command`, and the number `vr` of
 * Set V(R).
 * @typedef {{ kind: 'INVALID' | 'FOREIGN' | 'AD' | 'BD' | 'BC', fault: TcFault | null, n: number, verdict: Verdict | null,
 * ready: number, dropped: string | null, kept: boolean, command: Command | null, vr: number }} Received
 */

/**
 * @param {Partial<import('./sedgechisel.mjs').sedge_received>} it
 * @returns {Received}
 */
export function receivedOf(it) {
    const { kind: number = 0, ready = 0, n = 0, kept = false, vr = 0 } = it, kind = members.received_kind[number];
    const fault = kind === 'INVALID' ? new TcFault(it.fault ?? 0) : null, isAd = kind === 'AD';
    const dropped = it.dropped ? sedge().sedge_dropped_name(it.dropped) : null;
    const verdict = isAd ? members.verdict[it.verdict ?? 0] : null;
    const command = kind === 'BC' ? members.command[it.command ?? 0] : null;
    return { kind, fault, n, verdict, ready, dropped, kept, command, vr };
}

/**
 * What the ground makes of received octets: their `kind`, and its own fields. INVALID: `fault`. TM: how many frames are
 * missing before it (`gap`), or null for the first; how many `packets` it added to those that wait to be taken; what became
 * of its CLCW (`report`); the CLCW itself (`word`), or the `wordFault` if the report is REFUSED; and why the sender has
 * given up (`alert`), or null. CLCW: `report`, `word`, `wordFault` and `alert`, as for TM. The `word` is of any virtual
 * channel; from a `Link` it is null, because `report` has returned it.
 * @typedef {{ kind: 'INVALID' | 'FOREIGN' | 'TM' | 'CLCW', fault: TmFault | null, gap: number | null, packets: number,
 * report: Report | null, wordFault: ClcwFault | null, alert: Alert | null, word: Clcw | null }} Heard
 */

/**
 * @param {Partial<import('./sedgechisel.mjs').sedge_heard>} it
 * @param {Uint8Array} [ocf] the octets of the CLCW
 * @returns {Heard}
 */
export function heardOf(it, ocf) {
    const name = members.heard_kind[it.kind ?? 0], kind = name === 'FRAME' ? 'TM' : name;
    const fault = kind === 'INVALID' ? new TmFault(it.fault ?? 0) : null, isReport = kind === 'TM' || kind === 'CLCW';
    const report = isReport ? members.heard_report[it.report ?? 0] : null;
    const wordFault = report === 'REFUSED' ? new ClcwFault(it.word_fault ?? 0) : null;
    const word = isReport && ocf && wordFault === null ? Clcw.decode(ocf) : null;
    const gap = kind === 'TM' && it.first === 0 ? it.missing ?? 0 : null;
    return { kind, fault, gap, packets: it.packets ?? 0, report, wordFault, alert: alertOf(it.alert ?? 0), word };
}
