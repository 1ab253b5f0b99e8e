// Commands that are executed at most once and in order on board, over restarts at any moment, for JavaScript: the
// board's half (Executor), and the codecs of the ground. Names are those of the package for Python in camel case. The
// comments of the methods of Executor are those of c/include/sedgechisel.h, which web/bindings writes here.
import { octetsOf } from './arguments.mjs';
import { members } from './meanings.mjs';
import { numbers as n } from './sedgechisel.mjs';
import { LogFault, sedge } from './values.mjs';

/** @typedef {import('./meanings.mjs').ActionKind} ActionKind */
/** @typedef {import('./meanings.mjs').StatusKind} StatusKind */

const NONE = new Uint8Array(0);

/**
 * Throws a LogFault if the answer of a call is a refusal.
 * @param {number} answer
 */
function judge(answer) {
    if (answer !== 0) throw new LogFault(answer);
}

/** What `Executor.next` returns: the program completes the action, and passes it to `done`. */
export class Action {
    /**
     * @param {ActionKind} kind
     * @param {Uint8Array} octets
     * @param {number} number
     * @param {Uint8Array} content
     */
    constructor(kind, octets, number, content) {
        /**
         * What the program does.
         * @readonly
         */
        this.kind = kind;
        /**
         * The octets to be written at the place; empty for any other kind.
         * @readonly
         */
        this.octets = octets;
        /**
         * The number of the command to be executed; 0 for any other kind.
         * @readonly
         */
        this.number = number;
        /**
         * The mission's octets of the command to be executed; empty for any other kind.
         * @readonly
         */
        this.content = content;
        Object.freeze(this);
    }
}

/** Decides on board which command is executed next: each at most once and in order, over restarts at any moment. It
 * does no input or output. The program completes the action that `next` returns, and calls `done`, before it calls
 * `next` again. */
export class Executor {
    /** @type {Partial<import('./sedgechisel.mjs').sedge_log>} */
    #log = {};
    #content = NONE;
    /** @type {Action | null} */
    #due = null;
    #answer = 0;

    /**
     * Starts with the octets at the two places in memory that survives restarts; pass no octets for a place that cannot
     * be read. A new board has `newRecord()` at both places.
     * @param {Uint8Array} first
     * @param {Uint8Array} second
     * @param {number} mark must differ at each start, and comes from a clock or is random: if neither place has a record,
     * it is the mark of this loss
     */
    constructor(first, second, mark) {
        sedge().sedge_log_start(this.#log, first, second, mark);
    }

    /**
     * Returns the program's next action. The program completes this action and calls `done` before it calls `next`
     * again.
     * @returns {Action}
     * @throws {Error} if `done` was not called for the action that it returned last
     */
    next() {
        if (this.#due !== null) throw new Error(`next before done: ${this.#due.kind} is not done`);
        const out = new Uint8Array(n.SEDGE_LOG_RECORD_OCTETS), number = { value: 0 };
        const answer = sedge().sedge_log_next(this.#log, out, number), kind = members.log_action[answer];
        const isWrite = kind === 'WRITE_FIRST' || kind === 'WRITE_SECOND';
        const content = kind === 'EXECUTE' ? this.#content.slice() : NONE;
        const action = new Action(kind, isWrite ? out : NONE, number.value, content);
        if (kind !== 'NOTHING') [this.#due, this.#answer] = [action, answer];
        return action;
    }

    /**
     * Records that the action that `next` returned last is complete. Throws an Error, and changes nothing, if this is
     * another action.
     * @param {Action} action an action of the kind NOTHING changes nothing
     */
    done(action) {
        if (!(action instanceof Action)) throw new TypeError('action: this is not an Action');
        if (action.kind === 'NOTHING' && this.#due === null) return;
        if (action !== this.#due) throw new Error('this is not the action that next returned last');
        judge(sedge().sedge_log_done(this.#log, this.#answer, action.number));
        this.#due = null;
    }

    /**
     * Takes the octets of a packet that arrived, if it is the next command, and returns the mission's octets in them.
     * Throws LogFault, and changes nothing, for any other packet, which is dropped: 1 Layout, then 2 Check, then 3
     * Starting, 4 Busy or 5 Lost, then 6 Behind or 7 Ahead.
     * @param {Uint8Array} octets
     * @returns {Uint8Array}
     */
    offer(octets) {
        /** @type {Partial<import('./sedgechisel.mjs').sedge_part>} */
        const part = {};
        judge(sedge().sedge_log_offer(this.#log, octets, part));
        const { from = 0, count = 0 } = part;
        this.#content = new Uint8Array(octets.subarray(from, from + count)); // (a copy, also of a Buffer)
        return this.#content.slice();
    }

    /**
     * Takes the octets of an order that arrived. An order to restart makes RESTART the next action. A board that has
     * lost its record continues with the one that the order brings, if the order has the mark of this loss. Throws
     * LogFault, and changes nothing, for any other packet, which is dropped: 1 Layout, then 2 Check; then for a restart
     * 3 Starting, 4 Busy or 5 Lost, and then 8 OtherBoot; for a record 9 NotLost, and then 10 OtherMark.
     * @param {Uint8Array} octets
     */
    obey(octets) {
        judge(sedge().sedge_log_obey(this.#log, octets));
    }

    /**
     * Returns the status for telemetry, 27 octets, with the number of commands that wait on board to be offered; a
     * number above 255 is written as 255.
     * @param {number} [waiting]
     * @returns {Uint8Array}
     */
    status(waiting = 0) {
        const out = new Uint8Array(n.SEDGE_LOG_STATUS_OCTETS);
        judge(sedge().sedge_log_status(this.#log, waiting, out));
        return out;
    }
}

/**
 * Returns the 50 octets that both places have before a new board starts for the first time.
 * @returns {Uint8Array}
 */
export function newRecord() {
    const out = new Uint8Array(n.SEDGE_LOG_RECORD_OCTETS);
    judge(sedge().sedge_log_new_record(out));
    return out;
}

/** What the status of a board states. The fields of the record are 0 unless the kind is SAYS. */
export class BoardStatus {
    /** @param {Partial<import('./sedgechisel.mjs').sedge_board_status>} it as the library writes it */
    constructor({ kind = 0, kept, mark = 0, waiting = 0 }) {
        const { boot = 0, last = 0, known = 0n, history = 0, begun = 0 } = kept ?? {};
        /** What the status states: the record (SAYS); that the record is being written (CHANGES) or that the board has
         * just started (STARTS), and the previous status then holds; or that the record is lost (LOST). */
        this.kind = members.log_status_kind[kind];
        /** How often the board has started. */
        this.boot = boot;
        /** The number of the last command that was executed or passed over. */
        this.last = last;
        /** A bit for each of the 64 numbers up to last, the lowest for last: 1 if it is known that the command was
         * executed, whole. */
        this.known = known;
        /** The running check of all commands that were taken (`historyAfter`). */
        this.history = history;
        /** Whether the next command is begun. */
        this.begun = begun === 1;
        /** The mark of the loss, for LOST, otherwise 0. */
        this.mark = mark;
        /** How many commands wait on board, at most 255. */
        this.waiting = waiting;
    }

    /**
     * Reads a status of 27 octets.
     * @param {Uint8Array} octets
     * @returns {BoardStatus}
     * @throws {LogFault} 1 (Layout) or 2 (Check)
     */
    static decode(octets) {
        /** @type {Partial<import('./sedgechisel.mjs').sedge_board_status>} */
        const status = {};
        judge(sedge().sedge_log_status_decode(octets, status));
        return new BoardStatus(status);
    }
}

/**
 * Returns the command packet with this APID, sequence count and number, and the mission's octets.
 * @param {number} apid
 * @param {number} count
 * @param {number} number
 * @param {Uint8Array} content
 * @returns {Uint8Array}
 * @throws {LogFault} 11 (FieldRange) for an APID above 2,047, a count above 16,383, the number 0, or more than 65,528
 * octets
 */
export function commandPacket(apid, count, number, content) {
    const out = new Uint8Array(octetsOf('content', content).length + n.SEDGE_LOG_COMMAND_OVERHEAD);
    judge(sedge().sedge_log_command_encode(apid, count, number, content, out, {}));
    return out;
}

/**
 * @param {number} apid
 * @param {number} count
 * @param {import('./sedgechisel.mjs').sedge_log_order} it
 * @returns {Uint8Array}
 */
function order(apid, count, it) {
    const out = new Uint8Array(n.SEDGE_LOG_ORDER_OCTETS);
    judge(sedge().sedge_log_order_encode(it, apid, count, out, {}));
    return out;
}

/**
 * Returns the packet of an order that restarts the board with this boot count.
 * @param {number} apid
 * @param {number} count
 * @param {number} boot
 * @returns {Uint8Array}
 * @throws {LogFault} 11 (FieldRange)
 */
export function restartOrder(apid, count, boot) {
    return order(apid, count, { kind: n.SEDGE_LOG_ORDER_RESTART, mark: 0, boot, last: 0 });
}

/**
 * Returns the packet of an order that brings a record to the board that has lost its own, with this mark. The record
 * has this boot count and this last number.
 * @param {number} apid
 * @param {number} count
 * @param {number} mark
 * @param {number} boot
 * @param {number} last
 * @returns {Uint8Array}
 * @throws {LogFault} 11 (FieldRange)
 */
export function rebuildOrder(apid, count, mark, boot, last) {
    return order(apid, count, { kind: n.SEDGE_LOG_ORDER_REBUILD, mark, boot, last });
}

/**
 * Returns the history after one more command packet: CRC-32 continued over the last four octets of the packet. The
 * history of no packets is 0. A ground compares the history of the packets that it sent with the history in a status.
 * @param {number} history
 * @param {Uint8Array} packet
 * @returns {number}
 */
export function historyAfter(history, packet) {
    return sedge().sedge_log_history_after(history, packet);
}
