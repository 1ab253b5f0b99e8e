// Made by web/types of web/executor.mjs.
/**
 * Returns the 50 octets that both places have before a new board starts for the first time.
 * @returns {Uint8Array}
 */
export function newRecord(): Uint8Array;
/**
 * Returns the command packet with this APID, sequence count and number, and the mission's octets.
 * @param {number} apid
 * @param {number} count
 * @param {number} number
 * @param {Uint8Array} content
 * @returns {Uint8Array}
 * @throws {LogFault} 11 (FieldRange) for an APID above 2,047, a count above 16,383, the number 0, or more than 65,528
 * octets
 */
export function commandPacket(apid: number, count: number, number: number, content: Uint8Array): Uint8Array;
/**
 * Returns the packet of an order that restarts the board with this boot count.
 * @param {number} apid
 * @param {number} count
 * @param {number} boot
 * @returns {Uint8Array}
 * @throws {LogFault} 11 (FieldRange)
 */
export function restartOrder(apid: number, count: number, boot: number): Uint8Array;
/**
 * Returns the packet of an order that brings a record to the board that has lost its own, with this mark. The record
 * has this boot count and this last number.
 * @param {number} apid
 * @param {number} count
 * @param {number} mark
 * @param {number} boot
 * @param {number} last
 * @returns {Uint8Array}
 * @throws {LogFault} 11 (FieldRange)
 */
export function rebuildOrder(apid: number, count: number, mark: number, boot: number, last: number): Uint8Array;
/**
 * Returns the history after one more command packet: CRC-32 continued over the last four octets of the packet. The
 * history of no packets is 0. A ground compares the history of the packets that it sent with the history in a status.
 * @param {number} history
 * @param {Uint8Array} packet
 * @returns {number}
 */
export function historyAfter(history: number, packet: Uint8Array): number;
/** What `Executor.next` returns: the program completes the action, and passes it to `done`. */
export class Action {
    /**
     * @param {ActionKind} kind
     * @param {Uint8Array} octets
     * @param {number} number
     * @param {Uint8Array} content
     */
    constructor(kind: ActionKind, octets: Uint8Array, number: number, content: Uint8Array);
    /**
     * What the program does.
     * @readonly
     */
    readonly kind: import("./meanings.mjs").ActionKind;
    /**
     * The octets to be written at the place; empty for any other kind.
     * @readonly
     */
    readonly octets: Uint8Array;
    /**
     * The number of the command to be executed; 0 for any other kind.
     * @readonly
     */
    readonly number: number;
    /**
     * The mission's octets of the command to be executed; empty for any other kind.
     * @readonly
     */
    readonly content: Uint8Array;
}
/** Decides on board which command is executed next: each at most once and in order, over restarts at any moment. It
 * does no input or output. The program completes the action that `next` returns, and calls `done`, before it calls
 * `next` again. */
export class Executor {
    /**
     * Starts with the octets at the two places in memory that survives restarts; pass no octets for a place that cannot
     * be read. A new board has `newRecord()` at both places.
     * @param {Uint8Array} first
     * @param {Uint8Array} second
     * @param {number} mark must differ at each start, and comes from a clock or is random: if neither place has a record,
     * it is the mark of this loss
     */
    constructor(first: Uint8Array, second: Uint8Array, mark: number);
    /**
     * Returns the program's next action. The program completes this action and calls `done` before it calls `next`
     * again.
     * @returns {Action}
     * @throws {Error} if `done` was not called for the action that it returned last
     */
    next(): Action;
    /**
     * Records that the action that `next` returned last is complete. Throws an Error, and changes nothing, if this is
     * another action.
     * @param {Action} action an action of the kind NOTHING changes nothing
     */
    done(action: Action): void;
    /**
     * Takes the octets of a packet that arrived, if it is the next command, and returns the mission's octets in them.
     * Throws LogFault, and changes nothing, for any other packet, which is dropped: 1 Layout, then 2 Check, then 3
     * Starting, 4 Busy or 5 Lost, then 6 Behind or 7 Ahead.
     * @param {Uint8Array} octets
     * @returns {Uint8Array}
     */
    offer(octets: Uint8Array): Uint8Array;
    /**
     * Takes the octets of an order that arrived. An order to restart makes RESTART the next action. A board that has
     * lost its record continues with the one that the order brings, if the order has the mark of this loss. Throws
     * LogFault, and changes nothing, for any other packet, which is dropped: 1 Layout, then 2 Check; then for a restart
     * 3 Starting, 4 Busy or 5 Lost, and then 8 OtherBoot; for a record 9 NotLost, and then 10 OtherMark.
     * @param {Uint8Array} octets
     */
    obey(octets: Uint8Array): void;
    /**
     * Returns the status for telemetry, 27 octets, with the number of commands that wait on board to be offered; a
     * number above 255 is written as 255.
     * @param {number} [waiting]
     * @returns {Uint8Array}
     */
    status(waiting?: number | undefined): Uint8Array;
    #private;
}
/** What the status of a board states. The fields of the record are 0 unless the kind is SAYS. */
export class BoardStatus {
    /**
     * Reads a status of 27 octets.
     * @param {Uint8Array} octets
     * @returns {BoardStatus}
     * @throws {LogFault} 1 (Layout) or 2 (Check)
     */
    static decode(octets: Uint8Array): BoardStatus;
    /** @param {Partial<import('./sedgechisel.mjs').sedge_board_status>} it as the library writes it */
    constructor({ kind, kept, mark, waiting }: Partial<import('./sedgechisel.mjs').sedge_board_status>);
    /** What the status states: the record (SAYS); that the record is being written (CHANGES) or that the board has
     * just started (STARTS), and the previous status then holds; or that the record is lost (LOST). */
    kind: import("./meanings.mjs").StatusKind;
    /** How often the board has started. */
    boot: number;
    /** The number of the last command that was executed or passed over. */
    last: number;
    /** A bit for each of the 64 numbers up to last, the lowest for last: 1 if it is known that the command was
     * executed, whole. */
    known: bigint;
    /** The running check of all commands that were taken (`historyAfter`). */
    history: number;
    /** Whether the next command is begun. */
    begun: boolean;
    /** The mark of the loss, for LOST, otherwise 0. */
    mark: number;
    /** How many commands wait on board, at most 255. */
    waiting: number;
}
export type ActionKind = import('./meanings.mjs').ActionKind;
export type StatusKind = import('./meanings.mjs').StatusKind;
