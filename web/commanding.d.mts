// Made by web/types of web/commanding.mjs.
/** What `Commander.next` returns: the program completes the action, and passes it to `done`. */
export class CommanderAction {
    /**
     * @param {CommanderActionKind} kind
     * @param {Uint8Array} octets
     * @param {Given} given the action as the library writes it
     */
    constructor(kind: CommanderActionKind, octets: Uint8Array, given: Given);
    /**
     * What the program does: append `octets` to the store (STORE); report that the command with this `tag` was
     * executed, whole (EXECUTED), that nothing is known of it (UNKNOWN), that the board has restarted (RESTARTED) or
     * lost its record (RECORD_LOST), or that it has passed numbers whose commands are not this store's (FOREIGN);
     * use a packet of telemetry (TELEMETRY); or send a frame (SEND). Nothing need be done if the sender has given up
     * (ALERT), or until something arrives or a tick passes (NOTHING).
     * @readonly
     */
    readonly kind: import("./meanings.mjs").CommanderActionKind;
    /**
     * STORE: the octets to be appended. TELEMETRY: the packet. SEND: the frame. Empty for any other kind.
     * @readonly
     */
    readonly octets: Uint8Array;
    /**
     * EXECUTED, UNKNOWN: the tag of the command; 0n for any other kind.
     * @readonly
     */
    readonly tag: bigint;
    /**
     * RESTARTED: the new boot count. RECORD_LOST: the mark of the loss. FOREIGN: the first number. 0 for any other
     * kind.
     * @readonly
     */
    readonly number: number;
    /**
     * FOREIGN: the last number; 0 for any other kind.
     * @readonly
     */
    readonly last: number;
    /**
     * ALERT: why the sender has given up; null for any other kind.
     * @readonly
     */
    readonly alert: import("./values.mjs").Alert | null;
}
/** A ground whose commands are executed on board once and in order, over restarts of both ends at any moment. It does
 * no input or output. The program completes the action that `next` returns, and calls `done`, before it calls `next`
 * again. In between it may call every other method. */
export class Commander extends Handle {
    /**
     * Opens a commander with these settings and managed parameters from the octets of its store; a new store has none.
     * Its ground is in S6. Truncate the store to `good` octets before you append to it.
     * @param {Mission} mission
     * @param {Uint8Array} [store]
     * @param {Partial<Config>} [config] the others have their defaults
     * @throws {import('./values.mjs').ConfigFault} if a parameter is out of range
     * @throws {LedgerFault} the first that applies of 3 (FieldRange) (the MAP of orders is not open, or their APID is
     * above 2,046), 4 (TooLong) (part or maxPacket is below 23) and 9 (Memory)
     */
    constructor(mission: Mission, store?: Uint8Array | undefined, config?: Partial<import("./meanings.mjs").Config> | undefined);
    /** How many octets of the store were good when the commander was opened. */
    get good(): number;
    /**
     * Gives the commander a command, after all others, and returns its number. The commander writes the command packet;
     * apid and sequence are its APID and its sequence count, and content the mission's octets. tag is the caller's own:
     * give each command another one, because reports carry only the tag. Throws the first that applies of LedgerFault 3
     * (FieldRange) (a MAP that is not open, an APID above 2,046, a sequence count above 16,383, or more than 65,528
     * octets), LedgerFault 4 (TooLong), LedgerFault 5 (NoNumber) and LedgerFault 9 (Memory).
     * @param {number | bigint} tag
     * @param {number} map
     * @param {number} apid
     * @param {number} sequence
     * @param {Uint8Array} content
     * @returns {number}
     */
    command(tag: number | bigint, map: number, apid: number, sequence: number, content: Uint8Array): number;
    /**
     * Takes octets that came from the board, exactly one telemetry frame, and returns what they are, as
     * `Ground.telemetry` does. `next` then takes its packets. Throws LedgerFault 9 (Memory).
     * @param {Uint8Array} octets
     * @returns {Heard}
     */
    telemetry(octets: Uint8Array): Heard;
    /**
     * Takes a CLCW that came by itself, and returns what becomes of it, as `Ground.clcw` does.
     * @param {Uint8Array} word
     * @returns {Heard}
     * @throws {RangeError} unless the octets are four
     */
    clcw(word: Uint8Array): Heard;
    /**
     * Takes the octets of a status that came without a packet. (`next` takes those in telemetry by itself.) A status
     * that contains nothing new changes nothing. Throws the first that applies of LedgerFault 1 (Layout) (not 27
     * octets), LedgerFault 2 (Check) and LedgerFault 9 (Memory).
     * @param {Uint8Array} octets
     */
    status(octets: Uint8Array): void;
    /** Counts a tick of the clock. An alert is the next action of `next`. */
    tick(): void;
    /**
     * Returns the program's next action. The program completes it before it calls this again. Throws LedgerFault 9
     * (Memory).
     * @returns {CommanderAction}
     * @throws {Error} if `done` was not called for the action that it returned last, unless this is NOTHING or ALERT
     */
    next(): CommanderAction;
    /**
     * Records that the action that `next` returned last is complete. After RESTARTED and RECORD_LOST the session ends.
     * Throws an Error, and changes nothing, if this is another action. Throws LedgerFault 9 (Memory).
     * @param {CommanderAction} action an action of the kind NOTHING or ALERT changes nothing
     */
    done(action: CommanderAction): void;
    /**
     * Takes the oldest telemetry packet. Returns it, or null if none waits. If it has the APID of the board's status
     * and 27 octets of data, the commander also takes it as a status. Throws LedgerFault 9 (Memory).
     * @returns {Uint8Array | null}
     */
    takeTelemetry(): Uint8Array | null;
    /**
     * Returns the progress of the command with this number by COP-1 in the current session or, if none is open, the
     * last one. Only EXECUTED of `next` states that it was executed. Returns null if the command has a fate or was not
     * given.
     * @param {number} number
     * @returns {Progress | null}
     */
    progress(number: number): Progress | null;
    /**
     * Stops the submission of commands to the ground until `goOn`. The ground still sends the commands that were
     * submitted.
     */
    pause(): void;
    /** Resumes the submission of commands. */
    goOn(): void;
    /**
     * Has the order to restart sent to the board, until a restart of the board or the loss of its record is reported.
     */
    restartBoard(): void;
    /**
     * Makes the order that brings a record to a board that has lost its own; an operator decides this. Once a status
     * shows that the board obeyed it, each command that was stored by now and has no fate is UNKNOWN, whether or not it
     * was sent. Throws the first that applies of LedgerFault 6 (NotLost), LedgerFault 7 (NoBoot) and LedgerFault 9
     * (Memory).
     */
    rebuild(): void;
    /**
     * Returns the octets of a fresh store of the same commands; the commander does not change. Write them to a new
     * file, replace the store with it, and call `renewed`; append nothing to the store meanwhile. Throws the first that
     * applies of LedgerFault 8 (Owing) (something must be stored or reported first) and LedgerFault 9 (Memory).
     * @returns {Uint8Array}
     */
    fresh(): Uint8Array;
    /**
     * Records that the store now has this many octets, which begin with those of `fresh`.
     * @param {number} count
     */
    renewed(count: number): void;
    /**
     * The number up to which every command has its fate.
     * @returns {number}
     */
    get below(): number;
    /**
     * The highest number that was given, or that a command of another ground had on board.
     * @returns {number}
     */
    get highest(): number;
    /**
     * Whether a fresh store would have less than half as many octets, and nothing is left to be stored or reported.
     * @returns {boolean}
     */
    get isWorth(): boolean;
    /**
     * The readings of the commander's ground.
     * @returns {GroundReading}
     */
    get ground(): GroundReading;
    #private;
}
export type Config = import('./meanings.mjs').Config;
export type Mission = import('./meanings.mjs').Mission;
export type CommanderActionKind = import('./meanings.mjs').CommanderActionKind;
export type Progress = import('./meanings.mjs').Progress;
export type State = import('./meanings.mjs').State;
export type Alert = import('./values.mjs').Alert;
export type Heard = import('./values.mjs').Heard;
export type Given = Partial<import('./sedgechisel.mjs').sedge_commander_action>;
/**
 * The readings of a commander's ground at one moment. The fields have the names and the values of the getters of a
 * `Ground`.
 */
export type GroundReading = {
    state: State;
    vs: number;
    nn: number;
    outstanding: number;
    unsent: number;
    due: number;
    bypassed: number;
    ticks: number;
    count: number;
    frameLength: number;
    submitted: number;
    sentWhole: number;
    acknowledgedWhole: number;
};
import { Handle } from "./handles.mjs";
