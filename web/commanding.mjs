// The ground's half of commands that are executed on board once and in order, over restarts of both ends at any moment,
// for JavaScript: the class Commander. On board there is an Executor (executor.mjs). Names are those of the package for
// Python in camel case. The comments of methods and getters are those of c/include/sedgechisel_nodes.h, which
// web/bindings writes here.
import { numberOf } from './arguments.mjs';
import { Handle, recordOf } from './handles.mjs';
import { members } from './meanings.mjs';
import { numbers as n } from './sedgechisel.mjs';
import { LedgerFault, alertOf, countOf, heardOf, sedge } from './values.mjs';

/** @typedef {import('./meanings.mjs').Config} Config */
/** @typedef {import('./meanings.mjs').Mission} Mission */
/** @typedef {import('./meanings.mjs').CommanderActionKind} CommanderActionKind */
/** @typedef {import('./meanings.mjs').Progress} Progress */
/** @typedef {import('./meanings.mjs').State} State */
/** @typedef {import('./values.mjs').Alert} Alert */
/** @typedef {import('./values.mjs').Heard} Heard */
/** @typedef {Partial<import('./sedgechisel.mjs').sedge_commander_action>} Given */

/**
 * The readings of a commander's ground at one moment. The fields have the names and the values of the getters of a
 * `Ground`.
 * @typedef {{ state: State, vs: number, nn: number, outstanding: number, unsent: number, due: number, bypassed: number,
 * ticks: number, count: number, frameLength: number, submitted: number, sentWhole: number,
 * acknowledgedWhole: number }} GroundReading
 */

const NONE = new Uint8Array(0), FRAME = 1024, LEAST = 4096;
const SETTINGS = ['roundTrip', 'orders', 'status', 'map', 'holds'];
// The kinds of actions that are reported, and those that leave nothing to be done.
const REPORTED = new Set(['EXECUTED', 'UNKNOWN', 'RESTARTED', 'RECORD_LOST', 'FOREIGN']);
const FREE = new Set(['NOTHING', 'ALERT']);

/**
 * The settings as the library has them.
 * @param {Mission} given
 * @returns {import('./sedgechisel.mjs').sedge_mission}
 */
function missionOf(given) {
    const { roundTrip, orders, status, map, holds = false } = recordOf('mission', given, SETTINGS);
    return {
        round_trip: Number(numberOf('roundTrip', 'uint32_t', roundTrip)),
        orders: Number(numberOf('orders', 'uint16_t', orders)), status: Number(numberOf('status', 'uint16_t', status)),
        map: Number(numberOf('map', 'uint8_t', map)), holds: Number(numberOf('holds', 'bool', holds)),
    };
}

/** What `Commander.next` returns: the program completes the action, and passes it to `done`. */
export class CommanderAction {
    /**
     * @param {CommanderActionKind} kind
     * @param {Uint8Array} octets
     * @param {Given} given the action as the library writes it
     */
    constructor(kind, octets, given) {
        const { tag = 0n, number = 0, last = 0, alert = 0 } = given;
        /**
         * What the program does: append `octets` to the store (STORE); report that the command with this `tag` was
         * executed, whole (EXECUTED), that nothing is known of it (UNKNOWN), that the board has restarted (RESTARTED) or
         * lost its record (RECORD_LOST), or that it has passed numbers whose commands are not this store's (FOREIGN);
         * use a packet of telemetry (TELEMETRY); or send a frame (SEND). Nothing need be done if the sender has given up
         * (ALERT), or until something arrives or a tick passes (NOTHING).
         * @readonly
         */
        this.kind = kind;
        /**
         * STORE: the octets to be appended. TELEMETRY: the packet. SEND: the frame. Empty for any other kind.
         * @readonly
         */
        this.octets = octets;
        /**
         * EXECUTED, UNKNOWN: the tag of the command; 0n for any other kind.
         * @readonly
         */
        this.tag = tag;
        /**
         * RESTARTED: the new boot count. RECORD_LOST: the mark of the loss. FOREIGN: the first number. 0 for any other
         * kind.
         * @readonly
         */
        this.number = number;
        /**
         * FOREIGN: the last number; 0 for any other kind.
         * @readonly
         */
        this.last = last;
        /**
         * ALERT: why the sender has given up; null for any other kind.
         * @readonly
         */
        this.alert = alertOf(alert);
        Object.freeze(this);
    }
}

/** A ground whose commands are executed on board once and in order, over restarts of both ends at any moment. It does
 * no input or output. The program completes the action that `next` returns, and calls `done`, before it calls `next`
 * again. In between it may call every other method. */
export class Commander extends Handle {
    /** @type {number} */
    #good;
    /** @type {CommanderAction | null} */
    #due = null;
    /** @type {Given} */
    #given = {};
    #room = new Uint8Array(FRAME);
    // How many of the octets that are to be stored the program has appended.
    #appended = 0;
    // Whether the program has reported what is to be reported next.
    #isReported = false;

    /**
     * Opens a commander with these settings and managed parameters from the octets of its store; a new store has none.
     * Its ground is in S6. Truncate the store to `good` octets before you append to it.
     * @param {Mission} mission
     * @param {Uint8Array} [store]
     * @param {Partial<Config>} [config] the others have their defaults
     * @throws {import('./values.mjs').ConfigFault} if a parameter is out of range
     * @throws {LedgerFault} the first that applies of 3 (FieldRange) (the MAP of orders is not open, or their APID is
     * above 2,046), 4 (TooLong) (part or maxPacket is below 23) and 9 (Memory)
     */
    constructor(mission, store = NONE, config = {}) {
        const settings = missionOf(mission), good = { value: 0 }, calls = sedge();
        super(config, (own, raw) => calls.sedge_commander_open(raw, own, settings, store, good),
            calls.sedge_commander_close, LedgerFault);
        this.#good = good.value;
    }

    /** How many octets of the store were good when the commander was opened. */
    get good() {
        return this.#good;
    }

    /**
     * Gives the commander a command, after all others, and returns its number. The commander writes the command packet;
     * apid and sequence are its APID and its sequence count, and content the mission's octets. tag is the caller's own:
     * give each command another one, because reports carry only the tag. Throws the first that applies of LedgerFault 3
     * (FieldRange) (a MAP that is not open, an APID above 2,046, a sequence count above 16,383, or more than 65,528
     * octets), LedgerFault 4 (TooLong), LedgerFault 5 (NoNumber) and LedgerFault 9 (Memory).
     * @param {number | bigint} tag
     * @param {number} map
     * @param {number} apid
     * @param {number} sequence
     * @param {Uint8Array} content
     * @returns {number}
     */
    command(tag, map, apid, sequence, content) {
        const number = { value: 0 }, own = BigInt(numberOf('tag', 'uint64_t', tag));
        this.asked((raw) => sedge().sedge_commander_command(raw, own, map, apid, sequence, content, number));
        return number.value;
    }

    /**
     * Takes octets that came from the board, exactly one telemetry frame, and returns what they are, as
     * `Ground.telemetry` does. `next` then takes its packets. Throws LedgerFault 9 (Memory).
     * @param {Uint8Array} octets
     * @returns {Heard}
     */
    telemetry(octets) {
        /** @type {Partial<import('./sedgechisel.mjs').sedge_heard>} */
        const heard = {};
        this.asked((raw) => sedge().sedge_commander_telemetry(raw, octets, heard));
        return heardOf(heard, octets.subarray(-6, -2));
    }

    /**
     * Takes a CLCW that came by itself, and returns what becomes of it, as `Ground.clcw` does.
     * @param {Uint8Array} word
     * @returns {Heard}
     * @throws {RangeError} unless the octets are four
     */
    clcw(word) {
        /** @type {Partial<import('./sedgechisel.mjs').sedge_heard>} */
        const heard = {};
        const answer = this.asked((raw) => sedge().sedge_commander_clcw(raw, word, heard));
        if (answer !== 0) throw new RangeError(`word: ${word.length} octets, where a control word has four`);
        return heardOf(heard, word);
    }

    /**
     * Takes the octets of a status that came without a packet. (`next` takes those in telemetry by itself.) A status
     * that contains nothing new changes nothing. Throws the first that applies of LedgerFault 1 (Layout) (not 27
     * octets), LedgerFault 2 (Check) and LedgerFault 9 (Memory).
     * @param {Uint8Array} octets
     */
    status(octets) {
        this.asked((raw) => sedge().sedge_commander_status(raw, octets));
    }

    /** Counts a tick of the clock. An alert is the next action of `next`. */
    tick() {
        this.asked(sedge().sedge_commander_tick);
    }

    /**
     * Returns the program's next action. The program completes it before it calls this again. Throws LedgerFault 9
     * (Memory).
     * @returns {CommanderAction}
     * @throws {Error} if `done` was not called for the action that it returned last, unless this is NOTHING or ALERT
     */
    next() {
        if (this.#due !== null) throw new Error(`next before done: ${this.#due.kind} is not done`);
        let given = this.#next();
        if (this.#isReported && REPORTED.has(members.commander_action_kind[given.kind ?? 0])) {
            this.#tell(given);
            given = this.#next();
        }
        const kind = members.commander_action_kind[given.kind ?? 0];
        const action = new CommanderAction(kind, this.#octetsOf(kind, given.count), given);
        if (!FREE.has(kind)) [this.#due, this.#given] = [action, given];
        return action;
    }

    /**
     * The next action as the library writes it.
     * @returns {Given}
     */
    #next() {
        return this.read((raw, /** @type {Given} */ into) => sedge().sedge_commander_next(raw, into, this.#room));
    }

    /**
     * The octets of an action of this kind.
     * @param {CommanderActionKind} kind
     * @param {number} [count]
     */
    #octetsOf(kind, count = 0) {
        if (kind === 'SEND') return this.#room.slice(0, count);
        if (kind === 'TELEMETRY') return this.takeTelemetry() ?? NONE;
        if (kind !== 'STORE') return NONE;
        const out = new Uint8Array(count);
        this.asked((raw) => sedge().sedge_commander_unstored(raw, out, {}));
        return out.subarray(this.#appended);
    }

    /**
     * Records that the action that `next` returned last is complete. After RESTARTED and RECORD_LOST the session ends.
     * Throws an Error, and changes nothing, if this is another action. Throws LedgerFault 9 (Memory).
     * @param {CommanderAction} action an action of the kind NOTHING or ALERT changes nothing
     */
    done(action) {
        if (!(action instanceof CommanderAction)) throw new TypeError('action: this is not a CommanderAction');
        if (this.closed) throw new Error('the node is closed');
        if (this.#due === null && FREE.has(action.kind)) return;
        if (action !== this.#due) throw new Error('this is not the action that next returned last');
        if (action.kind === 'STORE') this.#store(action.octets.length);
        else if (REPORTED.has(action.kind)) this.#tell(this.#given);
        this.#due = null;
    }

    /**
     * Records that so many octets were appended. The library takes all that are to be stored at once. If `command` or a
     * status has added others since `next` returned these, the next action has only the others.
     * @param {number} count
     */
    #store(count) {
        const appended = this.#appended + count, out = new Uint8Array(appended);
        const isAll = this.#fits((raw) => sedge().sedge_commander_unstored(raw, out, {}));
        if (isAll) this.asked((raw) => sedge().sedge_commander_stored(raw, appended));
        this.#appended = isAll ? 0 : appended;
    }

    /**
     * Records a report. The library refuses it if `command` or a status has added octets that must be stored first. The
     * report is then recorded after them, and not made again.
     * @param {Given} given
     */
    #tell(given) {
        this.#isReported = this.asked((raw) => sedge().sedge_commander_told(raw, given)) === n.SEDGE_LEDGER_ABSENT;
    }

    /**
     * Returns whether the octets of a call fit into the room that it has.
     * @param {(raw: any) => number} call
     */
    #fits(call) {
        return this.asked((raw) => {
            const answer = call(raw);
            return answer === n.SEDGE_LEDGER_ROOM ? n.SEDGE_LEDGER_ABSENT : answer;
        }) === 0;
    }

    /**
     * Takes the oldest telemetry packet. Returns it, or null if none waits. If it has the APID of the board's status
     * and 27 octets of data, the commander also takes it as a status. Throws LedgerFault 9 (Memory).
     * @returns {Uint8Array | null}
     */
    takeTelemetry() {
        return this.octets(sedge().sedge_commander_next_telemetry, sedge().sedge_commander_take_telemetry);
    }

    /**
     * Returns the progress of the command with this number by COP-1 in the current session or, if none is open, the
     * last one. Only EXECUTED of `next` states that it was executed. Returns null if the command has a fate or was not
     * given.
     * @param {number} number
     * @returns {Progress | null}
     */
    progress(number) {
        const progress = { value: 0 };
        const answer = this.asked((raw) => sedge().sedge_commander_progress(raw, number, progress));
        return answer === 0 ? members.progress[progress.value] : null;
    }

    /**
     * Stops the submission of commands to the ground until `goOn`. The ground still sends the commands that were
     * submitted.
     */
    pause() {
        this.asked(sedge().sedge_commander_pause);
    }

    /** Resumes the submission of commands. */
    goOn() {
        this.asked(sedge().sedge_commander_go_on);
    }

    /**
     * Has the order to restart sent to the board, until a restart of the board or the loss of its record is reported.
     */
    restartBoard() {
        this.asked(sedge().sedge_commander_restart_board);
    }

    /**
     * Makes the order that brings a record to a board that has lost its own; an operator decides this. Once a status
     * shows that the board obeyed it, each command that was stored by now and has no fate is UNKNOWN, whether or not it
     * was sent. Throws the first that applies of LedgerFault 6 (NotLost), LedgerFault 7 (NoBoot) and LedgerFault 9
     * (Memory).
     */
    rebuild() {
        this.asked(sedge().sedge_commander_rebuild);
    }

    /**
     * Returns the octets of a fresh store of the same commands; the commander does not change. Write them to a new
     * file, replace the store with it, and call `renewed`; append nothing to the store meanwhile. Throws the first that
     * applies of LedgerFault 8 (Owing) (something must be stored or reported first) and LedgerFault 9 (Memory).
     * @returns {Uint8Array}
     */
    fresh() {
        const count = { value: 0 };
        for (let room = LEAST; ; room *= 2) {
            const out = new Uint8Array(room);
            if (this.#fits((raw) => sedge().sedge_commander_fresh(raw, out, count))) return out.slice(0, count.value);
        }
    }

    /**
     * Records that the store now has this many octets, which begin with those of `fresh`.
     * @param {number} count
     */
    renewed(count) {
        this.asked((raw) => sedge().sedge_commander_renewed(raw, count));
    }

    get #now() {
        return this.read(sedge().sedge_commander_read);
    }

    /**
     * The number up to which every command has its fate.
     * @returns {number}
     */
    get below() {
        return this.#now.below ?? 0;
    }

    /**
     * The highest number that was given, or that a command of another ground had on board.
     * @returns {number}
     */
    get highest() {
        return this.#now.highest ?? 0;
    }

    /**
     * Whether a fresh store would have less than half as many octets, and nothing is left to be stored or reported.
     * @returns {boolean}
     */
    get isWorth() {
        return this.#now.worth === 1;
    }

    /**
     * The readings of the commander's ground.
     * @returns {GroundReading}
     */
    get ground() {
        const it = this.read(sedge().sedge_commander_read_ground);
        const { state = 0, vs = 0, nn = 0, outstanding = 0, unsent = 0, due = 0, bypassed = 0, ticks = 0, count = 0 } = it;
        return {
            state: members.fop_state[state], vs, nn, outstanding, unsent, due, bypassed, ticks, count,
            frameLength: it.frame_length ?? 0, submitted: countOf(it.submitted), sentWhole: countOf(it.sent_whole),
            acknowledgedWhole: countOf(it.acknowledged_whole),
        };
    }
}
