// The nodes for JavaScript, as classes: `await load()`, then `new Ground({ timer: 3 })` and `new Spacecraft()`. Names are
// those of the package for Python in camel case; what a node refuses is thrown as a Fault. The comments of methods and
// getters are those of c/include/sedgechisel_nodes.h, which web/bindings writes here.
import { numberOf, octetsOf } from './arguments.mjs';
import { Handle, recordOf } from './handles.mjs';
import { members } from './meanings.mjs';
import { load as loadCalls, numbers as n } from './sedgechisel.mjs';
import {
    Clcw, CopFault, LinkFault, TelemetryFault, alertOf, clcwOf, countOf, heardOf, receivedOf, sedge, use,
} from './values.mjs';

/** @typedef {import('./meanings.mjs').Config} Config */
/** @typedef {import('./meanings.mjs').State} State */
/** @typedef {import('./meanings.mjs').Mode} Mode */
/** @typedef {import('./values.mjs').Alert} Alert */
/** @typedef {import('./values.mjs').Heard} Heard */
/** @typedef {import('./values.mjs').Received} Received */

/**
 * A packet and its MAP.
 * @typedef {{ map: number, packet: Uint8Array }} OnMap
 */

/**
 * The record of a ground, from which another one can continue: how many submissions are `acknowledged` whole, V(S), NN(R),
 * whether these are `known` (a session's numbers, and no alert has shown a broken condition), and for each further
 * submission that was sent whole, how many of its `segments` are not acknowledged.
 * @typedef {{ acknowledged: number, vs: number, nn: number, known: boolean, segments: number[] }} KeptGround
 */

/**
 * The numbers with which a spacecraft that is restarted on purpose continues: V(R), FARM-B, and the next telemetry frame's
 * counts on the master and on the virtual channel.
 * @typedef {{ vr: number, farmB: number, mcCount: number, vcCount: number }} KeptNumbers
 */

const MOST_SEGMENTS = 127;

/**
 * Loads the module. Call this once, before you create the first node. Without a source it loads sedgechisel.wasm next to
 * this file.
 * @param {BufferSource | WebAssembly.Module} [source]
 * @returns {Promise<import('./sedgechisel.mjs').Calls>} the calls of the headers, which the classes use
 */
export async function load(source) {
    const calls = await loadCalls(source ?? (await moduleBeside()));
    use(calls);
    return calls;
}

async function moduleBeside() {
    const place = new URL('./sedgechisel.wasm', import.meta.url);
    if (place.protocol !== 'file:') return (await fetch(place)).arrayBuffer();
    // @ts-ignore (node has it, and TypeScript only with the types of node)
    const { readFile } = await import('node:fs/promises');
    return readFile(place);
}

/** A node with a sender, which takes the directives of FOP-1 (232.1-B-2, 5.2.4). */
export class Directing extends Handle {
    /**
     * Gives the sender a directive.
     * @abstract
     * @protected
     * @param {number} directive
     * @param {number} [value]
     */
    direct(directive, value) {
        throw new Error(`directive ${directive} with ${value}: this node has no sender`);
    }

    /** Directive: initiate without CLCW check: S6 to S1. Throws CopFault 8 (WrongState) unless in S6. */
    initWithoutCheck() {
        this.direct(n.SEDGE_INIT_WITHOUT_CHECK);
    }

    /**
     * Directive: initiate with CLCW check: S6 to S4, until a CLCW agrees. Throws CopFault 8 (WrongState) unless in S6.
     */
    initWithCheck() {
        this.direct(n.SEDGE_INIT_WITH_CHECK);
    }

    /** Directive: initiate with Unlock: S6 to S5, and Unlock is sent. Throws CopFault 8 (WrongState) unless in S6. */
    initUnlock() {
        this.direct(n.SEDGE_INIT_UNLOCK);
    }

    /**
     * Directive: initiate with Set V(R): S6 to S5, V(S) and NN(R) are set to `vr`, and Set V(R) is sent. Throws
     * CopFault 8 (WrongState) unless in S6.
     * @param {number} vr
     */
    initSetVr(vr) {
        this.direct(n.SEDGE_INIT_SET_VR, numberOf('vr', 'uint8_t', vr));
    }

    /**
     * Directive: terminate: to S6 with the alert Terminated, which discards all units. Throws CopFault 8 (WrongState)
     * in S6.
     */
    terminate() {
        this.direct(n.SEDGE_TERMINATE);
    }

    /**
     * Directive: set both V(S) and NN(R) to `vs`. Throws CopFault 8 (WrongState) unless in S6.
     * @param {number} vs
     */
    setVs(vs) {
        this.direct(n.SEDGE_SET_VS, numberOf('vs', 'uint8_t', vs));
    }

    /**
     * Directive: set the window K to `window`. Throws CopFault 2 (Window) unless it is 1 to half the receiver's window
     * width.
     * @param {number} window
     */
    setWindow(window) {
        this.direct(n.SEDGE_SET_WINDOW, numberOf('window', 'uint8_t', window));
    }

    /**
     * Directive: set the transmission limit to `limit`. Throws CopFault 3 (Limit) if it is 0.
     * @param {number} limit
     */
    setLimit(limit) {
        this.direct(n.SEDGE_SET_LIMIT, numberOf('limit', 'uint8_t', limit));
    }

    /**
     * Directive: set the timer to `timer`, in ticks. Throws CopFault 4 (Timer) if it is 0.
     * @param {number} timer
     */
    setTimer(timer) {
        this.direct(n.SEDGE_SET_TIMER, numberOf('timer', 'uint16_t', timer));
    }
}

// ---- The ground. ----

/**
 * The record as the library has it.
 * @param {Partial<KeptGround>} kept
 */
function groundRecord(kept) {
    const { acknowledged = 0, vs = 0, nn = 0, known = false, segments = /** @type {number[]} */ ([]) } =
        recordOf('kept', kept, ['acknowledged', 'vs', 'nn', 'known', 'segments']);
    if (!Array.isArray(segments)) throw new TypeError('kept: segments is not an array');
    if (segments.length > MOST_SEGMENTS) throw new RangeError(`kept: more than ${MOST_SEGMENTS} segments`);
    const rest = Array(MOST_SEGMENTS - segments.length).fill(0), whole = segments.length;
    const counted = numberOf('known', 'bool', known) === 1 ? 1 : 0;
    return { acknowledged: numberOf('acknowledged', 'uint64_t', acknowledged), vs, nn, known: counted, whole,
        segments: [...segments, ...rest] };
}

/** The ground node: it sends packets until they are accepted, and takes telemetry. */
export class Ground extends Directing {
    /**
     * Opens a ground with these managed parameters; the others have their defaults. With `kept`, the `kept` of a ground that
     * was lost, it continues from there in S6: `resume` begins the next session, as after an alert.
     * @param {Partial<Config>} [config]
     * @param {Partial<KeptGround>} [kept]
     * @throws {import('./values.mjs').ConfigFault} if a parameter is out of range
     * @throws {RangeError} for a record that no ground of this configuration can have written
     * @throws {LinkFault} 6 (Memory)
     */
    constructor(config = {}, kept) {
        const record = kept === undefined ? undefined : groundRecord(kept), calls = sedge();
        super(config, (own, raw) => (record === undefined ? calls.sedge_ground_open(raw, own)
            : calls.sedge_ground_open_kept(raw, own, record)), calls.sedge_ground_close);
    }

    /**
     * @override
     * @protected
     * @param {number} directive
     * @param {number} [value]
     */
    direct(directive, value = 0) {
        this.asked((raw) => sedge().sedge_ground_directive(raw, directive, value), CopFault);
    }

    /**
     * Returns the ground's record, which has a fixed size; the ground does not change. Store the record after each
     * call, and after `pull` before the frame is sent. If the ground is lost, `new Ground(config, kept)` opens another
     * one from the record. The record contains nothing of submissions that were not sent whole, of bypass packets, of
     * telemetry, or of what directives set.
     * @returns {KeptGround}
     */
    get kept() {
        const it = this.read(sedge().sedge_ground_kept);
        const { acknowledged, vs = 0, nn = 0, known, whole, segments = [] } = it;
        return { acknowledged: countOf(acknowledged), vs, nn, known: known === 1, segments: segments.slice(0, whole) };
    }

    /**
     * Submits one packet on a MAP under sequence control, or several if blocking is on. sedge_map_count returns the
     * number of their segments. `resume` is promised to count correctly only the submissions that are one packet, or
     * packets that share one segment. Throws the first of LinkFault 1 to 5 that applies, or LinkFault 6 (Memory).
     * @param {number} map
     * @param {Uint8Array} packets
     * @returns {number} the number of this submission in its session, from 0
     */
    submit(map, packets) {
        const number = this.submitted;
        this.asked((raw) => sedge().sedge_ground_submit(raw, map, packets));
        return number;
    }

    /**
     * Submits packets as `submit` does, but throws nothing if the queue is full, which is flow control and not an error.
     * Nothing has changed then.
     * @param {number} map
     * @param {Uint8Array} packets
     * @returns {number | null} the number of this submission, or null if the queue has no room for them now
     */
    trySubmit(map, packets) {
        try {
            return this.submit(map, packets);
        } catch (fault) {
            if (fault instanceof LinkFault && fault.number === n.SEDGE_NODE_QUEUE_FULL) return null;
            throw fault;
        }
    }

    /**
     * Submits one packet on a MAP by bypass (Type-BD). Throws the first of LinkFault 2 to 5 that applies, or LinkFault
     * 6 (Memory).
     * @param {number} map
     * @param {Uint8Array} packet
     */
    bypass(map, packet) {
        this.asked((raw) => sedge().sedge_ground_bypass(raw, map, packet));
    }

    /**
     * Takes the next frame for the link, with its FECF (232.0-B-4, 4.1). Returns it, or null if nothing is to be sent.
     * @returns {Uint8Array | null}
     */
    pull() {
        return this.octets(sedge().sedge_ground_next, sedge().sedge_ground_pull);
    }

    /**
     * Pulls frames until nothing is to be sent. A frame counts as sent when it is yielded; frames that are not requested
     * stay in the ground.
     * @returns {Generator<Uint8Array, void, undefined>}
     */
    *frames() {
        for (let it = this.pull(); it !== null; it = this.pull()) yield it;
    }

    /**
     * Returns the next frame for the link as `pull` does; the ground does not change. If the radio may refuse a frame,
     * call `advance` once it has taken this one: the frame then counts as sent.
     * @returns {Uint8Array | null}
     */
    peek() {
        return this.octets(sedge().sedge_ground_next, sedge().sedge_ground_peek);
    }

    /** Counts the next frame for the link as sent, as `pull` does. If nothing is to be sent, nothing changes. */
    advance() {
        this.asked(sedge().sedge_ground_advance);
    }

    /**
     * Takes octets that came from the spacecraft, and returns what they are. Throws LinkFault 6 (Memory), which is
     * possible only if they complete a packet.
     * @param {Uint8Array} octets
     * @returns {Heard}
     */
    telemetry(octets) {
        /** @type {Partial<import('./sedgechisel.mjs').sedge_heard>} */
        const heard = {};
        this.asked((raw) => sedge().sedge_ground_telemetry(raw, octets, heard));
        return heardOf(heard, octets.subarray(-6, -2));
    }

    /**
     * Takes received octets that are consecutive telemetry frames of `length` octets. Yields for each what `telemetry`
     * returns, when it is requested. Octets left at the end are yielded as an invalid frame.
     * @param {Uint8Array} octets
     * @param {number} length 16 to 2,048
     * @returns {Generator<Heard, void, undefined>}
     */
    telemetryAll(octets, length) {
        octetsOf('octets', octets);
        const most = n.SEDGE_TM_LONGEST, isOne = numberOf('length', 'size_t', length) >= 16 && length <= most;
        if (!isOne) throw new RangeError(`length: ${length} is not in 16 to ${most}`);
        return this.#each(octets, length);
    }

    /**
     * @param {Uint8Array} octets
     * @param {number} length
     * @returns {Generator<Heard, void, undefined>}
     */
    *#each(octets, length) {
        for (let at = 0; at < octets.length; at += length) yield this.telemetry(octets.subarray(at, at + length));
    }

    /**
     * Takes a CLCW that came by itself, as a front end forwards it (232.0-B-4, 4.2), and returns what becomes of it, as
     * `telemetry` does for a frame's CLCW. Telemetry is not touched. Until the next CLCW, the front end may repeat the
     * newest one since the initiation (docs/PROFILE.md, "An idle start"); it must not forward an older one as if it
     * were new.
     * @param {Uint8Array} word
     * @returns {Heard}
     * @throws {RangeError} unless the octets are four
     */
    clcw(word) {
        /** @type {Partial<import('./sedgechisel.mjs').sedge_heard>} */
        const heard = {};
        const answer = this.asked((raw) => sedge().sedge_ground_clcw(raw, word, heard));
        if (answer !== 0) throw new RangeError(`word: ${word.length} octets, where a control word has four`);
        return heardOf(heard, word);
    }

    /**
     * Restarts the extraction of packets from telemetry, for example after a restart of the spacecraft, whose frame
     * counts then continue from other values. An unfinished packet is dropped, and the next frame counts as the first
     * (132.0-B-3, 4.3.2). Packets that wait to be taken stay.
     */
    forgetTelemetry() {
        this.asked(sedge().sedge_ground_forget_telemetry);
    }

    /**
     * Returns the CLCW that a telemetry frame of any spacecraft and virtual channel carries (232.0-B-4, 4.2); the
     * ground does not change. Returns null if the octets do not form a valid frame or the frame carries no CLCW.
     * @param {Uint8Array} octets
     * @returns {Clcw | null}
     */
    clcwIn(octets) {
        /** @type {Partial<import('./sedgechisel.mjs').sedge_clcw>} */
        const word = {}, answer = this.asked((raw) => sedge().sedge_ground_clcw_in(raw, octets, word));
        return answer === 0 ? clcwOf(word) : null;
    }

    /**
     * Takes the oldest telemetry packet (132.0-B-3, 4.3.2). Returns it, or null if none waits.
     * @returns {Uint8Array | null}
     */
    takeTelemetry() {
        return this.octets(sedge().sedge_ground_next_telemetry, sedge().sedge_ground_take_telemetry);
    }

    /**
     * Takes the packets of telemetry, oldest first, until none is left. Packets that are not requested stay in the ground.
     * @returns {Generator<Uint8Array, void, undefined>}
     */
    *packets() {
        for (let it = this.takeTelemetry(); it !== null; it = this.takeTelemetry()) yield it;
    }

    /**
     * Counts a tick of the clock. Returns the alert, or null for none.
     * @returns {Alert | null}
     */
    tick() {
        let alert = 0;
        this.asked((raw) => {
            alert = sedge().sedge_ground_tick(raw);
            return alert === n.SEDGE_NODE_NONE ? alert : 0;
        });
        return alertOf(alert);
    }

    /**
     * Returns how many of the segments that were sent and not acknowledged were accepted on board when a CLCW with this
     * value was made: the oldest ones (232.1-B-2, 5.1). The call still does so after an alert, until V(S) is set or an
     * initiation begins. But it uses only the numbers: after an alert that shows a broken condition, nothing is known
     * of these segments, whatever it returns. If V(S) is NN(R), there are no such segments, and it returns 0 for every
     * value. Returns null if V(S) is not NN(R) and the value does not lie from NN(R) to V(S): nothing is then known of
     * the segments.
     * @param {number} value
     * @returns {number | null}
     */
    acceptedBeyond(value) {
        const accepted = { value: 0 };
        const answer = this.asked((raw) => sedge().sedge_ground_accepted_beyond(raw, value, accepted));
        return answer === 0 ? accepted.value : null;
    }

    /**
     * Returns how many of the session's submissions, counted from the first, a CLCW with this value shows to be on
     * board whole: those that are acknowledged, and those whose segments were all accepted according to the CLCW
     * (232.1-B-2, 5.1). The call still does so after an alert. Returns null if nothing is known: no session has begun,
     * V(S) was set or an alert has shown a broken condition since, or V(S) is not NN(R) and the value does not lie from
     * NN(R) to V(S).
     * @param {number} value
     * @returns {number | null}
     */
    knownOnBoard(value) {
        /** @type {{ value?: any }} */
        const whole = {}, answer = this.asked((raw) => sedge().sedge_ground_known_on_board(raw, value, whole));
        return answer === 0 ? countOf(whole.value) : null;
    }

    /**
     * Begins the next session after an alert, where the ended one stopped. Sets V(S) to the value of a CLCW that was
     * made when nothing was in transit on the uplink, and begins by Unlock (232.1-B-2, 5.2.4). If V(S) is NN(R), the
     * call accepts any value, so compare the value with V(S) first. Returns how many of the ended session's
     * submissions, counted from the first, are on board whole; resubmit the rest. If a submission of several packets
     * has more octets than a segment takes (part), it is whole only with its last packet: some of its packets may be on
     * board already, and be delivered again. Changes nothing and throws LinkFault 10 (NotKnown) if the sender is not in
     * S6, no session has begun, V(S) was set or an alert has shown a broken condition since, or V(S) is not NN(R) and
     * the value does not lie from NN(R) to V(S).
     * @param {number} value
     * @returns {number}
     */
    resume(value) {
        /** @type {{ value?: any }} */
        const whole = {};
        this.asked((raw) => sedge().sedge_ground_resume(raw, value, whole));
        return countOf(whole.value);
    }

    get #now() {
        return this.read(sedge().sedge_ground_read);
    }

    /**
     * The number of the session's submissions, which are numbered from 0. This number and the two below are modulo
     * 2^64. An alert does not change them; beginning a session or setting V(S) makes them 0.
     * @returns {number}
     */
    get submitted() {
        return countOf(this.#now.submitted);
    }

    /**
     * How many of the session's submissions, counted from the first, were sent whole, to the last segment.
     * @returns {number}
     */
    get sentWhole() {
        return countOf(this.#now.sent_whole);
    }

    /**
     * How many of the session's submissions, counted from the first, are acknowledged whole, and are therefore on
     * board.
     * @returns {number}
     */
    get acknowledgedWhole() {
        return countOf(this.#now.acknowledged_whole);
    }

    /**
     * The sender's state (232.1-B-2, 5.1).
     * @returns {State}
     */
    get state() {
        return members.fop_state[this.#now.state ?? 0];
    }

    /**
     * V(S), the number of the next segment that is sent for the first time.
     * @returns {number}
     */
    get vs() {
        return this.#now.vs ?? 0;
    }

    /**
     * NN(R), the number that the spacecraft was last known to expect.
     * @returns {number}
     */
    get nn() {
        return this.#now.nn ?? 0;
    }

    /**
     * The number of segments that were submitted and are not acknowledged.
     * @returns {number}
     */
    get outstanding() {
        return this.#now.outstanding ?? 0;
    }

    /**
     * How many outstanding segments wait to be sent for the first time.
     * @returns {number}
     */
    get unsent() {
        return this.#now.unsent ?? 0;
    }

    /**
     * How many outstanding segments are to be retransmitted.
     * @returns {number}
     */
    get due() {
        return this.#now.due ?? 0;
    }

    /**
     * How many bypass packets wait to be sent.
     * @returns {number}
     */
    get bypassed() {
        return this.#now.bypassed ?? 0;
    }

    /**
     * The ticks that are left while the timer runs, otherwise 0.
     * @returns {number}
     */
    get ticks() {
        return this.#now.ticks ?? 0;
    }

    /**
     * The transmission count, at least 1.
     * @returns {number}
     */
    get count() {
        return this.#now.count ?? 0;
    }

    /**
     * The length of a telemetry frame in octets.
     * @returns {number}
     */
    get frameLength() {
        return this.#now.frame_length ?? 0;
    }
}

// ---- The spacecraft. ----

/**
 * The numbers as the library reads them.
 * @param {Partial<KeptNumbers>} kept
 */
function spacecraftRecord(kept) {
    const { vr = 0, farmB = 0, mcCount = 0, vcCount = 0 } = recordOf('kept', kept, ['vr', 'farmB', 'mcCount', 'vcCount']);
    return { value: vr, farm_b: farmB, mc_count: mcCount, vc_count: vcCount };
}

/** The spacecraft node: it receives packets, reports in CLCWs, and sends telemetry. */
export class Spacecraft extends Handle {
    /**
     * Opens a spacecraft with these managed parameters; the others have their defaults. With `kept` it continues with the
     * `keptNumbers` of before a restart on purpose; its receiver is OPEN with no flag, and no packet is on board.
     * @param {Partial<Config>} [config]
     * @param {Partial<KeptNumbers>} [kept]
     * @throws {import('./values.mjs').ConfigFault} if a parameter is out of range
     * @throws {RangeError} for a number that a spacecraft cannot have
     * @throws {LinkFault} 6 (Memory)
     */
    constructor(config = {}, kept) {
        const record = kept === undefined ? undefined : spacecraftRecord(kept), calls = sedge();
        super(config, (own, raw) => (record === undefined ? calls.sedge_spacecraft_open(raw, own)
            : calls.sedge_spacecraft_open_kept(raw, own, record)), calls.sedge_spacecraft_close);
    }

    /**
     * Takes octets that came from the ground, and returns what they are. Throws LinkFault 6 (Memory), which is possible
     * only if a frame's data are passed on.
     * @param {Uint8Array} octets
     * @returns {Received}
     */
    receive(octets) {
        /** @type {Partial<import('./sedgechisel.mjs').sedge_received>} */
        const received = {};
        this.asked((raw) => sedge().sedge_spacecraft_receive(raw, octets, received));
        return receivedOf(received);
    }

    /**
     * @param {(raw: any, map: { value?: number }, count: { value?: number }) => number} next
     * @param {(raw: any, map: { value?: number }, out: Uint8Array, count: { value?: number }) => number} take
     * @returns {OnMap | null}
     */
    #taken(next, take) {
        const map = { value: 0 };
        const packet = this.octets((raw, count) => next(raw, map, count), (raw, out, count) => take(raw, map, out, count));
        return packet === null ? null : { map: map.value, packet };
    }

    /**
     * Takes the oldest packet of sequence-controlled frames (232.0-B-4, 4.4). Returns its MAP and the packet, or null
     * if none waits.
     * @returns {OnMap | null}
     */
    take() {
        return this.#taken(sedge().sedge_spacecraft_next, sedge().sedge_spacecraft_take);
    }

    /**
     * Takes the oldest bypass packet (232.0-B-4, 4.4), as `take` does.
     * @returns {OnMap | null}
     */
    takeBypass() {
        return this.#taken(sedge().sedge_spacecraft_next_bypass, sedge().sedge_spacecraft_take_bypass);
    }

    /**
     * Takes the packets of sequence-controlled frames, oldest first, each with its MAP, until none is left. Packets that are
     * not requested stay on board.
     * @returns {Generator<OnMap, void, undefined>}
     */
    *packets() {
        for (let it = this.take(); it !== null; it = this.take()) yield it;
    }

    /**
     * Takes the packets that arrived by bypass, oldest first, each with its MAP, until none is left. Packets that are not
     * requested stay on board.
     * @returns {Generator<OnMap, void, undefined>}
     */
    *bypassPackets() {
        for (let it = this.takeBypass(); it !== null; it = this.takeBypass()) yield it;
    }

    /**
     * Queues a packet to be sent as telemetry (132.0-B-3, 4.2.2). Throws the first of TelemetryFault 8 (NotAPacket)
     * (the octets are not exactly one packet, or are an idle one) and TelemetryFault 7 (Memory).
     * @param {Uint8Array} packet
     */
    telemetry(packet) {
        this.asked((raw) => sedge().sedge_spacecraft_telemetry(raw, packet), TelemetryFault);
    }

    /**
     * Returns the next telemetry frame (132.0-B-3, 4.1), which reports on the receiver: `frameLength` octets.
     * @returns {Uint8Array}
     */
    telemetryFrame() {
        const out = new Uint8Array(this.frameLength);
        this.asked((raw) => sedge().sedge_spacecraft_telemetry_frame(raw, out, {}));
        return out;
    }

    get #now() {
        return this.read(sedge().sedge_spacecraft_read);
    }

    /**
     * The numbers with which a restarted spacecraft continues: `new Spacecraft(config, keptNumbers)`.
     * @returns {KeptNumbers}
     */
    get keptNumbers() {
        const { value = 0, farm_b: farmB = 0, mc_count: mcCount = 0, vc_count: vcCount = 0 } = this.#now;
        return { vr: value, farmB, mcCount, vcCount };
    }

    /**
     * The CLCW that the next telemetry frame carries.
     * @returns {Clcw}
     */
    get controlWord() {
        return clcwOf(this.#now);
    }

    /**
     * The receiver's state.
     * @returns {Mode}
     */
    get mode() {
        return members.farm_mode[this.#now.state ?? 0];
    }

    /**
     * How many packets of sequence-controlled frames wait to be taken.
     * @returns {number}
     */
    get ready() {
        return this.#now.ready ?? 0;
    }

    /**
     * How many bypass packets wait to be taken.
     * @returns {number}
     */
    get bypassed() {
        return this.#now.bypassed ?? 0;
    }

    /**
     * The length of a telemetry frame in octets.
     * @returns {number}
     */
    get frameLength() {
        return this.#now.frame_length ?? 0;
    }
}
