// Made by web/types of web/nodes.mjs.
/**
 * Loads the module. Call this once, before you create the first node. Without a source it loads sedgechisel.wasm next to
 * this file.
 * @param {BufferSource | WebAssembly.Module} [source]
 * @returns {Promise<import('./sedgechisel.mjs').Calls>} the calls of the headers, which the classes use
 */
export function load(source?: BufferSource | WebAssembly.Module | undefined): Promise<import('./sedgechisel.mjs').Calls>;
/** A node with a sender, which takes the directives of FOP-1 (232.1-B-2, 5.2.4). */
export class Directing extends Handle {
    /**
     * Gives the sender a directive.
     * @abstract
     * @protected
     * @param {number} directive
     * @param {number} [value]
     */
    protected direct(directive: number, value?: number | undefined): void;
    /** Directive: initiate without CLCW check: S6 to S1. Throws CopFault 8 (WrongState) unless in S6. */
    initWithoutCheck(): void;
    /**
     * Directive: initiate with CLCW check: S6 to S4, until a CLCW agrees. Throws CopFault 8 (WrongState) unless in S6.
     */
    initWithCheck(): void;
    /** Directive: initiate with Unlock: S6 to S5, and Unlock is sent. Throws CopFault 8 (WrongState) unless in S6. */
    initUnlock(): void;
    /**
     * Directive: initiate with Set V(R): S6 to S5, V(S) and NN(R) are set to `vr`, and Set V(R) is sent. Throws
     * CopFault 8 (WrongState) unless in S6.
     * @param {number} vr
     */
    initSetVr(vr: number): void;
    /**
     * Directive: terminate: to S6 with the alert Terminated, which discards all units. Throws CopFault 8 (WrongState)
     * in S6.
     */
    terminate(): void;
    /**
     * Directive: set both V(S) and NN(R) to `vs`. Throws CopFault 8 (WrongState) unless in S6.
     * @param {number} vs
     */
    setVs(vs: number): void;
    /**
     * Directive: set the window K to `window`. Throws CopFault 2 (Window) unless it is 1 to half the receiver's window
     * width.
     * @param {number} window
     */
    setWindow(window: number): void;
    /**
     * Directive: set the transmission limit to `limit`. Throws CopFault 3 (Limit) if it is 0.
     * @param {number} limit
     */
    setLimit(limit: number): void;
    /**
     * Directive: set the timer to `timer`, in ticks. Throws CopFault 4 (Timer) if it is 0.
     * @param {number} timer
     */
    setTimer(timer: number): void;
}
/** The ground node: it sends packets until they are accepted, and takes telemetry. */
export class Ground extends Directing {
    /**
     * Opens a ground with these managed parameters; the others have their defaults. With `kept`, the `kept` of a ground that
     * was lost, it continues from there in S6: `resume` begins the next session, as after an alert.
     * @param {Partial<Config>} [config]
     * @param {Partial<KeptGround>} [kept]
     * @throws {import('./values.mjs').ConfigFault} if a parameter is out of range
     * @throws {RangeError} for a record that no ground of this configuration can have written
     * @throws {LinkFault} 6 (Memory)
     */
    constructor(config?: Partial<import("./meanings.mjs").Config> | undefined, kept?: Partial<KeptGround> | undefined);
    /**
     * Returns the ground's record, which has a fixed size; the ground does not change. Store the record after each
     * call, and after `pull` before the frame is sent. If the ground is lost, `new Ground(config, kept)` opens another
     * one from the record. The record contains nothing of submissions that were not sent whole, of bypass packets, of
     * telemetry, or of what directives set.
     * @returns {KeptGround}
     */
    get kept(): KeptGround;
    /**
     * Submits one packet on a MAP under sequence control, or several if blocking is on. sedge_map_count returns the
     * number of their segments. `resume` is promised to count correctly only the submissions that are one packet, or
     * packets that share one segment. Throws the first of LinkFault 1 to 5 that applies, or LinkFault 6 (Memory).
     * @param {number} map
     * @param {Uint8Array} packets
     * @returns {number} the number of this submission in its session, from 0
     */
    submit(map: number, packets: Uint8Array): number;
    /**
     * Submits packets as `submit` does, but throws nothing if the queue is full, which is flow control and not an error.
     * Nothing has changed then.
     * @param {number} map
     * @param {Uint8Array} packets
     * @returns {number | null} the number of this submission, or null if the queue has no room for them now
     */
    trySubmit(map: number, packets: Uint8Array): number | null;
    /**
     * Submits one packet on a MAP by bypass (Type-BD). Throws the first of LinkFault 2 to 5 that applies, or LinkFault
     * 6 (Memory).
     * @param {number} map
     * @param {Uint8Array} packet
     */
    bypass(map: number, packet: Uint8Array): void;
    /**
     * Takes the next frame for the link, with its FECF (232.0-B-4, 4.1). Returns it, or null if nothing is to be sent.
     * @returns {Uint8Array | null}
     */
    pull(): Uint8Array | null;
    /**
     * Pulls frames until nothing is to be sent. A frame counts as sent when it is yielded; frames that are not requested
     * stay in the ground.
     * @returns {Generator<Uint8Array, void, undefined>}
     */
    frames(): Generator<Uint8Array, void, undefined>;
    /**
     * Returns the next frame for the link as `pull` does; the ground does not change. If the radio may refuse a frame,
     * call `advance` once it has taken this one: the frame then counts as sent.
     * @returns {Uint8Array | null}
     */
    peek(): Uint8Array | null;
    /** Counts the next frame for the link as sent, as `pull` does. If nothing is to be sent, nothing changes. */
    advance(): void;
    /**
     * Takes octets that came from the spacecraft, and returns what they are. Throws LinkFault 6 (Memory), which is
     * possible only if they complete a packet.
     * @param {Uint8Array} octets
     * @returns {Heard}
     */
    telemetry(octets: Uint8Array): Heard;
    /**
     * Takes received octets that are consecutive telemetry frames of `length` octets. Yields for each what `telemetry`
     * returns, when it is requested. Octets left at the end are yielded as an invalid frame.
     * @param {Uint8Array} octets
     * @param {number} length 16 to 2,048
     * @returns {Generator<Heard, void, undefined>}
     */
    telemetryAll(octets: Uint8Array, length: number): Generator<Heard, void, undefined>;
    /**
     * Takes a CLCW that came by itself, as a front end forwards it (232.0-B-4, 4.2), and returns what becomes of it, as
     * `telemetry` does for a frame's CLCW. Telemetry is not touched. Until the next CLCW, the front end may repeat the
     * newest one since the initiation (docs/PROFILE.md, "An idle start"); it must not forward an older one as if it
     * were new.
     * @param {Uint8Array} word
     * @returns {Heard}
     * @throws {RangeError} unless the octets are four
     */
    clcw(word: Uint8Array): Heard;
    /**
     * Restarts the extraction of packets from telemetry, for example after a restart of the spacecraft, whose frame
     * counts then continue from other values. An unfinished packet is dropped, and the next frame counts as the first
     * (132.0-B-3, 4.3.2). Packets that wait to be taken stay.
     */
    forgetTelemetry(): void;
    /**
     * Returns the CLCW that a telemetry frame of any spacecraft and virtual channel carries (232.0-B-4, 4.2); the
     * ground does not change. Returns null if the octets do not form a valid frame or the frame carries no CLCW.
     * @param {Uint8Array} octets
     * @returns {Clcw | null}
     */
    clcwIn(octets: Uint8Array): Clcw | null;
    /**
     * Takes the oldest telemetry packet (132.0-B-3, 4.3.2). Returns it, or null if none waits.
     * @returns {Uint8Array | null}
     */
    takeTelemetry(): Uint8Array | null;
    /**
     * Takes the packets of telemetry, oldest first, until none is left. Packets that are not requested stay in the ground.
     * @returns {Generator<Uint8Array, void, undefined>}
     */
    packets(): Generator<Uint8Array, void, undefined>;
    /**
     * Counts a tick of the clock. Returns the alert, or null for none.
     * @returns {Alert | null}
     */
    tick(): Alert | null;
    /**
     * Returns how many of the segments that were sent and not acknowledged were accepted on board when a CLCW with this
     * value was made: the oldest ones (232.1-B-2, 5.1). The call still does so after an alert, until V(S) is set or an
     * initiation begins. But it uses only the numbers: after an alert that shows a broken condition, nothing is known
     * of these segments, whatever it returns. If V(S) is NN(R), there are no such segments, and it returns 0 for every
     * value. Returns null if V(S) is not NN(R) and the value does not lie from NN(R) to V(S): nothing is then known of
     * the segments.
     * @param {number} value
     * @returns {number | null}
     */
    acceptedBeyond(value: number): number | null;
    /**
     * Returns how many of the session's submissions, counted from the first, a CLCW with this value shows to be on
     * board whole: those that are acknowledged, and those whose segments were all accepted according to the CLCW
     * (232.1-B-2, 5.1). The call still does so after an alert. Returns null if nothing is known: no session has begun,
     * V(S) was set or an alert has shown a broken condition since, or V(S) is not NN(R) and the value does not lie from
     * NN(R) to V(S).
     * @param {number} value
     * @returns {number | null}
     */
    knownOnBoard(value: number): number | null;
    /**
     * Begins the next session after an alert, where the ended one stopped. Sets V(S) to the value of a CLCW that was
     * made when nothing was in transit on the uplink, and begins by Unlock (232.1-B-2, 5.2.4). If V(S) is NN(R), the
     * call accepts any value, so compare the value with V(S) first. Returns how many of the ended session's
     * submissions, counted from the first, are on board whole; resubmit the rest. If a submission of several packets
     * has more octets than a segment takes (part), it is whole only with its last packet: some of its packets may be on
     * board already, and be delivered again. Changes nothing and throws LinkFault 10 (NotKnown) if the sender is not in
     * S6, no session has begun, V(S) was set or an alert has shown a broken condition since, or V(S) is not NN(R) and
     * the value does not lie from NN(R) to V(S).
     * @param {number} value
     * @returns {number}
     */
    resume(value: number): number;
    /**
     * The number of the session's submissions, which are numbered from 0. This number and the two below are modulo
     * 2^64. An alert does not change them; beginning a session or setting V(S) makes them 0.
     * @returns {number}
     */
    get submitted(): number;
    /**
     * How many of the session's submissions, counted from the first, were sent whole, to the last segment.
     * @returns {number}
     */
    get sentWhole(): number;
    /**
     * How many of the session's submissions, counted from the first, are acknowledged whole, and are therefore on
     * board.
     * @returns {number}
     */
    get acknowledgedWhole(): number;
    /**
     * The sender's state (232.1-B-2, 5.1).
     * @returns {State}
     */
    get state(): import("./meanings.mjs").State;
    /**
     * V(S), the number of the next segment that is sent for the first time.
     * @returns {number}
     */
    get vs(): number;
    /**
     * NN(R), the number that the spacecraft was last known to expect.
     * @returns {number}
     */
    get nn(): number;
    /**
     * The number of segments that were submitted and are not acknowledged.
     * @returns {number}
     */
    get outstanding(): number;
    /**
     * How many outstanding segments wait to be sent for the first time.
     * @returns {number}
     */
    get unsent(): number;
    /**
     * How many outstanding segments are to be retransmitted.
     * @returns {number}
     */
    get due(): number;
    /**
     * How many bypass packets wait to be sent.
     * @returns {number}
     */
    get bypassed(): number;
    /**
     * The ticks that are left while the timer runs, otherwise 0.
     * @returns {number}
     */
    get ticks(): number;
    /**
     * The transmission count, at least 1.
     * @returns {number}
     */
    get count(): number;
    /**
     * The length of a telemetry frame in octets.
     * @returns {number}
     */
    get frameLength(): number;
    #private;
}
/** The spacecraft node: it receives packets, reports in CLCWs, and sends telemetry. */
export class Spacecraft extends Handle {
    /**
     * Opens a spacecraft with these managed parameters; the others have their defaults. With `kept` it continues with the
     * `keptNumbers` of before a restart on purpose; its receiver is OPEN with no flag, and no packet is on board.
     * @param {Partial<Config>} [config]
     * @param {Partial<KeptNumbers>} [kept]
     * @throws {import('./values.mjs').ConfigFault} if a parameter is out of range
     * @throws {RangeError} for a number that a spacecraft cannot have
     * @throws {LinkFault} 6 (Memory)
     */
    constructor(config?: Partial<import("./meanings.mjs").Config> | undefined, kept?: Partial<KeptNumbers> | undefined);
    /**
     * Takes octets that came from the ground, and returns what they are. Throws LinkFault 6 (Memory), which is possible
     * only if a frame's data are passed on.
     * @param {Uint8Array} octets
     * @returns {Received}
     */
    receive(octets: Uint8Array): Received;
    /**
     * Takes the oldest packet of sequence-controlled frames (232.0-B-4, 4.4). Returns its MAP and the packet, or null
     * if none waits.
     * @returns {OnMap | null}
     */
    take(): OnMap | null;
    /**
     * Takes the oldest bypass packet (232.0-B-4, 4.4), as `take` does.
     * @returns {OnMap | null}
     */
    takeBypass(): OnMap | null;
    /**
     * Takes the packets of sequence-controlled frames, oldest first, each with its MAP, until none is left. Packets that are
     * not requested stay on board.
     * @returns {Generator<OnMap, void, undefined>}
     */
    packets(): Generator<OnMap, void, undefined>;
    /**
     * Takes the packets that arrived by bypass, oldest first, each with its MAP, until none is left. Packets that are not
     * requested stay on board.
     * @returns {Generator<OnMap, void, undefined>}
     */
    bypassPackets(): Generator<OnMap, void, undefined>;
    /**
     * Queues a packet to be sent as telemetry (132.0-B-3, 4.2.2). Throws the first of TelemetryFault 8 (NotAPacket)
     * (the octets are not exactly one packet, or are an idle one) and TelemetryFault 7 (Memory).
     * @param {Uint8Array} packet
     */
    telemetry(packet: Uint8Array): void;
    /**
     * Returns the next telemetry frame (132.0-B-3, 4.1), which reports on the receiver: `frameLength` octets.
     * @returns {Uint8Array}
     */
    telemetryFrame(): Uint8Array;
    /**
     * The numbers with which a restarted spacecraft continues: `new Spacecraft(config, keptNumbers)`.
     * @returns {KeptNumbers}
     */
    get keptNumbers(): KeptNumbers;
    /**
     * The CLCW that the next telemetry frame carries.
     * @returns {Clcw}
     */
    get controlWord(): Clcw;
    /**
     * The receiver's state.
     * @returns {Mode}
     */
    get mode(): import("./meanings.mjs").Mode;
    /**
     * How many packets of sequence-controlled frames wait to be taken.
     * @returns {number}
     */
    get ready(): number;
    /**
     * How many bypass packets wait to be taken.
     * @returns {number}
     */
    get bypassed(): number;
    /**
     * The length of a telemetry frame in octets.
     * @returns {number}
     */
    get frameLength(): number;
    #private;
}
export type Config = import('./meanings.mjs').Config;
export type State = import('./meanings.mjs').State;
export type Mode = import('./meanings.mjs').Mode;
export type Alert = import('./values.mjs').Alert;
export type Heard = import('./values.mjs').Heard;
export type Received = import('./values.mjs').Received;
/**
 * A packet and its MAP.
 */
export type OnMap = {
    map: number;
    packet: Uint8Array;
};
/**
 * The record of a ground, from which another one can continue: how many submissions are `acknowledged` whole, V(S), NN(R),
 * whether these are `known` (a session's numbers, and no alert has shown a broken condition), and for each further
 * submission that was sent whole, how many of its `segments` are not acknowledged.
 */
export type KeptGround = {
    acknowledged: number;
    vs: number;
    nn: number;
    known: boolean;
    segments: number[];
};
/**
 * The numbers with which a spacecraft that is restarted on purpose continues: V(R), FARM-B, and the next telemetry frame's
 * counts on the master and on the virtual channel.
 */
export type KeptNumbers = {
    vr: number;
    farmB: number;
    mcCount: number;
    vcCount: number;
};
import { Handle } from "./handles.mjs";
import { Clcw } from "./values.mjs";
