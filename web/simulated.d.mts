// Made by web/types of web/simulated.mjs.
/** A simulated link: a ground, a spacecraft with the same parameters, and the frames in transit between them, first in,
 * first out. It keeps the records of its session; each initiation that the ground accepts begins a new one.
 *
 * An event that a node refuses throws the node's fault, as in `Ground` and `Spacecraft`. An event that needs memory may
 * run out of it, and throw LinkFault 6, TelemetryFault 7 or SimFault 6 (Memory). Nothing has changed then. */
export class Link extends Directing {
    /**
     * Opens a link with these managed parameters; the others have their defaults.
     * @param {Partial<Config>} [config]
     * @throws {import('./values.mjs').ConfigFault} if a parameter is out of range
     * @throws {LinkFault} 6 (Memory)
     */
    constructor(config?: Partial<import("./meanings.mjs").Config> | undefined);
    /**
     * Packets are submitted.
     * @param {number} map
     * @param {Uint8Array} packets
     */
    submit(map: number, packets: Uint8Array): void;
    /**
     * A packet is submitted by bypass.
     * @param {number} map
     * @param {Uint8Array} packet
     */
    bypass(map: number, packet: Uint8Array): void;
    /**
     * The ground sends a frame.
     * @returns {Uint8Array | null} the frame, or null if nothing is to be sent
     */
    send(): Uint8Array | null;
    /**
     * The first frame in transit on the uplink arrives.
     * @returns {Received}
     * @throws {SimFault} 7 (NothingInTransit)
     */
    upDeliver(): Received;
    /**
     * The first frame in transit on the uplink is lost.
     * @throws {SimFault} 7 (NothingInTransit)
     */
    upLose(): void;
    /**
     * These octets, which must not form a valid frame, arrive instead of the first frame in transit on the uplink.
     * @param {Uint8Array} octets
     * @returns {Received}
     * @throws {SimFault} 7 (NothingInTransit), or 8 (NotDetectable) if the octets are a valid frame
     */
    upDamage(octets: Uint8Array): Received;
    /**
     * The spacecraft sends a frame, which reports.
     * @returns {Clcw} the CLCW in the frame
     */
    report(): Clcw;
    /**
     * The first frame in transit on the downlink arrives.
     * @returns {Heard}
     * @throws {SimFault} 7 (NothingInTransit)
     */
    downDeliver(): Heard;
    /**
     * The first frame in transit on the downlink is lost.
     * @throws {SimFault} 7 (NothingInTransit)
     */
    downLose(): void;
    /**
     * These octets, which must not form a valid frame, arrive instead of the first frame in transit on the downlink.
     * @param {Uint8Array} octets
     * @returns {Heard}
     * @throws {SimFault} 7 (NothingInTransit), or 8 (NotDetectable) if the octets are a valid frame
     */
    downDamage(octets: Uint8Array): Heard;
    /**
     * The first frame in transit on the downlink arrives, and only its CLCW reaches the ground.
     * @returns {Heard}
     * @throws {SimFault} 7 (NothingInTransit)
     */
    downClcw(): Heard;
    /**
     * The ground resumes after an alert, with a CLCW's value.
     * @param {number} value
     * @returns {number} how many of the ended session's submissions, counted from the first, are on board whole
     * @throws {LinkFault} 10 (NotKnown)
     */
    resume(value: number): number;
    /**
     * A tick of the ground's clock passes.
     * @returns {Alert | null}
     */
    tick(): Alert | null;
    /**
     * A packet of sequence-controlled frames is taken on board.
     * @returns {OnMap | null}
     */
    take(): OnMap | null;
    /**
     * A bypass packet is taken on board.
     * @returns {OnMap | null}
     */
    takeBypass(): OnMap | null;
    /**
     * A packet is queued on board, to be sent as telemetry.
     * @param {Uint8Array} packet
     */
    telemetry(packet: Uint8Array): void;
    /**
     * The state of the ground's sender.
     * @returns {State}
     */
    get state(): import("./meanings.mjs").State;
    /**
     * The number of segments that were submitted and are not acknowledged.
     * @returns {number}
     */
    get outstanding(): number;
    /**
     * How many of the frames sent, counted from the first, the ground regards as acknowledged.
     * @returns {number}
     */
    get acknowledged(): number;
    /**
     * How the session began.
     * @returns {Begun}
     */
    get begun(): import("./meanings.mjs").Begun;
    /**
     * Whether the session began with nothing in transit and, if without a CLCW check, with V(R) equal to V(S).
     * @returns {boolean}
     */
    get clean(): boolean;
    /**
     * Whether the session had an idle start (docs/PROMISES.md).
     * @returns {boolean}
     */
    get idle(): boolean;
    /**
     * Whether a CLCW has taken the ground from S4 or S5 to S1.
     * @returns {boolean}
     */
    get confirmed(): boolean;
    /**
     * V(S), the number of the next segment that is sent for the first time.
     * @returns {number}
     */
    get vs(): number;
    /**
     * NN(R), the number that the spacecraft was last known to expect.
     * @returns {number}
     */
    get nn(): number;
    /**
     * How many outstanding segments wait to be sent for the first time.
     * @returns {number}
     */
    get unsent(): number;
    /**
     * How many outstanding segments are to be retransmitted.
     * @returns {number}
     */
    get due(): number;
    /**
     * How many bypass packets wait to be sent.
     * @returns {number}
     */
    get bypassUnsent(): number;
    /**
     * The ticks that are left while the timer runs, otherwise 0.
     * @returns {number}
     */
    get ticks(): number;
    /**
     * The transmission count, at least 1.
     * @returns {number}
     */
    get count(): number;
    /**
     * The CLCW that the next telemetry frame carries.
     * @returns {Clcw}
     */
    get controlWord(): import("./values.mjs").Clcw;
    /**
     * The state of the receiver on board.
     * @returns {Mode}
     */
    get mode(): import("./meanings.mjs").Mode;
    /**
     * How many packets of sequence-controlled frames wait to be taken.
     * @returns {number}
     */
    get ready(): number;
    /**
     * How many packets that arrived by bypass wait on board to be taken.
     * @returns {number}
     */
    get bypassReady(): number;
    /**
     * What was submitted in the session, in order: the MAP and the octets of each submission.
     * @returns {OnMap[]}
     */
    get submissions(): import("./nodes.mjs").OnMap[];
    /**
     * The packets that were submitted on a MAP in the session.
     * @param {number} map
     * @returns {Uint8Array[]}
     */
    submitted(map: number): Uint8Array[];
    /**
     * The packets that became ready on board on a MAP in the session, taken or not.
     * @param {number} map
     * @returns {Uint8Array[]}
     */
    delivered(map: number): Uint8Array[];
    /**
     * The data fields of Type-AD frames in the session, in the order in which they were first sent.
     * @returns {Uint8Array[]}
     */
    get sent(): Uint8Array[];
    /**
     * The data fields of Type-AD frames that were accepted on board in the session.
     * @returns {Uint8Array[]}
     */
    get accepted(): Uint8Array[];
    #private;
}
export type Config = import('./meanings.mjs').Config;
export type State = import('./meanings.mjs').State;
export type Mode = import('./meanings.mjs').Mode;
export type Begun = import('./meanings.mjs').Begun;
export type Alert = import('./values.mjs').Alert;
export type Clcw = import('./values.mjs').Clcw;
export type Heard = import('./values.mjs').Heard;
export type Received = import('./values.mjs').Received;
export type OnMap = import('./nodes.mjs').OnMap;
export type Reply = Partial<import('./sedgechisel.mjs').sedge_reply>;
import { Directing } from "./nodes.mjs";
