// The simulated link between two nodes for JavaScript, as a class: `await load()`, then `new Link()`. The comments of methods
// and getters are those of c/include/sedgechisel_nodes.h, which web/bindings writes here.
import { numberOf, octetsOf } from './arguments.mjs';
import { members } from './meanings.mjs';
import { Directing } from './nodes.mjs';
import { numbers as n } from './sedgechisel.mjs';
import {
    CopFault, LinkFault, SimFault, TelemetryFault, alertOf, clcwOf, countOf, heardOf, receivedOf, sedge,
} from './values.mjs';

/** @typedef {import('./meanings.mjs').Config} Config */
/** @typedef {import('./meanings.mjs').State} State */
/** @typedef {import('./meanings.mjs').Mode} Mode */
/** @typedef {import('./meanings.mjs').Begun} Begun */
/** @typedef {import('./values.mjs').Alert} Alert */
/** @typedef {import('./values.mjs').Clcw} Clcw */
/** @typedef {import('./values.mjs').Heard} Heard */
/** @typedef {import('./values.mjs').Received} Received */
/** @typedef {import('./nodes.mjs').OnMap} OnMap */
/** @typedef {Partial<import('./sedgechisel.mjs').sedge_reply>} Reply */

const NONE = new Uint8Array(0);

/** @type {Record<number, new (number: number) => import('./values.mjs').Fault>} */
const REFUSED_BY = { [n.SEDGE_BY_NODE]: LinkFault, [n.SEDGE_BY_SENDER]: CopFault, [n.SEDGE_BY_TELEMETRY]: TelemetryFault };

/** A simulated link: a ground, a spacecraft with the same parameters, and the frames in transit between them, first in,
 * first out. It keeps the records of its session; each initiation that the ground accepts begins a new one.
 *
 * An event that a node refuses throws the node's fault, as in `Ground` and `Spacecraft`. An event that needs memory may
 * run out of it, and throw LinkFault 6, TelemetryFault 7 or SimFault 6 (Memory). Nothing has changed then. */
export class Link extends Directing {
    /**
     * Opens a link with these managed parameters; the others have their defaults.
     * @param {Partial<Config>} [config]
     * @throws {import('./values.mjs').ConfigFault} if a parameter is out of range
     * @throws {LinkFault} 6 (Memory)
     */
    constructor(config = {}) {
        super(config, (own, raw) => sedge().sedge_sim_open(raw, own), sedge().sedge_sim_close);
    }

    /**
     * @param {Partial<import('./sedgechisel.mjs').sedge_event>} event
     * @returns {Reply}
     */
    #event(event) {
        /** @type {Reply} */
        const reply = {};
        this.asked((raw) => sedge().sedge_sim_step(raw, { octets: NONE, ...event }, reply), SimFault);
        if (reply.kind === n.SEDGE_REPLY_REFUSED) throw new REFUSED_BY[reply.by ?? 0](reply.fault ?? 0);
        return reply;
    }

    /**
     * The frame or the packet of an event, if there is one.
     * @param {Reply} reply
     * @returns {Uint8Array | null}
     */
    #octetsOf({ count = 0 }) {
        const out = new Uint8Array(count);
        if (count === 0) return null;
        this.asked((raw) => sedge().sedge_sim_octets(raw, out, {}));
        return out;
    }

    /**
     * @override
     * @protected
     * @param {number} directive
     * @param {number} [value]
     */
    direct(directive, value = 0) {
        this.#event({ kind: n.SEDGE_EVENT_DIRECTIVE, directive, value });
    }

    /**
     * Packets are submitted.
     * @param {number} map
     * @param {Uint8Array} packets
     */
    submit(map, packets) {
        this.#event({ kind: n.SEDGE_EVENT_SUBMIT, map, octets: octetsOf('packets', packets) });
    }

    /**
     * A packet is submitted by bypass.
     * @param {number} map
     * @param {Uint8Array} packet
     */
    bypass(map, packet) {
        this.#event({ kind: n.SEDGE_EVENT_BYPASS, map, octets: octetsOf('packet', packet) });
    }

    /**
     * The ground sends a frame.
     * @returns {Uint8Array | null} the frame, or null if nothing is to be sent
     */
    send() {
        return this.#octetsOf(this.#event({ kind: n.SEDGE_EVENT_SEND }));
    }

    /**
     * The first frame in transit on the uplink arrives.
     * @returns {Received}
     * @throws {SimFault} 7 (NothingInTransit)
     */
    upDeliver() {
        return receivedOf(this.#event({ kind: n.SEDGE_EVENT_UP_DELIVER }).up ?? {});
    }

    /**
     * The first frame in transit on the uplink is lost.
     * @throws {SimFault} 7 (NothingInTransit)
     */
    upLose() {
        this.#event({ kind: n.SEDGE_EVENT_UP_LOSE });
    }

    /**
     * These octets, which must not form a valid frame, arrive instead of the first frame in transit on the uplink.
     * @param {Uint8Array} octets
     * @returns {Received}
     * @throws {SimFault} 7 (NothingInTransit), or 8 (NotDetectable) if the octets are a valid frame
     */
    upDamage(octets) {
        return receivedOf(this.#event({ kind: n.SEDGE_EVENT_UP_DAMAGE, octets: octetsOf('octets', octets) }).up ?? {});
    }

    /**
     * The spacecraft sends a frame, which reports.
     * @returns {Clcw} the CLCW in the frame
     */
    report() {
        return clcwOf(this.#event({ kind: n.SEDGE_EVENT_REPORT }).report ?? {});
    }

    /**
     * The first frame in transit on the downlink arrives.
     * @returns {Heard}
     * @throws {SimFault} 7 (NothingInTransit)
     */
    downDeliver() {
        return heardOf(this.#event({ kind: n.SEDGE_EVENT_DOWN_DELIVER }).down ?? {});
    }

    /**
     * The first frame in transit on the downlink is lost.
     * @throws {SimFault} 7 (NothingInTransit)
     */
    downLose() {
        this.#event({ kind: n.SEDGE_EVENT_DOWN_LOSE });
    }

    /**
     * These octets, which must not form a valid frame, arrive instead of the first frame in transit on the downlink.
     * @param {Uint8Array} octets
     * @returns {Heard}
     * @throws {SimFault} 7 (NothingInTransit), or 8 (NotDetectable) if the octets are a valid frame
     */
    downDamage(octets) {
        return heardOf(this.#event({ kind: n.SEDGE_EVENT_DOWN_DAMAGE, octets: octetsOf('octets', octets) }).down ?? {});
    }

    /**
     * The first frame in transit on the downlink arrives, and only its CLCW reaches the ground.
     * @returns {Heard}
     * @throws {SimFault} 7 (NothingInTransit)
     */
    downClcw() {
        return heardOf(this.#event({ kind: n.SEDGE_EVENT_DOWN_CLCW }).down ?? {});
    }

    /**
     * The ground resumes after an alert, with a CLCW's value.
     * @param {number} value
     * @returns {number} how many of the ended session's submissions, counted from the first, are on board whole
     * @throws {LinkFault} 10 (NotKnown)
     */
    resume(value) {
        return countOf(this.#event({ kind: n.SEDGE_EVENT_RESUME, value: numberOf('value', 'uint8_t', value) }).whole);
    }

    /**
     * A tick of the ground's clock passes.
     * @returns {Alert | null}
     */
    tick() {
        return alertOf(this.#event({ kind: n.SEDGE_EVENT_TICK }).alert ?? 0);
    }

    /**
     * @param {number} kind
     * @returns {OnMap | null}
     */
    #taken(kind) {
        const reply = this.#event({ kind }), packet = this.#octetsOf(reply);
        return packet === null ? null : { map: reply.map ?? 0, packet };
    }

    /**
     * A packet of sequence-controlled frames is taken on board.
     * @returns {OnMap | null}
     */
    take() {
        return this.#taken(n.SEDGE_EVENT_TAKE);
    }

    /**
     * A bypass packet is taken on board.
     * @returns {OnMap | null}
     */
    takeBypass() {
        return this.#taken(n.SEDGE_EVENT_TAKE_BYPASS);
    }

    /**
     * A packet is queued on board, to be sent as telemetry.
     * @param {Uint8Array} packet
     */
    telemetry(packet) {
        this.#event({ kind: n.SEDGE_EVENT_TELEMETRY, octets: octetsOf('packet', packet) });
    }

    // The session.

    get #session() {
        return this.read(sedge().sedge_sim_read);
    }

    /**
     * The state of the ground's sender.
     * @returns {State}
     */
    get state() {
        return members.fop_state[this.#session.state ?? 0];
    }

    /**
     * The number of segments that were submitted and are not acknowledged.
     * @returns {number}
     */
    get outstanding() {
        return this.#session.outstanding ?? 0;
    }

    /**
     * How many of the frames sent, counted from the first, the ground regards as acknowledged.
     * @returns {number}
     */
    get acknowledged() {
        return this.#session.acknowledged ?? 0;
    }

    /**
     * How the session began.
     * @returns {Begun}
     */
    get begun() {
        return members.begun[this.#session.begun ?? 0];
    }

    /**
     * Whether the session began with nothing in transit and, if without a CLCW check, with V(R) equal to V(S).
     * @returns {boolean}
     */
    get clean() {
        return this.#session.clean ?? false;
    }

    /**
     * Whether the session had an idle start (docs/PROMISES.md).
     * @returns {boolean}
     */
    get idle() {
        return this.#session.idle ?? false;
    }

    /**
     * Whether a CLCW has taken the ground from S4 or S5 to S1.
     * @returns {boolean}
     */
    get confirmed() {
        return this.#session.confirmed ?? false;
    }

    // Its nodes.

    get #ground() {
        return this.read(sedge().sedge_sim_ground_read);
    }

    /**
     * V(S), the number of the next segment that is sent for the first time.
     * @returns {number}
     */
    get vs() {
        return this.#ground.vs ?? 0;
    }

    /**
     * NN(R), the number that the spacecraft was last known to expect.
     * @returns {number}
     */
    get nn() {
        return this.#ground.nn ?? 0;
    }

    /**
     * How many outstanding segments wait to be sent for the first time.
     * @returns {number}
     */
    get unsent() {
        return this.#ground.unsent ?? 0;
    }

    /**
     * How many outstanding segments are to be retransmitted.
     * @returns {number}
     */
    get due() {
        return this.#ground.due ?? 0;
    }

    /**
     * How many bypass packets wait to be sent.
     * @returns {number}
     */
    get bypassUnsent() {
        return this.#ground.bypassed ?? 0;
    }

    /**
     * The ticks that are left while the timer runs, otherwise 0.
     * @returns {number}
     */
    get ticks() {
        return this.#ground.ticks ?? 0;
    }

    /**
     * The transmission count, at least 1.
     * @returns {number}
     */
    get count() {
        return this.#ground.count ?? 0;
    }

    get #spacecraft() {
        return this.read(sedge().sedge_sim_spacecraft_read);
    }

    /**
     * The CLCW that the next telemetry frame carries.
     * @returns {Clcw}
     */
    get controlWord() {
        return clcwOf(this.#spacecraft);
    }

    /**
     * The state of the receiver on board.
     * @returns {Mode}
     */
    get mode() {
        return members.farm_mode[this.#spacecraft.state ?? 0];
    }

    /**
     * How many packets of sequence-controlled frames wait to be taken.
     * @returns {number}
     */
    get ready() {
        return this.#spacecraft.ready ?? 0;
    }

    /**
     * How many packets that arrived by bypass wait on board to be taken.
     * @returns {number}
     */
    get bypassReady() {
        return this.#spacecraft.bypassed ?? 0;
    }

    // The records of its session.

    /**
     * The entries of a record.
     * @param {number} record
     * @param {number} [map]
     * @returns {Uint8Array[]}
     */
    #entries(record, map = 0) {
        const { value: entries = 0 } = this.read((raw, it) => sedge().sedge_sim_count(raw, record, map, it));
        return Array.from({ length: entries }, (_, k) => this.octets(
            (raw, count) => sedge().sedge_sim_entry_length(raw, record, map, k, count),
            (raw, out, count) => sedge().sedge_sim_entry(raw, record, map, k, out, count)) ?? NONE);
    }

    /**
     * What was submitted in the session, in order: the MAP and the octets of each submission.
     * @returns {OnMap[]}
     */
    get submissions() {
        const { value: many = 0 } = this.read(sedge().sedge_sim_submissions), map = { value: 0 };
        return Array.from({ length: many }, (_, k) => {
            const packet = this.octets((raw, count) => sedge().sedge_sim_submission_length(raw, k, map, count),
                (raw, out, count) => sedge().sedge_sim_submission(raw, k, map, out, count));
            return { map: map.value, packet: packet ?? NONE };
        });
    }

    /**
     * The packets that were submitted on a MAP in the session.
     * @param {number} map
     * @returns {Uint8Array[]}
     */
    submitted(map) {
        return this.#entries(n.SEDGE_SUBMITTED, numberOf('map', 'uint8_t', map));
    }

    /**
     * The packets that became ready on board on a MAP in the session, taken or not.
     * @param {number} map
     * @returns {Uint8Array[]}
     */
    delivered(map) {
        return this.#entries(n.SEDGE_DELIVERED, numberOf('map', 'uint8_t', map));
    }

    /**
     * The data fields of Type-AD frames in the session, in the order in which they were first sent.
     * @returns {Uint8Array[]}
     */
    get sent() {
        return this.#entries(n.SEDGE_SENT);
    }

    /**
     * The data fields of Type-AD frames that were accepted on board in the session.
     * @returns {Uint8Array[]}
     */
    get accepted() {
        return this.#entries(n.SEDGE_RECEIVED);
    }
}
