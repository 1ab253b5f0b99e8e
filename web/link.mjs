// The simulated link, driven by script lines (docs/TCTOOL.md, "Scripts of the simulated link"). This module reads the
// lines and answers them in the words of `tctool sim`; the library decides what happens.
import { defaults, lines, numbers as n } from './calls.mjs';

/**
 * The defaults of the managed parameters.
 * @type {import('./sedgechisel.mjs').sedge_config}
 */
export const DEFAULTS = defaults;
const NONE = new Uint8Array(0);

/** @typedef {import('./sedgechisel.mjs').Calls} Calls */
/** @typedef {import('./sedgechisel.mjs').sedge_config} sedge_config */
/** @typedef {Partial<import('./sedgechisel.mjs').sedge_event>} Event */
/** @typedef {import('./sedgechisel.mjs').sedge_reply} Reply */

/**
 * @param {Uint8Array} octets
 * @returns {string}
 */
export function digitsOf(octets) {
    return Array.from(octets, (it) => it.toString(16).padStart(2, '0')).join('').toUpperCase();
}

/**
 * Returns the octets of hexadecimal digits, no octets for '-', or null for anything else.
 * @param {string} digits
 * @returns {Uint8Array | null}
 */
export function octetsOf(digits) {
    if (digits === '-') return NONE;
    if (!/^([0-9a-fA-F]{2})+$/.test(digits)) return null;
    return Uint8Array.from((digits.match(/../g) ?? []).map((it) => parseInt(it, 16)));
}

/**
 * Returns the number of decimal digits without leading zeros, at most `most`; null for anything else.
 * @param {string | undefined} digits
 * @param {any} most
 * @returns {number | null}
 */
function numberOf(digits, most) {
    if (digits === undefined || !/^(0|[1-9]\d{0,19})$/.test(digits) || BigInt(digits) > BigInt(most)) return null;
    return Number(digits);
}

/**
 * Returns the event of a script line, or null if the line is unreadable.
 * @param {string} line
 * @returns {Event | null}
 */
export function eventOf(line) {
    if (line === 'show') return { kind: 0, octets: NONE };
    for (const [words, kind, directive, form, most] of /** @type {any[]} */ (lines)) {
        if (form === '' && line === words) return { kind, directive, octets: NONE };
        if (form === '' || !line.startsWith(`${words} `)) continue;
        const rest = line.slice(words.length + 1).split(' '), last = rest.pop() ?? '';
        const map = form === 'Submission' ? numberOf(rest.shift(), 255) : 0;
        const value = form === 'Number' ? numberOf(last, most) : 0, octets = form === 'Number' ? NONE : octetsOf(last);
        const isReadable = rest.length === 0 && map !== null && value !== null && octets !== null;
        return isReadable ? { kind, directive, value, map, octets } : null;
    }
    return null;
}

/**
 * Reads a script. Returns its managed parameters, and its lines with their events. Throws an Error that names a line if
 * it is unreadable.
 * @param {string} text
 * @returns {{ config: sedge_config, events: { line: string, event: Event }[] }}
 */
export function scriptOf(text) {
    const config = /** @type {sedge_config & Record<string, any>} */ ({ ...DEFAULTS });
    /** @type {{ line: string, event: Event }[]} */
    const events = [];
    text.split('\n').forEach((line, k) => {
        if (line === '' || line.startsWith('#')) return;
        const [word, name, value, ...more] = line.split(' '), most = name === 'maps' ? DEFAULTS.maps : 65542;
        const isField = word === 'config' && Object.hasOwn(config, name) && more.length === 0;
        if (isField && events.length === 0 && numberOf(value, most) !== null) {
            config[name] = name === 'maps' ? BigInt(value) : Number(value);
            return;
        }
        const event = eventOf(line);
        if (event === null) throw new Error(`line ${k + 1} is unreadable: ${line}`);
        events.push({ line, event });
    });
    return { config, events };
}

/** A simulated link that answers in the words of `tctool sim`. */
export class Link {
    /**
     * @param {Calls} calls
     * @param {sedge_config} config
     * @throws {RangeError} if a parameter is out of range
     */
    constructor(calls, config) {
        this.calls = calls;
        this.sim = {};
        /** @type {any} */
        this.reply = {};
        const number = calls.sedge_config_fault(config);
        if (number !== 0) throw new RangeError(`${calls.sedge_parameter_name(number)} is out of its range`);
        if (calls.sedge_sim_open(this.sim, config) !== n.SEDGE_NODE_OK) throw new RangeError('no memory');
    }

    close() {
        this.calls.sedge_sim_close(this.sim);
    }

    /**
     * Makes an event happen. Returns the line that answers it, and keeps the link's answer in `reply`.
     * @param {Event} event
     * @returns {string}
     */
    answer(event) {
        this.reply = {};
        if (event.kind === 0) return this.show();
        const fault = this.calls.sedge_sim_step(this.sim, event, this.reply);
        return fault !== 0 ? `refused ${fault} ${this.calls.sedge_sim_fault_name(fault)}` : this.lineOf(this.reply);
    }

    /** Returns the octets of the last event's frame or packet. */
    octets() {
        const out = new Uint8Array(this.reply.count), count = {};
        this.calls.sedge_sim_octets(this.sim, out, count);
        return out;
    }

    /**
     * @param {Reply} it
     * @returns {string}
     */
    lineOf(it) {
        const calls = this.calls, word = new Uint8Array(4);
        const names = [() => '', calls.sedge_link_fault_name, calls.sedge_cop_fault_name, calls.sedge_tm_fault_name];
        switch (it.kind) {
        case n.SEDGE_REPLY_DONE: return 'ok';
        case n.SEDGE_REPLY_NOTHING: return 'nothing';
        case n.SEDGE_REPLY_LOST: return 'lost';
        case n.SEDGE_REPLY_REFUSED: return `refused ${it.fault} ${names[it.by](it.fault)}`;
        case n.SEDGE_REPLY_ALERT: return `alert ${calls.sedge_alert_name(it.alert)}`;
        case n.SEDGE_REPLY_SENT: return `sent ${digitsOf(this.octets())}`;
        case n.SEDGE_REPLY_REPORTED:
            calls.sedge_clcw_encode(it.report, word);
            return `report ${digitsOf(word)}`;
        case n.SEDGE_REPLY_UP: return this.receivedLine(it.up);
        case n.SEDGE_REPLY_DOWN: return this.heardLine(it.down);
        case n.SEDGE_REPLY_DOWN_CLCW: return this.wordLine(it.down);
        case n.SEDGE_REPLY_RESUMED: return `resumed ${it.whole}`;
        default: return `packet ${it.map} ${digitsOf(this.octets())}`;
        }
    }

    /**
     * Returns the line for a CLCW that arrived by itself.
     * @param {import('./sedgechisel.mjs').sedge_heard} it
     */
    wordLine(it) {
        const calls = this.calls;
        if (it.report === 1) return `invalid ${it.word_fault} ${calls.sedge_clcw_fault_name(it.word_fault)}`;
        if (it.report === 2) return 'foreign';
        return it.alert === 0 ? 'ok' : `alert ${calls.sedge_alert_name(it.alert)}`;
    }

    /** @param {import('./sedgechisel.mjs').sedge_received} it */
    receivedLine(it) {
        const calls = this.calls;
        if (it.kind === n.SEDGE_RECEIVED_INVALID) return `invalid ${it.fault} ${calls.sedge_tc_fault_name(it.fault)}`;
        if (it.kind === n.SEDGE_RECEIVED_AD) {
            const ready = it.ready === 0 ? '' : it.ready === 1 ? ' ready' : ` ready ${it.ready}`;
            const dropped = it.dropped === 0 ? '' : ` dropped ${calls.sedge_dropped_name(it.dropped)}`;
            return `AD ${it.n} ${calls.sedge_verdict_name(it.verdict)}${ready}${dropped}`;
        }
        if (it.kind === n.SEDGE_RECEIVED_BD) return it.kept ? 'BD kept' : 'BD dropped';
        return it.kind === n.SEDGE_RECEIVED_FOREIGN ? 'foreign' : it.command === n.SEDGE_SET_VR ? `BC set ${it.vr}` : 'BC unlock';
    }

    /** @param {import('./sedgechisel.mjs').sedge_heard} it */
    heardLine(it) {
        if (it.kind === n.SEDGE_HEARD_INVALID) return `invalid ${it.fault} ${this.calls.sedge_tm_fault_name(it.fault)}`;
        if (it.kind === n.SEDGE_HEARD_FOREIGN) return 'foreign';
        const alert = it.alert === 0 ? '' : ` alert ${this.calls.sedge_alert_name(it.alert)}`;
        return `gap=${it.first !== 0 ? '-' : it.missing} packets=${it.packets}${alert}`;
    }

    /**
     * Returns how many entries a record has on a MAP.
     * @param {number} record
     * @param {number} map
     * @returns {number}
     */
    count(record, map) {
        const entries = { value: 0 };
        this.calls.sedge_sim_count(this.sim, record, map, entries);
        return entries.value;
    }

    /** Reads the link. Returns the fields of sedge_sim_reading, how many packets were submitted and delivered, and how many
     * frames were sent and accepted. */
    read() {
        /** @type {import('./sedgechisel.mjs').sedge_sim_reading & Record<string, number>} */
        const it = /** @type {any} */ ({ submitted: 0, delivered: 0 });
        it.sent = this.count(n.SEDGE_SENT, 0);
        it.accepted = this.count(n.SEDGE_RECEIVED, 0);
        this.calls.sedge_sim_read(this.sim, it);
        for (let map = 0; map < 64; map++) {
            it.submitted += this.count(n.SEDGE_SUBMITTED, map);
            it.delivered += this.count(n.SEDGE_DELIVERED, map);
        }
        return it;
    }

    show() {
        const it = this.read(), clean = it.begun === 0 ? 'none' : it.clean ? 'yes' : 'no';
        return `clean=${clean} state=S${it.state} submitted=${it.submitted} delivered=${it.delivered} sent=${it.sent} `
            + `accepted=${it.accepted} acknowledged=${it.acknowledged} outstanding=${it.outstanding}`;
    }
}
