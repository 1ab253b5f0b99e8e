// Both machines, run next to the link by the calls of the core. They receive the link's replies, so each event has its
// row: its number in the tables of CCSDS 232.1-B-2, and the rule of docs/PROFILE.md.
import { numbers as n } from '../sedgechisel.mjs';

export const FLAGS = { lockout: n.SEDGE_CLCW_LOCKOUT, wait: n.SEDGE_CLCW_WAIT, retransmit: n.SEDGE_CLCW_RETRANSMIT };
// The rule of a CLCW for each event, in S1 to S3, and in S4.
const RULES = {
    E1: 5, E2: 6, E3: 3, E4: 4, E5: 5, E6: 6, E7: 3, E101: 7, E102: 8, E8: 7, E9: 7, E10: 8, E11: 8, E12: 8, E103: 8,
    E13: 2, E14: 1,
};
const RULES_IN_S4 = { E14: 9, E13: 10, E4: 11, E3: 12, E1: 13 };
// The event of each directive. The number of the directive is that of its rule.
const DIRECTIVES = ['', 'E23', 'E24', 'E25', 'E27', 'E29', 'E35', 'E36', 'E38', 'E37'];

export function flagsOf(word) {
    return Object.keys(FLAGS).filter((name) => word.flags & FLAGS[name]);
}

// Returns the event of a CLCW (table 5-1), given the sender's numbers.
function reportEvent({ nn, vs, limit, count }, { flags, value }) {
    const [lockout, wait, retransmit] = Object.values(FLAGS).map((flag) => (flags & flag) !== 0);
    const above = (value - nn) & 255, sent = (vs - nn) & 255;
    if (lockout) return 'E14';
    if (above > sent) return 'E13';
    if (above === sent) return retransmit ? 'E4' : wait ? 'E3' : sent === 0 ? 'E1' : 'E2';
    if (!retransmit) return wait ? 'E7' : above === 0 ? 'E5' : 'E6';
    if (limit === 1) return above > 0 ? 'E101' : 'E102';
    if (above > 0) return wait ? 'E9' : 'E8';
    return count < limit ? (wait ? 'E11' : 'E10') : wait ? 'E103' : 'E12';
}

function reportRule(state, event) {
    if (state === n.SEDGE_FOP_S6) return 16;
    if (state === n.SEDGE_FOP_S5) return event === 'E1' ? 14 : 15;
    return state === n.SEDGE_FOP_S4 ? RULES_IN_S4[event] : RULES[event];
}

// Returns the row of a tick at which the timer runs out, if this is one.
function tickRow({ state, ticks, count, limit }) {
    if (ticks !== 1) return undefined;
    const below = { [n.SEDGE_FOP_S3]: 2, [n.SEDGE_FOP_S4]: 4, [n.SEDGE_FOP_S5]: 3 };
    return { event: count < limit ? 'E16' : 'E17', part: 'a tick', rule: count < limit ? below[state] ?? 1 : 4 };
}

// Returns the event of a Type-AD frame (table 6-1).
function frameEvent({ width, vr }, number, isFree) {
    const above = (number - vr) & 255;
    if (above === 0) return isFree ? 'E1' : 'E2';
    return above < width / 2 ? 'E3' : above >= 256 - width / 2 ? 'E4' : 'E5';
}

export class Machines {
    constructor(calls, config) {
        Object.assign(this, { calls, config, ready: 0, bypass: 0, outstanding: 0, alert: 0, fop: {}, farm: {} });
        calls.sedge_fop_open(this.fop, config.width, config.window, config.limit, config.timer);
        calls.sedge_farm_open(this.farm, config.width, 0);
    }

    // Returns the present variables of both machines.
    now() {
        const { calls, fop, farm, ready, bypass, outstanding, alert } = this;
        const pending = outstanding - fop.sent - fop.waiting, state = calls.sedge_farm_state(farm);
        return { fop: { ...fop, outstanding, bypass, pending, alert }, farm: { ...farm, ready, state } };
    }

    // Restores variables that `now` returned.
    restore({ fop, farm }) {
        const { ready, bypass, outstanding, alert } = { ...farm, ...fop };
        Object.assign(this, { fop: { ...fop }, farm: { ...farm }, ready, bypass, outstanding, alert });
    }

    // Takes an event: `sent` is the frame that it sent, `word` the CLCW of the frame that came down. Returns the rows
    // that applied, of the sender (fop) and of the receiver (farm).
    step(event, reply, sent, word, outstanding) {
        const { fop, calls } = this, rows = reply.kind === undefined ? {} : this.act(event, reply, sent, word);
        if (fop.state !== n.SEDGE_FOP_S6 && fop.waiting === 0 && outstanding > fop.sent) calls.sedge_fop_submit(fop);
        const isBegun = rows.fop?.part === 'the directives' && rows.fop.rule <= n.SEDGE_INIT_SET_VR;
        this.alert = isBegun ? 0 : reply.alert || reply.down?.alert || this.alert;
        this.outstanding = outstanding;
        return rows;
    }

    act(event, reply, sent, word) {
        const isDone = reply.kind === n.SEDGE_REPLY_DONE;
        switch (event.kind) {
        case n.SEDGE_EVENT_SUBMIT: return { fop: this.submit(isDone) };
        case n.SEDGE_EVENT_BYPASS:
            this.bypass += isDone;
            return { fop: isDone ? { event: 'E21' } : undefined };
        case n.SEDGE_EVENT_DIRECTIVE: return { fop: this.direct(event, reply) };
        case n.SEDGE_EVENT_SEND: return { fop: { part: 'a pull', rule: this.pull(sent) } };
        case n.SEDGE_EVENT_UP_DELIVER:
        case n.SEDGE_EVENT_UP_DAMAGE: return { farm: { event: this.receive(reply.up) } };
        case n.SEDGE_EVENT_REPORT: return { farm: { event: this.report(reply.report) } };
        case n.SEDGE_EVENT_RESUME: return { fop: this.resume(event, reply) };
        case n.SEDGE_EVENT_DOWN_CLCW:
        case n.SEDGE_EVENT_DOWN_DELIVER: return { fop: this.hear(reply.down, word) };
        case n.SEDGE_EVENT_TICK: return { fop: this.tick(reply) };
        case n.SEDGE_EVENT_TAKE: return { farm: this.take(reply) };
        default: return {};
        }
    }

    // Throws an Error if a machine and the link differ.
    same(one, other, what) {
        if (one !== other) throw new Error(`the page is wrong: ${what} is ${one} beside the link, and ${other} of it`);
    }

    submit(isDone) {
        const isClosed = this.fop.state === n.SEDGE_FOP_S6, isFull = this.fop.waiting === 1;
        const row = { event: isFull ? 'E20' : 'E19', part: 'a submission', rule: isClosed ? 1 : isFull ? 2 : 3 };
        return isDone || isClosed ? row : undefined;
    }

    direct({ directive, value }, reply) {
        const fault = this.calls.sedge_fop_directive(this.fop, directive, value ?? 0);
        this.same(fault, reply.kind === n.SEDGE_REPLY_REFUSED ? reply.fault : 0, 'the answer to a directive');
        return { event: DIRECTIVES[directive], ...fault === 0 ? { part: 'the directives', rule: directive } : {} };
    }

    // Sets V(S) to the value, and begins a session by Unlock.
    resume({ value }, reply) {
        if (reply.kind !== n.SEDGE_REPLY_RESUMED) return undefined;
        this.direct({ directive: n.SEDGE_SET_VS, value }, reply);
        return this.direct({ directive: n.SEDGE_INIT_UNLOCK }, reply);
    }

    // Takes what is sent next. Returns the number of the rule of a pull that applied.
    pull(sent) {
        if (sent?.kind === n.SEDGE_TC_BD) {
            this.bypass -= 1;
            return 2;
        }
        const number = {}, next = this.calls.sedge_fop_next(this.fop, number);
        this.same(next === n.SEDGE_NEXT_NOTHING, sent === undefined, 'that nothing is to be sent');
        if (sent?.kind === n.SEDGE_TC_AD) this.same(number.value, sent.n, 'N(S)');
        return { [n.SEDGE_NEXT_NOTHING]: 5, [n.SEDGE_NEXT_FIRST]: 4, [n.SEDGE_NEXT_AGAIN]: 3 }[next] ?? 1;
    }

    receive(up) {
        const { calls, farm } = this;
        if (up.kind === n.SEDGE_RECEIVED_AD) {
            const isFree = this.ready < this.config.ready_slots, event = frameEvent(farm, up.n, isFree);
            this.same(calls.sedge_farm_ad(farm, up.n, isFree), up.verdict, `the verdict on AD ${up.n}`);
            this.ready += up.ready;
            return event;
        }
        if (up.kind === n.SEDGE_RECEIVED_BD) calls.sedge_farm_bd(farm);
        if (up.kind !== n.SEDGE_RECEIVED_BC) return up.kind === n.SEDGE_RECEIVED_BD ? 'E6' : 'E9';
        const isSet = up.command === n.SEDGE_SET_VR;
        if (isSet) calls.sedge_farm_set_vr(farm, up.vr);
        else calls.sedge_farm_unlock(farm);
        return isSet ? 'E8' : 'E7';
    }

    report(word) {
        const own = {};
        this.calls.sedge_farm_control_word(this.farm, this.config.vcid, own);
        for (const field of ['value', 'flags', 'farm_b']) this.same(own[field], word[field], field);
        return 'E11';
    }

    hear(down, word) {
        const event = reportEvent(this.fop, word), rule = reportRule(this.fop.state, event);
        this.same(this.calls.sedge_fop_clcw(this.fop, this.config.vcid, word, {}), down.alert, 'the alert');
        return { event, part: 'a report', rule };
    }

    tick(reply) {
        const row = tickRow(this.fop);
        this.same(this.calls.sedge_fop_tick(this.fop), reply.alert, 'the alert');
        return row;
    }

    take(reply) {
        if (reply.kind !== n.SEDGE_REPLY_PACKET) return undefined;
        this.ready -= 1;
        if (this.ready >= this.config.ready_slots) return undefined;
        this.calls.sedge_farm_released(this.farm);
        return { event: 'E10' };
    }
}
