// Plays a script line by line. Each line played is kept as a step: its answer, both machines before and after it, the
// records, and what was in transit. So a step back plays nothing. If the script changes, the steps before the change
// stay. A link has no undo, so to continue from an earlier step, a new link plays up to it.
import { numbers as n } from '../sedgechisel.mjs';
import { Machines } from './machines.mjs';
import { CountedLink, NO_RECORDS } from './records.mjs';
import { readScript } from './script.mjs';

const UP = [n.SEDGE_EVENT_UP_DELIVER, n.SEDGE_EVENT_UP_LOSE, n.SEDGE_EVENT_UP_DAMAGE];
const DOWN = [n.SEDGE_EVENT_DOWN_DELIVER, n.SEDGE_EVENT_DOWN_CLCW, n.SEDGE_EVENT_DOWN_LOSE, n.SEDGE_EVENT_DOWN_DAMAGE];
const NOTHING = [0, 0];

function isSameConfig(one, other) {
    return Object.keys(one).every((name) => one[name] === other[name]);
}

export class Player {
    constructor(calls) {
        this.calls = calls;
    }

    // Takes a script. Throws an Error that states what is wrong with it, and then keeps the previous one.
    load(text) {
        const script = readScript(text, this.script), { config, events } = script;
        const isKept = this.script !== undefined && isSameConfig(config, this.config), steps = isKept ? this.steps : [];
        const most = Math.min(steps.length, events.length);
        let kept = 0;
        while (kept < most && steps[kept].line === events[kept].line) kept++;
        if (!isKept) this.restart(config);
        Object.assign(this, script, { text, script, at: Math.min(this.at, kept) });
        this.drop(kept);
    }

    // Opens a new link, on which nothing has been played.
    restart(config) {
        const link = new CountedLink(this.calls, config), machines = new Machines(this.calls, config);
        this.link?.close();
        const begin = { after: machines.now(), up: NOTHING, down: NOTHING, records: NO_RECORDS, read: this.read(link) };
        Object.assign(this, { link, machines, begin, steps: [], at: 0, played: 0, ways: { up: [], down: [] } });
        this.compare(begin.after, n.SEDGE_FOP_S6);
    }

    read({ sim }) {
        const it = {};
        this.calls.sedge_sim_read(sim, it);
        return it;
    }

    // Keeps this many steps. Frames that arrive or are lost in later steps are in transit again.
    drop(kept) {
        for (const { gone } of this.steps.splice(kept)) if (gone) gone.left = undefined;
        for (const way of ['up', 'down']) this.ways[way].length = this.final[way][1];
    }

    // The step of the line played last, and the last of all steps.
    get last() {
        return this.at === 0 ? this.begin : this.steps[this.at - 1];
    }

    get final() {
        return this.steps.at(-1) ?? this.begin;
    }

    // Plays forwards or back until this number of lines has been played.
    goTo(count) {
        const wanted = Math.max(0, Math.min(count, this.events.length));
        if (wanted > this.steps.length) this.catchUp();
        while (this.steps.length < wanted) {
            this.steps.push(this.step(this.events[this.steps.length]));
            this.played++;
        }
        this.at = wanted;
    }

    // Brings the link to the state after the last step.
    catchUp() {
        if (this.played === this.steps.length) return;
        if (this.played > this.steps.length) {
            this.link.close();
            this.link = new CountedLink(this.calls, this.config);
            this.played = 0;
        }
        for (; this.played < this.steps.length; this.played++) {
            const { event } = this.events[this.played];
            if (event.kind !== 0) this.calls.sedge_sim_step(this.link.sim, event, {});
        }
        this.machines.restore(this.final.after);
        this.link.records = this.final.records;
    }

    step({ line, event }) {
        const { link, machines, final } = this, { after: before } = final, answer = link.answer(event);
        const isNone = answer.startsWith('refused') && link.reply.kind !== n.SEDGE_REPLY_REFUSED;
        const reply = isNone ? {} : link.reply, took = this.transit(event, reply, final);
        const records = link.note({ event, reply, gone: took.gone }), read = this.read(link);
        const rows = machines.step(event, reply, took.sent?.frame, took.gone?.word, read.outstanding);
        const after = machines.now(), marked = this.marking(before.fop, after.fop, rows.fop ?? {});
        this.compare(after, read.state);
        if (rows.fop?.part === 'a pull' && took.sent && [1, 3].includes(rows.fop.rule)) took.sent.again = marked;
        return { line, event, answer, reply, before, after, rows, records, read, marked, ...took };
    }

    // Returns the index of the step that causes retransmissions: the last one in the session that marked units of the
    // sent queue, or made a control command due again.
    marking(before, after, { part, rule }) {
        if (after.due > before.due || (part === 'a tick' && rule === 3)) return this.steps.length;
        return part === 'the directives' && rule <= n.SEDGE_INIT_SET_VR ? undefined : this.final.marked;
    }

    // Returns what is in transit after an event, each way as the indices of the first frame and after the last; the
    // frame that it sent; and the one that arrived or was lost. Of a frame, `from` is the index of the step that sent
    // it, `left` that of the step that ends it, and `again` that of the step for which it is sent again.
    transit(event, reply, { up, down }) {
        const from = this.steps.length, { kind, report: word } = reply, isGone = kind !== undefined;
        if (kind === n.SEDGE_REPLY_SENT) {
            const octets = this.link.octets(), frame = {}, place = {};
            this.calls.sedge_tc_decode(octets, true, frame, place);
            const sent = { from, frame, octets, data: octets.subarray(place.from, place.from + place.count) };
            this.ways.up.push(sent);
            return { sent, up: [up[0], up[1] + 1], down };
        }
        if (kind === n.SEDGE_REPLY_REPORTED) {
            const sent = { from, word };
            this.ways.down.push(sent);
            return { sent, up, down: [down[0], down[1] + 1] };
        }
        if (isGone && UP.includes(event.kind)) return { gone: this.leave('up', up), up: [up[0] + 1, up[1]], down };
        if (isGone && DOWN.includes(event.kind)) return { gone: this.leave('down', down), up, down: [down[0] + 1, down[1]] };
        return { up, down };
    }

    leave(way, [first]) {
        const gone = this.ways[way][first];
        gone.left = this.steps.length;
        return gone;
    }

    // Returns the frames in transit after a step, the next to arrive first.
    inTransit({ up, down }) {
        return { up: this.ways.up.slice(...up), down: this.ways.down.slice(...down) };
    }

    // Compares the machines with what the link reports about its nodes, as far as the module has the calls.
    compare({ fop, farm }, state) {
        const { calls, machines, link: { sim } } = this, ground = { state }, spacecraft = {};
        calls.sedge_sim_ground_read?.(sim, ground);
        calls.sedge_sim_spacecraft_read?.(sim, spacecraft);
        const own = [{ ...fop, unsent: fop.waiting + fop.pending, bypassed: fop.bypass }, { ...farm, value: farm.vr }];
        [ground, spacecraft].forEach((said, k) => Object.keys(said).forEach((field) =>
            machines.same(own[k][field] ?? said[field], said[field], field)));
        fop.whole = [ground.submitted, ground.sent_whole, ground.acknowledged_whole].map(Number);
    }
}
