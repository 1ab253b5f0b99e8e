// The choice of managed parameters: the formulas of docs/CHOOSING.md, and runs of the module's ground and spacecraft
// over a link that loses frames, as in bench/choose.
import { defaults } from '../calls.mjs';
import { numbers as n } from '../sedgechisel.mjs';

export const WINDOWS = [1, 2, 4, 8, 16, 32, 64, 127];
const MAP = 4, ALERTS = 0.01, MOST_EVENTS = 400000;

// Returns a generator of numbers from 0 to 1, determined by a seed (mulberry32).
function chances(seed) {
    let state = seed;
    return () => {
        state = state + 0x6d2b79f5 | 0;
        let it = Math.imul(state ^ state >>> 15, 1 | state);
        it = it + Math.imul(it ^ it >>> 7, 61 | it) ^ it;
        return ((it ^ it >>> 14) >>> 0) / 4294967296;
    };
}

// Returns, by the formulas, the duration of a frame in seconds, the longest round trip in seconds and in frames, and
// the parameters.
export function choices(it) {
    const frame = 8 * it.octets / it.rate, longest = frame + it.trip + it.clcw, again = it.loss + (1 - it.loss) * it.down;
    const count = Math.ceil(longest / frame);
    const limit = again > 0 ? Math.max(2, Math.ceil(Math.log(it.packets / ALERTS) / -Math.log(again))) : 2;
    return { frame, longest, count, window: Math.min(count, 127), timer: Math.floor(longest / it.tick) + 2, limit };
}

// Returns, by the formulas, the frames for each packet, and the time for each packet in frame durations.
export function expected({ loss }, window, count) {
    const carried = 1 + Math.min(window, count) * loss / (1 - loss);
    return { carried, time: carried * Math.max(1, count / window) };
}

// One run. Its events are in order of time, with the next one last.
class Run {
    constructor(calls, it, { frame, window, timer, limit }) {
        Object.assign(this, { calls, it, frame, ground: {}, board: {}, chance: chances(it.seed), events: [] });
        Object.assign(this, { out: new Uint8Array(1100), count: {}, now: 0, free: 0, quiet: undefined, base: 0 });
        Object.assign(this, { carried: 0, alerts: 0, order: 0, taken: 0 });
        const config = { ...defaults, window, timer, limit: Math.min(limit, 255), ready_slots: 64, queue_slots: 1 };
        if (calls.sedge_ground_open(this.ground, config) !== 0 || calls.sedge_spacecraft_open(this.board, config) !== 0) {
            throw new RangeError('no such parameters');
        }
    }

    later(after, kind, what) {
        const event = { time: this.now + after, order: this.order++, kind, what }, { events } = this;
        let k = events.length;
        while (k > 0 && (events[k - 1].time < event.time || (events[k - 1].time === event.time && events[k - 1].order < event.order))) k--;
        events.splice(k, 0, event);
    }

    read() {
        const it = {};
        this.calls.sedge_ground_read(this.ground, it);
        return it;
    }

    // After an alert, sends nothing until a CLCW arrives that was made since.
    alert(number) {
        if (number === 0) return;
        this.alerts++;
        this.quiet = this.now + this.frame + this.it.trip + this.it.clcw;
    }

    submit() {
        for (;;) {
            const { state, submitted } = this.read(), k = this.base + Number(submitted);
            if (state === n.SEDGE_FOP_S6 || k >= this.it.packets) return;
            const data = new Uint8Array(this.it.octets - 8);
            data.set([0x10, 5, 0xc0 | k >> 8 & 0x3f, k & 255, data.length - 7 >> 8, data.length - 7 & 255]);
            if (this.calls.sedge_ground_submit(this.ground, MAP, data) !== 0) return;
        }
    }

    send() {
        const { calls, ground, out, count } = this;
        if (this.free > this.now || this.quiet !== undefined) return;
        if (calls.sedge_ground_pull(ground, out, count) !== 0 || count.value === 0) return;
        this.carried++;
        this.free = this.now + this.frame;
        this.later(this.frame, 'free');
        if (this.chance() >= this.it.loss) this.later(this.frame + this.it.trip / 2, 'up', out.slice(0, count.value));
    }

    report() {
        this.later(this.it.clcw, 'clcw');
        if (this.chance() < this.it.down) return;
        this.calls.sedge_spacecraft_telemetry_frame(this.board, this.out, this.count);
        this.later(this.it.trip / 2, 'down', this.out.slice(0, this.count.value));
    }

    hear(octets) {
        const heard = {}, word = {}, whole = {}, { calls, ground } = this;
        calls.sedge_ground_telemetry(ground, octets, heard);
        this.alert(heard.alert);
        if (this.quiet === undefined || this.now <= this.quiet) return;
        calls.sedge_ground_clcw_in(ground, octets, word);
        calls.sedge_ground_resume(ground, word.value, whole);
        this.base += Number(whole.value);
        this.quiet = undefined;
    }

    // Makes the next event happen.
    act() {
        const { time, kind, what } = this.events.pop();
        this.now = time;
        if (kind === 'up') this.calls.sedge_spacecraft_receive(this.board, what, {});
        if (kind === 'clcw') this.report();
        if (kind === 'down') this.hear(what);
        if (kind === 'tick') {
            this.later(this.it.tick, 'tick');
            this.alert(this.calls.sedge_ground_tick(this.ground));
        }
        this.submit();
        while (this.calls.sedge_spacecraft_take(this.board, {}, this.out, this.count) === 0 && this.count.value > 0) this.taken++;
    }

    // Returns seconds, frames and alerts once all packets are acknowledged; null after too many events or alerts.
    result() {
        this.calls.sedge_ground_directive(this.ground, n.SEDGE_INIT_UNLOCK, 0);
        this.later(0, 'clcw');
        this.later(0, 'tick');
        for (let k = 0; k < MOST_EVENTS && this.alerts <= this.it.packets; k++) {
            if (this.base + Number(this.read().acknowledged_whole) >= this.it.packets) {
                const { now: seconds, carried, alerts, taken } = this;
                return { seconds, carried, alerts, taken };
            }
            this.send();
            this.act();
        }
        return null;
    }

    close() {
        this.calls.sedge_ground_close(this.ground);
        this.calls.sedge_spacecraft_close(this.board);
    }
}

export function ran(calls, it, parameters) {
    const run = new Run(calls, it, parameters);
    try {
        return run.result();
    } finally {
        run.close();
    }
}
