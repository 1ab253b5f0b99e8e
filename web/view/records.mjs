// The records of a session, step by step: how many packets were submitted and delivered on each MAP, how many frames
// were sent and accepted, and how many of the first ones agree, octet by octet. Each step keeps its own records, so a
// step back needs no link.
import { numbers as n } from '../sedgechisel.mjs';
import { Link } from '../link.mjs';

export const NO_RECORDS = { maps: {}, sent: 0, accepted: 0, agreed: 0 };
const NO_PACKETS = { submitted: 0, delivered: 0, agreed: 0 };

// A link that counts from the records of its last step, which is faster than counting 64 MAPs.
export class CountedLink extends Link {
    constructor(calls, config) {
        super(calls, config);
        this.records = NO_RECORDS;
    }

    count(record, map) {
        const { maps, sent, accepted } = this.records, { submitted, delivered } = maps[map] ?? NO_PACKETS;
        return { [n.SEDGE_SUBMITTED]: submitted, [n.SEDGE_DELIVERED]: delivered, [n.SEDGE_SENT]: sent,
            [n.SEDGE_RECEIVED]: accepted }[record];
    }

    // Counts again what an event may have changed.
    note({ event, reply, gone }) {
        const { kind } = reply, isBegun = event.kind === n.SEDGE_EVENT_DIRECTIVE && event.directive <= n.SEDGE_INIT_SET_VR;
        if ((isBegun && kind === n.SEDGE_REPLY_DONE) || kind === n.SEDGE_REPLY_RESUMED) this.records = NO_RECORDS;
        else if (event.kind === n.SEDGE_EVENT_SUBMIT && kind === n.SEDGE_REPLY_DONE) this.packets(event.map);
        else if (kind === n.SEDGE_REPLY_SENT) this.frames();
        else if (kind === n.SEDGE_REPLY_UP && reply.up.kind === n.SEDGE_RECEIVED_AD) {
            this.frames();
            this.packets(gone.frame.map);
        } else if (event.kind === n.SEDGE_EVENT_TAKE && kind === n.SEDGE_REPLY_PACKET) this.packets(reply.map);
        return this.records;
    }

    packets(map) {
        const submitted = super.count(n.SEDGE_SUBMITTED, map), delivered = super.count(n.SEDGE_DELIVERED, map);
        const was = this.records.maps[map] ?? NO_PACKETS, most = Math.min(submitted, delivered);
        const agreed = this.agreed(n.SEDGE_SUBMITTED, n.SEDGE_DELIVERED, map, was.agreed, most);
        this.records = { ...this.records, maps: { ...this.records.maps, [map]: { submitted, delivered, agreed } } };
    }

    frames() {
        const sent = super.count(n.SEDGE_SENT, 0), accepted = super.count(n.SEDGE_RECEIVED, 0);
        const most = Math.min(sent, accepted);
        const agreed = this.agreed(n.SEDGE_SENT, n.SEDGE_RECEIVED, 0, this.records.agreed, most);
        this.records = { ...this.records, sent, accepted, agreed };
    }

    // Returns how many of the first entries of two records agree; the first `known` of them are known to.
    agreed(one, other, map, known, most) {
        let k = known;
        while (k < most && isSame(this.entry(one, map, k), this.entry(other, map, k))) k++;
        return k;
    }

    entry(record, map, k) {
        const { calls, sim } = this, count = {};
        calls.sedge_sim_entry_length(sim, record, map, k, count);
        const out = new Uint8Array(count.value);
        calls.sedge_sim_entry(sim, record, map, k, out, count);
        return out;
    }
}

function isSame(a, b) {
    return a.length === b.length && a.every((octet, k) => octet === b[k]);
}
