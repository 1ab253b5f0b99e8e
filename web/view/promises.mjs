// What is promised of the session (docs/PROMISES.md), and what the records of a step show about it (records.mjs).
import { numbers as n } from '../sedgechisel.mjs';
import { plural } from './words.mjs';

const BEGUN = ['', 'without CLCW check', 'with CLCW check', 'by Unlock', 'by Set V(R)'];

// Returns the MAPs with packets, how many were submitted and delivered, and whether those delivered are a prefix.
function mapsOf({ maps }) {
    return Object.entries(maps).map(([map, { submitted, delivered, agreed }]) => (
        { map, submitted, delivered, isPrefix: delivered <= submitted && agreed >= delivered }))
        .filter((it) => it.submitted + it.delivered > 0);
}

// Each promise: its name, its text, whether it holds (undefined if it does not apply yet), and what the records show.
function inOrder(maps) {
    const seen = maps.map((it) => `MAP ${it.map}: ${it.delivered} delivered of ${it.submitted} submitted`);
    const promise = 'On each MAP the packets delivered are a prefix of those submitted, each once and in order.';
    return ['Delivery in order', promise, maps.every((it) => it.isPrefix), seen];
}

function accepted({ sent, accepted: many, agreed }, { acknowledged }) {
    const isOrdered = acknowledged <= many && many <= sent;
    const promise = 'The first frames sent, as many as are acknowledged, are the first ones accepted.';
    const seen = `${sent} sent, ${many} accepted, ${acknowledged} acknowledged`;
    return ['Acknowledged means accepted', promise, isOrdered && agreed >= acknowledged, [seen]];
}

function whole(maps, { state, outstanding }) {
    const isDone = state === n.SEDGE_FOP_S1 && outstanding === 0;
    const promise = 'In S1 with nothing outstanding, the packets delivered are the packets submitted.';
    const isSo = isDone ? maps.every((it) => it.isPrefix && it.delivered === it.submitted) : undefined;
    return ['All is delivered', promise, isSo, [`S${state}, ${plural(outstanding, 'segment')} outstanding`]];
}

function noFalseAlarm(calls, { begun, confirmed }, { farm, fop: { alert } }) {
    const isLocked = farm.state === n.SEDGE_FARM_LOCKOUT, isChecking = begun > n.SEDGE_BEGUN_WITHOUT_CHECK;
    const isTrue = [0, n.SEDGE_ALERT_LIMIT, n.SEDGE_ALERT_TIMER, n.SEDGE_ALERT_TERMINATED].includes(alert)
        || (begun === n.SEDGE_BEGUN_WITH_CHECK && !confirmed);
    const name = alert ? `alert ${calls.sedge_alert_name(alert)}` : 'no alert', place = isLocked ? 'in' : 'not in';
    const seen = isChecking ? `${name}; ${place} Lockout` : 'begun without CLCW check';
    const promise = 'The receiver does not enter Lockout, and alerts come only from the timer, the limit, Terminate, '
        + 'or a CLCW check that failed.';
    const isSo = confirmed || alert ? isTrue && !(confirmed && isLocked) : undefined;
    return ['No false alarm', promise, isSo, [seen], isChecking];
}

// Returns the session after a step, with its promises, or null before one has begun.
export function promisesOf(calls, { read, records, after }) {
    const { begun, clean, idle, confirmed } = read, maps = mapsOf(records);
    if (begun === n.SEDGE_BEGUN_NOT) return null;
    const how = BEGUN[begun] + (begun === n.SEDGE_BEGUN_SET_VR ? ` to ${read.vr}` : '');
    const facts = [`begun ${how}`, clean ? 'clean' : 'not clean', idle ? 'idle start' : 'no idle start'];
    if (begun !== n.SEDGE_BEGUN_WITHOUT_CHECK) facts.push(confirmed ? 'confirmed' : 'not confirmed');
    const promises = [inOrder(maps), accepted(records, read), whole(maps, read), noFalseAlarm(calls, read, after)];
    return { facts, isIdle: idle, promises: promises.map(([name, promise, isSo, seen, isAsked = true]) => (
        { name, promise, isSo, seen, isPromised: idle && isAsked })) };
}
