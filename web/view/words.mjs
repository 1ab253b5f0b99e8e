// Describes frames and CLCWs in words, and decodes octets that are pasted.
import { numbers as n } from '../sedgechisel.mjs';
import { digitsOf } from '../link.mjs';
import { FLAGS, flagsOf } from './machines.mjs';

const SEGMENTS = ['continuing', 'first', 'last', 'alone'];
const SEQUENCE = ['continuation', 'first', 'last', 'unsegmented'];
const WORD_FLAGS = { ...FLAGS, 'no RF available': n.SEDGE_CLCW_NO_RF, 'no bit lock': n.SEDGE_CLCW_NO_BIT_LOCK };

export function plural(count, word) {
    return `${count} ${word}${count === 1 ? '' : 's'}`;
}

// Returns the ladder's name for a telecommand frame: 'AD 0', 'BD', 'BC unlock'.
export function frameName({ kind, n: number, command, vr }) {
    if (kind === n.SEDGE_TC_AD) return `AD ${number}`;
    return kind === n.SEDGE_TC_BD ? 'BD' : command === n.SEDGE_SET_VR ? `BC set ${vr}` : 'BC unlock';
}

// Describes what a frame carries.
export function frameWords(calls, { frame, data }) {
    if (frame.kind === n.SEDGE_TC_BC) return frame.command === n.SEDGE_SET_VR ? `Set V(R) to ${frame.vr}` : 'Unlock';
    const packet = {}, isAlone = frame.flags === n.SEDGE_SEGMENT_ALONE;
    const isPacket = isAlone && calls.sedge_packet_decode(data, packet, {}) === 0;
    const what = isPacket ? `packet of APID ${packet.apid}, count ${packet.count}` : `${SEGMENTS[frame.flags]} segment`;
    return `MAP ${frame.map}: ${what}, ${plural(data.length, 'octet')}`;
}

// Describes a CLCW by its value and flags; and as in the ladder: 'CLCW: value 1, retransmit'.
export function valueWords(word) {
    return [`value ${word.value}`, ...flagsOf(word)].join(', ');
}

export function reportName(word) {
    return `CLCW: ${valueWords(word)}`;
}

export function reportWords(word) {
    return `V(R) = ${word.value}, ${flagsOf(word).join(' and ') || 'no flag'}, FARM-B ${word.farm_b}`;
}

function partOf(octets, { from, count }) {
    return octets.subarray(from, from + count);
}

function octetsShown(octets) {
    return `${plural(octets.length, 'octet')}${octets.length > 0 ? `: ${digitsOf(octets)}` : ''}`;
}

// Decodes octets by a call. `fields` and `within` return what is shown of the struct and the data that it wrote.
function readBy(call, nameOf, what, fields, within = () => []) {
    const it = {}, place = { from: 0, count: 0 }, fault = call(it, place);
    if (fault !== 0) return { fault: `${fault} ${nameOf(fault)}` };
    return { name: what, end: place.from + place.count, fields: fields(it, place), within: within(it, place) };
}

// Returns the consecutive packets at the beginning of octets.
function packetsIn(calls, octets) {
    const found = [];
    for (let at = 0; at < octets.length && found.length < 99; at += found.at(-1).end) {
        const it = readPacket(calls, octets.subarray(at));
        if (it.fault !== undefined) break;
        found.push(it);
    }
    return found;
}

function readPacket(calls, octets) {
    return readBy((it, place) => calls.sedge_packet_decode(octets, it, place), calls.sedge_packet_fault_name,
        'Space packet', (it, place) => [
            ['type', it.kind === n.SEDGE_PACKET_TELECOMMAND ? 'telecommand' : 'telemetry'],
            ['APID', it.apid === 2047 ? '2047 (idle)' : it.apid], ['secondary header', it.secondary],
            ['sequence flags', SEQUENCE[it.flags]], ['sequence count', it.count],
            ['data field', octetsShown(partOf(octets, place))],
            ['octets after it', octets.length - place.from - place.count],
        ]);
}

function readFrame(calls, octets, isChecked) {
    return readBy((it, place) => calls.sedge_tc_decode(octets, isChecked, it, place), calls.sedge_tc_fault_name,
        'Telecommand frame', (it, place) => [
            ['frame', frameName(it)], ['spacecraft', it.scid], ['virtual channel', it.vcid],
            ...it.kind === n.SEDGE_TC_BC ? [] : [
                ['MAP', it.map], ['segment', SEGMENTS[it.flags]], ['data', octetsShown(partOf(octets, place))],
            ],
        ], (it, place) => (it.flags & n.SEDGE_SEGMENT_FIRST ? packetsIn(calls, partOf(octets, place)) : []));
}

function readTelemetry(calls, octets) {
    const named = { [n.SEDGE_POINTER_ONLY_IDLE]: 'none: idle data alone', [n.SEDGE_POINTER_NO_START]: 'none starts' };
    const packets = ({ pointer }, place) => packetsIn(calls, partOf(octets, place).subarray(pointer));
    return readBy((it, place) => calls.sedge_tm_decode(octets, octets.length, it, place), calls.sedge_tm_fault_name,
        'Telemetry frame', (it, place) => [
            ['spacecraft', it.scid], ['virtual channel', it.vcid], ['master channel count', it.mc_count],
            ['virtual channel count', it.vc_count], ['first packet at', named[it.pointer] ?? it.pointer],
            ['data', octetsShown(partOf(octets, place))], ['operational control field', digitsOf(it.ocf)],
        ], (it, place) => [readWord(calls, Uint8Array.from(it.ocf)), ...packets(it, place)]);
}

function readWord(calls, octets) {
    if (octets.length !== 4) return { fault: '6 Short: a control word has 4 octets' };
    return readBy((it) => calls.sedge_clcw_decode(octets, it), calls.sedge_clcw_fault_name,
        'Control word (CLCW)', (it) => [
            ['virtual channel', it.vcid], ['report value', it.value],
            ...Object.entries(WORD_FLAGS).map(([name, flag]) => [name, it.flags & flag ? 1 : 0]),
            ['FARM-B', it.farm_b], ['status', it.status],
        ]);
}

// The kinds of octets that can be decoded: each becomes a name and fields, with what they contain, or the first fault.
export const KINDS = {
    tc: ['telecommand frame with its FECF', (calls, octets) => readFrame(calls, octets, true)],
    bare: ['telecommand frame without FECF', (calls, octets) => readFrame(calls, octets, false)],
    tm: ['telemetry frame', readTelemetry],
    clcw: ['control word', readWord],
    packet: ['space packet', readPacket],
};
