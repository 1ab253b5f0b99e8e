// Tests the module for JavaScript: `node tests.mjs MODULE`. Covers codecs, both machines, two nodes, a commander, the
// release of memory, and wrong arguments. Exits with 0 if all is as expected, and otherwise with an Error that states
// what is not.
import assert from 'node:assert/strict';
import { readFileSync } from 'node:fs';
import { load, numbers as n } from './sedgechisel.mjs';
import { DEFAULTS, digitsOf, eventOf, octetsOf, scriptOf } from './link.mjs';

const sedge = await load(readFileSync(process.argv[2]));
const packet = octetsOf('1005C0000000AA');

function codecs() {
    const octets = octetsOf('0001080E00C41005C0000000AAE75D'), frame = {}, data = {}, total = {};
    assert.equal(sedge.sedge_tc_decode(octets, true, frame, data), n.SEDGE_OK);
    assert.deepEqual([frame.scid, frame.vcid, frame.kind, frame.n, frame.map], [1, 2, n.SEDGE_TC_AD, 0, 4]);
    assert.equal(digitsOf(octets.subarray(data.from, data.from + data.count)), digitsOf(packet));
    const out = new Uint8Array(1024);
    assert.equal(sedge.sedge_tc_encode(frame, packet, true, out, total), n.SEDGE_OK);
    assert.equal(digitsOf(out.subarray(0, total.value)), digitsOf(octets));
    octets[14] ^= 1;
    assert.equal(sedge.sedge_tc_decode(octets, true, frame, data), n.SEDGE_TC_CHECK);
    assert.equal(sedge.sedge_tc_fault_name(n.SEDGE_TC_CHECK), 'Check');
    assert.equal(sedge.sedge_check(new TextEncoder().encode('123456789')), 0x29b1);
}

function packetsThatAreMissing() {
    const check = {}, missing = {};
    sedge.sedge_gap_check_open(check);
    const gaps = [0, 1, 3, 3].map((count) => [sedge.sedge_gap_check_see(check, 5, count, missing), missing.value]);
    assert.deepEqual(gaps.map(([answer]) => answer), [n.SEDGE_ABSENT, n.SEDGE_OK, n.SEDGE_OK, n.SEDGE_OK]);
    assert.deepEqual(gaps.slice(1).map(([, gap]) => gap), [0, 1, 16383]);
    assert.deepEqual([check.last[5], check.last.length, sedge.sedge_gap_check_see(check, 2048, 0, missing)],
        [3, 2048, n.SEDGE_PACKET_FIELD_RANGE]);
}

// A board without a record at its first place executes the next command, and the ground reads its status. The octets
// were computed by Python's struct and zlib.
function commandsOverRestarts() {
    const place = (octets) => octetsOf(octets + octets), log = {}, content = {}, number = {}, out = new Uint8Array(50);
    const command = octetsOf('1005C02C000A0000012D010203831D43F2');
    const started = '000000070000012C00000000000000018A3B0C5D00', passed = '000000070000012D00000000000000034313D20100';
    const acts = (action, count = 0) => {
        assert.deepEqual([sedge.sedge_log_next(log, out, number), number.value], [action, count]);
        assert.equal(sedge.sedge_log_done(log, action, count), n.SEDGE_OK);
    };
    sedge.sedge_log_start(log, new Uint8Array(0), place('000000060000012C00000000000000018A3B0C5D00003D9558'), 5);
    for (const action of [n.SEDGE_LOG_WRITE_FIRST, n.SEDGE_LOG_WRITE_FIRST, n.SEDGE_LOG_WRITE_SECOND]) acts(action);
    assert.equal(digitsOf(out.subarray(0, 21)), started);
    assert.equal(sedge.sedge_log_done(log, n.SEDGE_LOG_EXECUTE, 301), n.SEDGE_ABSENT);
    assert.equal(sedge.sedge_log_offer(log, command, content), n.SEDGE_OK);
    assert.deepEqual([content.from, content.count], [10, 3]);
    assert.equal(sedge.sedge_log_offer(log, command, content), n.SEDGE_LOG_BUSY);
    for (const action of [n.SEDGE_LOG_WRITE_FIRST, n.SEDGE_LOG_WRITE_SECOND]) acts(action);
    acts(n.SEDGE_LOG_EXECUTE, 301);
    for (const action of [n.SEDGE_LOG_WRITE_FIRST, n.SEDGE_LOG_WRITE_SECOND]) acts(action);
    assert.equal(digitsOf(out.subarray(0, 21)), passed);
    const octets = new Uint8Array(27), status = {}, total = {}, packet = new Uint8Array(23);
    assert.equal(sedge.sedge_log_status(log, 3, octets), n.SEDGE_OK);
    assert.equal(digitsOf(octets), `00${passed}0369CFB79E`);
    assert.equal(sedge.sedge_log_status_decode(octets, status), n.SEDGE_OK);
    const { boot, last, known, history, begun } = status.kept;
    assert.deepEqual([status.kind, boot, last, known, history, begun, status.waiting],
        [n.SEDGE_LOG_STATUS_SAYS, 7, 301, 3n, 0x4313d201, 0, 3]);
    assert.equal(sedge.sedge_log_history_after(0x8a3b0c5d, command), 0x4313d201);
    assert.equal(sedge.sedge_log_command_encode(5, 44, 301, Uint8Array.of(1, 2, 3), packet, total), n.SEDGE_OK);
    assert.equal(digitsOf(packet.subarray(0, total.value)), digitsOf(command));
    const order = { kind: n.SEDGE_LOG_ORDER_RESTART, boot: 7, last: 0, mark: 0 };
    assert.equal(sedge.sedge_log_order_encode(order, 6, 45, packet, total), n.SEDGE_OK);
    assert.equal(digitsOf(packet), '1006C02D001001000000070000000000000000E1CC51F8');
    assert.equal(sedge.sedge_log_obey(log, packet), n.SEDGE_OK);
    acts(n.SEDGE_LOG_RESTART);
    assert.equal(sedge.sedge_log_fault_name(n.SEDGE_LOG_OTHER_BOOT), 'OtherBoot');
}

function machines() {
    const farm = {}, fop = {}, word = {};
    assert.equal(sedge.sedge_farm_open(farm, 10, 0), n.SEDGE_OK);
    assert.equal(sedge.sedge_farm_ad(farm, 0, true), n.SEDGE_ACCEPTED);
    assert.equal(farm.vr, 1);
    assert.equal(sedge.sedge_farm_control_word(farm, 2, word), n.SEDGE_OK);
    assert.equal(word.value, 1);
    assert.equal(sedge.sedge_fop_open(fop, 10, 5, 3, 10), n.SEDGE_OK);
    assert.equal(sedge.sedge_fop_directive(fop, n.SEDGE_INIT_WITHOUT_CHECK, 0), n.SEDGE_OK);
    assert.equal(fop.state, n.SEDGE_FOP_S1);
}

// What an alert states, and which of the two ways to recover applies.
function alerts() {
    const all = ['LOCKOUT', 'NNR', 'CLCW', 'SYNCH', 'LIMIT', 'TIMER', 'TERMINATED'];
    for (const [k, name] of all.entries()) {
        const alert = n[`SEDGE_ALERT_${name}`], advice = sedge.sedge_alert_advice(alert);
        assert.equal(sedge.sedge_alert_shows_broken_condition(alert), k < 4);
        assert.equal(advice.includes('restart on board'), k < 4);
        assert.equal(advice.includes('resume by a newer CLCW'), k >= 4);
    }
    assert.equal(sedge.sedge_alert_shows_broken_condition(n.SEDGE_NO_ALERT), false);
    assert.equal(sedge.sedge_alert_advice(n.SEDGE_NO_ALERT), '?');
}

// A packet is sent up, and the CLCW that acknowledges it comes down.
function nodes() {
    const ground = {}, spacecraft = {}, out = new Uint8Array(2048), count = {}, received = {}, heard = {}, map = {};
    assert.equal(sedge.sedge_ground_open(ground, DEFAULTS), n.SEDGE_NODE_OK);
    assert.equal(sedge.sedge_spacecraft_open(spacecraft, DEFAULTS), n.SEDGE_NODE_OK);
    assert.equal(sedge.sedge_ground_submit(ground, 4, packet), n.SEDGE_NODE_NOT_OPEN);
    assert.equal(sedge.sedge_ground_directive(ground, n.SEDGE_INIT_WITHOUT_CHECK, 0), n.SEDGE_NODE_OK);
    assert.equal(sedge.sedge_ground_submit(ground, 4, packet), n.SEDGE_NODE_OK);
    assert.equal(sedge.sedge_ground_pull(ground, out.subarray(0, 3), count), n.SEDGE_NODE_ROOM);
    assert.equal(sedge.sedge_ground_pull(ground, out, count), n.SEDGE_NODE_OK);
    assert.equal(sedge.sedge_spacecraft_receive(spacecraft, out.subarray(0, count.value), received), n.SEDGE_NODE_OK);
    assert.deepEqual([received.kind, received.verdict, received.ready], [n.SEDGE_RECEIVED_AD, n.SEDGE_ACCEPTED, 1]);
    assert.equal(sedge.sedge_spacecraft_take(spacecraft, map, out, count), n.SEDGE_NODE_OK);
    assert.deepEqual([map.value, digitsOf(out.subarray(0, count.value))], [4, digitsOf(packet)]);
    assert.equal(sedge.sedge_spacecraft_telemetry_frame(spacecraft, out, count), n.SEDGE_NODE_OK);
    assert.equal(sedge.sedge_ground_telemetry(ground, out.subarray(0, count.value), heard), n.SEDGE_NODE_OK);
    assert.deepEqual([heard.kind, heard.report, heard.alert], [n.SEDGE_HEARD_FRAME, n.SEDGE_REPORT_USED, n.SEDGE_NO_ALERT]);
    const read = {}, board = {};
    sedge.sedge_ground_read(ground, read);
    assert.deepEqual([read.outstanding, read.vs, read.nn, ...waits(read)], [0, 1, 1, 0, 0, 0, 0, 1]);
    sedge.sedge_spacecraft_read(spacecraft, board);
    assert.deepEqual([board.value, board.ready, board.bypassed], [1, 0, 0]);
    sedge.sedge_spacecraft_close(spacecraft);
    assert.equal(sedge.sedge_spacecraft_open_kept(spacecraft, DEFAULTS, board), n.SEDGE_NODE_OK);
    assert.equal(sedge.sedge_spacecraft_telemetry_frame(spacecraft, out, count), n.SEDGE_NODE_OK);
    assert.equal(sedge.sedge_ground_telemetry(ground, out.subarray(0, count.value), heard), n.SEDGE_NODE_OK);
    assert.deepEqual([heard.first, heard.missing], [0, 0]);
    const kept = {}, value = {};
    assert.equal(sedge.sedge_ground_kept(ground, kept), n.SEDGE_NODE_OK);
    assert.deepEqual([kept.acknowledged, kept.vs, kept.nn, kept.known, kept.whole], [1n, 1, 1, 1, 0]);
    sedge.sedge_ground_close(ground);
    assert.equal(sedge.sedge_ground_open_kept(ground, DEFAULTS, { ...kept, whole: 1 }), n.SEDGE_NODE_OUT_OF_RANGE);
    assert.equal(sedge.sedge_ground_open_kept(ground, DEFAULTS, kept), n.SEDGE_NODE_OK);
    assert.equal(sedge.sedge_ground_resume(ground, 1, value), n.SEDGE_NODE_OK);
    assert.equal(value.value, 1n);
    sedge.sedge_ground_close(ground);
    sedge.sedge_spacecraft_close(spacecraft);
    assert.equal(sedge.sedge_ground_tick(ground), n.SEDGE_NODE_NONE);
    const defaults = {};
    sedge.sedge_config_default(defaults);
    assert.deepEqual(defaults, DEFAULTS);
    assert.equal(sedge.sedge_config_fault({ ...DEFAULTS, width: 7 }), 4);
    assert.equal(sedge.sedge_parameter_name(4), 'width');
}

// What waits in a ground, the ticks that are left, and the transmission count.
function waits(it) {
    return [it.unsent, it.due, it.bypassed, it.ticks, it.count];
}

// Reads the nodes of a link: a packet is sent under sequence control, and another one waits to be sent by bypass.
function linked() {
    const sim = {}, reply = {}, ground = {}, board = {}, none = { octets: new Uint8Array(0) };
    assert.equal(sedge.sedge_sim_open(sim, DEFAULTS), n.SEDGE_NODE_OK);
    const events = [{ kind: n.SEDGE_EVENT_DIRECTIVE, directive: n.SEDGE_INIT_WITHOUT_CHECK },
        { kind: n.SEDGE_EVENT_SUBMIT, map: 4, octets: packet }, { kind: n.SEDGE_EVENT_SEND },
        { kind: n.SEDGE_EVENT_UP_DELIVER }, { kind: n.SEDGE_EVENT_TICK },
        { kind: n.SEDGE_EVENT_BYPASS, map: 5, octets: packet }];
    for (const event of events) assert.equal(sedge.sedge_sim_step(sim, { ...none, ...event }, reply), n.SEDGE_NODE_OK);
    assert.equal(sedge.sedge_sim_ground_read(sim, ground), n.SEDGE_NODE_OK);
    assert.deepEqual([ground.submitted, ground.outstanding, ground.vs, ground.nn], [1n, 1, 1, 0]);
    assert.deepEqual(waits(ground), [0, 0, 1, 9, 1]);
    assert.equal(sedge.sedge_sim_spacecraft_read(sim, board), n.SEDGE_NODE_OK);
    assert.deepEqual([board.value, board.ready, board.bypassed, board.state], [1, 1, 0, n.SEDGE_FARM_OPEN]);
    sedge.sedge_sim_close(sim);
    assert.equal(sedge.sedge_sim_ground_read(sim, ground), n.SEDGE_NODE_NONE);
    assert.equal(sedge.sedge_sim_spacecraft_read(sim, board), n.SEDGE_NODE_NONE);
}

const NONE = new Uint8Array(0), MISSION = { round_trip: 2, orders: 1, status: 2, map: 0, holds: 0 };

// A commander with a command, and what its calls answer that the class Commander does not pass on.
function commander() {
    const handle = {}, good = {}, number = {}, progress = {}, action = {}, count = {}, out = new Uint8Array(1024);
    assert.equal(sedge.sedge_commander_tick(handle), n.SEDGE_NODE_NONE);
    const opens = (own) => sedge.sedge_commander_open(handle, DEFAULTS, { ...MISSION, ...own }, NONE, good);
    assert.deepEqual([opens({ holds: 2 }), opens({ orders: 2047 }), opens({}), good.value],
        [n.SEDGE_LEDGER_OUT_OF_RANGE, n.SEDGE_LEDGER_FIELD_RANGE, 0, 0]);
    const answer = sedge.sedge_commander_command(handle, 9n, 3, 5, 44, Uint8Array.of(1, 2, 3), number);
    assert.deepEqual([answer, number.value], [0, 1]);
    assert.equal(sedge.sedge_commander_next(handle, action, out.subarray(1)), n.SEDGE_LEDGER_ROOM);
    for (const [stored, answers] of [[34, n.SEDGE_LEDGER_ABSENT], [36, n.SEDGE_LEDGER_ABSENT], [35, 0]]) {
        assert.equal(sedge.sedge_commander_next(handle, action, out), 0);
        assert.deepEqual([action.kind, action.count], [n.SEDGE_COMMANDER_STORE, 35]);
        assert.equal(sedge.sedge_commander_unstored(handle, out.subarray(0, 34), count), n.SEDGE_LEDGER_ROOM);
        assert.equal(sedge.sedge_commander_unstored(handle, out, count), 0);
        assert.deepEqual([count.value, sedge.sedge_commander_stored(handle, stored)], [35, answers]);
    }
    assert.equal(sedge.sedge_commander_next(handle, action, out), 0);
    assert.equal(action.kind, n.SEDGE_COMMANDER_NOTHING);
    assert.deepEqual([sedge.sedge_commander_unstored(handle, NONE, count), count.value], [0, 0]);
    for (const kind of [n.SEDGE_COMMANDER_NOTHING, n.SEDGE_COMMANDER_EXECUTED, 10]) {
        assert.equal(sedge.sedge_commander_told(handle, { kind, tag: 9n }), n.SEDGE_LEDGER_ABSENT);
    }
    const of = [0, 1, 2].map((it) => sedge.sedge_commander_progress(handle, it, progress));
    assert.deepEqual([of, progress.value], [[n.SEDGE_LEDGER_ABSENT, 0, n.SEDGE_LEDGER_ABSENT], n.SEDGE_PROGRESS_WAITS]);
    assert.equal(sedge.sedge_commander_clcw(handle, out.subarray(0, 3), {}), n.SEDGE_LEDGER_ABSENT);
    const fresh = [91, 92].map((room) => sedge.sedge_commander_fresh(handle, out.subarray(0, room), count));
    assert.deepEqual([fresh, count.value], [[n.SEDGE_LEDGER_ROOM, 0], 92]);
    telemetryOf(handle, out);
    sedge.sedge_commander_close(handle);
    assert.equal(sedge.sedge_commander_read(handle, {}), n.SEDGE_NODE_NONE);
    const names = [0, 1, 9, 10, 252].map((it) => sedge.sedge_ledger_fault_name(it));
    assert.deepEqual(names, ['?', 'Layout', 'Memory', '?', '?']);
}

// A commander takes a packet of telemetry.
function telemetryOf(handle, out) {
    const spacecraft = {}, count = {}, heard = {}, own = octetsOf('0805C0000000CC');
    assert.equal(sedge.sedge_spacecraft_open(spacecraft, DEFAULTS), n.SEDGE_NODE_OK);
    assert.equal(sedge.sedge_spacecraft_telemetry(spacecraft, own), 0);
    assert.equal(sedge.sedge_spacecraft_telemetry_frame(spacecraft, out, count), n.SEDGE_NODE_OK);
    assert.equal(sedge.sedge_commander_telemetry(handle, out.subarray(0, count.value), heard), 0);
    assert.deepEqual([heard.kind, heard.packets], [n.SEDGE_HEARD_FRAME, 1]);
    assert.deepEqual([sedge.sedge_commander_next_telemetry(handle, count), count.value], [0, 7]);
    assert.equal(sedge.sedge_commander_take_telemetry(handle, out.subarray(0, 6), count), n.SEDGE_LEDGER_ROOM);
    assert.equal(sedge.sedge_commander_take_telemetry(handle, out, count), 0);
    assert.equal(digitsOf(out.subarray(0, count.value)), digitsOf(own));
    assert.deepEqual([sedge.sedge_commander_take_telemetry(handle, out, count), count.value], [0, 0]);
    sedge.sedge_spacecraft_close(spacecraft);
}

// Opening and closing nodes many times takes no more memory than once.
function memory() {
    const config = { ...DEFAULTS, max_packet: 65542, ready_slots: 64 };
    for (let k = 0; k < 2000; k++) {
        const sim = {}, handle = {};
        assert.equal(sedge.sedge_sim_open(sim, config), n.SEDGE_NODE_OK);
        sedge.sedge_sim_close(sim);
        assert.equal(sedge.sedge_commander_open(handle, config, MISSION, NONE, {}), 0);
        sedge.sedge_commander_close(handle);
        assert.deepEqual([sim.link, handle.node], [0, 0]);
    }
}

function lines() {
    for (const line of ['submit 4', 'submit 256 00', 'up', 'up damage 0', 'vs 256', 'init', 'vs 01', 'send now', 'fly',
        'toString', 'constructor 5', 'toString 00', 'valueOf 4 00']) {
        assert.equal(eventOf(line), null, line);
    }
    for (const field of ['width 010', 'scid 65543', 'maps 18446744073709551616', 'toString 5']) {
        assert.throws(() => scriptOf(`config ${field}`), /^Error: line 1 is unreadable/, field);
    }
    assert.throws(() => scriptOf('# first\nsend\nconfig width 10\n'), /^Error: line 3 is unreadable/);
    assert.equal(scriptOf('config maps 18446744073709551615\n').config.maps, DEFAULTS.maps);
}

const TESTS = [
    codecs, packetsThatAreMissing, commandsOverRestarts, machines, alerts, nodes, linked, commander, memory, lines,
];
for (const test of TESTS) test();
console.log('all as wanted');
