// Tests the classes for JavaScript: `node nodes_tests.mjs MODULE`. Covers a session over both nodes, faults, alerts,
// kept records, iterators, closed nodes, the simulated link, each wrong argument of each method, and that each name of
// Python's package exists. Exits with 0 if all is as expected, and otherwise with an Error that states what is not.
import assert from 'node:assert/strict';
import { readFileSync } from 'node:fs';
import { setTimeout } from 'node:timers/promises';
import { setFlagsFromString } from 'node:v8';
import { runInNewContext } from 'node:vm';
import {
    Clcw, ClcwFault, ConfigFault, CopFault, Ground, LedgerFault, Link, LinkFault, LogFault, SimFault, Spacecraft, TcFault,
    TelemetryFault, TmFault, load,
} from './index.mjs';
import { digitsOf, octetsOf } from './link.mjs';

const PACKET = octetsOf('1005C0000000AA'), OTHER = octetsOf('1005C0010000BB'), TELEMETRY = octetsOf('0805C0000000CC');
assert.throws(() => new Ground(), /load\(\)/);
const calls = await load(readFileSync(process.argv[2]));

function refused(call, kind, number, name, meaning) {
    assert.throws(call, (it) => it instanceof kind && it.number === number && it.name === name
        && it.message === `${number} ${name}: ${it.meaning}` && it.meaning.includes(meaning), `${call}`);
}

// A packet goes up, is acknowledged by telemetry, and a packet comes down.
function session() {
    const ground = new Ground({ timer: 3 }), spacecraft = new Spacecraft();
    assert.equal(ground.state, 'S6');
    refused(() => ground.submit(4, PACKET), LinkFault, 1, 'NotOpen', 'S6');
    ground.initUnlock();
    assert.deepEqual(
        [ground.submit(4, PACKET), ground.submit(4, OTHER), ground.outstanding, ground.unsent], [0, 1, 2, 2]);
    const kinds = [...ground.frames()].map((it) => spacecraft.receive(it));
    assert.deepEqual([kinds.length, kinds[0].kind, kinds[0].command, ground.ticks], [1, 'BC', 'UNLOCK', 3]);
    spacecraft.telemetry(TELEMETRY);
    const heard = ground.telemetry(spacecraft.telemetryFrame());
    assert.deepEqual([heard.kind, heard.gap, heard.packets, heard.report, heard.alert], ['TM', null, 1, 'USED', null]);
    assert.deepEqual([heard.word.value, heard.word.farmB, heard.word.vcid, heard.word.lockout], [0, 1, 2, false]);
    const received = [...ground.frames()].map((it) => spacecraft.receive(it));
    assert.deepEqual(
        received.map((it) => [it.kind, it.n, it.verdict, it.ready]),
        [['AD', 0, 'ACCEPTED', 1], ['AD', 1, 'ACCEPTED', 1]]);
    assert.equal(ground.clcw(spacecraft.controlWord.encode()).kind, 'CLCW');
    assert.deepEqual([ground.outstanding, ground.acknowledgedWhole, ground.sentWhole, ground.submitted], [0, 2, 2, 2]);
    assert.deepEqual([...spacecraft.packets()], [{ map: 4, packet: PACKET }, { map: 4, packet: OTHER }]);
    assert.deepEqual([[...ground.packets()], ground.takeTelemetry()], [[TELEMETRY], null]);
    assert.equal(spacecraft.receive(PACKET).fault.name, 'ReservedType');
    ground.bypass(3, PACKET);
    const frame = ground.peek();
    assert.deepEqual([ground.bypassed, frame], [1, ground.pull()]);
    assert.deepEqual([spacecraft.receive(frame).kept, spacecraft.bypassed], [true, 1]);
    assert.deepEqual([...spacecraft.bypassPackets()], [{ map: 3, packet: PACKET }]);
    ground.close();
    spacecraft.close();
}

function telemetry() {
    const ground = new Ground(), spacecraft = new Spacecraft(), length = spacecraft.frameLength;
    spacecraft.telemetry(TELEMETRY);
    const frames = [spacecraft.telemetryFrame(), spacecraft.telemetryFrame()];
    assert.equal(ground.clcwIn(frames[0]).value, 0);
    assert.equal(ground.clcwIn(frames[0].subarray(1)), null);
    const all = Uint8Array.from([...frames[0], ...frames[1], 7]);
    assert.deepEqual(
        [...ground.telemetryAll(all, length)].map((it) => [it.kind, it.gap]),
        [['TM', null], ['TM', 0], ['INVALID', null]]);
    for (const wrong of [15, 2049]) assert.throws(() => ground.telemetryAll(all, wrong), RangeError);
    ground.forgetTelemetry();
    assert.deepEqual([ground.telemetry(spacecraft.telemetryFrame()).gap, [...ground.packets()]], [null, [TELEMETRY]]);
    refused(() => spacecraft.telemetry(octetsOf('07FFC0000000CC')), TelemetryFault, 8, 'NotAPacket', 'idle');
}

function directives() {
    const ground = new Ground({ width: 10, window: 5 }), link = new Link({ width: 10, window: 5 });
    for (const it of [ground, link]) {
        it.setVs(7);
        assert.deepEqual([it.vs, it.nn], [7, 7]);
        refused(() => it.setWindow(6), CopFault, 2, 'Window', 'half the width');
        refused(() => it.setLimit(0), CopFault, 3, 'Limit', '0');
        refused(() => it.setTimer(0), CopFault, 4, 'Timer', '0');
        refused(() => it.terminate(), CopFault, 8, 'WrongState', 'not allowed');
        it.setTimer(65535);
        const begun = [
            () => it.initWithoutCheck(), () => it.initWithCheck(), () => it.initUnlock(), () => it.initSetVr(9)];
        const states = begun.map((init) => { init(); const { state } = it; it.terminate(); return state; });
        assert.deepEqual([states, it.vs], [['S1', 'S4', 'S5', 'S5'], 9]);
    }
    assert.equal(link.begun, 'SET_VR');
}

// After an alert a session is resumed, and another ground continues from the record of a lost one.
function alerts() {
    const ground = new Ground({ timer: 1, limit: 1 });
    ground.initWithoutCheck();
    ground.submit(4, PACKET);
    assert.equal([...ground.frames()].length, 1);
    const kept = JSON.parse(JSON.stringify(ground.kept));
    assert.deepEqual(kept, { acknowledged: 0, vs: 1, nn: 0, known: true, segments: [1] });
    const alert = ground.tick();
    assert.deepEqual([alert.name, alert.number, alert.showsABrokenCondition, `${alert}`], ['Timer', 6, false, 'Timer']);
    assert.match(alert.advice, /resume by a newer CLCW/);
    assert.deepEqual([ground.acceptedBeyond(1), ground.knownOnBoard(1), ground.knownOnBoard(2)], [1, 1, null]);
    refused(() => ground.resume(2), LinkFault, 10, 'NotKnown', 'nothing is known');
    assert.deepEqual([ground.resume(1), ground.state, ground.tick()?.name], [1, 'S5', undefined]);
    const other = new Ground({ timer: 1, limit: 1 }, kept);
    assert.deepEqual([other.state, other.vs, other.resume(0), other.kept.known], ['S6', 1, 0, true]);
    assert.throws(() => new Ground({}, { known: true, segments: [0] }), RangeError);
    assert.throws(() => new Ground({}, { segments: Array(128).fill(1) }), RangeError);
    const board = new Spacecraft({}, { vr: 200, farmB: 3, mcCount: 4, vcCount: 5 });
    assert.deepEqual(board.keptNumbers, { vr: 200, farmB: 3, mcCount: 4, vcCount: 5 });
    assert.throws(() => new Spacecraft({}, { farmB: 4 }), RangeError);
    assert.throws(() => new Spacecraft({}, { farm_b: 1 }), TypeError);
}

function fullQueue() {
    const ground = new Ground({ queueSlots: 1 });
    refused(() => ground.trySubmit(4, PACKET), LinkFault, 1, 'NotOpen', 'S6');
    ground.initWithoutCheck();
    assert.deepEqual([ground.trySubmit(4, PACKET), ground.trySubmit(4, OTHER), ground.submitted], [0, null, 1]);
    refused(() => ground.submit(4, OTHER), LinkFault, 5, 'QueueFull', 'too few free slots');
}

function configs() {
    refused(() => new Ground({ width: 7 }), ConfigFault, 4, 'width', 'even, 2 to 254');
    refused(() => new Link({ maxPacket: 6 }), ConfigFault, 9, 'maxPacket', '7 to 65,542');
    assert.deepEqual([new Ground({ maxPacket: 100 }).config.maxPacket, new Ground().config.maps], [100, 2n ** 64n - 1n]);
    for (const wrong of [
        { windw: 4 }, { max_packet: 100 }, { window: undefined }, { window: '4' }, { toString: 4 }, 4, null, []]) {
        for (const kind of [Ground, Spacecraft, Link]) assert.throws(() => new kind(wrong), TypeError);
    }
    for (const wrong of [{ window: 2 ** 32 + 4 }, { timer: -1 }, { maps: 2n ** 64n }]) {
        assert.throws(() => new Ground(wrong), RangeError);
    }
}

function words() {
    const word = new Clcw({ vcid: 2, flags: 0x30, value: 9 });
    assert.deepEqual(
        [word.wait, word.lockout, word.retransmit, word.noRf, word.noBitLock], [true, true, false, false, false]);
    assert.equal(digitsOf(word.encode()), '01083009');
    assert.deepEqual(Clcw.decode(word.encode()), word);
    refused(() => new Clcw({ vcid: 64 }).encode(), ClcwFault, 5, 'Range', 'too large');
    refused(() => Clcw.decode(PACKET), ClcwFault, 254, 'WrongCount', 'number of octets');
    assert.throws(() => new Clcw({ farm_b: 1 }), TypeError);
    assert.throws(() => new Clcw({ value: 256 }), RangeError);
}

function linked() {
    const link = new Link();
    refused(() => link.upDeliver(), SimFault, 7, 'NothingInTransit', 'no frame');
    link.initWithoutCheck();
    link.submit(4, PACKET);
    const frame = link.send();
    assert.deepEqual([frame.length, link.send(), link.sent.length, link.unsent], [15, null, 1, 0]);
    refused(() => link.upDamage(frame), SimFault, 8, 'NotDetectable', 'accept');
    assert.equal(link.upDamage(PACKET).kind, 'INVALID');
    assert.deepEqual([...Array(10)].map(() => link.tick()), Array(10).fill(null));
    link.send();
    assert.equal(link.upDeliver().verdict, 'ACCEPTED');
    assert.equal(link.report().value, 1);
    assert.deepEqual([link.downClcw().report, link.outstanding, link.acknowledged, link.clean], ['USED', 0, 1, true]);
    assert.deepEqual([link.ready, link.take(), link.take(), link.mode], [1, { map: 4, packet: PACKET }, null, 'OPEN']);
    assert.deepEqual([link.submissions, link.submitted(4), link.delivered(4), link.delivered(5)],
        [[{ map: 4, packet: PACKET }], [PACKET], [PACKET], []]);
    assert.equal(link.accepted.length, 1);
    link.bypass(5, PACKET);
    assert.equal(link.bypassUnsent, 1);
    link.send();
    assert.deepEqual(
        [link.upDeliver().kept, link.bypassReady, link.takeBypass()], [true, 1, { map: 5, packet: PACKET }]);
    link.telemetry(TELEMETRY);
    link.report();
    assert.equal(link.downDeliver().packets, 1);
    link.report();
    link.downLose();
    assert.deepEqual(
        [link.controlWord.farmB, link.count, link.ticks, link.confirmed, link.idle], [1, 1, 0, false, true]);
    link.terminate();
    assert.equal(link.resume(1), 1);
    refused(() => link.resume(1), LinkFault, 10, 'NotKnown', 'nothing');
}

function closed() {
    for (const kind of [Ground, Spacecraft, Link]) {
        const it = new kind();
        it.close();
        it.close();
        assert.equal(it.closed, true);
        const members = Object.getOwnPropertyDescriptors(kind.prototype);
        for (const [name, { get }] of Object.entries(members)) {
            if (get && name !== 'closed') assert.throws(() => it[name], /is closed/, name);
        }
    }
    const it = new Ground();
    if (Symbol.dispose) it[Symbol.dispose]();
    assert.equal(it.closed, Boolean(Symbol.dispose));
}

// A node that nothing refers to any more is closed, and a node that was closed is not closed again.
async function forgotten() {
    const close = calls.sedge_ground_close;
    let count = 0;
    calls.sedge_ground_close = (it) => { count++; close(it); };
    setFlagsFromString('--expose-gc');
    for (let k = 0; k < 20; k++) new Ground();
    new Ground().close();
    for (let k = 0; k < 50 && count < 21; k++) {
        runInNewContext('gc')();
        await setTimeout(10);
    }
    calls.sedge_ground_close = close;
    assert.ok(count > 1 && count <= 21, count);
}

const OWN = new Set(['constructor', 'asked', 'read', 'octets', 'direct', 'close']);
const GOOD = { map: 4, packet: PACKET, packets: PACKET, octets: PACKET, word: new Uint8Array(4), length: 64 };
const WRONG = [undefined, null, 0.5, NaN, Infinity, '4', '', true, {}, [4], () => 4, -1, 2 ** 32, 2 ** 53, 4n];

// The methods of a class and their parameters.
function methodsOf(kind) {
    const found = new Map();
    for (let it = kind.prototype; it !== Object.prototype; it = Object.getPrototypeOf(it)) {
        for (const [name, { value }] of Object.entries(Object.getOwnPropertyDescriptors(it))) {
            if (typeof value !== 'function' || OWN.has(name) || found.has(name)) continue;
            const given = /\(([^)]*)\)/.exec(String(value))[1];
            found.set(name, given.split(',').map((one) => one.trim()).filter(Boolean));
        }
    }
    return found;
}

function wrongArguments() {
    let tried = 0;
    for (const kind of [Ground, Spacecraft, Link]) {
        const it = new kind(), shown = () => JSON.stringify(it.kept ?? it.keptNumbers ?? [it.vs, it.submissions, it.state]);
        const before = shown();
        for (const [name, parameters] of methodsOf(kind)) {
            parameters.forEach((own, k) => {
                for (const wrong of [...WRONG, ...(typeof (GOOD[own] ?? 4) === 'number' ? [PACKET] : [4])]) {
                    const given = parameters.map((one, at) => (at === k ? wrong : GOOD[one] ?? 4));
                    assert.throws(() => it[name](...given), (error) => error.constructor === TypeError || error.constructor === RangeError,
                        `${kind.name}.${name}, ${own}: ${String(wrong)}`);
                    tried++;
                }
            });
        }
        assert.equal(shown(), before);
    }
    assert.ok(tried > 400, tried);
}

// Each fault has the text that a program in C gets for its number, except that a parameter has its JavaScript name.
function texts() {
    const header = readFileSync(new URL('../c/include/sedgechisel_faults.h', import.meta.url), 'utf8');
    const kinds = {
        clcw_fault: ClcwFault, cop_fault: CopFault, tc_fault: TcFault, tm_fault: TmFault, link_fault: LinkFault,
        sim_fault: SimFault, log_fault: LogFault, ledger_fault: LedgerFault, parameter: ConfigFault,
    };
    for (const [call, kind] of Object.entries(kinds)) {
        const body = header.split(`*sedge_${call}_text(`)[1].split('\n}')[0];
        const cases = [...body.matchAll(/case (\d+): return "([^]*?)";/g)].filter(([, number]) => number < 252);
        assert.ok(cases.length > 2, call);
        for (const [, number, text] of cases) {
            const named = call === 'parameter' ? text.replace(/_(.)/g, (_, one) => one.toUpperCase()) : text;
            assert.equal(new kind(Number(number)).message, named.replace(/"\s+"/g, ''));
        }
    }
    for (const number of [7, 8]) assert.equal(new TelemetryFault(number).message, new TmFault(number).message);
}

// The names of the package for Python, except those that it drops after 0.3.
function names() {
    const known = { Ground: '_nodes', Spacecraft: '_spacecraft', Link: '_link', Directives: '_calls' };
    for (const [name, file] of Object.entries(known)) {
        const text = readFileSync(new URL(`../python/sedgechisel/${file}.py`, import.meta.url), 'utf8');
        const body = text.slice(text.search(new RegExp(`^class ${name}\\(|^class ${name}:`, 'm'))).split(/\n(?=\S)/)[0];
        const methods = [...body.matchAll(/^    def ([a-z]\w*)\(/gm)].map(([, it]) => it.replace(/_(.)/g, (_, one) => one.toUpperCase()));
        const kind = { Ground, Spacecraft, Link, Directives: Ground }[name];
        assert.ok(methods.length > 8, name);
        for (const it of methods) assert.ok(it in kind.prototype, `${name} has no ${it}`);
    }
}

// The comments of the classes use the words of JavaScript. The only C name in them is that of a call that no class has.
function comments() {
    for (const file of ['handles', 'nodes', 'simulated', 'executor', 'commanding', 'values']) {
        const text = readFileSync(new URL(`${file}.mjs`, import.meta.url), 'utf8').replace(/import\('[^']*'\)\.\w+/g, '');
        for (const [comment] of text.matchAll(/\/\*\*[^]*?\*\//g)) {
            assert.ok(!/sedge_(?!config|map_count)|[;,:] writes |\* Writes |Returns 0[,.]/i.test(comment), comment);
        }
    }
}

for (const test of [session, telemetry, directives, alerts, fullQueue, configs, words, linked, closed, wrongArguments, texts, names, comments]) test();
await forgotten();
console.log('all as wanted');
