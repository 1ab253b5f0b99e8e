// Tests the class Commander: `node commanding_tests.mjs MODULE`. Covers the octets of docs/PROFILE.md; each refusal; the
// rule of actions, and calls between `next` and `done`; stores cut off at each octet; the commands of another ground;
// sessions with a board over a link that loses frames, with restarts of both ends at any moment; each wrong argument; and
// that each name of Python's package exists. Exits with 0 if all is as expected, and otherwise with an Error that states
// what is not.
import assert from 'node:assert/strict';
import { readFileSync, readdirSync } from 'node:fs';
import {
    Commander, CommanderAction, ConfigFault, Executor, LedgerFault, LogFault, Spacecraft, load, newRecord,
} from './index.mjs';
import { digitsOf } from './link.mjs';
import { chances, crc, methodsInPython, refusedBy, textOf, worked as workedIn } from './testing.mjs';

const NONE = new Uint8Array(0), TAG = 0x1122334455667788n, MARK = 0x12345678, CONTENT = Uint8Array.of(1, 2, 3);
const MISSION = { roundTrip: 2, orders: 1, status: 2, map: 0 };
const KINDS = [
    'NOTHING', 'STORE', 'EXECUTED', 'UNKNOWN', 'RESTARTED', 'RECORD_LOST', 'FOREIGN', 'ALERT', 'TELEMETRY', 'SEND'];
const worked = (what) => workedIn('Commands that have no fate yet', what), refused = refusedBy(LedgerFault);

// The layouts of docs/PROFILE.md, by its tables.
const big = (count, value) =>
    Array.from({ length: count }, (_, k) => Number(BigInt(value) >> BigInt(8 * (count - 1 - k)) & 255n));
const checked = (octets) => Uint8Array.from([...octets, ...big(4, crc(octets))]);
const entry = (kind, content) => checked([...big(4, content.length + 9), kind, ...content]);
const record = (boot, last, known, history, begun = 0) =>
    [...big(4, boot), ...big(4, last), ...big(8, known), ...big(4, history), begun];
const status = (kind, body, waiting = 0) => checked([kind, ...body, ...Array(21 - body.length).fill(0), waiting]);
const command = (number, content, apid = 5, count = 44) => checked(
    [...big(2, 0x1000 | apid), ...big(2, 0xc000 | count), ...big(2, content.length + 7), ...big(4, number), ...content]);
const gives = (number, tag = TAG) => entry(1, [...big(8, tag), 3, ...command(number, CONTENT)]);
const order = (kind, boot, last, mark) =>
    checked([0x10, MISSION.orders, 0xc0, 0, 0, 16, kind, ...big(4, boot), ...big(4, last), ...big(4, mark)]);
const telemetry = (apid, data) =>
    Uint8Array.from([...big(2, 0x0800 | apid), 0xc0, 0, ...big(2, data.length - 1), ...data]);
// A fresh store with no command: the number below the first one, the record, and the mark of a loss that still holds.
const fresh = (below, kept, lost = []) => entry(6, [...big(4, below), ...kept, ...big(4, 0),
    ...(lost.length > 0 ? [1, ...lost, 1] : Array(6).fill(0)), ...Array(13).fill(0)]);

// The octets of some arrays, one after another.
function joined(...parts) {
    const out = new Uint8Array(parts.reduce((sum, it) => sum + it.length, 0));
    parts.reduce((at, it) => { out.set(it, at); return at + it.length; }, 0);
    return out;
}

const TOLD = entry(5, []), HEARD = record(1, 1, 1, crc(command(1, CONTENT).subarray(-4)));

assert.throws(() => new Commander(MISSION), /load\(\)/);
await load(readFileSync(process.argv[2]));

// The next action is this one, and it is done.
function does(commander, kind, fields = {}) {
    const action = commander.next();
    assert.deepEqual({ ...action }, { kind, octets: NONE, tag: 0n, number: 0, last: 0, alert: null, ...fields });
    commander.done(action);
}

const gave = (commander, tag = TAG) => commander.command(tag, 3, 5, 44, CONTENT);

// A commander whose only command is in the store.
function withCommand() {
    const commander = new Commander(MISSION);
    assert.equal(gave(commander), 1);
    does(commander, 'STORE', { octets: gives(1) });
    return commander;
}

// ---- Octets. ----

function aCommandIsExecuted() {
    const commander = withCommand();
    assert.deepEqual([gives(1), entry(2, HEARD), TOLD], ['tag', 'a record', 'the first of what was due'].map(worked));
    assert.deepEqual([commander.good, commander.below, commander.highest, commander.progress(1)], [0, 0, 1, 'WAITS']);
    commander.status(status(0, HEARD));
    does(commander, 'STORE', { octets: worked('a record') });
    does(commander, 'RESTARTED', { number: 1 });
    does(commander, 'EXECUTED', { tag: TAG });
    commander.status(status(0, HEARD));
    does(commander, 'STORE', { octets: joined(TOLD, TOLD) });
    does(commander, 'NOTHING');
    const { below, highest, isWorth } = commander;
    assert.deepEqual([below, highest, isWorth, commander.progress(1)], [1, 1, false, null]);
    assert.deepEqual(commander.fresh(), worked('a fresh store after this record'));
    assert.deepEqual(commander.fresh(), fresh(1, HEARD));
    assert.equal(gave(commander), 2);
}

// A store that becomes long is worth a fresh one, which has only the command without a fate.
function aFreshStore() {
    const commander = withCommand(), many = 500;
    for (let k = 2; k <= many; k++) gave(commander, BigInt(k));
    const others = Array.from({ length: many - 1 }, (_, k) => gives(k + 2, BigInt(k + 2)));
    does(commander, 'STORE', { octets: joined(...others) });
    let history = 0;
    for (let k = 1; k < many; k++) history = crc(command(k, CONTENT).subarray(-4), history);
    const kept = record(1, many - 1, 2n ** 64n - 1n, history);
    commander.status(status(0, kept));
    does(commander, 'STORE', { octets: entry(2, kept) });
    does(commander, 'RESTARTED', { number: 1 });
    const kinds = Array.from({ length: many - 1 }, () => {
        const action = commander.next();
        commander.done(action);
        return action.kind;
    });
    assert.deepEqual(kinds, [...Array(many - 65).fill('UNKNOWN'), ...Array(64).fill('EXECUTED')]);
    refused(() => commander.fresh(), 8, 'Owing');
    does(commander, 'STORE', { octets: joined(...Array(many).fill(TOLD)) });
    const octets = joined(fresh(many - 1, kept), gives(many, BigInt(many)));
    assert.deepEqual([commander.isWorth, commander.fresh()], [true, octets]);
    commander.renewed(octets.length);
    assert.equal(commander.isWorth, false);
    const again = new Commander(MISSION, octets);
    assert.deepEqual([again.good, again.below, again.highest, again.fresh()], [octets.length, many - 1, many, octets]);
    again.renewed(100_000);
    assert.equal(again.isWorth, true);
}

// A fresh store of any length comes whole.
function aLongFreshStore() {
    const commander = new Commander(MISSION), content = new Uint8Array(65528);
    const octets = [1, 2, 3].map((it) => entry(1, [...big(8, 9), 3, ...command(it, content, 5, 0)]));
    for (const it of [1, 2, 3]) assert.equal(commander.command(9, 3, 5, 0, content), it);
    does(commander, 'STORE', { octets: joined(...octets) });
    assert.deepEqual(commander.fresh(), joined(fresh(0, Array(21).fill(0)), ...octets));
}

// A board that has lost its record gets another one by an order, and nothing is known then of what it may have executed.
function aLostRecord() {
    const commander = withCommand(), board = new Spacecraft(), lost = status(3, big(4, MARK), 255);
    refused(() => commander.rebuild(), 6, 'NotLost');
    commander.status(lost);
    does(commander, 'STORE', { octets: worked('a loss with mark') });
    does(commander, 'RECORD_LOST', { number: MARK });
    commander.rebuild();
    commander.rebuild();
    commander.status(lost);
    const ordered = worked('an order for this loss');
    assert.deepEqual(ordered, entry(4, [...big(4, MARK), ...big(4, 65536), ...big(4, 1)]));
    does(commander, 'STORE', { octets: joined(TOLD, ordered) });
    const sent = commander.next();
    assert.equal(sent.kind, 'SEND');
    commander.done(sent);
    assert.equal(board.receive(sent.octets).kind, 'BD');
    assert.deepEqual(board.takeBypass(), { map: 0, packet: order(2, 65536, 1, MARK) });
    const brought = record(65536, 1, 0, 0);
    commander.status(status(0, brought));
    does(commander, 'STORE', { octets: entry(2, brought) });
    does(commander, 'RESTARTED', { number: 65536 });
    does(commander, 'UNKNOWN', { tag: TAG });
    refused(() => commander.rebuild(), 6, 'NotLost');
}

// ---- Refusals. ----

function refusals() {
    const commander = withCommand();
    refused(() => commander.status(status(0, HEARD).subarray(1)), 1, 'Layout');
    refused(() => commander.status(NONE), 1, 'Layout');
    refused(() => commander.status(new Uint8Array(27)), 2, 'Check');
    for (const [map, apid, sequence, count] of [[64, 5, 0, 0], [3, 2047, 0, 0], [3, 5, 16384, 0], [3, 5, 0, 65529]]) {
        refused(() => commander.command(1, map, apid, sequence, new Uint8Array(count)), 3, 'FieldRange');
    }
    assert.deepEqual([commander.highest, commander.command(1, 63, 2046, 16383, NONE)], [1, 2]);
    refused(() => commander.fresh(), 8, 'Owing');
    assert.throws(() => commander.clcw(new Uint8Array(3)), { constructor: RangeError, message: /four/ });
    const closed = new Commander(MISSION, NONE, { maps: 1 }), short = new Commander(MISSION, NONE, { maxPacket: 30 });
    refused(() => closed.command(1, 1, 5, 0, NONE), 3, 'FieldRange');
    assert.equal(short.command(1, 3, 5, 0, new Uint8Array(16)), 1);
    refused(() => short.command(1, 3, 5, 0, new Uint8Array(17)), 4, 'TooLong');
    const narrow = new Commander(MISSION, NONE, { part: 23, queueSlots: 1 });
    assert.equal(narrow.command(1, 3, 5, 0, new Uint8Array(9)), 1);
    refused(() => narrow.command(1, 3, 5, 0, new Uint8Array(10)), 4, 'TooLong');
    const most = 2 ** 32 - 1, last = new Commander(MISSION, fresh(most - 1, record(1, most - 1, 0, 0)));
    assert.equal(gave(last), most);
    refused(() => gave(last), 5, 'NoNumber');
    const boots = new Commander(MISSION, fresh(1, record(most - 65535, 1, 0, 0), big(4, MARK)));
    refused(() => boots.rebuild(), 7, 'NoBoot');
    new Commander(MISSION, fresh(1, record(most - 65536, 1, 0, 0), big(4, MARK))).rebuild();
}

function refusalsToOpen() {
    const fails = (mission, config, number, name) =>
        refused(() => new Commander({ ...MISSION, ...mission }, NONE, config), number, name);
    fails({ orders: 2047 }, {}, 3, 'FieldRange');
    fails({ map: 1 }, { maps: 1 }, 3, 'FieldRange');
    fails({ map: 64 }, {}, 3, 'FieldRange');
    fails({ orders: 2047 }, { part: 22 }, 3, 'FieldRange');
    fails({}, { part: 22 }, 4, 'TooLong');
    fails({}, { maxPacket: 22 }, 4, 'TooLong');
    const open = [
        [{ orders: 2046, status: 65535, holds: true }, {}], [{ map: 1 }, { maps: 2 }], [{}, { part: 23, maxPacket: 23 }]];
    for (const [mission, config] of open) {
        assert.equal(new Commander({ ...MISSION, ...mission }, NONE, config).ground.state, 'S6');
    }
    const wrong = (it) => it instanceof ConfigFault && it.number === 5 && it.name === 'window';
    assert.throws(() => new Commander({ ...MISSION, orders: 2047 }, NONE, { window: 0 }), wrong);
    const { maxPacket, window } = new Commander(MISSION, NONE, { maxPacket: 100 }).config;
    assert.deepEqual([maxPacket, window], [100, 127]);
}

// Out of memory is a refusal, and nothing has changed then.
function outOfMemory() {
    const commander = new Commander(MISSION), content = new Uint8Array(65528);
    const { prototype } = WebAssembly.Memory, { grow } = prototype;
    refused(() => commander.command(1, 64, 5, 0, content), 3, 'FieldRange'); // (the content now has its place)
    let given = 0;
    prototype.grow = () => { throw new RangeError('no'); };
    try {
        refused(() => { for (;;) given = commander.command(1, 3, 5, 0, content); }, 9, 'Memory');
        refused(() => commander.command(1, 3, 5, 0, content), 9, 'Memory');
    } finally {
        prototype.grow = grow;
    }
    assert.deepEqual([commander.highest, commander.command(1, 3, 5, 0, content)], [given, given + 1]);
}

// ---- The rule of actions. ----

function theRule() {
    const commander = withCommand();
    commander.status(status(0, HEARD));
    for (const kind of ['STORE', 'RESTARTED', 'EXECUTED', 'STORE']) {
        const action = commander.next(), { octets } = action, other = new CommanderAction(kind, octets, {});
        assert.equal(action.kind, kind);
        assert.throws(() => commander.next(), { constructor: Error, message: `next before done: ${kind} is not done` });
        assert.throws(() => commander.done(other), { constructor: Error, message: /^this is not the action/ });
        assert.throws(() => commander.done(new Commander(MISSION).next()), /^Error: this is not the action/);
        for (const wrong of [undefined, null, 3, kind, {}, { ...action }]) {
            assert.throws(() => commander.done(wrong), TypeError);
        }
        assert.throws(() => { action.kind = 'NOTHING'; }, TypeError);
        commander.done(action);
        assert.throws(() => commander.done(action), /^Error: this is not the action/);
    }
    for (let k = 0; k < 2; k++) assert.equal(commander.next().kind, 'NOTHING');
    commander.done(commander.next());
    assert.throws(() => commander.done(new CommanderAction('SEND', NONE, {})), /^Error: this is not the action/);
}

// A frame and a packet of telemetry must be done too; an alert need not be.
function theRuleOfFrames() {
    const commander = new Commander(MISSION, NONE, { timer: 1, limit: 1 });
    const board = new Spacecraft(), packet = telemetry(7, CONTENT);
    gave(commander);
    board.telemetry(packet);
    const { kind: heard, packets, report, word } = commander.telemetry(board.telemetryFrame());
    assert.deepEqual([heard, packets, report, word.vcid], ['TM', 1, 'USED', 2]);
    does(commander, 'STORE', { octets: gives(1) });
    const taken = commander.next();
    assert.deepEqual([taken.kind, taken.octets], ['TELEMETRY', packet]);
    assert.throws(() => commander.next(), /TELEMETRY is not done/);
    commander.done(taken);
    for (let k = 0; k < 3; k++) commander.tick();
    assert.deepEqual([commander.clcw(board.controlWord.encode()).report, commander.ground.state], ['USED', 'S6']);
    const sent = commander.next();
    assert.deepEqual([sent.kind, board.receive(sent.octets).command, commander.ground.state], ['SEND', 'UNLOCK', 'S5']);
    assert.throws(() => commander.next(), /SEND is not done/);
    commander.done(sent);
    does(commander, 'NOTHING');
    commander.tick();
    const { kind, alert } = commander.next();
    assert.deepEqual([kind, alert.name, commander.ground.state], ['ALERT', 'Timer', 'S6']);
    does(commander, 'NOTHING');
}

// Between `next` and `done` other calls may add to the store. Nothing is stored or reported twice.
function callsBetween() {
    const commander = new Commander(MISSION);
    gave(commander);
    const first = commander.next();
    assert.deepEqual(first.octets, gives(1));
    gave(commander);
    commander.done(first);
    const second = commander.next();
    assert.deepEqual(second.octets, gives(2));
    commander.status(status(0, HEARD));
    commander.done(second);
    does(commander, 'STORE', { octets: entry(2, HEARD) });
    const restarted = commander.next();
    assert.equal(restarted.kind, 'RESTARTED');
    gave(commander);
    commander.done(restarted);
    does(commander, 'STORE', { octets: gives(3) });
    const executed = commander.next();
    assert.deepEqual([executed.kind, executed.tag], ['EXECUTED', TAG]);
    commander.done(executed);
    does(commander, 'STORE', { octets: joined(TOLD, TOLD) });
    does(commander, 'NOTHING');
    const store = joined(gives(1), gives(2), entry(2, HEARD), gives(3), TOLD, TOLD);
    assert.equal(new Commander(MISSION, store).good, store.length);
}

// ---- Stores. ----

// How many octets of a store are good, if its whole entries follow one another.
function goodOf(store) {
    const long = (at) => new DataView(store.buffer, store.byteOffset).getUint32(at);
    let at = 0;
    while (at + 4 <= store.length && at + long(at) <= store.length) {
        const one = store.subarray(at, at + long(at));
        if (one.length < 9 || digitsOf(checked(one.subarray(0, -4))) !== digitsOf(one)) break;
        at += one.length;
    }
    return at;
}

// A store that is cut off at any octet, or damaged, is good up to the last whole entry before.
function tornStores() {
    const parts = [gives(1), gives(2), entry(2, HEARD), TOLD, TOLD, entry(3, big(4, MARK)), TOLD,
        entry(4, [...big(4, MARK), ...big(4, 65537), ...big(4, 2)]), gives(3)];
    const kinds = [
        'NOTHING', 'NOTHING', 'NOTHING', 'RESTARTED', 'EXECUTED', 'NOTHING', 'RECORD_LOST', 'NOTHING', 'SEND', 'SEND'];
    const store = joined(...parts), ends = [0, ...parts.map((_, k) => joined(...parts.slice(0, k + 1)).length)];
    for (let count = 0; count <= store.length; count++) {
        const octets = store.subarray(0, count), whole = ends.findLastIndex((it) => it <= count);
        const commander = new Commander(MISSION, octets), there = parts.slice(0, whole).map((it) => it[4]);
        assert.deepEqual([commander.good, goodOf(octets)], [ends[whole], ends[whole]]);
        assert.equal(commander.highest, there.filter((it) => it === 1).length);
        assert.equal(commander.below, there.filter((it) => it === 2).length);
        assert.equal(commander.next().kind, kinds[whole]);
        commander.close();
    }
    for (let at = 0; at < store.length; at++) {
        const damaged = Uint8Array.from(store, (it, k) => (k === at ? it ^ 0x10 : it));
        assert.equal(new Commander(MISSION, damaged).good, ends.findLast((it) => it <= at));
    }
    const [first, second] = [gives(1), gives(2)];
    const wrong = [joined(first, first), joined(first, gives(3)), joined(second)];
    assert.deepEqual(wrong.map((it) => new Commander(MISSION, it).good), [first.length, first.length, 0]);
}

// A board that has taken commands of another ground: nothing is known of the own ones with these numbers.
function anotherGround() {
    const kept = record(4, 3, 7, 0x01020304), own = withCommand(), none = new Commander(MISSION);
    for (const commander of [own, none]) {
        commander.status(status(0, kept));
        does(commander, 'STORE', { octets: entry(2, kept) });
        does(commander, 'RESTARTED', { number: 4 });
        does(commander, 'FOREIGN', { number: 1, last: 3 });
    }
    does(own, 'UNKNOWN', { tag: TAG });
    for (const it of [own, none]) assert.deepEqual([it.below, it.highest, gave(it)], [3, 3, 4]);
}

// ---- Sessions with a board. ----

// A ground with a store, and a board with a record at two places. Frames are lost, and both ends restart at any moment,
// also in the middle of an action.
class World {
    constructor({ mission = MISSION, seed = 1, loss = 0, harm = 0 } = {}) {
        Object.assign(this, { mission, loss, harm, chance: chances(seed), store: NONE });
        this.places = [newRecord(), newRecord()];
        Object.assign(this, { given: new Map(), fates: new Map(), executed: [], whole: new Set(), down: new Set() });
        Object.assign(this, { seen: {}, tags: 0n, isLost: false, drops: false });
        this.startGround();
        this.startBoard();
    }

    // Returns whether something happens that is expected so many times in a thousand.
    happens(often) {
        return this.chance(1000) < often;
    }

    // Opens the ground from its store, which is cut after what is good. Numbers that were not stored are given again.
    startGround() {
        this.commander = new Commander(this.mission, this.store);
        assert.equal(this.commander.good, goodOf(this.store));
        this.store = this.store.slice(0, this.commander.good);
        for (const it of this.given.keys()) if (it > this.commander.highest) this.given.delete(it);
    }

    startBoard() {
        this.board = new Executor(...this.places, this.chance(2 ** 32));
        this.spacecraft = new Spacecraft();
    }

    give(count) {
        for (let k = 0; k < count; k++) {
            const tag = ++this.tags, content = Uint8Array.from(big(8, tag));
            const number = this.commander.command(tag, 3, 5, Number(tag & 0x3fffn), content);
            assert.ok(!this.given.has(number));
            this.given.set(number, tag);
        }
    }

    // Completes the actions of the ground until nothing is to be done.
    groundActs() {
        for (let k = 0; k < 500; k++) {
            const action = this.commander.next(), { kind } = action;
            this.seen[kind] = (this.seen[kind] ?? 0) + 1;
            if (kind === 'NOTHING') return;
            if (this.happens(this.harm)) {
                this.breakOff(action);
                return;
            }
            this.do(action);
            this.interrupt();
            this.commander.done(action);
        }
        assert.fail('the ground does not rest');
    }

    do({ kind, octets, tag }) {
        if (kind === 'STORE') this.store = joined(this.store, octets);
        else if (kind === 'EXECUTED' || kind === 'UNKNOWN') this.report(kind, tag);
        else if (kind === 'RECORD_LOST') this.isLost = true;
        else if (kind === 'TELEMETRY') assert.ok(this.down.has(digitsOf(octets)));
        else if (kind === 'SEND' && !this.happens(this.loss)) this.spacecraft.receive(octets);
    }

    // The ground restarts in the middle of an action.
    breakOff({ kind, octets, tag }) {
        if (kind === 'STORE') this.store = joined(this.store, octets.subarray(0, this.chance(octets.length + 1)));
        else if (this.happens(500)) this.do({ kind, octets, tag });
        this.startGround();
    }

    // Calls of the program while it completes an action.
    interrupt() {
        if (this.happens(this.harm)) this.give(1);
        if (this.happens(this.harm)) this.commander.status(this.board.status(this.spacecraft.ready));
    }

    // What is reported of a command is true, and it is the same after a restart of the ground.
    report(kind, tag) {
        assert.equal(this.fates.get(tag) ?? kind, kind);
        if (kind === 'EXECUTED') assert.ok(this.whole.has(tag));
        this.fates.set(tag, kind);
    }

    boardActs() {
        for (let k = 0; k < 500; k++) {
            const action = this.board.next(), { kind, octets, number, content } = action;
            if (kind === 'NOTHING' && !this.takes()) return;
            if (kind === 'NOTHING') continue;
            const isCut = kind === 'RESTART' || this.happens(this.harm), isPlace = kind.startsWith('WRITE');
            if (isPlace) this.write(kind === 'WRITE_FIRST' ? 0 : 1, octets, isCut);
            else if (kind === 'EXECUTE') this.execute(number, content, !isCut);
            if (isCut) this.startBoard();
            else this.board.done(action);
        }
        assert.fail('the board does not rest');
    }

    // Writes a place. If the write is cut off, the other place is lost too in one case of ten.
    write(place, octets, isCut) {
        const count = isCut ? this.chance(51) : 50;
        this.places[place] = joined(octets.subarray(0, count), this.places[place].subarray(count));
        if (isCut && this.chance(10) === 0) this.places = [NONE, NONE];
    }

    // Executes a command, in order and at most once, and none that was reported already.
    execute(number, content, isWhole) {
        const tag = BigInt(`0x${digitsOf(content)}`);
        assert.equal(tag, this.given.get(number));
        assert.ok(number > (this.executed.at(-1) ?? 0) && !this.fates.has(tag));
        this.executed.push(number);
        if (isWhole) this.whole.add(tag);
    }

    // Returns whether the board takes a packet that waits.
    takes() {
        const bypass = this.spacecraft.takeBypass(), packet = bypass ?? this.spacecraft.take();
        if (packet === null || this.drops) return packet !== null;
        try {
            if (bypass) this.board.obey(bypass.packet);
            else this.board.offer(packet.packet);
        } catch (fault) {
            assert.ok(fault instanceof LogFault);
        }
        return true;
    }

    boardReports() {
        const packets = [telemetry(MISSION.status, this.board.status(this.spacecraft.ready))];
        if (this.happens(100)) packets.push(telemetry(7, big(8, this.tags)));
        for (const it of packets) {
            this.down.add(digitsOf(it));
            this.spacecraft.telemetry(it);
        }
        const frame = this.spacecraft.telemetryFrame();
        if (!this.happens(this.loss)) this.commander.telemetry(frame);
    }

    // What people do: they have the order made that brings a record, restart the board, and write a fresh store.
    operate() {
        if (this.isLost) {
            try {
                this.commander.rebuild();
            } catch (fault) {
                assert.ok(fault instanceof LedgerFault && fault.number === 6);
                this.isLost = false;
            }
        }
        if (this.happens(this.harm)) this.commander.restartBoard();
        if (!this.commander.isWorth) return;
        this.store = this.commander.fresh();
        this.seen.fresh = (this.seen.fresh ?? 0) + 1;
        if (this.happens(this.harm)) this.startGround();
        else this.commander.renewed(this.store.length);
    }

    pass(ticks) {
        for (let k = 0; k < ticks; k++) {
            this.operate();
            this.groundActs();
            this.boardActs();
            this.boardReports();
            this.commander.tick();
        }
    }

    // The numbers that were executed, and how many fates of each kind were reported.
    get came() {
        const count = (kind) => [...this.fates.values()].filter((it) => it === kind).length;
        return [this.executed.length, count('EXECUTED'), count('UNKNOWN')];
    }
}

function aLossyLink() {
    const world = new World({ loss: 200 });
    world.give(100);
    world.pass(300);
    assert.deepEqual([world.came, world.seen.RESTARTED, world.seen.FOREIGN], [[100, 100, 0], 1, undefined]);
}

function restarts() {
    const world = new World();
    world.give(20);
    world.pass(6);
    world.startBoard();
    world.give(20);
    world.pass(60);
    assert.deepEqual(world.came, [40, 40, 0]);
    world.commander.restartBoard();
    world.give(1);
    world.pass(60);
    assert.deepEqual([world.came, world.seen.RESTARTED], [[41, 41, 0], 3]);
    world.startGround();
    world.give(1);
    world.pass(60);
    assert.deepEqual([world.came, world.seen.RESTARTED], [[42, 42, 0], 3]);
}

function pauses() {
    const world = new World({ mission: { ...MISSION, map: 63, holds: true } }), came = [];
    const passes = (...calls) => {
        for (const it of calls) world.commander[it]();
        world.pass(20);
        came.push(world.came[1]);
    };
    world.give(5);
    passes();
    passes('goOn');
    world.give(5);
    passes('pause');
    passes('goOn');
    world.startBoard();
    world.give(5);
    passes();
    passes('goOn');
    assert.deepEqual(came, [0, 5, 5, 10, 10, 15]);
}

// The sender gives up, and the commander begins another session by itself.
function anAlert() {
    const world = new World();
    world.give(5);
    world.pass(10);
    world.loss = 1000;
    world.give(5);
    world.pass(100);
    assert.deepEqual([world.came, world.seen.ALERT], [[5, 5, 0], 1]);
    world.loss = 0;
    world.pass(20);
    assert.deepEqual(world.came, [10, 10, 0]);
}

// Commands that the board took and dropped are sent again.
function progress() {
    const world = new World(), { commander } = world, of = (...numbers) => numbers.map((it) => commander.progress(it));
    world.give(5);
    assert.deepEqual(of(0, 1, 5, 6), [null, 'WAITS', 'WAITS', null]);
    world.drops = true;
    for (let k = 0; k < 20 && commander.ground.state !== 'S1'; k++) world.pass(1);
    world.groundActs();
    assert.deepEqual([of(1, 5), commander.ground], [['SENT', 'SENT'], {
        state: 'S1', vs: 5, nn: 0, outstanding: 5, unsent: 0, due: 0, bypassed: 0, ticks: 10, count: 1, frameLength: 64,
        submitted: 5, sentWhole: 5, acknowledgedWhole: 0 }]);
    world.pass(3);
    const { acknowledgedWhole, outstanding } = commander.ground;
    assert.deepEqual([of(1, 5), acknowledgedWhole, outstanding], [['ON_BOARD', 'ON_BOARD'], 5, 0]);
    world.drops = false;
    world.pass(30);
    assert.deepEqual([world.came, of(1, 5)], [[5, 5, 0], [null, null]]);
}

function aRecordIsBroughtBack() {
    const world = new World();
    world.give(5);
    world.pass(20);
    world.places = [NONE, NONE];
    world.startBoard();
    world.give(2);
    world.pass(40);
    assert.deepEqual([world.came, world.seen.RECORD_LOST], [[5, 5, 2], 1]);
    world.give(3);
    world.pass(40);
    assert.deepEqual([world.came, world.seen.FOREIGN], [[8, 8, 2], undefined]);
}

// Whatever happens, commands are executed in order and at most once, and each gets its fate, which is true.
function randomSessions() {
    const seen = {}, sum = [0, 0, 0];
    for (let seed = 1; seed <= 60; seed++) {
        const world = new World({ seed, loss: 100, harm: 15 });
        for (let k = 0; k < 60; k++) {
            world.give(world.chance(6));
            world.pass(4);
        }
        Object.assign(world, { loss: 0, harm: 0 });
        world.pass(120);
        const { commander, given, fates } = world;
        assert.equal(commander.below, commander.highest, `seed ${seed}`);
        for (const tag of given.values()) assert.ok(fates.has(tag));
        world.came.forEach((it, k) => { sum[k] += it; });
        for (const [kind, count] of Object.entries(world.seen)) seen[kind] = (seen[kind] ?? 0) + count;
        commander.close();
    }
    const often = KINDS.filter((it) => it !== 'FOREIGN' && it !== 'ALERT');
    for (const it of often) assert.ok(seen[it] > 50, `${it}: ${seen[it]}`);
    assert.ok(sum[1] > 2000 && sum[2] > 100 && seen.fresh > 50, `${sum} ${JSON.stringify(seen)}`);
}

// ---- Closing, arguments and names. ----

const GOOD = {
    command: [1n, 3, 5, 0, NONE], telemetry: [NONE], clcw: [new Uint8Array(4)], status: [NONE], progress: [1],
    renewed: [1],
};

function closed() {
    const commander = withCommand(), members = Object.getOwnPropertyDescriptors(Commander.prototype);
    const given = { ...GOOD, done: [commander.next()] };
    commander.close();
    commander.close();
    assert.equal(commander.closed, true);
    let tried = 0;
    for (const [name, { get, value }] of Object.entries(members)) {
        if (name === 'constructor' || name === 'good') continue;
        assert.throws(() => (get ? commander[name] : value.apply(commander, given[name] ?? [])), /is closed/, name);
        tried++;
    }
    assert.ok(tried > 15, tried);
    const it = new Commander(MISSION);
    if (Symbol.dispose) it[Symbol.dispose]();
    assert.equal(it.closed, Boolean(Symbol.dispose));
}

// Each wrong argument is a TypeError or a RangeError, and nothing changes.
function wrongArguments() {
    const commander = withCommand(), shown = () => digitsOf(commander.fresh()), before = shown();
    const WRONG = [undefined, null, 0.5, NaN, Infinity, '4', '', true, {}, [4], () => 4, -1, 2 ** 53, 2n ** 64n];
    const isWrong = (it) => it.constructor === TypeError || it.constructor === RangeError;
    let tried = 0;
    for (const [name, good] of Object.entries(GOOD)) {
        good.forEach((right, k) => {
            for (const wrong of [...WRONG, typeof right === 'object' ? 4 : NONE]) {
                const own = good.map((it, j) => (j === k ? wrong : it));
                assert.throws(() => commander[name](...own), isWrong, `${name}, ${k}`);
                tried++;
            }
        });
    }
    assert.ok(tried > 140, tried);
    assert.equal(shown(), before);
}

function wrongSettings() {
    const { roundTrip, orders, status: apid, map } = MISSION;
    for (const wrong of [undefined, null, 4, 'it', [], {}, { roundTrip, orders, map }, { roundTrip, status: apid, map },
        { roundTrip, orders, status: apid }, { ...MISSION, round_trip: 2 }, { ...MISSION, holds: 'true' },
        { ...MISSION, holds: 2 }, { ...MISSION, map: null }, { ...MISSION, orders: '1' }, { ...MISSION, roundTrip: 1n }]) {
        assert.throws(() => new Commander(wrong), TypeError);
    }
    for (const [name, most] of [['roundTrip', 2 ** 32], ['orders', 65536], ['status', 65536], ['map', 256]]) {
        for (const it of [-1, most]) assert.throws(() => new Commander({ ...MISSION, [name]: it }), RangeError, name);
    }
    for (const wrong of [{ windw: 4 }, { maxPacket: '4' }, { window: undefined }, 4, null, []]) {
        assert.throws(() => new Commander(MISSION, NONE, wrong), TypeError);
    }
    for (const wrong of [null, 4, '00', [1], {}, new ArrayBuffer(2), new Uint16Array(2)]) {
        assert.throws(() => new Commander(MISSION, wrong), TypeError);
    }
}

// The methods that the package for Python has.
function names() {
    const texts = readdirSync(new URL('../python/sedgechisel', import.meta.url)).filter((it) => it.endsWith('.py'))
        .map((it) => textOf(`python/sedgechisel/${it}`));
    const text = texts.find((it) => /^class Commander\b/m.test(it)), methods = methodsInPython(text, 'Commander');
    assert.ok(methods.length > 15, methods.length);
    for (const it of methods) assert.ok(it in Commander.prototype, `Commander has no ${it}`);
}

const TESTS = [
    aCommandIsExecuted, aFreshStore, aLongFreshStore, aLostRecord, refusals, refusalsToOpen, outOfMemory, theRule,
    theRuleOfFrames, callsBetween, tornStores, anotherGround, aLossyLink, restarts, pauses, anAlert, progress,
    aRecordIsBroughtBack, randomSessions, closed, wrongArguments, wrongSettings, names,
];
for (const test of TESTS) test();
console.log('all as wanted');
