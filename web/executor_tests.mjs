// Tests the class Executor and the functions for the ground: `node executor_tests.mjs MODULE`. Covers the octets of
// docs/PROFILE.md and c/tests/log.c, which Python's struct and zlib made; each refusal; the rule of actions; each wrong
// argument; random sessions of a board that restarts at any moment; and that each name of Python's package exists.
// Exits with 0 if all is as expected, and otherwise with an Error that states what is not.
import assert from 'node:assert/strict';
import { readFileSync } from 'node:fs';
import * as sedgechisel from './index.mjs';
import {
    Action, BoardStatus, Executor, LogFault, commandPacket, historyAfter, load, newRecord, rebuildOrder, restartOrder,
} from './index.mjs';
import { digitsOf } from './link.mjs';
import { chances, crc, methodsInPython, refusedBy, textOf, worked as workedIn } from './testing.mjs';

const NONE = new Uint8Array(0), KINDS = ['NOTHING', 'WRITE_FIRST', 'WRITE_SECOND', 'EXECUTE', 'RESTART'];

// The octets in c/tests/log.c, by their names there.
const inC = Object.fromEntries(
    [...textOf('c/tests/log.c').matchAll(/^static const uint8_t ([A-Z]+)\[\d+\] = \{([^}]*)\}/gm)]
        .map(([, name, octets]) => [name, Uint8Array.from(octets.split(','), Number)]));
const { BEFORE, STARTED, BEGUN, PASSED, NEW, BROUGHT, COMMAND, RESTART, REBUILD, SAYS, LOST, CHANGES, STARTS } = inC;

const worked = (what, k) => workedIn('Commands that are executed once', what, k), refused = refusedBy(LogFault);

assert.throws(() => new Executor(NONE, NONE, 5), /load\(\)/);
assert.throws(() => newRecord(), /load\(\)/);
await load(readFileSync(process.argv[2]));

function acts(board, kind, octets = NONE, number = 0, content = NONE) {
    const action = board.next();
    assert.deepEqual({ ...action }, { kind, octets, number, content });
    board.done(action);
}

function writes(board, octets) {
    acts(board, 'WRITE_FIRST', octets);
    acts(board, 'WRITE_SECOND', octets);
}

// A board without a record at its first place executes the next command, and restarts by an order.
function aCommand() {
    const board = new Executor(NONE, BEFORE, 5);
    refused(() => board.offer(COMMAND), 3, 'Starting');
    assert.deepEqual(board.status(), STARTS);
    acts(board, 'WRITE_FIRST', BEFORE);
    assert.deepEqual(board.status(), CHANGES);
    writes(board, STARTED);
    assert.equal(board.next().kind, 'NOTHING');
    board.done(board.next());
    refused(() => board.offer(COMMAND.subarray(0, -1)), 1, 'Layout');
    refused(() => board.offer(Uint8Array.from(COMMAND).fill(0, 16)), 2, 'Check');
    refused(() => board.offer(RESTART), 7, 'Ahead');
    const arrived = Buffer.from(COMMAND), content = board.offer(arrived);
    assert.deepEqual(content, Uint8Array.of(1, 2, 3));
    arrived.fill(0); // (what was taken stays as it was)
    content.fill(9);
    refused(() => board.offer(COMMAND), 4, 'Busy');
    writes(board, BEGUN);
    acts(board, 'EXECUTE', NONE, 301, Uint8Array.of(1, 2, 3));
    writes(board, PASSED);
    assert.deepEqual(board.status(3), SAYS);
    assert.equal(board.status(1000)[22], 255);
    refused(() => board.offer(COMMAND), 6, 'Behind');
    refused(() => board.obey(REBUILD), 9, 'NotLost');
    refused(() => board.obey(RESTART.subarray(1)), 1, 'Layout');
    refused(() => board.obey(restartOrder(6, 45, 8)), 8, 'OtherBoot');
    board.obey(RESTART);
    refused(() => board.obey(RESTART), 4, 'Busy');
    acts(board, 'RESTART');
}

// An action must be done before the next one is requested, and only the requested action can be done. A call that
// breaks this rule changes nothing.
function theRule() {
    const board = new Executor(BEGUN, STARTED, 5), action = board.next(), told = board.status();
    assert.throws(() => board.next(), { constructor: Error, message: 'next before done: WRITE_SECOND is not done' });
    const { kind, octets, number, content } = action, other = new Action(kind, octets, number, content);
    assert.throws(() => board.done(other), { constructor: Error, message: /^this is not the action/ });
    assert.throws(() => board.done(new Executor(BEGUN, STARTED, 5).next()), /^Error: this is not the action/);
    for (const wrong of [undefined, null, 3, 'WRITE_SECOND', {}, { ...action }]) {
        assert.throws(() => board.done(wrong), TypeError);
    }
    assert.throws(() => { action.kind = 'NOTHING'; }, TypeError);
    assert.deepEqual(board.status(), told);
    board.done(action);
    assert.throws(() => board.done(action), /^Error: this is not the action/);
    const [first, idle] = [board.next(), new Executor(NONE, NONE, 5).next()];
    assert.throws(() => board.done(idle), /^Error: this is not the action/);
    board.done(first);
    board.done(board.next());
}

// A command that was begun and not finished is passed over: nothing is known of it.
function aRestartInACommand() {
    const board = new Executor(BEGUN, STARTED, 5);
    acts(board, 'WRITE_SECOND', BEGUN);
    for (const it of ['WRITE_FIRST', 'WRITE_SECOND']) {
        const action = board.next();
        assert.equal(action.kind, it);
        board.done(action);
    }
    const { kind, boot, last, known, history, begun, mark, waiting } = BoardStatus.decode(board.status(2));
    assert.deepEqual([kind, boot, last, known, history, begun, mark, waiting],
        ['SAYS', 8, 301, 2n, 0x4313d201, false, 0, 2]);
    refused(() => board.offer(COMMAND), 6, 'Behind');
}

function aLostRecord() {
    const torn = Uint8Array.from(BEFORE, (it, k) => (k === 49 ? it ^ 1 : it));
    const board = new Executor(torn, BEFORE.subarray(0, 49), 0x12345678);
    acts(board, 'NOTHING');
    assert.deepEqual(board.status(1000), LOST);
    refused(() => board.offer(COMMAND), 5, 'Lost');
    refused(() => board.obey(RESTART), 5, 'Lost');
    board.obey(REBUILD);
    writes(board, BROUGHT);
    refused(() => new Executor(torn, torn, 0x12345679).obey(REBUILD), 10, 'OtherMark');
}

function aNewBoard() {
    assert.deepEqual(newRecord(), NEW);
    const board = new Executor(newRecord(), newRecord(), 0);
    acts(board, 'WRITE_SECOND', NEW);
    for (const it of ['WRITE_FIRST', 'WRITE_SECOND', 'NOTHING']) {
        const action = board.next();
        assert.equal(action.kind, it);
        board.done(action);
    }
    const { boot, last, known } = BoardStatus.decode(board.status());
    assert.deepEqual([boot, last, known], [1, 0, 0n]);
}

// What the ground writes and reads, compared with PROFILE.
function theGround() {
    const packet = commandPacket(5, 44, 301, Uint8Array.of(1, 2, 3)), what = 'a command packet: APID 5, count 44';
    assert.deepEqual([packet, packet], [worked(what), COMMAND]);
    const histories = [0, 0x42b1791c, 0x8a3b0c5d].map((it) => historyAfter(it, packet));
    assert.deepEqual(histories, [0, 1, 2].map((k) => parseInt(digitsOf(worked('the history of this packet', k)), 16)));
    assert.equal(historyAfter(0, NONE), 0);
    const restart = restartOrder(6, 45, 7), rebuild = rebuildOrder(6, 46, 0x12345678, 65543, 301);
    assert.deepEqual([restart, rebuild], [worked('an order: APID 6, count 45'), worked('an order: APID 6, count 46')]);
    assert.deepEqual([restart, rebuild], [RESTART, REBUILD]);
    const status = BoardStatus.decode(worked('a status: the record above'));
    assert.deepEqual({ ...status }, { kind: 'SAYS', boot: 7, last: 300, known: 2n ** 64n - 3n, history: 0x8a3b0c5d,
        begun: true, mark: 0, waiting: 3 });
    const of = (it) => Object.values(BoardStatus.decode(it));
    assert.deepEqual(of(SAYS), ['SAYS', 7, 301, 3n, 0x4313d201, false, 0, 3]);
    assert.deepEqual(of(LOST), ['LOST', 0, 0, 0n, 0, false, 0x12345678, 255]);
    assert.deepEqual([CHANGES, STARTS].map((it) => of(it)[0]), ['CHANGES', 'STARTS']);
    refused(() => BoardStatus.decode(SAYS.subarray(1)), 1, 'Layout');
    refused(() => BoardStatus.decode(NEW.subarray(0, 27)), 2, 'Check');
    assert.equal(commandPacket(2047, 16383, 2 ** 32 - 1, new Uint8Array(65528)).length, 65542);
    const wrongs = [[2048, 44, 301, NONE], [5, 16384, 301, NONE], [5, 44, 0, NONE], [5, 44, 1, new Uint8Array(65529)]];
    for (const it of wrongs) refused(() => commandPacket(...it), 11, 'FieldRange');
    refused(() => restartOrder(2048, 45, 7), 11, 'FieldRange');
    refused(() => rebuildOrder(6, 16384, 0, 0, 0), 11, 'FieldRange');
}

// Each wrong argument is a TypeError or a RangeError, and nothing changes.
function wrongArguments() {
    const board = new Executor(BEFORE, BEFORE, 5), told = board.status();
    const NO_NUMBERS = [null, 0.5, NaN, '4', true, {}, [4], 4n];
    const NO_OCTETS = [undefined, null, 4, '00', [1, 2], {}, new Uint16Array(2), new ArrayBuffer(2)];
    const OUT = [-1, 2 ** 32, 2 ** 53];
    const given = {
        start: [(...it) => new Executor(...it), [BEFORE, BEFORE, 5]], offer: [(it) => board.offer(it), [COMMAND]],
        obey: [(it) => board.obey(it), [RESTART]], decode: [(it) => BoardStatus.decode(it), [SAYS]],
        commandPacket: [commandPacket, [5, 44, 301, NONE]], restartOrder: [restartOrder, [6, 45, 7]],
        rebuildOrder: [rebuildOrder, [6, 46, 1, 2, 3]], historyAfter: [historyAfter, [0, COMMAND]],
        status: [(it) => board.status(it), [3]],
    };
    let tried = 0;
    for (const [name, [call, good]] of Object.entries(given)) {
        good.forEach((own, k) => {
            const isNumber = typeof own === 'number', none = name === 'status' ? [] : [undefined];
            const fails = (it, constructor) => {
                const given = good.map((one, j) => (j === k ? it : one));
                assert.throws(() => call(...given), { constructor }, `${name}, ${k}`);
                tried++;
            };
            for (const it of isNumber ? [...none, ...NO_NUMBERS] : NO_OCTETS) fails(it, TypeError);
            for (const it of isNumber ? OUT : []) fails(it, RangeError);
        });
    }
    assert.ok(tried > 150, tried);
    assert.deepEqual(board.status(), told);
}

// A board that restarts at any moment, also in the middle of an action, and a ground that sends each number once or
// several times, also out of turn and damaged.
class Session {
    constructor(chance) {
        Object.assign(this, { chance, places: [newRecord(), newRecord()], sent: new Map(), brought: 0 });
        Object.assign(this, { executed: [], whole: new Set(), told: 0, kinds: new Set() });
        this.restart();
    }

    restart() {
        this.board = new Executor(...this.places, this.chance(2 ** 32));
    }

    step() {
        const action = this.board.next();
        this.kinds.add(action.kind);
        if (action.kind === 'NOTHING') {
            this.receive(this.hear());
        } else if (action.kind === 'RESTART' || this.chance(100) < 6) {
            this.breakOff(action);
            this.restart();
        } else {
            this.do(action);
            this.board.done(action);
            this.hear();
        }
    }

    do({ kind, octets, number, content }) {
        if (kind !== 'EXECUTE') {
            this.places[KINDS.indexOf(kind) - 1] = octets;
            return;
        }
        assert.deepEqual(content, this.sent.get(number).slice(10, -4));
        this.executed.push(number);
        this.whole.add(number);
    }

    breakOff({ kind, octets, number }) {
        if (kind === 'EXECUTE' && this.chance(2) === 1) this.executed.push(number);
        if (!kind.startsWith('WRITE')) return;
        const place = KINDS.indexOf(kind) - 1, done = this.chance(51);
        this.places[place] = Uint8Array.from([...octets.subarray(0, done), ...this.places[place].subarray(done)]);
        if (this.chance(10) === 0) this.places[1 - place] = new Uint8Array(50);
    }

    // The status is true: its history is that of the packets up to the last one and the begun one, if there is one.
    hear() {
        const status = BoardStatus.decode(this.board.status()), { kind, last, known, history, begun } = status;
        if (kind !== 'SAYS') return status;
        let wanted = 0;
        for (let it = this.brought + 1; it <= last + Number(begun); it++) {
            wanted = crc(this.sent.get(it).subarray(-4), wanted);
        }
        assert.equal(history, wanted);
        for (let k = 0; k < 64; k++) assert.ok((known >> BigInt(k) & 1n) === 0n || this.whole.has(last - k));
        this.told++;
        return status;
    }

    receive({ kind, last, mark, boot }) {
        if (kind === 'LOST') {
            this.brought = Math.max(0, ...this.sent.keys());
            this.board.obey(rebuildOrder(6, 1, mark, boot, this.brought));
            return;
        }
        if (this.chance(40) === 0) {
            this.board.obey(restartOrder(6, 1, boot));
            return;
        }
        const number = Math.max(1, last + [-1, 0, 1, 1, 1, 2][this.chance(6)]), { sent } = this;
        const content = Uint8Array.from({ length: this.chance(9) }, () => this.chance(256));
        if (!sent.has(number)) sent.set(number, commandPacket(5, 44, number, content));
        const whole = sent.get(number), isDamaged = this.chance(10) === 0;
        const octets = Uint8Array.from(whole, (it, k) => (isDamaged && k === whole.length - 1 ? it ^ 1 : it));
        if (isDamaged) refused(() => this.board.offer(octets), 2, 'Check');
        else if (number <= last) refused(() => this.board.offer(octets), 6, 'Behind');
        else if (number > last + 1) refused(() => this.board.offer(octets), 7, 'Ahead');
        else assert.deepEqual(this.board.offer(octets), octets.slice(10, -4));
    }
}

// Whatever happens, commands are executed in order and at most once, and each status is true.
function randomSessions() {
    const chance = chances(5), kinds = new Set();
    let executed = 0, told = 0;
    for (let k = 0; k < 100; k++) {
        const session = new Session(chance);
        for (let j = 0; j < 300; j++) session.step();
        assert.deepEqual(session.executed, [...new Set(session.executed)].sort((one, other) => one - other));
        [executed, told] = [executed + session.executed.length, told + session.told];
        for (const it of session.kinds) kinds.add(it);
    }
    assert.ok(executed > 1000 && told > 5000, `${executed} ${told}`);
    assert.deepEqual([...kinds].sort(), [...KINDS].sort());
}

// The names that the package for Python has; its enumerations are strings here.
function names() {
    const text = textOf('python/sedgechisel/_log.py');
    const camel = (it) => it.replace(/_(.)/g, (_, one) => one.toUpperCase());
    const found = [...text.matchAll(/^(?:def|class) ([A-Za-z]\w*)/gm)].map(([, it]) => camel(it));
    assert.ok(found.length > 8, found.length);
    for (const it of found) assert.ok(it in sedgechisel || it.endsWith('Kind'), `there is no ${it}`);
    const methods = methodsInPython(text, 'Executor');
    assert.deepEqual(methods, ['next', 'done', 'offer', 'obey', 'status']);
    for (const it of methods) assert.ok(it in Executor.prototype, `Executor has no ${it}`);
}

const TESTS = [
    aCommand, theRule, aRestartInACommand, aLostRecord, aNewBoard, theGround, wrongArguments, randomSessions, names,
];
for (const test of TESTS) test();
console.log('all as wanted');
