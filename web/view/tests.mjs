// Tests what the page is made of, but for what is drawn: `node web/view/tests.mjs MODULE SCRIPT ..`. Each script is
// played forwards and back; the player itself compares both machines with the link at each line. It ends with 0 where
// all is as wanted, and with an Error that says what is not.
import assert from 'node:assert/strict';
import { readFileSync } from 'node:fs';
import { load, numbers as n } from '../sedgechisel.mjs';
import { Link, octetsOf } from '../link.mjs';
import { use } from '../values.mjs';
import { COMMANDS, GUIDE, Run, dueWords, recordAt } from './board.mjs';
import { wholeFrames } from './captures.mjs';
import { choices, expected } from './choosing.mjs';
import { faultOf, faultWords, isMostlyChecked, passWords } from './faults.mjs';
import { againWords, causeWords, courseWords, placesOf } from './hints.mjs';
import { swapped } from './plan.mjs';
import { Player } from './player.mjs';
import { promisesOf } from './promises.mjs';
import { KINDS } from './words.mjs';

const [, , module, ...files] = process.argv;
const calls = await load(readFileSync(module));
// The events by which an alert or a verdict may come, by its number.
const ALERTS = {
    [n.SEDGE_ALERT_LOCKOUT]: ['E14'], [n.SEDGE_ALERT_NNR]: ['E13'], [n.SEDGE_ALERT_CLCW]: ['E3', 'E7'],
    [n.SEDGE_ALERT_SYNCH]: ['E1', 'E4', 'E5'], [n.SEDGE_ALERT_LIMIT]: ['E101', 'E102'],
    [n.SEDGE_ALERT_TIMER]: ['E16', 'E17'], [n.SEDGE_ALERT_TERMINATED]: ['E29'],
};
const VERDICTS = {
    [n.SEDGE_ACCEPTED]: ['E1'], [n.SEDGE_NO_BUFFER]: ['E2'], [n.SEDGE_AHEAD]: ['E3'], [n.SEDGE_BEHIND]: ['E4'],
    [n.SEDGE_OUTSIDE]: ['E5'], [n.SEDGE_DISCARDED]: ['E1', 'E2', 'E3', 'E4', 'E5'],
};

// The event of each directive, by the words of its line.
const DIRECTIVES = {
    'init none': 'E23', 'init check': 'E24', 'init unlock': 'E25', 'init set': 'E27', terminate: 'E29', vs: 'E35',
    window: 'E36', timer: 'E37', limit: 'E38',
};
// What a report leads to in S1 to S3: the state, where there is no alert, and whether units are acknowledged.
const REPORTS = {
    E1: [undefined, false], E2: [1, true], E5: [undefined, false], E6: [1, true], E8: [2, true], E9: [3, true],
    E10: [2, false], E11: [3, false], E12: [2, false], E103: [3, false], E101: [6, true], E102: [6, false],
};

// The rules that docs/PROFILE.md has for an event of FOP-1.
const profile = readFileSync('docs/PROFILE.md', 'utf8').split('(table 6-1)')[0];
const rowOf = (event) => profile.match(new RegExp(`^\\| ${event}[ ,].*\\|(.*)\\|$`, 'm'));
const rulesOf = (event) => rowOf(event)[1].match(/\d+/g).map(Number);

// The row of the sender is that of what has changed.
function checkFop({ line, event, before: { fop: was }, after: { fop: is }, rows: { fop: row } }) {
    const said = `${line}: ${JSON.stringify(row)}`, same = JSON.stringify(was) === JSON.stringify(is);
    if (event.kind === n.SEDGE_EVENT_DIRECTIVE) assert.equal(row.event, DIRECTIVES[line.replace(/ ?[0-9]+$/, '')]);
    if (row?.part === 'a report' && was.state <= 3 && row.event in REPORTS) {
        const [state, isAcknowledged] = REPORTS[row.event];
        assert.equal(is.state, is.state === 6 ? 6 : state ?? was.state, said);
        assert.equal(was.nn !== is.nn, isAcknowledged, said);
        if (row.event === 'E2' || row.event === 'E6') assert.equal(is.sent === 0, row.event === 'E2', said);
        if (row.event === 'E10' || row.event === 'E11') assert.ok(was.count < was.limit, said);
        if (row.event === 'E12' || row.event === 'E103') assert.ok(was.count >= was.limit, said);
    }
    const isNamed = row?.event && row.rule && row.rule !== 16 && row.event !== 'E20';
    assert.ok(!isNamed || rulesOf(row.event).includes(row.rule), said);
    if (row?.part === 'a submission') assert.equal(row.event, was.waiting && row.rule !== 1 ? 'E20' : 'E19', said);
    if (row?.part === 'a pull') {
        const so = [was.control !== is.control, was.bypass > is.bypass, was.due > is.due, was.vs !== is.vs, same];
        assert.ok(so[row.rule - 1], said);
    }
    if (row?.part === 'a tick') {
        const so = [was.state < 3 && is.due === is.sent, was.state === 3, was.state === 5, is.state === 6];
        assert.ok(so[row.rule - 1] && is.count - was.count === (row.rule === 4 ? 0 : 1), said);
        assert.equal(row.event, was.count < was.limit ? 'E16' : 'E17', said);
    }
}

// The rows that a step took are those of what it was answered.
function checkRows({ line, event, reply, rows, before, after }) {
    const isHeard = [n.SEDGE_REPLY_DOWN, n.SEDGE_REPLY_DOWN_CLCW].includes(reply.kind);
    const alert = isHeard ? reply.down.alert : reply.alert;
    if (alert) assert.ok(ALERTS[alert].includes(rows.fop.event), `${line}: ${rows.fop.event}`);
    if (event.kind === n.SEDGE_EVENT_UP_DELIVER && reply.up?.kind === n.SEDGE_RECEIVED_AD) {
        assert.ok(VERDICTS[reply.up.verdict].includes(rows.farm.event), `${line}: ${rows.farm.event}`);
    }
    const isFop = JSON.stringify(before.fop) !== JSON.stringify(after.fop);
    assert.ok(!isFop || rows.fop || event.kind === n.SEDGE_EVENT_TICK, `${line}: a sender that changes has its row`);
    const { ready: _, ...was } = before.farm, { ready: __, ...is } = after.farm;
    assert.ok(rows.farm || JSON.stringify(was) === JSON.stringify(is), `${line}: a receiver that changes has its row`);
    if (before.fop.state === n.SEDGE_FOP_S6 && rows.fop?.part === 'a report') assert.equal(rows.fop.rule, 16);
}

// What is on its way after a step is what was, with the frame that was sent, and without the first one that is gone.
function checkTransit(player, step, was) {
    const { line, reply, sent, gone } = step, wanted = player.inTransit(was);
    const way = (it) => (it.word ? wanted.down : wanted.up);
    if (sent) way(sent).push(sent);
    if (gone) assert.equal(way(gone).shift(), gone);
    assert.deepEqual(player.inTransit(step), wanted, line);
    if (gone) assert.equal(player.steps[gone.left], step);
    assert.equal(sent !== undefined, [n.SEDGE_REPLY_SENT, n.SEDGE_REPLY_REPORTED].includes(reply.kind));
    const goes = [n.SEDGE_REPLY_LOST, n.SEDGE_REPLY_UP, n.SEDGE_REPLY_DOWN, n.SEDGE_REPLY_DOWN_CLCW];
    assert.equal(gone !== undefined, goes.includes(reply.kind));
    if (reply.kind === n.SEDGE_REPLY_UP && reply.up.kind === n.SEDGE_RECEIVED_AD) assert.equal(gone.frame.n, reply.up.n);
}

// What is promised is so.
function checkPromises(player) {
    const found = promisesOf(calls, player.last);
    for (const { name, isPromised, isSo } of found?.promises ?? []) assert.ok(!isPromised || isSo !== false, name);
    return JSON.stringify(found);
}

// A frame of Type-AD is sent again if N(S) was sent before, and then because of a CLCW with the retransmit flag or of
// the timer, which came after it was sent last.
function checkAgain({ steps }) {
    const sentAt = new Map();
    steps.forEach(({ sent, before, rows }, k) => {
        if (rows.fop?.part === 'the directives' && rows.fop.rule <= n.SEDGE_INIT_SET_VR) sentAt.clear();
        if (!sent?.frame || sent.frame.kind === n.SEDGE_TC_BD) return;
        const name = sent.frame.kind === n.SEDGE_TC_AD ? sent.frame.n : 'BC', cause = steps[sent.again];
        const isNew = name === before.fop.vs || !sentAt.has(name);
        assert.equal(cause === undefined, isNew, `${k}: ${name}`);
        if (cause) {
            assert.ok(cause.gone ? cause.gone.word.flags & n.SEDGE_CLCW_RETRANSMIT : cause.line === 'tick');
            assert.ok(sent.again < k && sent.again > sentAt.get(name), `${k}: ${name}`);
        }
        sentAt.set(name, k);
    });
}

// The records that a step has are those of the link.
function checkRecords({ link, final }) {
    const count = (record, map) => Link.prototype.count.call(link, record, map);
    assert.equal(final.records.sent, count(n.SEDGE_SENT, 0));
    assert.equal(final.records.accepted, count(n.SEDGE_RECEIVED, 0));
    for (let map = 0; map < 64; map++) {
        const { submitted, delivered } = final.records.maps[map] ?? { submitted: 0, delivered: 0 };
        assert.deepEqual([submitted, delivered], [count(n.SEDGE_SUBMITTED, map), count(n.SEDGE_DELIVERED, map)]);
    }
}

// A script that changes in one line keeps the steps before it; those after it are as of a script that is read whole.
function keepsSteps(text) {
    const player = new Player(calls), rows = text.replace(/\n$/, '').split('\n'), whole = new Player(calls);
    player.load(text);
    player.goTo(Infinity);
    for (const k of [1, 0.75, 0.5, 0.25].map((it) => Math.floor(it * rows.length))) {
        const before = [...player.steps], changed = [...rows.slice(0, k), '# more', 'tick', ...rows.slice(k)].join('\n');
        player.load(changed);
        const kept = player.lines.filter((it) => it < k).length;
        assert.ok(player.steps.length >= kept && player.steps.every((step, j) => step === before[j]), `line ${k}`);
        player.goTo(Infinity);
        checkRecords(player);
        whole.script = undefined;
        whole.load(changed);
        whole.goTo(Infinity);
        assert.deepEqual([player.lines, player.events], [whole.lines, whole.events]);
        assert.deepEqual(player.steps, whole.steps);
    }
    assert.throws(() => player.load(`${text}\nfly`), /unreadable: fly/);
    assert.throws(() => player.load(`${text}\nconfig window 3`), /unreadable: config/);
    player.load(`config scid 77\n${text}`);
    assert.deepEqual([player.config.scid, player.steps.length], [77, 0]);
    for (const { link } of [player, whole]) link.close();
}

// What if each frame of a script met the other end: what comes before is as it was, and at last all is acknowledged and
// delivered, or an alert has ended the session.
function whatIf(file) {
    const player = new Player(calls), other = new Player(calls);
    player.load(readFileSync(file, 'latin1'));
    player.goTo(Infinity);
    assert.equal(swapped(player, player.events.findIndex(({ line }) => line === 'send')), null);
    player.steps.forEach(({ line, gone }, k) => {
        if (!gone) return;
        other.load(swapped(player, k));
        other.goTo(Infinity);
        const said = `${file}: ${line}, line ${player.lines[k] + 1}`, { up, down } = other.inTransit(other.final);
        assert.deepEqual(other.rows.slice(0, player.lines[k]), player.rows.slice(0, player.lines[k]), said);
        assert.equal(other.events[k].line, `${line.split(' ')[0]} ${line.endsWith('lose') ? 'deliver' : 'lose'}`, said);
        assert.deepEqual([up, down], [[], []], said);
        const { fop } = other.final.after;
        assert.ok(fop.state === n.SEDGE_FOP_S6 || (fop.state === n.SEDGE_FOP_S1 && fop.outstanding === 0), said);
        checkPromises(other);
    });
    for (const { link } of [player, other]) link.close();
}

// The formulas are those by which bench/choose made the table of docs/CHOOSING.md.
function formulas() {
    const text = readFileSync('docs/CHOOSING.md', 'utf8'), link = { rate: 4000, octets: 64, trip: 2, clcw: 1, tick: 1 };
    const it = { ...link, loss: 0.03, down: 0, packets: 1000 }, by = choices(it);
    assert.ok(text.includes(`by the formulas: window=${by.window} timer=${by.timer} limit=${by.limit} `));
    assert.ok(text.includes(`a frame takes ${by.frame} s; the longest round trip ${by.longest} s, or ${by.count} frames`));
    const rows = [...text.matchAll(/^\| `window` (\d+) \|(.*)\|$/gm)];
    assert.equal(rows.length, 4);
    for (const [, window, cells] of rows) {
        const [, , time, , carried] = cells.split('|').map((cell) => cell.trim()), wanted = expected(it, Number(window), by.count);
        assert.deepEqual([wanted.time.toFixed(2), wanted.carried.toFixed(2)], [time, carried]);
    }
}

function plays(file) {
    const player = new Player(calls), seen = [];
    player.load(readFileSync(file, 'latin1'));
    for (let k = 0; k <= player.events.length; k += 997) {
        player.goTo(k);
        seen.push(checkPromises(player));
        checkRecords(player);
    }
    player.goTo(Infinity);
    assert.equal(player.at, player.events.length);
    player.steps.forEach(checkRows);
    player.steps.forEach(checkFop);
    checkAgain(player);
    player.steps.forEach((step, k) => checkTransit(player, step, player.steps[k - 1] ?? player.begin));
    const steps = [...player.steps], lines = player.text.split('\n');
    steps.forEach((step, k) => assert.equal(lines[player.lines[k]], step.line));
    for (let k = seen.length - 1; k >= 0; k--) {
        player.goTo(997 * k);
        assert.equal(checkPromises(player), seen[k], `${file}: back to line ${997 * k}`);
    }
    player.goTo(Infinity);
    assert.ok(player.steps.every((step, k) => step === steps[k]));
    player.link.close();
}

// A session that begins with an old report on its way: of three packets the first is acknowledged and not accepted, so
// nothing holds, though all is well on MAP 5; and nothing is promised. Before the last report, which acknowledges all,
// as many are accepted as are acknowledged, but not the same ones.
function uncleanSession() {
    const submissions = ['submit 4 1005C0010000AB', 'submit 4 1005C0020000AC', 'submit 5 1005C0030000AD'];
    const sent = ['send', 'send', 'send', 'up deliver', 'up deliver', 'report', 'up deliver', 'down deliver'];
    const player = new Player(calls), begin = ['init none', 'report', 'submit 4 1005C0000000AA', 'send', 'up deliver'];
    const again = ['terminate', 'init set 0', 'send', 'up lose', 'down deliver'];
    player.load([...begin, ...again, ...submissions, ...sent, 'report', 'down deliver'].join('\n'));
    player.goTo(player.events.length - 2);
    const middle = promisesOf(calls, player.last).promises;
    assert.deepEqual(middle.map((it) => it.isSo), [false, false, undefined, true]);
    assert.deepEqual(middle[1].seen, ['3 sent, 2 accepted, 2 acknowledged']);
    player.goTo(Infinity);
    const { facts, isIdle, promises } = promisesOf(calls, player.last);
    assert.deepEqual(promises.map((it) => it.isSo), [false, false, false, true]);
    assert.ok(promises.every((it) => !it.isPromised));
    assert.deepEqual(promises[0].seen, ['MAP 4: 1 delivered of 2 submitted', 'MAP 5: 1 delivered of 1 submitted']);
    assert.deepEqual([isIdle, ...facts], [false, 'begun by Set V(R) to 0', 'not clean', 'no idle start', 'confirmed']);
    player.link.close();
}

// What is so of each run of a board: commands are executed in order and at most once, each status states what is so, no
// record is lost, and at last each command was executed or passed over.
function checkRun(run, said) {
    let before;
    for (const { places, heard, ran, history, status } of run.steps) {
        ran.forEach(({ number }, k) => assert.ok(k === 0 || number > ran[k - 1].number, said));
        assert.ok(places.some((it) => recordAt(calls, it) !== null), said);
        assert.notEqual(status.kind, 'LOST', said);
        assert.equal(heard.history, history, said);
        for (let number = 1; number <= heard.last; number++) {
            const isKnown = (heard.known >> BigInt(heard.last - number) & 1n) === 1n;
            assert.ok(!isKnown || ran.some((it) => it.number === number && it.isWhole), `${said}: ${number}`);
        }
        assert.ok(before === undefined || heard.last >= before.last, said);
        before = heard;
    }
    const { heard, due } = run.steps.at(-1);
    assert.deepEqual([heard.kind, heard.last, due.kind], ['SAYS', COMMANDS, 'NOTHING'], said);
}

// The guided run of commands that are executed once: 2 is executed in part, 3 after a torn write, and 4 never; and runs
// in which the board restarts, or a write is torn, at each step or at several.
function restarts() {
    use(calls);
    const { steps } = new Run(calls, GUIDE), { ran, heard, places } = steps.at(-1);
    checkRun({ steps }, 'the guided run');
    assert.deepEqual(ran, [1, 2, 3, 5].map((number) => ({ number, isWhole: number !== 2 })));
    assert.deepEqual([heard.boot, heard.known, steps.length], [4, 0b10101n, 42]);
    assert.deepEqual(recordAt(calls, places[0]), { boot: 4, last: 5, known: 0b10101n, history: heard.history, begun: 0 });
    for (const { at, kind, octets, number } of GUIDE.filter((it) => it.kind)) {
        const wanted = { restart: 'restarts in the middle of command 2', tear: `torn after ${octets} octets`,
            repeat: `Command ${number} arrives again. It is dropped: 6 Behind.` }[kind];
        assert.ok(steps[at].said.includes(wanted), steps[at].said);
    }
    assert.deepEqual([3, 11, 12].map((k) => dueWords(steps[k].due)),
        ['waits for a command', 'writes the second place', 'executes command 2']);
    assert.equal(recordAt(calls, steps[19].places[0]), null);
    for (let at = 1; at < 34; at++) {
        checkRun(new Run(calls, [{ at, kind: 'restart' }]), `a restart at step ${at}`);
        for (const octets of [0, 10, 24, 25, 49, 50]) {
            checkRun(new Run(calls, [{ at, kind: 'tear', octets }]), `torn after ${octets} octets at step ${at}`);
        }
    }
    let state = 1;
    const chance = (most) => { state = Math.imul(state, 1103515245) + 12345 >>> 0; return (state >>> 16) % most; };
    for (let k = 0; k < 100; k++) {
        const changes = Array.from({ length: 16 }, () => (
            { at: 1 + chance(80), kind: ['restart', 'tear', 'tear', 'repeat'][chance(4)], octets: chance(51), number: 1 }));
        checkRun(new Run(calls, changes), JSON.stringify(changes));
    }
}

function read(kind, digits) {
    const { fault, name, fields, within } = KINDS[kind][1](calls, octetsOf(digits));
    return fault ?? { name, ...Object.fromEntries(fields), within: within.map((it) => it.fault ?? it.name) };
}

function reads() {
    const [report, telemetry] = ['one_report', 'telemetry'].map((it) => readFileSync(`examples/${it}.bin`, 'hex'));
    const frame = '0001080E00C41005C0000000AAE75D', { within, ...found } = read('tc', frame);
    assert.deepEqual(within, ['Space packet']);
    assert.deepEqual([found.frame, found.MAP, found.segment], ['AD 0', 4, 'alone']);
    assert.equal(found.data, '7 octets: 1005C0000000AA');
    assert.equal(read('tc', `${frame.slice(0, -1)}C`), '6 Check');
    assert.equal(read('tc', '0001'), '1 Short');
    assert.equal(read('bare', '30010807008200FF').frame, 'BC set 255');
    assert.equal(read('tm', report)['first packet at'], 'none: idle data alone');
    assert.deepEqual(read('tm', telemetry.slice(0, 40)).within.slice(0, 2), ['Control word (CLCW)', 'Space packet']);
    assert.equal(read('clcw', '01080801').retransmit, 1);
    assert.equal(read('clcw', '0108'), '6 Short: a control word has 4 octets');
    assert.equal(read('clcw', '81080000'), '1 Kind');
    assert.equal(read('packet', '1005C0000000AA00')['octets after it'], 1);
    assert.equal(read('packet', '-'), '1 Truncated');
}

// The whole frames of a sample: one that its end cuts off is not among them, nor what has no frame's length.
function whole() {
    const frame = octetsOf('0001080E00C41005C0000000AAE75D'), tiny = octetsOf('00010802');
    const count = (...parts) => wholeFrames(Uint8Array.from(parts.flatMap((it) => [...it])));
    assert.deepEqual([count(), count(frame), count(frame, frame)], [0, 15, 30]);
    for (const cut of [1, 4, 5, 14]) assert.equal(count(frame, frame, frame.subarray(0, cut)), 30);
    assert.equal(count(frame, tiny, frame), 15);
}

// What is said of the first frames of a capture, and of the first fault.
function faults() {
    const ask = { command: 'tc', asked: {}, isPlain: false }, totals = { records: 9, octets: 135, said: '' };
    const first = (line, more = {}, of = {}) => faultWords({ ...ask, ...more }, { ...totals, ...of }, line && { line, place: 8 });
    assert.equal(first('7 invalid 6 Check'), 'The first frame with a fault is frame 7 of 9: 6 Check');
    assert.equal(first('7 invalid 4 Spare', { isPlain: true }), 'The first frame with a fault without --check is frame 7 of 9: 4 Spare');
    assert.equal(first('7 invalid 6 Check', { asked: { scid: '1' } }), 'The first listed frame with a fault is frame 7 of 9: 6 Check');
    assert.equal(first(undefined, { asked: { vcid: '1' } }), 'No listed frame has a fault.');
    assert.equal(first('10 invalid 1 Short'), 'No frame of 9 has a fault, but octets are left at the end: 1 Short');
    assert.equal(first('report invalid 1 Kind', { command: 'tm' }), 'The first line with a fault is line 9: report invalid 1 Kind');
    assert.equal(first('10 invalid 2 Version', { command: 'packets' }, { said: 'tctool: stopped at record 10, after 9 octets' }),
        'The first packet with a fault is packet 10, where reading stops: 2 Version');
    const resync = { asked: { resync: true, scid: '1', vcid: '2', check: true } };
    assert.equal(first('7 skipped 23', resync), 'The first octets skipped are record 7 of 9: 23 octets');
    assert.equal(first(undefined, resync), 'No octets are skipped.');
    const holds = (pattern, line) => new RegExp(pattern).test(line);
    assert.deepEqual(['7 skipped 23', '7 invalid 6 Check', '7 AD 1'].map((it) => [holds(faultOf({}), it), holds(faultOf(resync.asked), it)]),
        [[false, true], [true, false], [false, false]]);
    assert.deepEqual([[2, 3], [1, 2], [0, 0], [NaN, 0]].map(([good, records]) => isMostlyChecked({ good, records })), [true, false, false, false]);
    const passes = [[1, 1, false], [0, 1, true], [0, 9, true], [1, 9, false], [0, 9, false], [1, 100, false], [0, 0, true]];
    assert.deepEqual(passes.map(([good, records, isChecked]) => passWords({ good, records }, isChecked, false)), [
        'The first frame passes a check: ', 'The first frame passes no check: ', 'None of the first 9 frames passes a check: ',
        '1 of the first 9 frames passes a check: ', '', '', '',
    ]);
}

// What the menu of the page says of an example.
function courses() {
    const wanted = {
        lost_frame: 'sender to S2', full_buffer: 'sender to S3, S2; receiver to Wait', lost_clcw: 'sender stays in S1',
        lockout: 'receiver to Lockout; alert Lockout', alert: 'alert Timer',
    };
    for (const [name, words] of Object.entries(wanted)) {
        const player = new Player(calls);
        player.load(readFileSync(`examples/${name}.script`, 'latin1'));
        player.goTo(Infinity);
        assert.equal(courseWords(player), words);
        player.link.close();
    }
}

// Why frames are sent again, with what led to that: a loss, a frame that arrived ahead or found no buffer; or a loss for
// which the timer ran out.
function causes() {
    const lost = ['config timer 2', 'init none', 'submit 4 1005C0000000AA', 'send', 'up lose', 'tick', 'tick', 'send'];
    const late = [...lost.slice(0, 4), 'up deliver', 'report', 'down lose', 'tick', 'tick', 'send'];
    const examples = ['lost_frame', 'full_buffer'].map((it) => readFileSync(`examples/${it}.script`, 'latin1'));
    const wanted = [
        'line 20: a CLCW arrived with value 1, retransmit. AD 1 was lost on line 15, and AD 2 arrived ahead on line 16.',
        'line 21: a CLCW arrived with value 1, retransmit. AD 1 found no free buffer on line 11.',
        'line 7: the timer ran out. AD 0 was lost on line 5.', 'line 9: the timer ran out.',
    ];
    [...examples, lost.join('\n'), late.join('\n')].forEach((text, k) => {
        const player = new Player(calls);
        player.load(text);
        player.goTo(Infinity);
        const { sent } = player.steps.find((it) => it.sent?.again !== undefined);
        assert.deepEqual(againWords(player, sent), [`Sent again because of ${wanted[k]}`]);
        player.link.close();
    });
}

// What led to another state, at each place of a run that has a cause; directives are none.
function changes() {
    const made = { fop: { E17: ['the timer ends'] }, farm: { E2: ['no buffer'], E10: ['a buffer is released'], E5: ['in neither window'] } };
    const wanted = {
        full_buffer: ['Open \u2192 Wait: no buffer.', 'S1 \u2192 S3 because of the CLCW of line 14: V(R) = 1, wait and retransmit, FARM-B 0.'],
        lockout: ['Open \u2192 Lockout: in neither window.'],
    };
    for (const [name, words] of Object.entries(wanted)) {
        const player = new Player(calls), found = [];
        player.load(readFileSync(`examples/${name}.script`, 'latin1'));
        assert.deepEqual([causeWords({ last: player.begin, lines: [] }, made), placesOf(player, 9)], [[], []]);
        player.goTo(Infinity);
        for (const { name: place, line } of placesOf(player, 99)) {
            player.goTo(player.lines.indexOf(line - 1) + 1);
            found.push(...causeWords(player, made));
            assert.ok(found.at(-1).startsWith(place.endsWith('again') ? 'Sent again' : place), found.at(-1));
        }
        for (const it of words) assert.ok(found.includes(it), `${it}: ${found.join(' ')}`);
        assert.equal(placesOf(player, 1).length, 2);
        player.link.close();
    }
}

reads();
restarts();
whole();
faults();
courses();
causes();
changes();
uncleanSession();
formulas();
for (const file of files) plays(file);
for (const file of files.filter((it) => it.endsWith('.script'))) whatIf(file);
keepsSteps(readFileSync('examples/lost_frame.script', 'latin1'));
keepsSteps(readFileSync(files.at(-1), 'latin1').split('\n').slice(0, 1500).join('\n'));
console.log('all as wanted');
