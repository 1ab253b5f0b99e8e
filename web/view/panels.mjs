// The panels next to the ladder: both machines, the rows of their tables, what is in transit, what is promised, and
// decoded octets.
import { numbers as n } from '../sedgechisel.mjs';
import { causeWords, placesOf } from './hints.mjs';
import { frameName, frameWords, reportName, reportWords } from './words.mjs';

const FOP_STATES = [
    '', 'S1 Active', 'S2 Retransmit without wait', 'S3 Retransmit with wait', 'S4 Initialising without BC',
    'S5 Initialising with BC', 'S6 Initial',
];
const MOST = 50, MOST_PLACES = 7; // frames that are listed each way, and places of a run
const FARM_STATES = ['Open', 'Wait', 'Lockout'];
// The variables of both machines: a name, and how to read the value.
const FOP = [
    ['V(S)', (it) => it.vs], ['NN(R)', (it) => it.nn], ['outstanding', (it) => it.outstanding],
    ['sent queue', (it) => it.sent], ['to be sent again', (it) => it.due], ['wait queue', (it) => it.waiting],
    ['pending', (it) => it.pending], ['bypass queue', (it) => it.bypass], ['window K', (it) => it.window],
    ['count / limit', (it) => `${it.count}/${it.limit}`],
    ['timer', (it) => (it.ticks ? `${it.ticks}/${it.timer}` : 'off')],
    ...['submissions', 'sent whole', 'acknowledged whole'].map((name, k) => [name, ({ whole }) => whole?.[k]]),
    ['command', ({ control, vr }) => ['none', 'Unlock due', 'Unlock sent', `Set ${vr} due`, `Set ${vr} sent`][control]],
];
const FARM = [
    ['V(R)', (it) => it.vr], ['lockout', (it) => it.lockout], ['wait', (it) => it.wait],
    ['retransmit', (it) => it.retransmit], ['FARM-B', (it) => it.farm_b], ['ready on board', (it) => it.ready],
];

// Makes an element with a class and contents: elements and words.
export function make(name, kind, ...within) {
    const it = document.createElement(name);
    it.className = kind;
    it.append(...within.flat(9));
    return it;
}

export function pairs(kind, rows) {
    const pair = ([name, value, own = '']) => make('div', own, make('dt', '', name), make('dd', '', value));
    return make('dl', kind, rows.map(pair));
}

// Shows a value before and after.
function change(before, after) {
    return before === after ? [after] : [make('span', 'before', `${before} \u2192 `), make('b', '', `${after}`)];
}

function machine(names, variables, before, after) {
    return [
        make('p', 'state-name', change(names[before.state], names[after.state])),
        pairs('variables', variables.filter(([, of]) => of(after) !== undefined).map(([name, of]) => (
            [name, change(of(before), of(after)), of(before) === of(after) ? '' : 'changed']))),
    ];
}

function worded(title, words) {
    return make('p', '', make('b', 'event', title), ` ${words}`);
}

// A button that goes to a line.
function goes(name, line) {
    const button = make('button', 'link', name);
    button.dataset.goes = line;
    button.title = `Go to line ${line}`;
    return button;
}

// Words in which each line that is named is a button that goes there.
const linked = (words) => words.split(/(\bline \d+)/).map((it, k) => (k % 2 === 0 ? it : goes(it, it.slice(5))));

// Why the last line did what it did; where there is nothing to say, the places of the run that have a cause.
export function showCause(box, player, made) {
    const words = causeWords(player, made), places = words.length > 0 ? [] : placesOf(player, MOST_PLACES);
    const named = places.slice(0, MOST_PLACES).map(({ name, line }, k) => [k > 0 ? ', ' : '', goes(name, line)]);
    const more = places.length > MOST_PLACES ? ' ..' : '';
    const none = player.steps.length > 0 ? 'Nothing was sent again so far.' : '';
    const course = named.length > 0 ? [make('p', '', 'See why: ', named, more)] : [make('p', 'none', none)];
    box.replaceChildren(...words.length > 0 ? words.map((it) => make('p', 'cause', linked(it))) : course);
}

// The event of FOP-1 and the rule of the profile; where there is no rule, what the profile says of the event.
function fopRow(row, { fop, rules }) {
    const [book, here] = fop[row?.event] ?? [], rule = rules[row?.part]?.[row.rule - 1];
    if (!row) return make('p', 'none', 'No event of the sender.');
    return make('div', 'row', book ? worded(row.event, book) : '',
        rule ? worded(`Rule ${row.rule} of ${row.part}`, rule) : here ? worded('Here', here) : '');
}

// Shows the event of FARM-1 and its row, with the cell for the state in which the event occurred.
function farmRow(row, state, { farm, cells }) {
    if (!row) return make('p', 'none', 'No event of the receiver.');
    const shown = (cells[row.event] ?? []).map((cell, k) => [FARM_STATES[k], cell, k === state ? 'taken' : '']);
    return make('div', 'row', worded(row.event, farm[row.event][0]), pairs('cells', shown));
}

export function showMachines(fop, farm, player, made) {
    const { after, before = after, rows = {} } = player.last;
    fop.replaceChildren(...machine(FOP_STATES, FOP, before.fop, after.fop), fopRow(rows.fop, made));
    const taken = farmRow(rows.farm, before.farm.state, made);
    farm.replaceChildren(...machine(FARM_STATES, FARM, before.farm, after.farm), taken);
}

// Shows frames in transit, the next to arrive first.
function frames(title, list, words) {
    const shown = list.slice(0, MOST).map((it) => make('li', '', worded(...words(it))));
    const left = list.length > MOST ? `and ${list.length - MOST} more` : list.length === 0 ? 'nothing' : '';
    return make('div', '', make('h3', '', title), make('ol', 'frames', shown), make('p', 'none', left));
}

export function showTransit(box, calls, { up, down }) {
    box.replaceChildren(frames('up, the next first', up, (it) => [frameName(it.frame), frameWords(calls, it)]),
        frames('down, the next first', down, (it) => [reportName(it.word), reportWords(it.word)]));
}

function verdict({ isPromised, isSo }) {
    const word = isPromised ? 'promised' : 'not promised';
    if (isSo === undefined) return make('span', 'mark later', isPromised ? 'not yet' : word);
    const kind = isSo ? (isPromised ? 'good' : 'later') : 'bad';
    return make('span', `mark ${kind}`, `${word}: ${isSo ? 'holds' : 'does not hold'}`);
}

export function showPromises(box, found) {
    if (found === null) return box.replaceChildren(make('p', 'none', 'No session has begun.'));
    const why = found.isIdle ? 'It had an idle start, and the link keeps the order of its frames: so this is promised.'
        : 'It had no idle start: nothing of this is promised.';
    const promises = found.promises.map((it) => make('li', '', make('p', '', make('b', '', it.name), verdict(it)),
        make('p', 'note', it.promise), it.seen.map((line) => make('p', 'seen', line))));
    return box.replaceChildren(make('p', 'facts', `Session ${found.facts.join(', ')}.`),
        make('p', found.isIdle ? 'note' : 'note bad', why), make('ul', 'promises', promises));
}

// Shows decoded octets, with what they contain.
export function decoded({ fault, name, fields, within }) {
    if (fault !== undefined) return make('p', 'invalid', `invalid ${fault}`);
    return make('div', 'record', make('h3', '', name), pairs('fields', fields), within.map(decoded));
}
