// A board that executes each command once, over restarts. The library's Executor decides what it does next. This module
// adds only the two places of its memory, the restarts, and the ground, which sends the command after the last one in
// the status. A run is determined by its changes: a restart, a torn write or a delayed copy at one of its steps.
import { BoardStatus, Executor, commandPacket, historyAfter, newRecord } from '../executor.mjs';

export const COMMANDS = 5;
const APID = 5, MOST = 500, NONE = new Uint8Array(0);
const PLACES = { WRITE_FIRST: [0, 'first'], WRITE_SECOND: [1, 'second'] };

// The guided run: the changes at some of its steps, and notes on them.
export const GUIDE = [
    { at: 0, note: 'Both places have the record of a new board. At each start the board writes one copy over the '
        + 'other, and increases the boot count by 1.' },
    { at: 5, note: 'Before the board executes command 1, it marks it as begun at both places, one after the other.' },
    { at: 8, note: 'Then it marks it as known at both places. A torn write destroys at most one of them.' },
    { at: 13, kind: 'restart', note: 'Command 2 may have had its effect, or a part of it. The board cannot know this, '
        + 'and never executes it again.' },
    { at: 16, note: 'The status states last = 2, and its bit for command 2 is 0: nothing is known of it. The ground '
        + 'decides whether to send it as a new command.' },
    { at: 17, kind: 'repeat', number: 2, note: 'A delayed copy changes nothing.' },
    { at: 19, kind: 'tear', octets: 20, note: 'The second place has the record of before. Command 3 was not '
        + 'executed.' },
    { at: 23, note: 'The status still states last = 2, so the ground sends command 3 again.' },
    { at: 31, kind: 'tear', octets: 30, note: 'In the record at the first place command 4 is begun. The board cannot '
        + 'know that it was not executed.' },
    { at: 41, kind: 'repeat', number: 3, note: 'Commands 1, 3 and 5 were executed once. Of 2 and 4 nothing is known, '
        + 'and the board never executes them again.' },
];

// Returns the record at a place, as the library reads it at a start, or null if there is none.
export function recordAt(calls, octets) {
    const log = {};
    calls.sedge_log_start(log, octets, NONE, 1); // (the mark is that of a loss)
    return log.mark === 1 ? null : log.kept;
}

// Describes a record in words.
export function recordWords({ boot, last, begun }) {
    return `boot count ${boot}, last ${last}${begun ? `, command ${last + 1} begun` : ''}`;
}

// Describes in words what the board does next.
export function dueWords({ kind, number }) {
    if (kind === 'NOTHING') return 'waits for a command';
    return kind === 'EXECUTE' ? `executes command ${number}` : `writes the ${PLACES[kind]?.[1]} place`;
}

export class Run {
    constructor(calls, changes) {
        Object.assign(this, { calls, changes, places: [newRecord(), newRecord()], sent: new Map() });
        Object.assign(this, { starts: 0, ran: [], steps: [] });
        this.start();
        let said = 'The board starts for the first time.';
        for (; said !== null && this.steps.length < MOST; said = this.step()) this.keep(said);
    }

    // Takes the next step. Returns a sentence about it, or null at the end.
    step() {
        const change = this.changes.find(({ at, kind }) => kind && at === this.steps.length), { due, heard } = this;
        if (change) return this[change.kind](change);
        if (due.kind !== 'NOTHING') return this.do(due);
        return heard.kind === 'SAYS' && heard.last < COMMANDS ? this.repeat({ number: heard.last + 1 }) : null;
    }

    // Completes the action that is due.
    do(action) {
        const { kind, octets, number } = action, isWrite = kind in PLACES;
        if (isWrite) this.places[PLACES[kind][0]] = octets;
        else this.ran = [...this.ran, { number, isWhole: true }];
        this.board.done(action);
        this.due = null;
        return `The board ${dueWords(action)}${isWrite ? `: ${recordWords(recordAt(this.calls, octets))}` : ''}.`;
    }

    // Makes the packet of a command arrive, for the first time or again.
    repeat({ number }) {
        const isNew = !this.sent.has(number), what = `Command ${number} arrives${isNew ? '' : ' again'}`;
        if (isNew) this.sent.set(number, commandPacket(APID, number, number, Uint8Array.of(0xa0 + number)));
        try {
            this.board.offer(this.sent.get(number));
        } catch (fault) {
            return `${what}. It is dropped: ${fault.number} ${fault.name}.`;
        }
        return `${what}. It is taken.`;
    }

    // Tears the write that is due after some octets, and restarts the board.
    tear({ octets: count }) {
        const { kind, octets } = this.due, [place, name] = PLACES[kind] ?? [];
        if (name === undefined) return this.restart();
        this.places[place] = Uint8Array.from([...octets.subarray(0, count), ...this.places[place].subarray(count)]);
        return `The write of the ${name} place is torn after ${count} octets: the board restarts. ${this.start()}`;
    }

    // Restarts the board in the middle of the action that is due.
    restart() {
        const { kind, number } = this.due, isRunning = kind === 'EXECUTE', isWrite = kind in PLACES;
        if (isRunning) this.ran = [...this.ran, { number, isWhole: false }];
        const what = isRunning ? ` in the middle of command ${number}`
            : isWrite ? ` before it ${dueWords(this.due)}` : '';
        return `The board restarts${what}. ${this.start()}`;
    }

    // Starts the board with the contents of both places. Returns what it finds there, in words.
    start() {
        this.board = new Executor(...this.places, ++this.starts);
        this.due = null;
        const [first, second] = this.places.map((it) => recordAt(this.calls, it)), { begun, last } = first ?? second;
        const lost = first === null ? 'The first place has no record: the second one counts. '
            : second === null ? 'The second place has no record: the first one counts. ' : '';
        return `${lost}${begun ? `Command ${last + 1} is begun: it is passed over.` : 'No command is begun.'}`;
    }

    // Keeps the state after a step.
    keep(said) {
        if (this.due === null || this.due.kind === 'NOTHING') this.due = this.board.next();
        const octets = this.board.status(), status = BoardStatus.decode(octets);
        const { note } = this.changes.find(({ at }) => at === this.steps.length) ?? {};
        if (status.kind === 'SAYS' || this.heard === undefined) this.heard = status;
        const { due, heard, ran } = this, places = [...this.places], history = this.historyOf(heard);
        this.steps.push({ said, note, places, due, octets, status, heard, ran, history });
    }

    // Returns the history of the packets that were taken according to a status, as the ground computes it.
    historyOf({ last, begun }) {
        let it = 0;
        for (let number = 1; number <= last + Number(begun); number++) it = historyAfter(it, this.sent.get(number));
        return it;
    }
}
