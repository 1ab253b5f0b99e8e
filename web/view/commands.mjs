// The view of the page for commands that are executed once, over restarts (board.mjs). It shows the steps of a run, the
// two places of the record and what the status states; at each step the board can be restarted or a write torn.
import { digitsOf } from '../link.mjs';
import { COMMANDS, GUIDE, Run, dueWords, recordAt, recordWords } from './board.mjs';
import { make, pairs } from './panels.mjs';

const COPY = 25, FIELDS = [[0, 4], [4, 8], [8, 16], [16, 20], [20, 21], [21, 25]];
const KINDS = {
    SAYS: 'It states the record.', CHANGES: 'The record is being written: the previous status holds.',
    STARTS: 'The board has just started: the previous status holds.', LOST: 'The record is lost.',
};
const at = (name) => document.getElementById(name);
const numbers = (holds) => Array.from({ length: COMMANDS }, (_, k) => k + 1).filter(holds).join(', ') || 'none';

// Returns whether a status marks a command as known to have been executed.
const isKnown = ({ last, known }, number) => number <= last && (known >> BigInt(last - number) & 1n) === 1n;

// Returns what a status states about a command.
function fate(heard, number) {
    if (number > heard.last) return heard.begun && number === heard.last + 1 ? 'begun' : 'not taken';
    return isKnown(heard, number) ? 'executed' : 'nothing is known';
}

// Returns what happened to a command on board, which only this page sees.
function happened(ran, number) {
    const own = ran.filter((it) => it.number === number);
    if (own.length > 1) return 'executed twice';
    return own.length === 0 ? 'not executed' : own[0].isWhole ? 'executed once' : 'executed in part';
}

export class Commands {
    constructor(calls) {
        Object.assign(this, { calls, at: 0 });
        at('steps').addEventListener('click', ({ target }) => {
            const item = target.closest('li');
            if (item) this.goTo([...at('steps').children].indexOf(item));
        });
    }

    // Returns what each button does.
    acts() {
        return {
            'run-first': () => this.goTo(0), 'run-back': () => this.goTo(this.at - 1),
            'run-step': () => this.goTo(this.at + 1), 'run-end': () => this.goTo(Infinity),
            restart: () => this.change('restart'), tear: () => this.isWrite && this.change('tear'),
            guided: () => this.take(GUIDE, 0),
        };
    }

    begin() {
        if (this.run === undefined) this.take(GUIDE, 0);
        else this.tell();
    }

    // Begins at the step that the address names.
    beginWith(words) {
        this.take(GUIDE, Number(words.get('step')) - 1);
    }

    // Writes the step of the guided run into the address. Waits a little, because browsers limit how often it may
    // change.
    tell() {
        clearTimeout(this.telling);
        this.telling = setTimeout(() => {
            if (at('commands').hidden) return;
            history.replaceState(null, '', `#commands${this.changes === GUIDE ? `&step=${this.at + 1}` : ''}`);
        }, 300);
    }

    // Takes another run, determined by these changes.
    take(changes, step) {
        Object.assign(this, { changes, run: new Run(this.calls, changes) });
        at('steps').replaceChildren(...this.run.steps.map(({ said }) => make('li', '', said)));
        at('guided').setAttribute('aria-disabled', changes === GUIDE);
        this.goTo(step);
    }

    // Makes the step after this one a restart or a torn write. The run is then no longer the guided one.
    change(kind) {
        const next = this.at + 1, octets = Math.min(50, Math.max(0, Math.floor(Number(at('torn').value)) || 0));
        this.take([...this.changes.filter((it) => it.at < next), { at: next, kind, octets }], next);
    }

    get isWrite() {
        return this.run.steps[this.at].due.kind.startsWith('WRITE');
    }

    goTo(step) {
        const { steps } = this.run, last = steps.length - 1;
        this.at = Math.max(0, Math.min(step, last));
        const it = steps[this.at], before = steps[this.at - 1] ?? it, ends = [this.at === 0, this.at === last];
        for (const [k, item] of [...at('steps').children].entries()) {
            item.className = k <= this.at ? 'played' : '';
            item.removeAttribute('aria-current');
        }
        const item = at('steps').children[this.at];
        item.setAttribute('aria-current', 'step');
        at('run').scrollTop = item.offsetTop - at('run').clientHeight / 2;
        ['run-first', 'run-back', 'run-step', 'run-end'].forEach((name, k) => {
            at(name).setAttribute('aria-disabled', ends[k >> 1]);
        });
        at('tear').setAttribute('aria-disabled', !this.isWrite);
        at('step-said').replaceChildren(make('p', '', `${this.at + 1}. ${it.said}`), make('p', 'note', it.note ?? ''));
        at('due').textContent = `The board ${dueWords(it.due)}.`;
        const rows = it.places.map((octets, k) => this.place(['first', 'second'][k], octets, before.places[k]));
        at('places').replaceChildren(...rows.flat());
        this.showStatus(it);
        this.showFates(it);
        this.tell();
    }

    // Returns the rows of a place: the fields of both copies, marked if this step changed them, and what the place
    // contains.
    place(name, octets, before) {
        const cell = (from, to) => {
            const part = octets.subarray(from, to), isSame = part.every((it, k) => it === before[from + k]);
            return make('td', isSame ? '' : 'changed', digitsOf(part));
        };
        const rows = [0, COPY].map((from) => make('tr', '', make('th', '', from === 0 ? name : ''),
            FIELDS.map((it) => cell(from + it[0], from + it[1]))));
        const kept = recordAt(this.calls, octets), is = make('td', kept === null ? 'bad' : 'good');
        is.colSpan = FIELDS.length;
        is.textContent = kept === null ? 'no record: a check does not match' : `a record: ${recordWords(kept)}`;
        return [...rows, make('tr', 'is', make('td', ''), is)];
    }

    showStatus({ octets, status, heard, history }) {
        at('status').replaceChildren(make('p', '', make('b', '', status.kind), ` ${KINDS[status.kind]}`),
            make('p', 'octets', digitsOf(octets)));
        const { boot, last, known, begun } = heard, isSame = heard.history === history;
        const fields = [['boot count', `${boot}`], ['last', `${last}`], ['the next is begun', begun ? 'yes' : 'no'],
            ['known, last first', last === 0 ? 'none' : known.toString(2).padStart(last, '0')]];
        const isHeard = heard.kind === 'SAYS' ? [pairs('variables', fields),
            make('p', '', `Executed: ${numbers((it) => isKnown(heard, it))}.`),
            make('p', '', `Nothing is known of: ${numbers((it) => fate(heard, it) === 'nothing is known')}.`),
            make('p', isSame ? 'good' : 'bad', `The history is ${isSame ? '' : 'not '}that of the packets it sent.`)]
            : [make('p', 'none', 'No status has stated the record.')];
        at('known').replaceChildren(...isHeard);
    }

    showFates({ heard, ran }) {
        const all = Array.from({ length: COMMANDS }, (_, k) => k + 1), order = ran.map(({ number }) => number);
        const row = (...cells) => make('tr', '', cells.map((cell) => make('td', '', cell)));
        at('fates').replaceChildren(...all.map((it) => row(`${it}`, fate(heard, it), happened(ran, it))));
        const isOnce = order.every((it, k) => k === 0 || it > order[k - 1]);
        at('order').className = isOnce ? 'good' : 'bad';
        at('order').textContent = isOnce ? 'No command is executed twice, and all are in order.' : 'Not in order.';
    }
}
