// The captures: a file is read by a command of tctool in a worker, its totals are shown, and its lines from a first
// one on, a number of them at a time. A total leads to its next line, and a line to its octets. The address says what to begin with: #capture=EXAMPLE&command=NAME, and the
// options of the command by their names.
import { digitsOf, octetsOf } from '../link.mjs';
import { faultOf, faultWords, isMostlyChecked, passWords } from './faults.mjs';
import { decoded, make } from './panels.mjs';
import { Runner } from './runner.mjs';
import { KINDS } from './words.mjs';

const FIRST = 1 << 20, BEFORE = 3; // octets of a sample, and lines before one that was found
const HEADER = 5; // octets
// What the records of a command are, by whether frames end with their check, and how long each is.
const RECORDS = {
    tc: (has) => ({ kind: 'frames', read: has('check') ? 'tc' : 'bare' }), packets: () => ({ kind: 'packets', read: 'packet' }),
    tm: (has) => ({ length: Number(has('length')), read: 'tm' }), clcw: () => ({ length: 4, read: 'clcw' }),
    check: () => ({ kind: 'frames', read: 'tc' }),
};

const at = (name) => document.getElementById(name);

// How many octets the whole frames at the beginning have, by their length fields.
export function wholeFrames(octets) {
    let from = 0;
    while (from + HEADER <= octets.length) {
        const count = ((octets[from + 2] & 3) << 8 | octets[from + 3]) + 1;
        if (count < HEADER || from + count > octets.length) break;
        from += count;
    }
    return from;
}

// A word as a shell takes it.
const quoted = (word) => (/^[\w./:,+-]+$/.test(word) ? word : `'${word.replaceAll("'", "'\\''")}'`);

export class Captures {
    constructor({ commands, captures }, calls) {
        Object.assign(this, { commands, captures, calls, values: {}, isDecided: false, isByPage: false });
        Object.assign(this, { runner: new Runner(), looker: new Runner(), searcher: new Runner() });
        at('command').append(...commands.map((it) => new Option(it.name, it.name)));
        at('sample').append(new Option('none', ''), ...Object.keys(captures).map((it) => new Option(it, it)));
        this.choose(commands[0].name);
        this.bind();
    }

    bind() {
        at('file').addEventListener('change', () => at('file').files.length > 0 && this.open(at('file').files[0]));
        at('sample').addEventListener('change', () => this.openSample(at('sample').value));
        at('command').addEventListener('change', () => {
            this.choose(at('command').value);
            this.list();
        });
        at('options').addEventListener('change', () => this.list());
        at('asking').addEventListener('submit', (event) => {
            event.preventDefault();
            this.list();
        });
        at('next-fault').addEventListener('click', () => this.nextFault());
        at('use-check').addEventListener('click', () => this.useCheck(!this.values.check));
        at('first-fault').addEventListener('click', () => this.goTo(this.first));
        at('totals').addEventListener('click', ({ target }) => target.dataset.finds && this.find(target.dataset.finds, target.textContent));
        at('listed').addEventListener('click', ({ target }) => this.showRecord(target.closest('#listed > div')));
        at('listed').addEventListener('keydown', (event) => this.moveLine(event));
        at('stop').addEventListener('click', () => (this.runner.isRunning ? this.stop() : this.stopSearch()));
        at('later').addEventListener('click', () => this.later && this.show([...this.starts, this.later]));
        at('earlier').addEventListener('click', () => this.starts?.length > 1 && this.show(this.starts.slice(0, -1)));
    }

    // Takes a file, and lists it. Whether its frames have a check is then for the page to find out, unless it is an
    // example, which has its options.
    open(file) {
        if (this.isByPage) this.values.check = false;
        Object.assign(this, { file, isDecided: 'sample' in file, isByPage: false });
        this.showCheck();
        if (file !== at('file').files[0]) at('file').value = '';
        at('sample').value = file.sample ?? '';
        this.list();
    }

    // Takes an example with its command and options, and lists it.
    openSample(name) {
        const { octets, words: [command, ...rest] } = this.captures[name] ?? { words: [] };
        if (octets === undefined) return;
        this.values = {};
        this.decide();
        rest.forEach((it, k) => {
            const isFlag = rest[k + 1]?.startsWith('--') ?? true;
            if (it.startsWith('--')) this.values[it.slice(2)] = isFlag ? true : rest[k + 1];
        });
        this.choose(command);
        const whole = Uint8Array.from(atob(octets), (it) => it.charCodeAt(0));
        this.open(Object.assign(new File([whole], `${name}.bin`), { sample: name }));
    }

    // Takes a command, whose options are shown.
    choose(name) {
        this.command = this.commands.find((it) => it.name === name) ?? this.commands[0];
        at('command').value = this.command.name;
        at('about').textContent = this.command.about;
        this.options = this.command.options.filter((it) => it.name !== 'count');
        at('options').replaceChildren(...this.options.map((it) => this.field(it)));
    }

    field({ name, value, help, default: usual }) {
        const input = document.createElement('input'), label = make('label', '', make('code', '', `--${name}`));
        const field = make('div', 'option', label, make('p', 'note', help));
        Object.assign(input, { type: value ? 'text' : 'checkbox', autocomplete: 'off', spellcheck: false });
        input.setAttribute('aria-describedby', `help-${name}`);
        field.lastChild.id = `help-${name}`;
        if (value) Object.assign(input, { value: this.values[name] ?? '', placeholder: usual || value });
        else input.checked = this.values[name] ?? false;
        input.addEventListener('input', () => {
            this.values[name] = value ? input.value.trim() : input.checked;
            if (name === 'check') this.decide();
        });
        label.append(' ', input);
        return field;
    }

    // The options of the command that are given, with their values.
    get asked() {
        const given = this.options.filter(({ name }) => this.values[name]);
        return Object.fromEntries(given.map(({ name, value }) => [name, value ? this.values[name] : true]));
    }

    // The command and its options as words.
    words() {
        const words = Object.entries(this.asked).map(([name, it]) => [`--${name}`, ...(it === true ? [] : [it])]);
        return [this.command.name, ...words.flat()];
    }

    // What is wrong with the page itself, if anything is.
    async attempt(act) {
        try {
            await act();
        } catch (error) {
            this.end();
            this.say(`The page does not run here: ${error.message}`);
        }
    }

    say(text) {
        at('said').textContent = text;
        at('said').hidden = text === '';
    }

    run(words, asked, take) {
        return this.runner.run({ words: [...words, this.name], file: this.file, ...asked }, take);
    }

    // Lists the file anew: its totals, then its lines from the first one on, and which is the first with a fault.
    list() {
        for (const it of [this.searcher, this.looker]) it.stop();
        this.isSearching = false;
        this.stop();
        if (this.file === undefined) return undefined;
        this.name = this.file.name.startsWith('-') ? `./${this.file.name}` : this.file.name;
        for (const name of ['totals', 'listed', 'record']) at(name).replaceChildren();
        const listing = {};
        Object.assign(this, { listing, found: undefined, totals: {}, counted: undefined, hasLooked: false });
        this.say('');
        this.tellFirst('');
        return this.attempt(async () => {
            this.begin('Reading the first frames');
            if (this.canCheck) await this.takeSample(listing);
            if (listing !== this.listing) return;
            this.chooseCheck();
            at('typed').textContent = ['tctool', ...this.words(), this.name].map(quoted).join(' ');
            await this.explain();
            this.begin('Reading for the totals');
            this.counted = await this.run([...this.words(), '--count'], {}, (it) => this.takeTotals(it));
            await this.showLines([0]);
            await this.findFirst();
        });
    }

    // Whether the command can read frames with their check or without it; and whether it reads them without.
    get canCheck() {
        return this.options.some(({ name }) => name === 'check');
    }

    get lacksCheck() {
        return this.canCheck && !this.values.check;
    }

    // Counts the whole frames that begin the file, and those of them that pass a check, unless another listing begins.
    async takeSample(listing) {
        const { file } = this, totals = {};
        if (this.sample?.file === file) return;
        const octets = await file.slice(0, FIRST).arrayBuffer().catch(() => new ArrayBuffer(0));
        const count = wholeFrames(new Uint8Array(octets));
        if (listing !== this.listing) return;
        await this.runner.run({ words: ['check', '--count', this.name], file: new Blob([octets]).slice(0, count) }, ({ lines = [] }) => {
            for (const line of lines) totals[line.replace(/ \d+$/, '')] = Number(line.match(/\d+$/)?.[0]);
        });
        this.sample = { file, good: totals.records - (totals.invalid ?? 0), records: totals.records };
    }

    // Takes the check if most of the first frames pass it, unless somebody has decided; and says how many do.
    chooseCheck() {
        const { sample, canCheck, file } = this, isKnown = canCheck && sample?.file === file;
        if (isKnown && !this.isDecided && !this.values.check && isMostlyChecked(sample)) {
            this.isByPage = true;
            this.values.check = true;
            this.showCheck();
        }
        const words = isKnown ? passWords(sample, this.values.check, this.isByPage) : '';
        at('hint').hidden = words === '';
        at('hint-words').textContent = words;
        at('use-check').textContent = `list ${this.values.check ? 'without' : 'with'} --check`;
    }

    // The box of --check is as the option is.
    showCheck() {
        const box = at('help-check')?.parentElement.querySelector('input');
        if (box) box.checked = this.values.check ?? false;
    }

    // From now on, whether the check is used is not for the page to decide.
    decide() {
        Object.assign(this, { isDecided: true, isByPage: false });
    }

    // Lists the file again, with the check of its frames or without it.
    useCheck(isWanted) {
        this.decide();
        this.values.check = isWanted;
        this.showCheck();
        return this.list();
    }

    nextFault() {
        if (at('next-fault').getAttribute('aria-disabled') !== 'true') this.find(faultOf(this.asked), 'fault');
    }

    // Says which record is the first with a fault, unless this was done. Where it is not among the lines that are shown,
    // it is looked for beside what else is done.
    async findFirst() {
        const { totals, file, asked, starts } = this, { status = 2, said } = this.counted ?? {}, pattern = faultOf(asked);
        const context = { command: this.command.name, asked, isPlain: this.lacksCheck };
        if (this.hasLooked || status > 1) return;
        let found;
        this.hasLooked = true;
        if (totals.invalid || totals.skipped) {
            const shown = starts?.length === 1 ? [...at('listed').children].map((it) => it.textContent) : [];
            const place = shown.findIndex((it) => new RegExp(pattern).test(it));
            this.tellFirst('Looking for the first fault.');
            found = place < 0 ? await this.search(pattern, file) : { place, line: shown[place] };
        }
        this.first = found && { ...found, pattern };
        this.tellFirst(faultWords(context, { ...totals, said }, found), found);
    }

    async search(pattern, file) {
        this.isSearching = true;
        at('stop').setAttribute('aria-disabled', false);
        const { place, line } = await this.searcher.run({ words: [...this.words(), this.name], file, finds: pattern }, () => {});
        this.isSearching = false;
        at('stop').setAttribute('aria-disabled', !this.runner.isRunning);
        return place === undefined ? undefined : { place, line };
    }

    stopSearch() {
        if (!this.isSearching) return;
        this.searcher.stop();
        this.isSearching = false;
        this.end();
        this.tellFirst('Stopped: the first fault is not known.');
    }

    // Says something of the first fault: as a button that goes there, if it was found.
    tellFirst(words, found) {
        at('first-found').hidden = words === '';
        at('first-found').className = found ? 'bad' : '';
        at('first-words').textContent = found ? '' : words;
        at('first-fault').textContent = found ? words : '';
        at('first-fault').hidden = !found;
    }

    // Shows the next line of a pattern, after the one that was found last, or the first one where there is no later.
    find(pattern, name) {
        if (this.file === undefined) return undefined;
        const after = this.found?.pattern === pattern ? this.found.place + 1 : 0, { starts, later } = this;
        return this.attempt(async () => {
            this.stop();
            this.begin(`Looking for ${name}`);
            const { place } = await this.run(this.words(), { before: after, finds: pattern }, ({ read }) => this.moved(read));
            if (place === undefined) {
                Object.assign(this, { starts, later, found: undefined });
                this.end();
                const what = name !== 'fault' ? name : `a fault${this.lacksCheck ? ' without --check' : ''}`;
                at('told').textContent = `No ${after === 0 ? '' : 'later '}line has ${what}.`;
            } else {
                await this.showFound({ pattern, place });
            }
            await this.findFirst();
        });
    }

    // Goes to a line that was found before.
    goTo(found) {
        return found && this.attempt(() => this.showFound(found));
    }

    // Shows a line that was found, those around it, and its octets.
    async showFound({ pattern, place }) {
        await this.showLines(place > BEFORE ? [0, place - BEFORE] : [0]);
        this.found = { pattern, place };
        const line = at('listed').children[Math.min(place, BEFORE)];
        line.classList.add('found');
        at('listed').scrollTop = line.offsetTop - at('listed').clientHeight / 3;
        await this.showRecord(line);
    }

    // Shows the octets of a line, and their fields: those that it has, or those of its record.
    async showRecord(line) {
        if (!line) return;
        for (const it of at('listed').querySelectorAll('[aria-current]')) it.removeAttribute('aria-current');
        line.setAttribute('aria-current', 'true');
        const text = line.textContent, has = (name) => this.values[name], [, digits] = text.match(/^(?:packet|bypass)(?: \d+)? (\S+)$/) ?? [];
        const number = Number(text.match(/^\d+/)?.[0]), { read, ...where } = (RECORDS[this.command.name] ?? RECORDS.tc)(has);
        if (digits) {
            this.showOctets('The octets of this line', octetsOf(digits), 'packet');
        } else if (!number || has('resync')) {
            at('record').replaceChildren(make('p', 'note', 'Where this line is in the file is not known here.'));
        } else {
            const { from, octets } = await this.looker.run({ ...where, record: number, file: this.file }, () => {});
            this.showOctets(`Record ${number}, from octet ${from} on`, octets, read);
        }
    }

    // The arrow keys lead from a line to the one after it, or before it.
    moveLine(event) {
        const by = { ArrowDown: 'nextElementSibling', ArrowUp: 'previousElementSibling' }[event.key];
        const line = by && (at('listed').querySelector('[aria-current]')?.[by] ?? at('listed').firstElementChild);
        if (!line) return;
        event.preventDefault();
        line.scrollIntoView({ block: 'nearest' });
        this.showRecord(line);
    }

    showOctets(title, octets, read) {
        const shown = octets.subarray(0, 2048), digits = digitsOf(shown).replace(/../g, '$& ');
        const more = octets.length > shown.length ? '..' : '';
        at('record').replaceChildren(make('h3', '', `${title}: ${octets.length} octets`), make('p', 'octets', digits, more),
            decoded(KINDS[read][1](this.calls, octets)));
    }

    // Shows the help of the command.
    async explain() {
        if (this.explained === this.command.name) return;
        const lines = [];
        await this.runner.run({ words: ['help', this.command.name] }, (it) => lines.push(...it.lines));
        at('help').textContent = lines.join('\n');
        this.explained = this.command.name;
    }

    show(starts) {
        return this.attempt(async () => {
            await this.showLines(starts);
            await this.findFirst();
        });
    }

    // Shows lines from the last of these starts on, each the number of lines before a part that was shown.
    async showLines(starts) {
        const before = starts.at(-1);
        let count = 0;
        this.stop();
        this.starts = starts;
        at('listed').replaceChildren();
        this.begin('Reading for the lines');
        const listed = await this.run(this.words(), { before, ends: true }, (it) => {
            count += it.lines?.length ?? 0;
            this.takeLines(it);
        });
        const { status, said } = listed.status === undefined ? this.counted : listed;
        this.later = listed.isCut ? before + count : undefined;
        this.end();
        this.say(said);
        const part = count === 0 ? 'No lines' : `Lines ${before + 1} to ${before + count}`;
        at('told').textContent = `${part}${listed.isCut ? '; there are more' : ''}. Status ${status}.`;
        at('told').dataset.status = status;
    }

    takeTotals({ read, lines = [] }) {
        this.moved(read);
        for (const line of lines) {
            const [, name, count] = line.match(/^(.*) (\d+)$/) ?? [undefined, line, ''];
            this.totals[name] = Number(count);
            at('totals').append(make('div', '', make('dt', '', this.total(name)), make('dd', '', count)));
        }
    }

    // A word of the totals, by which its next line is found.
    total(name) {
        if (name === 'records' || name === 'octets') return name;
        const words = name.replace(/^channel=(\d+)\/(\d+)$/, 'scid=$1 vcid=$2').replace(/[.*+?^${}()|[\]\\]/g, '\\$&');
        const button = make('button', 'link', name);
        button.dataset.finds = `(?:^| )${words}(?: |$)`;
        button.title = `The next line with ${name}`;
        return button;
    }

    takeLines({ read, lines = [] }) {
        this.moved(read);
        const fault = new RegExp(faultOf(this.asked)), parts = lines.map((it) => make('div', fault.test(it) ? 'bad' : '', it));
        at('listed').append(...parts);
    }

    moved(read) {
        if (read !== undefined) at('progress').value = this.file.size === 0 ? 1 : read / this.file.size;
    }

    begin(what) {
        delete at('told').dataset.status;
        at('told').textContent = `${what}.`;
        at('progress').value = 0;
        at('progress').hidden = false;
        at('stop').setAttribute('aria-disabled', false);
        for (const name of ['earlier', 'later', 'next-fault']) at(name).setAttribute('aria-disabled', true);
    }

    end() {
        at('progress').hidden = true;
        at('stop').setAttribute('aria-disabled', !this.isSearching);
        at('earlier').setAttribute('aria-disabled', !(this.starts?.length > 1));
        at('later').setAttribute('aria-disabled', this.later === undefined);
        at('next-fault').setAttribute('aria-disabled', this.file === undefined);
    }

    // Ends what runs.
    stop() {
        const isRunning = this.runner.isRunning;
        this.runner.stop();
        this.later = undefined;
        this.starts = undefined;
        this.end();
        if (isRunning) at('told').textContent = 'Stopped.';
    }

    // What the address says.
    beginWith(asked) {
        const name = asked.get('capture');
        if (name in this.captures) this.openSample(name);
        if (!asked.has('command')) return;
        this.values = Object.fromEntries([...asked].map(([option, value]) => [option, value || true]));
        this.decide();
        this.choose(asked.get('command'));
        this.list();
    }
}
