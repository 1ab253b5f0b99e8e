// The scripts: the page plays a script line by line, and shows the state after the line played last.
import { eventOf, octetsOf } from '../link.mjs';
import { Ladder } from './ladder.mjs';
import { List } from './list.mjs';
import { decoded, make, showCause, showMachines, showPromises, showTransit } from './panels.mjs';
import { lostInTransit, swapped } from './plan.mjs';
import { Player } from './player.mjs';
import { promisesOf } from './promises.mjs';
import { Runner } from './runner.mjs';
import { countOf, placeOf } from './script.mjs';
import { pageOf, pictureOf, pngOf, save, scriptPart } from './share.mjs';
import { KINDS, frameName, plural, reportName } from './words.mjs';

const SWAPS = 'The frame of this line is lost, or arrives, instead; the rest is planned again (L)';
const SWAPS_NONE = 'No frame arrives or is lost on this line: go to a line with up or down, or click an arrow';
// What to do after a refusal.
const ADVICE = {
    NothingInTransit: 'nothing is in transit WAY. Go to a line where a frame is, or click its arrow',
    NotOpen: 'no session is open. Begin one by a directive, such as init none',
    NotDetectable: 'the receiver would accept these octets. Change one of them',
};
const PACE = 700, LONG = 90, LONGEST_EDITED = 200000, TURN = 100;
const at = (name) => document.getElementById(name);
const cut = (text, most = LONG) => (text.length > most ? `${text.slice(0, most)}..` : text);

export class Page {
    constructor(calls, made) {
        Object.assign(this, { calls, made, player: new Player(calls), undone: [], text: '', runner: new Runner() });
        Object.assign(this, { ladder: new Ladder(at('ladder'), calls, made), list: new List(at('list'), at('lines')) });
    }

    // Performs an act, and shows the error, if there is one.
    attempt(act) {
        try {
            act();
            this.complain(this.broken);
        } catch (error) {
            this.pause();
            this.complain(error.message);
        }
    }

    complain(words) {
        at('fault').textContent = at('fault').title = words === undefined ? '' : cut(words, 3 * LONG);
        at('fault').hidden = words === undefined;
    }

    // Takes a script, and plays a number of its lines. Returns whether the script can be read. If not, the page reports
    // this until it can, and still shows the previous script.
    open(text, count) {
        this.pause();
        this.text = text;
        this.broken = undefined;
        this.attempt(() => this.take(text));
        if (this.broken === undefined) this.attempt(() => this.goTo(count));
        else this.complain(this.broken);
        return this.broken === undefined;
    }

    take(text) {
        const { script } = this.player;
        try {
            this.player.load(text);
            at('line').max = countOf(this.player.rows);
        } catch (error) {
            const [, number, line = ''] = error.message.match(/^line (\d+) is unreadable: ([^]*)$/) ?? [];
            const what = number === undefined ? error.message : `line ${number} is unreadable: ${cut(line, 30)}`;
            this.break(what, '', script !== undefined);
            if (number !== undefined) this.explain(text, what, script !== undefined);
        }
    }

    break(what, cause, isBefore) {
        this.broken = `${what}${cause && `: ${cause}`}${isBefore ? '. What is shown is the script before.' : ''}`;
    }

    // Returns why a script is unreadable, in the words of the command.
    async cause(text) {
        const asked = { words: ['sim', 'script'], file: new File([text], 'script') };
        const { said } = await this.runner.run(asked, () => {});
        return said.match(/^tctool: line \d+: unreadable\ntctool: (.*)$/m)?.[1] ?? '';
    }

    async explain(text, what, isBefore) {
        const cause = await this.cause(text);
        if (this.text !== text || this.broken === undefined) return;
        this.break(what, cause, isBefore);
        this.complain(this.broken);
    }

    // Replaces the script with another one; *Undo* restores it.
    replace(text, name, count) {
        if (this.text !== '' && this.text !== text) {
            this.undone.push({ text: this.text, name: at('example').value, count: this.player.at });
        }
        at('undo').setAttribute('aria-disabled', this.undone.length === 0);
        at('example').value = name;
        this.text = text;
        this.write();
        return this.open(text, count);
    }

    undo() {
        const before = this.undone.pop();
        if (before === undefined) return;
        this.text = '';
        this.replace(before.text, before.name, before.count);
    }

    // Writes the text into its field, unless it is too long for a field.
    write() {
        const isLong = this.text.length > LONGEST_EDITED;
        at('text').disabled = isLong;
        at('text').value = isLong ? 'This script is too long to be edited here: save it, edit it, and drop the file here.' : this.text;
    }

    // Takes an example. Without a name, keeps the script as it is, and shows its field.
    choose(name, count) {
        const example = this.made.examples[name];
        at('own').open = example === undefined;
        this.replace(example ?? this.text, example === undefined ? '' : name, count);
    }

    // Takes the script that was typed.
    edit() {
        at('example').value = '';
        this.open(at('text').value, this.player.at);
    }

    // Plays up to a number of lines, and shows them. The page can be used while it plays many lines.
    goTo(count) {
        clearTimeout(this.turn);
        const { player } = this, begun = performance.now();
        if (player.script === undefined) throw new Error(this.broken);
        const wanted = Math.max(0, Math.min(count, player.events.length));
        do player.goTo(Math.min(wanted, Math.max(player.at, player.steps.length) + 1000));
        while (player.at < wanted && performance.now() - begun < TURN);
        if (player.at === wanted || this.shown !== player.script) this.show();
        if (player.at === wanted) return;
        at('last').textContent = `${player.at} of ${player.events.length} lines are played ..`;
        this.turn = setTimeout(() => this.attempt(() => this.goTo(count)));
    }

    move(count) {
        this.pause();
        this.attempt(() => this.goTo(count));
    }

    // Plays up to a line of the script.
    runTo(line) {
        if (this.player.script !== undefined) this.move(placeOf(this.player.lines, line));
    }

    show(row) {
        const { player } = this, { last } = player;
        this.shown = player.script;
        this.list.show(player);
        this.ladder.show(player, row);
        showCause(at('cause'), player, this.made);
        showMachines(at('fop'), at('farm'), player, this.made);
        showTransit(at('transit'), this.calls, player.inTransit(last));
        showPromises(at('promises'), promisesOf(this.calls, last));
        this.tell(player.at, last);
        this.tellAddress();
    }

    tell(count, last) {
        const { length } = this.player.events, line = this.player.lines[count - 1] + 1;
        const { said } = this, isSaid = said?.script === this.player.script && said.at === count;
        const before = isSaid ? `${said.words} ` : '', words = `${cut(last.line ?? '')} \u2014 ${cut(last.answer ?? '')}`;
        const where = count === 0 ? `Nothing is played of ${length} lines.` : `Line ${line}, ${count} of ${length}: ${words}`;
        at('last').textContent = before + where;
        const isLost = last.line?.endsWith('lose'), isFrame = last.gone !== undefined;
        const isOver = { first: count === 0, back: count === 0, step: count === length, end: count === length, swap: !isFrame };
        for (const [name, is] of Object.entries(isOver)) at(name).setAttribute('aria-disabled', is);
        at('swap').textContent = isFrame && isLost ? 'Deliver it' : 'Lose it';
        at('swap').title = isFrame ? SWAPS : SWAPS_NONE;
        at('line').value = count > 0 ? line : 1;
    }

    // Shows a remark before the words about a line, until the script or the number of lines played changes.
    remark(words, count = this.player.at) {
        this.said = { script: this.player.script, at: count, words };
        if (count === this.player.at) this.tell(count, this.player.last);
    }

    play() {
        const isPlaying = this.timer !== undefined;
        this.pause();
        if (isPlaying) return;
        at('play').setAttribute('aria-pressed', true);
        this.timer = setInterval(() => {
            this.attempt(() => this.goTo(this.player.at + 1));
            if (this.player.at === this.player.events?.length) this.pause();
        }, PACE);
    }

    pause() {
        clearInterval(this.timer);
        clearTimeout(this.turn);
        this.timer = undefined;
        at('play').setAttribute('aria-pressed', false);
    }

    // Inserts a line after the one played last, or before the first one, and plays it.
    insert(template) {
        if (this.broken !== undefined) return;
        const fields = { MAP: at('map').value, OCTETS: at('octets').value.trim() || '-', X: at('number').value };
        const { player } = this, { at: count, lines } = player, line = template.replace(/MAP|OCTETS|X$/g, (it) => fields[it]);
        const rows = player.text === '' ? [] : player.text.replace(/\n$/, '').split('\n');
        rows.splice(count > 0 ? lines[count - 1] + 1 : lines[0] ?? rows.length, 0, line);
        if (eventOf(line) === null) this.refuse(line);
        else if (this.replace(`${rows.join('\n')}\n`, '', count + 1)) this.advise(line);
    }

    // Shows what to do if the line of a button was refused; after a submission, takes the next packet.
    advise(line) {
        const [, fault] = this.player.last.answer.match(/^refused \d+ (\w+)/) ?? [], advice = ADVICE[fault];
        if (advice) this.remark(`Refused: ${advice.replace('WAY', line.split(' ')[0])}.`);
        if (/^(submit|bypass)/.test(line)) this.nextPacket();
    }

    // Reports a line that is not inserted into the script because it is unreadable.
    async refuse(line) {
        const what = `This line is unreadable: ${cut(line, 30)}`, cause = await this.cause(line);
        this.complain(`${what}${cause && `: ${cause}`}`);
    }

    // Reverses the fate of the frame of a step, and plans the rest again. Its row stays visible.
    swap(k) {
        if (this.broken !== undefined) return;
        const { gone, line } = this.player.steps[k] ?? {};
        if (gone) this.plan(swapped(this.player, k), k, gone, line.endsWith('lose') ? 'delivered' : 'lost');
    }

    // Loses the frame in transit that a step sent.
    lose(k) {
        const { player } = this;
        if (this.broken !== undefined) return;
        if (k >= player.at) player.goTo(player.steps.length);
        this.plan(lostInTransit(player, k), k, player.steps[k].sent, 'lost');
    }

    // Takes a script in which the fate of a frame was changed by hand, and reports what followed.
    plan(text, row, { word, frame }, end) {
        const { player } = this, { length } = player.events, name = word ? reportName(word) : frameName(frame);
        const { scrollTop } = at('ladder');
        if (!this.replace(text, '', Infinity)) return;
        this.changed = { script: player.script, row };
        this.ladder.show(player, row, scrollTop);
        const again = player.steps.slice(row + 1).map(({ sent }) => sent).filter((it) => it?.again !== undefined);
        const names = [...new Set(again.map((it) => frameName(it.frame)))], more = player.events.length - length;
        const words = [
            ...more === 0 ? [] : [`${plural(Math.abs(more), 'line')} ${more > 0 ? 'added' : 'fewer'}`],
            ...names.length === 0 ? [] : [`${cut(names.join(', '))} sent again`],
        ];
        this.remark(`${name} ${end} by hand${words.length > 0 ? `: ${words.join('; ')}` : ''}.`, player.events.length);
    }

    // Handles a click on an arrow, on a frame in transit, or on a row of the ladder.
    click(target) {
        const frame = target.closest('[data-gone]'), sent = target.closest('[data-sent]'), row = target.closest('[data-step]');
        if (frame) this.swap(Number(frame.dataset.gone));
        else if (sent) this.lose(Number(sent.dataset.sent));
        else if (row) this.move(Number(row.dataset.step) + 1);
    }

    // Returns the address of what is shown, or null if the script is too long for one.
    async address() {
        const { player } = this, name = at('example').value, line = player.at > 0 ? `&line=${player.lines[player.at - 1] + 1}` : '';
        if (this.part?.text !== player.text) this.part = { text: player.text, is: name === '' && scriptPart(player.text) };
        const { changed } = this, isChanged = changed?.script === player.script;
        const row = isChanged ? `&row=${player.lines[changed.row] + 1}` : '';
        const part = name === '' ? await (this.part.is || scriptPart(player.text)) : `example=${name}`;
        return part === null ? null : `#${part}${line}${row}`;
    }

    // Shows the ladder at a line that was changed by hand, as the address names it.
    showChange(line) {
        const { player } = this, row = Math.min(placeOf(player.lines, line - 1), player.at - 1);
        if (this.broken !== undefined || !(row >= 0)) return;
        this.changed = { script: player.script, row };
        this.ladder.show(player, row);
    }

    // Updates the address bar. Waits a little, because browsers limit how often it may change.
    tellAddress() {
        clearTimeout(this.telling);
        const telling = this.telling = setTimeout(async () => {
            const address = await this.address(), { length } = this.player.events;
            if (telling !== this.telling || at('scripts').hidden || this.broken !== undefined) return;
            history.replaceState(null, '', address ?? `#long=${length}`);
        }, 300);
    }

    // Cancels a pending update of the address, whose contents are used now.
    keepAddress() {
        clearTimeout(this.telling);
        this.telling = undefined;
    }

    async copyLink() {
        const address = await this.address();
        let said = 'Too long: save Page';
        if (address !== null) {
            history.replaceState(null, '', address);
            said = await navigator.clipboard?.writeText(location.href).then(() => 'Copied', () => null) ?? 'In the address bar';
        }
        at('link').textContent = said;
        at('sharing').hidden = location.protocol !== 'file:';
        setTimeout(() => { at('link').textContent = 'Copy link'; }, 2500);
    }

    saveScript() {
        save(`${at('example').value || 'own'}.script`, 'text/plain', this.text);
    }

    // Saves this page, so that it begins with what is shown, whatever its address is.
    async savePage() {
        const { player } = this, line = player.at > 0 ? `&line=${player.lines[player.at - 1] + 1}` : '';
        const address = await this.address() ?? `#script=${encodeURIComponent(player.text)}${line}`;
        save(`${at('example').value || 'own'}.html`, 'text/html', pageOf(this.whole, address));
    }

    async savePicture(kind) {
        const svg = this.ladder.whole(), text = pictureOf(svg), name = `${at('example').value || 'ladder'}.${kind}`;
        const size = ['width', 'height'].map((it) => Number(svg.getAttribute(it)));
        if (kind === 'svg') save(name, 'image/svg+xml', text);
        else save(name, 'image/png', await pngOf(text, ...size));
    }

    // Increases the count of the packet in the field.
    nextPacket() {
        const next = (_, head, count) => head + (0xc000 | parseInt(count, 16) + 1 & 0x3fff).toString(16).toUpperCase();
        at('octets').value = at('octets').value.replace(/^([0-9A-F]{4})([CDEF][0-9A-F]{3})/i, next);
    }

    decode() {
        const digits = at('pasted').value.replace(/\s/g, ''), octets = octetsOf(digits);
        const [, read] = KINDS[at('kind').value], wrong = make('p', 'invalid', 'no pairs of hexadecimal digits');
        at('decoded').replaceChildren(digits === '' ? '' : octets ? decoded(read(this.calls, octets)) : wrong);
    }

    // Draws again if the width has changed.
    resized() {
        if (at('ladder').clientWidth !== this.ladder.from) this.draws((it) => it.show(this.player));
    }

    // Does something to both drawings, if they are visible.
    draws(act) {
        if (!at('scripts').hidden && this.player.script !== undefined) [this.list, this.ladder].forEach(act);
    }
}
