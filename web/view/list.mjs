// The lines of a script with their answers. Only the visible lines, and some around them, are drawn. The number of rows
// of each line is known before it is drawn, because letters have equal width and lines are broken here.
import { make } from './panels.mjs';
import { countOf, placeOf } from './script.mjs';

const ROW = 17, AROUND = 2600, INDENT = 58, LONGEST = 2000, MOST_PRINTED = 2000;

// Breaks a text into parts of at most `most` letters, each with the element that ends it: `br` replaces a space.
export function broken(text, most) {
    const parts = [];
    let rest = text.length > LONGEST ? `${text.slice(0, LONGEST)}..` : text;
    while (rest.length > most) {
        const space = rest.lastIndexOf(' ', most), at = space > 0 ? space : most;
        parts.push([rest.slice(0, at), space > 0 ? 'br' : 'wbr']);
        rest = rest.slice(space > 0 ? at + 1 : at);
    }
    return [...parts, [rest, '']];
}

const nodes = (parts) => parts.flatMap(([text, end]) => (end === '' ? [text] : [text, document.createElement(end)]));

export class List {
    constructor(box, list) {
        Object.assign(this, { box, list, tops: [0], answers: [], most: 40 });
        box.addEventListener('scroll', () => this.draw());
    }

    // Computes how many letters fit into a row.
    measure() {
        const probe = make('span', 'probe', '0'.repeat(100));
        this.list.append(probe);
        const width = probe.getBoundingClientRect().width / 100;
        probe.remove();
        this.from = this.box.clientWidth;
        this.most = Math.max(16, Math.floor((this.from - INDENT) / (width || 7)));
    }

    rowsOf(text) {
        return text.length <= this.most ? 1 : broken(text, this.most).length;
    }

    // Shows the lines, with the answers to those that have been played.
    show({ rows, lines, steps, at }) {
        if (this.from !== this.box.clientWidth) this.measure();
        const count = countOf(rows), tops = new Float64Array(count + 1);
        const answers = Array(count).fill('');
        for (let k = 0; k < at; k++) answers[lines[k]] = steps[k].answer;
        for (let k = 0; k < count; k++) {
            tops[k + 1] = tops[k] + ROW * (this.rowsOf(rows[k]) + (answers[k] === '' ? 0 : this.rowsOf(answers[k])));
        }
        Object.assign(this, { rows, count, tops, answers, current: at === 0 ? 0 : lines[at - 1], drawn: undefined });
        this.list.style.height = `${tops[count] + 8}px`;
        this.box.scrollTop = tops[this.current] - this.box.clientHeight / 2;
        this.draw();
    }

    // Draws the visible lines.
    draw() {
        const { scrollTop, clientHeight } = this.box, { drawn, tops, count } = this;
        const from = Math.max(0, placeOf(tops, scrollTop + 1) - 1), to = Math.min(count, placeOf(tops, scrollTop + clientHeight));
        if (drawn && from >= drawn[0] && to <= drawn[1]) return;
        const first = Math.max(0, placeOf(tops, scrollTop - AROUND) - 1);
        this.drawn = [first, Math.min(count, placeOf(tops, scrollTop + clientHeight + AROUND))];
        this.list.replaceChildren(...Array.from({ length: this.drawn[1] - first }, (_, k) => this.line(first + k)));
    }

    // Draws all lines for printing, or keeps those around the last one if there are too many, until `show` draws again.
    drawWhole() {
        if (this.count > MOST_PRINTED) return;
        this.drawn = [0, this.count];
        this.list.replaceChildren(...this.rows.slice(0, this.count).map((_, k) => this.line(k)));
    }

    line(k) {
        const row = this.rows[k], answer = this.answers[k], kinds = [row.startsWith('#') ? 'remark' : '', answer && 'played'];
        const shown = answer === '' ? [] : nodes(broken(answer, this.most));
        const it = make('li', kinds.join(' ').trim(), make('code', '', nodes(broken(row, this.most))), ' ',
            make('b', 'answer', shown));
        it.style.top = `${this.tops[k]}px`;
        it.dataset.line = k + 1;
        it.setAttribute('aria-posinset', k + 1);
        it.setAttribute('aria-setsize', this.count);
        if (k === this.current) it.setAttribute('aria-current', 'step');
        return it;
    }
}
