// The ladder of the session: the ground on the left, the spacecraft on the right, a row for each line, an arrow for
// each frame, a cross on a lost one, and only the beginning of the arrow for one in transit. Each end has the colour of
// its machine's state. Only the visible rows, and some around them, are drawn.
import { onBoard } from '../calls.mjs';
import { numbers as n } from '../sedgechisel.mjs';
import { arrowHint, rowHint, turnsOf } from './hints.mjs';
import { frameName, reportName } from './words.mjs';

const ROW = 26, TOP = 54, AROUND = 20, ABOVE = 2, BELOW = 4, MOST_ACROSS = 100, MOST_ROWS = 1000;

function shape(name, fields, ...within) {
    const it = document.createElementNS('http://www.w3.org/2000/svg', name);
    for (const [key, value] of Object.entries(fields)) it.setAttribute(key, value);
    it.append(...within);
    return it;
}

function cut(text, most) {
    return text.length > most ? `${text.slice(0, most - 2)}..` : text;
}

// Fits words into one line, or two if they are too long: a line of the script and its answer, or one of these.
function fit(parts, most) {
    const whole = parts.join(': '), left = most - 2 - (parts[1]?.length ?? 0), at = whole.lastIndexOf(' ', most);
    if (whole.length <= most) return [whole];
    if (parts.length === 2 && left > 11) return [`${cut(parts[0], left)}: ${parts[1]}`];
    if (parts.length === 2) return parts.map((it) => cut(it, most));
    return at <= 0 ? [cut(whole, most)] : [whole.slice(0, at), cut(whole.slice(at + 1), most)];
}

// Returns words at x, in one or two lines.
function text(x, y, lines, anchor = 'middle', kind = '') {
    const spans = lines.map((line, k) => shape('tspan', { x, dy: k === 0 ? 0 : '1.05em' }, line));
    return shape('text', { x, y: y - 6 * (lines.length - 1), 'text-anchor': anchor, class: kind }, ...spans);
}

export class Ladder {
    constructor(box, calls, made) {
        Object.assign(this, { box, calls, made, canvas: document.createElement('div') });
        this.canvas.className = 'canvas';
        box.append(this.canvas);
        box.addEventListener('scroll', () => this.player && this.draw());
    }

    // Takes the width of the box. Computes where the ends are, and how many letters fit next to them.
    measure() {
        const from = this.box.clientWidth, width = Math.max(300, Math.min(from, 900));
        const size = Math.max(10, Math.min(width / 45, 13)), side = Math.min(300, width * 0.34);
        Object.assign(this, { from, width, size, ground: side, craft: width - side, letter: 0.61 * size });
    }

    heightOf(count) {
        return TOP + ROW * Math.max(count, 6) + 8;
    }

    // Shows the lines that a player has played, followed by the rows that were played before. Scrolls from `from`, no
    // further than needed, so that a row is visible: that of the last line, unless another is given.
    show(player, row = player.at - 1, from = this.box.scrollTop) {
        if (this.from !== this.box.clientWidth) this.measure();
        Object.assign(this, { player, count: player.at, end: player.steps.length, drawn: undefined });
        this.canvas.style.height = `${this.heightOf(this.end)}px`;
        const y = TOP + ROW * row, least = y + ROW * BELOW - this.box.clientHeight;
        this.box.scrollTop = Math.min(Math.max(from, least), Math.max(least, y - ROW * ABOVE));
        this.draw();
    }

    // Draws the visible rows.
    draw() {
        const rowAt = (y) => Math.min(this.end, Math.max(0, Math.round((y - TOP) / ROW)));
        const { scrollTop, clientHeight } = this.box, from = rowAt(scrollTop), to = rowAt(scrollTop + clientHeight) + 1;
        if (this.drawn && from >= this.drawn[0] && to <= this.drawn[1] + 1) return;
        this.drawn = [rowAt(scrollTop - ROW * AROUND), rowAt(scrollTop + clientHeight + ROW * AROUND)];
        this.svg = this.part(...this.drawn);
        this.canvas.replaceChildren(this.svg);
    }

    // Returns a separate drawing of all rows played, or of the last ones if there are too many.
    whole() {
        const { end, count } = this;
        this.end = count;
        const svg = this.part(Math.max(0, count - MOST_ROWS), count);
        this.end = end;
        return svg;
    }

    // Draws these rows for printing, until `show` draws the visible ones again.
    drawWhole() {
        const svg = this.whole();
        svg.style.top = 0;
        this.canvas.style.height = `${svg.getAttribute('height')}px`;
        this.canvas.replaceChildren(svg);
        this.drawn = [0, this.count];
    }

    part(from, to) {
        const top = from === 0 ? 0 : TOP + ROW * (from - 0.5), end = TOP + ROW * (to - 0.5);
        const height = to === this.end ? this.heightOf(to) - top : end - top, bottom = top + height - 12;
        const ends = [this.ground, this.craft].map((x) => shape('line', { class: 'end', x1: x, y1: top + 34, x2: x, y2: bottom }));
        const names = [text(this.ground, top + 24, ['ground']), text(this.craft, top + 24, ['spacecraft'])];
        const row = { x: 0, y: TOP + ROW * (this.count - 1.5), height: ROW };
        const now = [['now row', this.width], ['now', 5]].map(([kind, width]) => shape('rect', { class: kind, ...row, width }));
        const label = `Ladder of ${this.count} lines, which the list of lines has in words`;
        const svg = shape('svg', { role: 'img', class: 'ladder', width: this.width, height, 'aria-label': label,
            viewBox: `0 ${top} ${this.width} ${height}` });
        svg.style.fontSize = `${this.size}px`;
        svg.style.top = `${top}px`;
        const steps = this.player.steps.slice(from, to), each = (draw) => steps.map((step, k) => draw(step, from + k));
        const isNow = this.count > from && this.count <= to;
        svg.append(...each((step, k) => this.place(step, k)), ...isNow ? now : [], ...ends, ...from === 0 ? names : []);
        svg.append(...each((step, k) => this.bars(step, k)), ...this.across(to));
        svg.append(...each((step, k) => this.row(step, k)));
        return svg;
    }

    // Returns whether a row comes after the last line. Such rows were played before; they stay, with their arrows.
    isLater(k) {
        return k >= this.count;
    }

    isGone(sent, k) {
        return sent.left !== undefined && (this.isLater(k) || !this.isLater(sent.left));
    }

    // Returns the arrows that begin before a row and end after it.
    across(to) {
        if (to === this.end || to === 0) return [];
        const { up, down } = this.player.inTransit(this.player.steps[to - 1]);
        const ending = [...up.slice(0, MOST_ACROSS), ...down.slice(0, MOST_ACROSS)].filter(({ left }) => left >= to);
        return ending.map((it) => this.frame(this.player.steps[it.left], it.left));
    }

    row(step, k) {
        const y = TOP + ROW * k, kind = this.isLater(k) ? 'later' : k === this.count - 1 ? 'chosen' : '';
        const group = shape('g', { class: kind });
        if (step.sent && !this.isGone(step.sent, k)) group.append(this.stub(step.sent, y, k));
        if (step.gone) group.append(this.frame(step, k));
        group.append(...this.turns(step, y), this.told(step, y));
        return group;
    }

    frame(step, k) {
        const group = shape('g', { class: `frame${this.isLater(k) ? ' later' : ''}`, 'data-gone': k });
        group.append(...this.arrow(step, TOP + ROW * k));
        group.append(shape('title', {}, arrowHint(this.player, step, this.made)));
        return group;
    }

    // Returns the clickable area under a row.
    place(step, k) {
        const place = { class: 'place', x: 0, y: TOP + ROW * (k - 0.5), width: this.width, height: ROW };
        const hint = shape('title', {}, rowHint(this.player, step, this.made));
        return shape('g', { 'data-step': k }, shape('rect', place, hint));
    }

    // Draws the part of each end next to a row, in the colour of its machine's state, and how much of the window, of
    // the timer and of the board's buffer is used.
    bars(step, k) {
        const { fop, farm } = step.after, y = TOP + ROW * k, width = this.isLater(k) ? 4 : 8;
        const end = (x, state) => shape('rect', { class: `band ${state}`, x: x - width / 2, y, width, height: ROW });
        const part = (x, kind, of, most, down) => shape('rect', { class: `used ${kind}`, x, y: y + down, height: 3,
            width: of === 0 ? 0 : Math.max(3, Math.round(18 * Math.min(1, of / Math.max(most, 1)))) });
        const { ready_slots: slots } = this.player.config;
        return shape('g', { class: 'bars' }, end(this.ground, `fop${fop.state}`), end(this.craft, `farm${farm.state}`),
            part(this.ground + 5, 'window', fop.sent, fop.window, 17), part(this.ground + 5, 'timer', fop.ticks, fop.timer, 21),
            part(this.craft + 5, 'buffer', farm.ready, slots, 19));
    }

    // Draws the changes of state of both machines.
    turns(step, y) {
        const { fop, farm } = turnsOf(step), { after } = step;
        return [fop && text(this.ground + 28, y + 14, [fop], 'start', `turn fop${after.fop.state}`),
            farm && text(this.craft - 9, y + 14, [farm], 'end', `turn farm${after.farm.state}`)].filter(Boolean);
    }

    // Returns how many letters fit into a width.
    most(width) {
        return Math.floor((width - 12) / this.letter);
    }

    // Returns where a frame begins and ends, and its label.
    way({ word, frame }) {
        if (word === undefined) return { isUp: true, start: this.ground, end: this.craft, label: frameName(frame) };
        return { isUp: false, start: this.craft, end: this.ground, label: reportName(word) };
    }

    // Draws the beginning of an arrow, for a frame in transit.
    stub(sent, y, k) {
        const { isUp, start, end, label } = this.way(sent), x = start + (end - start) * 0.2;
        const name = text(x + (isUp ? 8 : -8), y + 10, [label], isUp ? 'start' : 'end');
        return shape('g', { class: 'stub', 'data-sent': k }, shape('line', { x1: start, y1: y, x2: x, y2: y + 6 }),
            shape('circle', { cx: x, cy: y + 6, r: 2.5 }), name,
            shape('title', {}, `${label}, in transit. Click: it is lost.`));
    }

    arrow({ gone, reply }, y) {
        const { start, end, label } = this.way(gone), begun = TOP + ROW * gone.from;
        const x = (start + end) / 2, at = (begun + y) / 2;
        if (reply.kind === n.SEDGE_REPLY_LOST) {
            const cross = shape('path', { class: 'lost cross', d: `M ${x - 5} ${at - 5} l 10 10 m 0 -10 l -10 10` });
            const line = { x1: start, y1: begun, x2: x, y2: at };
            return [shape('line', { class: 'reach', ...line }), shape('line', { class: 'lost', ...line }), cross];
        }
        const isDamaged = reply.up.kind === n.SEDGE_RECEIVED_INVALID || reply.down.kind === n.SEDGE_HEARD_INVALID;
        const kind = isDamaged ? 'lost' : 'arrow', line = { x1: start, y1: begun, x2: end, y2: y };
        const words = fit([isDamaged ? `${label} damaged` : label], this.most(this.craft - this.ground));
        return [shape('line', { class: 'reach', ...line }),
            shape('line', { class: kind, ...line, 'marker-end': `url(#${kind}-tip)` }), text(x, at - 4, words)];
    }

    // Returns the words next to the ends: a line of the script, its answer, or both.
    told({ line, answer, event, reply, sent, gone }, y) {
        const [word] = line.split(' '), isLost = reply.kind === n.SEDGE_REPLY_LOST;
        if (event.kind === 0) {
            return text(this.width / 2, y + 8, fit([answer], this.most(this.width)), 'middle', 'told');
        }
        if (gone) {
            const { isUp, label } = this.way(gone);
            return this.beside(isUp, y, [isLost ? `${label} is lost` : answer]);
        }
        if (word === 'send' && sent) {
            return this.beside(false, y, [`send ${frameName(sent.frame)}${sent.again === undefined ? '' : ' again'}`]);
        }
        return this.beside(onBoard.includes(event.kind), y, word === 'report' ? [answer] : [line, answer]);
    }

    beside(isOnBoard, y, parts) {
        const x = isOnBoard ? this.craft + 10 : this.ground - 10;
        return text(x, y + 4, fit(parts, this.most(this.ground)), isOnBoard ? 'start' : 'end', 'told');
    }
}
