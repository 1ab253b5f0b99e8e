// The view of the page for choosing managed parameters: sliders for a link, the curves of the formulas, and a point for
// each run of the library's own nodes (choosing.mjs).
import { choices, expected, ran, WINDOWS } from './choosing.mjs';
import { make } from './panels.mjs';

const WIDTH = 560, HEIGHT = 290, LEFT = 46, BELOW = 40, ABOVE = 18, RIGHT = 16, FIRST = 150;
// The numbers that describe a link, each with its name, label, unit, minimum, maximum, step and initial value.
const FIELDS = [
    ['loss', 'Frames lost on the uplink', '%', 0, 30, 0.5, 3], ['down', 'CLCWs lost', '%', 0, 30, 0.5, 0],
    ['trip', 'Round trip, both directions', 's', 0.1, 30, 0.1, 2], ['rate', 'Bit rate of the uplink', 'bit/s', 500, 64000, 500, 4000],
    ['octets', 'Frame length', 'octets', 20, 1000, 1, 64], ['clcw', 'Time between CLCWs', 's', 0.1, 10, 0.1, 1],
    ['tick', 'Time between ticks', 's', 0.1, 10, 0.1, 1], ['packets', 'Packets', '', 100, 2000, 100, 500],
];
const LINKS = {
    'Low orbit, 3 % lost': {}, '16 s round trip': { trip: 16, down: 3, packets: 1000 }, 'No loss': { loss: 0 },
};
const at = (name) => document.getElementById(name);

function shape(name, fields, ...within) {
    const it = document.createElementNS('http://www.w3.org/2000/svg', name);
    for (const [key, value] of Object.entries(fields)) it.setAttribute(key, value);
    it.append(...within);
    return it;
}

// Draws a plot over the window, with both axes logarithmic to base 2.
function plot(box, title, curve, points, chosen) {
    const most = Math.max(2, ...[...curve, ...points].map(([, y]) => y)), top = Math.max(1, Math.ceil(Math.log2(most)));
    const x = (it) => LEFT + (WIDTH - LEFT - RIGHT) * Math.log2(it) / 7;
    const y = (it) => HEIGHT - BELOW - (HEIGHT - BELOW - ABOVE) * Math.log2(it) / top;
    const svg = shape('svg', { class: 'plot', viewBox: `0 0 ${WIDTH} ${HEIGHT}`, role: 'img', 'aria-label': title });
    for (let k = 0; k <= 7; k++) {
        svg.append(shape('line', { class: 'grid', x1: x(2 ** k), x2: x(2 ** k), y1: ABOVE, y2: HEIGHT - BELOW }),
            shape('text', { x: x(2 ** k), y: HEIGHT - BELOW + 16, 'text-anchor': 'middle' }, `${k === 7 ? 127 : 2 ** k}`));
    }
    for (let k = 0; k <= top; k++) {
        svg.append(shape('line', { class: 'grid', x1: LEFT, x2: WIDTH - RIGHT, y1: y(2 ** k), y2: y(2 ** k) }),
            shape('text', { x: LEFT - 8, y: y(2 ** k) + 4, 'text-anchor': 'end' }, `${2 ** k}`));
    }
    const isRight = chosen > 60, line = curve.map(([a, b], k) => `${k ? 'L' : 'M'}${x(a).toFixed(1)} ${y(b).toFixed(1)}`).join(' ');
    svg.append(shape('text', { x: (LEFT + WIDTH) / 2, y: HEIGHT - 6, 'text-anchor': 'middle' }, 'window'),
        shape('line', { class: 'chosen', x1: x(chosen), x2: x(chosen), y1: ABOVE, y2: HEIGHT - BELOW }),
        shape('text', { class: 'chosen', x: x(chosen) + (isRight ? -6 : 6), y: ABOVE + 10, 'text-anchor': isRight ? 'end' : 'start' }, `window ${chosen}`),
        shape('path', { class: 'curve', d: line }),
        ...points.map(([a, b]) => shape('circle', { cx: x(a), cy: y(b), r: 4.5 }, shape('title', {}, `window ${a}: ${b.toFixed(2)}`))));
    box.replaceChildren(svg);
}

export class Choosing {
    constructor(calls) {
        this.calls = calls;
        at('sliders').append(...FIELDS.map((it) => this.slider(...it)));
        at('links').append(...Object.keys(LINKS).map((name) => {
            const button = make('button', '', name);
            button.addEventListener('click', () => this.set(LINKS[name]));
            return button;
        }));
    }

    slider(name, what, unit, min, max, step, value) {
        const input = document.createElement('input');
        Object.assign(input, { type: 'range', id: `choose-${name}`, min, max, step, value });
        input.addEventListener('input', () => this.anew());
        return make('label', '', make('span', '', what), ' ', make('output', ''), ` ${unit}`, input);
    }

    // Sets these numbers, and all others to their initial values.
    set(values) {
        for (const [name, , , , , , usual] of FIELDS) at(`choose-${name}`).value = values[name] ?? usual;
        this.anew();
    }

    begin() {
        if (this.it === undefined) this.anew();
        else this.tell();
    }

    // Sets the numbers that the address contains.
    beginWith(asked) {
        this.set(Object.fromEntries(asked));
    }

    // Writes the numbers into the address.
    tell() {
        history.replaceState(null, '', `#choose&${FIELDS.map(([name]) => `${name}=${at(`choose-${name}`).value}`).join('&')}`);
    }

    // Shows the formulas, and runs one window after another.
    anew() {
        clearTimeout(this.timer);
        const it = { seed: 1 }, left = [...WINDOWS], points = [];
        for (const [name] of FIELDS) it[name] = Number(at(`choose-${name}`).value);
        Object.assign(it, { loss: it.loss / 100, down: it.down / 100 });
        this.it = it;
        this.by = choices(it);
        delete at('choosing').dataset.done;
        this.show(points);
        this.tell();
        const next = () => {
            const window = left.shift(), found = ran(this.calls, it, { ...this.by, window });
            if (found !== null) points.push([window, found]);
            this.show(points);
            if (left.length > 0) this.timer = setTimeout(next);
            else at('choosing').dataset.done = '';
        };
        this.timer = setTimeout(next, FIRST);
    }

    show(points) {
        const { it, by } = this, curve = Array.from({ length: 127 }, (_, k) => [k + 1, expected(it, k + 1, by.count)]);
        for (const [name] of FIELDS) at(`choose-${name}`).parentElement.querySelector('output').textContent = at(`choose-${name}`).value;
        plot(at('times'), 'Time for each packet over the window', curve.map(([k, { time }]) => [k, time]),
            points.map(([k, { seconds }]) => [k, seconds / it.packets / by.frame]), by.window);
        plot(at('carried'), 'Frames for each packet over the window', curve.map(([k, { carried }]) => [k, carried]),
            points.map(([k, { carried }]) => [k, carried / it.packets]), by.window);
        at('chosen').textContent = `window=${by.window}  timer=${by.timer}  limit=${by.limit}`;
        at('why').textContent = `A frame takes ${by.frame.toPrecision(3)} s; the longest round trip is `
            + `${by.longest.toPrecision(4)} s, or ${by.count} frames.`
            + (by.count > 127 ? ' No window is that large, so the uplink is idle at times.' : '');
        at('shell').textContent = `bench/choose --rate ${it.rate} --octets ${it.octets} --round-trip ${it.trip} --clcw ${it.clcw} `
            + `--tick ${it.tick} --loss ${it.loss} --loss-down ${it.down} --packets ${it.packets} --try window=${WINDOWS.join(',')}`;
        at('runs').replaceChildren(...points.map((point) => this.row(...point)));
    }

    row(window, { seconds, carried, alerts }) {
        const { it, by } = this, wanted = expected(it, window, by.count), least = seconds / it.packets / by.frame;
        const cells = [window, seconds.toFixed(0), least.toFixed(2), wanted.time.toFixed(2), (carried / it.packets).toFixed(2),
            wanted.carried.toFixed(2), alerts];
        return make('tr', '', cells.map((cell) => make('td', '', `${cell}`)));
    }
}
