// A script as its lines and its events. If a script differs from the previous one in some lines, only those are read.
import { eventOf, scriptOf } from '../link.mjs';

const isSkipped = (row) => row === '' || row.startsWith('#');
const isConfig = (row) => row.startsWith('config ');

// Returns the number of lines. If the last one is empty, after the last line end, it does not count.
export function countOf(rows) {
    return rows.length - (rows.at(-1) === '' && rows.length > 1 ? 1 : 0);
}

// Returns the index of the first number that is at least `least`, in ascending numbers.
export function placeOf(numbers, least) {
    let from = 0, to = numbers.length;
    while (from < to) {
        const middle = (from + to) >> 1;
        if (numbers[middle] < least) from = middle + 1;
        else to = middle;
    }
    return from;
}

// Returns how many lines two scripts share at their beginnings, and then at their ends.
function shared(one, other) {
    const most = Math.min(one.length, other.length);
    let head = 0, tail = 0;
    while (head < most && one[head] === other[head]) head++;
    while (tail < most - head && one[one.length - 1 - tail] === other[other.length - 1 - tail]) tail++;
    return { head, tail };
}

function readWhole(text, rows) {
    const { config, events } = scriptOf(text), lines = [];
    rows.forEach((row, k) => {
        if (!isSkipped(row) && !isConfig(row)) lines.push(k);
    });
    return { rows, config, events, lines, configured: rows.findLastIndex(isConfig) + 1 };
}

// Reads the lines that differ. Returns null if the whole script must be read, for example because a line is unreadable
// or belongs to the configuration.
function readAgain(before, rows) {
    const { head, tail } = shared(before.rows, rows), shift = rows.length - before.rows.length;
    const events = [], lines = [], differing = [before.rows, rows].map((it) => it.slice(head, it.length - tail));
    if (head < before.configured || differing.flat().some((row) => row.startsWith('config'))) return null;
    for (const [k, line] of differing[1].entries()) {
        if (isSkipped(line)) continue;
        const event = eventOf(line);
        if (event === null) return null;
        events.push({ line, event });
        lines.push(head + k);
    }
    const from = placeOf(before.lines, head), to = placeOf(before.lines, before.rows.length - tail);
    return {
        ...before, rows, events: before.events.slice(0, from).concat(events, before.events.slice(to)),
        lines: before.lines.slice(0, from).concat(lines, before.lines.slice(to).map((it) => it + shift)),
    };
}

// Reads a script. Returns its rows, which are all its lines, the configuration, the events, and the row of each event.
// Throws an Error that names an unreadable line.
export function readScript(text, before) {
    const rows = text.split('\n');
    return (before && readAgain(before, rows)) ?? readWhole(text, rows);
}
