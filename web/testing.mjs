// What the tests of the classes for JavaScript share: the worked octets of docs/PROFILE.md, the check of its sections on
// commands by a loop over bits, and random numbers.
import assert from 'node:assert/strict';
import { readFileSync } from 'node:fs';
import { octetsOf } from './link.mjs';

export const textOf = (file) => readFileSync(new URL(`../${file}`, import.meta.url), 'utf8');

// Returns the worked octets in a section of docs/PROFILE.md whose row begins with `what`; `k` selects one of several in
// a row. The row may have octets that repeat, such as 24 times `00`.
export function worked(section, what, k = 0) {
    const [, text] = textOf('docs/PROFILE.md').split(`\n## ${section}\n`);
    const row = text.split('**Worked octets**')[1].split('\n').find((it) => it.startsWith(`| ${what}`));
    const found = row.split('|')[2].replace(/(?:`, )?(\d+) times `00`(?:, `)?/g, (_, count) => ` ${'00 '.repeat(count)}`);
    return octetsOf([...found.matchAll(/`([0-9A-F ]+)`/g)][k][1].replaceAll(' ', ''));
}

// CRC-32 of octets after others, bit by bit.
export function crc(octets, before = 0) {
    let it = ~before;
    for (const octet of octets) {
        it ^= octet;
        for (let k = 0; k < 8; k++) it = it & 1 ? it >>> 1 ^ 0xedb88320 : it >>> 1;
    }
    return ~it >>> 0;
}

// Returns a generator of whole numbers below a limit, determined by a seed (mulberry32).
export function chances(seed) {
    let state = seed;
    return (most) => {
        state = state + 0x6d2b79f5 | 0;
        let it = Math.imul(state ^ state >>> 15, 1 | state);
        it = it + Math.imul(it ^ it >>> 7, 61 | it) ^ it;
        return Math.floor(((it ^ it >>> 14) >>> 0) / 4294967296 * most);
    };
}

// Returns a test that a call throws a fault of this class, with this number and name.
export function refusedBy(kind) {
    return (call, number, name) => {
        assert.throws(call, (it) => it instanceof kind && it.number === number && it.name === name
            && it.message === `${number} ${name}: ${it.meaning}`, `${call}`);
    };
}

// Returns the names of the methods of a class of the package for Python, in camel case.
export function methodsInPython(text, name) {
    const body = text.slice(text.search(new RegExp(`^class ${name}\\b`, 'm'))).split(/\n(?=\S)/)[0];
    return [...body.matchAll(/^    def ([a-z]\w*)\(/gm)].map(([, it]) => it.replace(/_(.)/g, (_, one) => one.toUpperCase()));
}
