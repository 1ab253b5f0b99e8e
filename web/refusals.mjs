// Tests that each call refuses each wrong argument, and then does not run: `node refusals.mjs MODULE` reads the calls
// and the structs of the headers from standard input, as web/refusals writes them. Octets, a struct, an element of an
// array and a field of a nested struct are each tried with values that its C type cannot hold (RangeError), and with
// values of another kind (TypeError).
import assert from 'node:assert/strict';
import { readFileSync } from 'node:fs';
import { load } from './sedgechisel.mjs';

const { calls, structs } = JSON.parse(readFileSync(0, 'utf8'));
const BITS = { uint8_t: 8n, uint16_t: 16n, uint32_t: 32n, size_t: 32n, pointer: 32n, uint64_t: 64n };
const NO_NUMBERS = [undefined, null, 0.5, NaN, Infinity, -Infinity, '4', '', true, [], [4], {}, Symbol('4'), () => 4];
const NO_BOOLS = [undefined, null, 2, -1, 0.5, NaN, 'true', '', 1n, [], {}];
const NO_OCTETS = [undefined, null, 7, '0102', [1, 2], new ArrayBuffer(2), new Uint16Array(2), { length: 2 }];
const NO_OBJECTS = [undefined, null, 7, 7n, 'it', true, [], new Uint8Array(4), () => ({})];

let ran = 0, tried = 0;
const { instantiate } = WebAssembly;
const counted = (it) => (typeof it === 'function' ? (...words) => { ran++; return it(...words); } : it);
WebAssembly.instantiate = async (...given) => {
    const { instance } = await instantiate(...given);
    return { exports: Object.fromEntries(Object.entries(instance.exports).map(([name, it]) => [name, counted(it)])) };
};
const sedge = await load(readFileSync(process.argv[2]));

// The wrong values of a C type, each with the error that it must cause.
function wrongNumbers(type) {
    if (type === 'bool') return NO_BOOLS.map((it) => [it, TypeError]);
    const most = 1n << BITS[type], kind = type === 'uint64_t' ? BigInt : Number;
    const outside = [kind(most), kind(most + 4n), -1, kind(-4n), 2 ** 64, 1e300].map((it) => [it, RangeError]);
    const own = type === 'uint64_t' ? [[2 ** 53, RangeError], [-1n, RangeError]] : [[4n, TypeError]];
    return [...outside, ...own, ...NO_NUMBERS.map((it) => [it, TypeError])];
}

function replaced(list, at, value) {
    return list.map((it, k) => (k === at ? value : it));
}

function isStruct(type) {
    return type.startsWith('struct ');
}

// The wrong values of a struct field, for its type or for an array of `count` elements of that type.
function wrongFields({ type, count }) {
    const values = isStruct(type) ? wrongObjects(type.slice(7)) : wrongNumbers(type);
    if (count === 0) return values;
    const whole = Array(count).fill(0);
    const within = (at) => values.map(([it, error]) => [replaced(whole, at, it), error]);
    const lengths = [[], whole.slice(1), [...whole, 0]].map((it) => [it, RangeError]);
    const kinds = [undefined, null, 7, '0'.repeat(count), { length: count }, Array(count)].map((it) => [it, TypeError]);
    return [...within(0), ...within(count - 1), ...lengths, ...kinds];
}

// The fields of a struct; a pointer to octets and the count of the octets are one field.
function fieldsOf(name) {
    const fields = structs[name];
    return fields.filter((it, k) => !(it.name === 'count' && fields[k - 1]?.type === 'pointer'))
        .map((it) => ({ ...it, isOctets: it.type === 'pointer' && fields.some((one) => one.name === 'count') }));
}

function wrongObjects(name) {
    const found = NO_OBJECTS.map((it) => [it, TypeError]);
    for (const field of fieldsOf(name)) {
        const values = field.isOctets ? NO_OCTETS.map((it) => [it, TypeError]) : wrongFields(field);
        found.push(...values.map(([it, error]) => [{ [field.name]: it }, error]));
    }
    return found;
}

// The parameters of a call in JavaScript, each with a value that is accepted and the values that are not.
function parametersOf(given) {
    const found = [];
    for (let k = 0; k < given.length; k++) {
        const { name, type, is_pointer: isPointer, is_const: isConst } = given[k];
        const written = isConst ? [] : [[Object.freeze({}), TypeError]];
        if (isPointer && type === 'uint8_t' && given[k + 1]?.type === 'size_t' && !given[k + 1].is_pointer) {
            found.push({ name, good: new Uint8Array(16), wrong: NO_OCTETS.map((it) => [it, TypeError]) });
            k++;
        } else if (isPointer) {
            const wrong = isStruct(type) ? wrongObjects(type.slice(7)) : NO_OBJECTS.map((it) => [it, TypeError]);
            found.push({ name, good: {}, wrong: [...wrong, ...written] });
        } else {
            found.push({ name, good: type === 'bool' ? false : type === 'uint64_t' ? 0n : 0, wrong: wrongNumbers(type) });
        }
    }
    return found;
}

function refuses(name, values, error) {
    const before = ran;
    assert.throws(() => sedge[name](...values), (it) => it.constructor === error && it.message.includes(':'), name);
    assert.equal(ran, before, `${name} has run`);
    tried++;
}

for (const [name, given] of Object.entries(calls)) {
    const parameters = parametersOf(given), good = () => parameters.map((it) => structuredClone(it.good));
    sedge[name](...good());
    parameters.forEach(({ wrong }, k) => {
        for (const [value, error] of wrong) refuses(name, replaced(good(), k, value), error);
    });
    refuses(name, [...good(), 0], TypeError);
    if (parameters.length > 0) refuses(name, good().slice(0, -1), TypeError);
}
const said = `${tried} wrong arguments of ${Object.keys(calls).length} calls`;
assert.ok(Object.keys(calls).length > 90 && tried > 10_000, said);
console.log(`${said} are refused`);
