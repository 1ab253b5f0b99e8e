// Both libraries for JavaScript: load(source) returns the calls of c/include/sedgechisel.h and sedgechisel_nodes.h by
// their names there, from the module that web/build makes. Octets are a Uint8Array, which a call copies in, and out if
// it writes them; its length is the number that follows it in C. A struct is an object with the struct's fields, and a
// pointer to a number is an object with a value. A call writes into the objects that are passed to it.
import { listOf, numberOf, objectOf, octetsOf } from './arguments.mjs';
import { calls, numbers, structs, texts } from './calls.mjs';

export { numbers };

const PAGE = 65536;
const NONE = new Uint8Array(0);
const SIZES = { bool: 1, uint8_t: 1, uint16_t: 2, uint32_t: 4, size_t: 4, pointer: 4, uint64_t: 8 };

// How a number is read from the module's memory, and written there.
const READ = { 1: (view, at) => view.getUint8(at), 2: (view, at) => view.getUint16(at, true),
    4: (view, at) => view.getUint32(at, true), 8: (view, at) => view.getBigUint64(at, true) };
const WRITE = { 1: (view, at, it) => view.setUint8(at, it), 2: (view, at, it) => view.setUint16(at, it, true),
    4: (view, at, it) => view.setUint32(at, it, true), 8: (view, at, it) => view.setBigUint64(at, it, true) };

// The memory of nodes, and of the arguments of calls: places of 16, 32, 64 .. octets after the module's own memory,
// with a list of the free places of each size. An array contains the order of each place (its size as a power of 2),
// indexed by its address, because deleting an entry of a large Map is slow.
class Places {
    constructor(memory, begin) {
        this.memory = memory;
        this.end = (begin + 15) & ~15;
        this.free = Array.from({ length: 32 }, () => []);
        this.orders = new Uint8Array(1 << 16);
    }

    // Returns the address of a free place, or 0 if memory runs out.
    take(count) {
        const order = count <= 16 ? 4 : 32 - Math.clz32(count - 1), size = 2 ** order;
        const at = this.free[order]?.pop() ?? this.end;
        if (at === this.end) {
            const more = Math.ceil((at + size - this.memory.buffer.byteLength) / PAGE);
            try {
                if (more > 0) this.memory.grow(more);
            } catch {
                return 0;
            }
            this.end += size;
            if (this.orders.length <= at / 16) this.widen(at / 16);
        }
        this.orders[at / 16] = order;
        return at;
    }

    widen(place) {
        const before = this.orders;
        this.orders = new Uint8Array(2 * place);
        this.orders.set(before);
    }

    sizeOf(at) {
        return 2 ** this.orders[at / 16];
    }

    give(at) {
        this.free[this.orders[at / 16]].push(at);
    }
}

// The three functions of sedgechisel_memory.h, with the parameters that a module of 32 bits passes.
function memoryFunctions(of) {
    const answer = (to, at, align) => {
        const view = new DataView(of.memory.buffer);
        view.setUint8(to, at !== 0 ? 1 : 0);
        view.setUint32(to + 4, at || align, true);
    };
    return {
        rattle_alloc: (to, count, align) => answer(to, of.places.take(count >>> 0), align),
        rattle_realloc: (to, at, kept, count, align) => {
            let found = at;
            if (of.places.sizeOf(at) < count >>> 0) {
                found = of.places.take(count >>> 0);
                if (found !== 0) {
                    new Uint8Array(of.memory.buffer).copyWithin(found, at, at + kept);
                    of.places.give(at);
                }
            }
            answer(to, found, align);
        },
        rattle_dealloc: (at) => of.places.give(at),
    };
}

// The arguments of a call in the module's memory: one buffer, with a place for each.
class Given {
    constructor(of, count) {
        this.of = of;
        this.at = this.room = of.places.take(count);
        if (this.room === 0) throw new RangeError('the module has no memory for what the call is given');
        this.end = this.room + count;
        this.view = new DataView(of.memory.buffer);
    }

    place(size) {
        const at = this.at;
        this.at += (size + 15) & ~15;
        if (this.at > this.end) throw new RangeError('octets have become longer while they were read');
        return at;
    }

    octets(from) {
        const at = this.place(from.length);
        new Uint8Array(this.of.memory.buffer, at, from.length).set(from);
        return at;
    }

    // Writes the fields of a struct; one that is missing counts as 0.
    struct(kind, at, value) {
        for (const [field, own, from, many] of structs[kind].fields) {
            if (field in value) this.write(own, at + from, own === 'octets' ? at + many : many, value[field], field);
            else if (own === 'octets') this.write(own, at + from, at + many, NONE, field);
            else new Uint8Array(this.of.memory.buffer, at + from, sizeOf(own) * Math.max(many, 1)).fill(0);
        }
    }

    write(kind, at, count, value, name) {
        if (kind === 'octets') {
            this.view.setUint32(at, this.octets(octetsOf(name, value)), true);
            this.view.setUint32(count, value.length, true);
        } else if (count > 0) {
            const list = listOf(name, count, value), size = sizeOf(kind);
            for (let k = 0; k < count; k++) this.write(kind, at + k * size, 0, list[k], name); // (a hole is undefined)
        } else if (structs[kind]) {
            this.struct(kind, at, objectOf(name, value, false));
        } else {
            WRITE[SIZES[kind]](this.view, at, numberOf(name, kind, value));
        }
    }
}

// Reads a value of some kind; a struct becomes an object.
function read(view, kind, at, count, into) {
    if (count > 0) return Array.from({ length: count }, (_, k) => read(view, kind, at + k * sizeOf(kind), 0));
    if (structs[kind]) {
        const it = into ?? {};
        for (const [field, own, from, many] of structs[kind].fields) it[field] = read(view, own, at + from, many);
        return it;
    }
    const number = READ[SIZES[kind]](view, at);
    return kind === 'bool' ? number !== 0 : number;
}

// The size of a struct or a number, in octets.
function sizeOf(kind) {
    return structs[kind]?.size ?? SIZES[kind];
}

// The maximum number of octets that an argument takes in the buffer of a call.
function roomOf(way, kind, value) {
    if (way === 'value') return 0;
    if (way === 'octets' || way === 'room') return value.length + 16;
    const octets = (structs[kind]?.fields ?? []).filter(([, own]) => own === 'octets');
    return octets.reduce((sum, [field]) => sum + (value[field]?.length ?? 0) + 16, sizeOf(kind) + 16);
}

// Checks an argument, and returns it; a number as the module takes it.
function argumentOf([name, way, kind], value) {
    if (way === 'value') return numberOf(name, kind, value);
    return way === 'octets' || way === 'room' ? octetsOf(name, value) : objectOf(name, value, way === 'written');
}

// Puts an argument into the buffer of a call. Returns the numbers that the module takes for it, and a function that
// copies back what the call writes, if it writes the argument.
function put(of, given, [name, way, kind], value) {
    if (way === 'value') return [[value]];
    if (way === 'octets' || way === 'room') {
        const at = given.octets(value), back = () => value.set(new Uint8Array(of.memory.buffer, at, value.length));
        return [[at, value.length], way === 'room' ? back : undefined];
    }
    const at = given.place(sizeOf(kind)), isStruct = kind in structs;
    if (isStruct) given.write(kind, at, 0, value, name);
    const back = () => {
        const view = new DataView(of.memory.buffer); // (the call may have made it longer)
        if (isStruct) read(view, kind, at, 0, value);
        else value.value = read(view, kind, at, 0);
    };
    return [[at], way === 'written' ? back : undefined];
}

// Makes a call: a function that puts its arguments into a buffer, and reads from the buffer what the call wrote.
function callOf(of, name, result, parameters) {
    return (...values) => {
        const most = parameters.length;
        if (values.length > most) throw new TypeError(`${name}: ${values.length} arguments instead of ${most}`);
        const characters = texts[result] ?? 0; // of a text that the call returns
        const checked = parameters.map((it, k) => argumentOf(it, values[k]));
        const count = parameters.reduce((sum, [, way, kind], k) => sum + roomOf(way, kind, checked[k]), 32 + characters);
        const given = new Given(of, count);
        try {
            const text = characters > 0 ? [given.place(characters)] : [];
            const placed = parameters.map((it, k) => put(of, given, it, checked[k]));
            const answer = of.exports[name](...text, ...placed.flatMap(([words]) => words));
            for (const [, back] of placed) back?.();
            return characters > 0 ? textAt(of.memory, text[0], characters) : returned(result, answer);
        } finally {
            of.places.give(given.room);
        }
    };
}

// Converts an answer to its type: WebAssembly returns 32 bits with a sign.
function returned(result, answer) {
    if (result === 'bool') return answer !== 0;
    return result === 'uint32_t' ? answer >>> 0 : answer;
}

function textAt(memory, at, characters) {
    const octets = new Uint8Array(memory.buffer, at, characters);
    return String.fromCharCode(...octets.subarray(0, octets.indexOf(0)));
}

// Makes the calls of a module, from its octets or from a compiled module.
export async function load(source) {
    const of = {};
    const made = await WebAssembly.instantiate(source, { env: memoryFunctions(of) });
    of.exports = (made.instance ?? made).exports;
    of.memory = of.exports.memory;
    of.places = new Places(of.memory, of.exports.__heap_base.value);
    const found = {};
    for (const [name, [result, parameters]] of Object.entries(calls)) found[name] = callOf(of, name, result, parameters);
    return found;
}
