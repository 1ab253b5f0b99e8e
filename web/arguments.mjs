// The checks of each argument before a call runs: numbers, octets, arrays and objects.

// The largest number of each kind.
/** @type {Record<string, number | bigint>} */
const MOST = { uint8_t: 0xff, uint16_t: 0xffff, uint32_t: 0xffffffff, size_t: 0xffffffff, pointer: 0xffffffff,
    uint64_t: 0xffff_ffff_ffff_ffffn };

/** @param {any} value */
function shown(value) {
    return typeof value === 'object' && value !== null ? 'an object' : String(value);
}

/**
 * Returns a number as the module takes it: a bigint for 64 bits. Throws a RangeError if the number is not in the range of
 * its C type, and a TypeError if the value is not a whole number. A C compiler reports such values; WebAssembly would take
 * 260 as the octet 4.
 * @param {string} name
 * @param {string} kind
 * @param {any} value
 */
export function numberOf(name, kind, value) {
    if (Number.isInteger(value) && kind !== 'uint64_t' && value >= 0 && value <= MOST[kind]) return value; // most are
    const said = `${name}: ${shown(value)}`;
    if (kind === 'bool') {
        if (value === true || value === false || value === 0 || value === 1) return Number(value);
        throw new TypeError(`${said} is not true or false`);
    }
    const isWide = kind === 'uint64_t';
    const isWhole = Number.isInteger(value) || (isWide && typeof value === 'bigint');
    if (!isWhole) throw new TypeError(`${said} is not a whole number`);
    if (value < 0 || value > MOST[kind]) throw new RangeError(`${said} is not in 0 to ${MOST[kind]}`);
    const isExact = typeof value === 'bigint' || Number.isSafeInteger(value);
    if (!isExact) throw new RangeError(`${said} is not exact: use a bigint`);
    return isWide ? BigInt(value) : value;
}

/**
 * @param {string} name
 * @param {any} value
 * @returns {Uint8Array}
 */
export function octetsOf(name, value) {
    if (!(value instanceof Uint8Array)) throw new TypeError(`${name}: ${shown(value)} is not a Uint8Array`);
    return value;
}

/** @param {any} value */
function isList(value) {
    return Array.isArray(value) || ArrayBuffer.isView(value);
}

/**
 * Returns the value if it is an object, which has the fields of a struct or receives them. Throws a TypeError if not.
 * @template T
 * @param {string} name
 * @param {T} value
 * @param {boolean} isWritten
 * @returns {T}
 */
export function objectOf(name, value, isWritten) {
    const isObject = typeof value === 'object' && value !== null && !isList(value);
    if (!isObject) throw new TypeError(`${name}: ${shown(value)} is not an object`);
    if (isWritten && !Object.isExtensible(value)) throw new TypeError(`${name}: this object cannot be written`);
    return value;
}

/**
 * @param {string} name
 * @param {number} count
 * @param {any} value
 * @returns {any[]}
 */
export function listOf(name, count, value) {
    if (!isList(value)) throw new TypeError(`${name}: ${shown(value)} is not an array`);
    if (value.length !== count) throw new RangeError(`${name}: an array of ${value.length} elements instead of ${count}`);
    return value;
}
