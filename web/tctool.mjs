// The command tctool as a module that web/build_tctool makes.

/**
 * What the command requires of its system. The calls resemble those of POSIX: `open` returns a file number from 3 on, and
 * `read` and `write` return how many octets they read or wrote. A call that fails returns minus the Linux error number, or
 * -1. `end`, if there is one, returns how many octets a file has, or -1 if that is not known. Files 0, 1 and 2 are open.
 * @typedef {{
 *     open(name: Uint8Array): number,
 *     read(file: number, room: Uint8Array): number,
 *     write(file: number, octets: Uint8Array): number,
 *     end?(file: number): number,
 * }} System
 */

/**
 * Runs the command: `run(module, ['farm', 'capture.bin'], system)`. An exception that the system throws ends it.
 * @param {WebAssembly.Module} module
 * @param {(string | Uint8Array)[]} words the command's arguments, as texts or octets
 * @param {System} system
 * @returns {number} the exit status
 */
export function run(module, words, system) {
    const text = new TextEncoder();
    const given = ['tctool', ...words].map((it) => (typeof it === 'string' ? text.encode(it) : it));
    /** @type {any} */
    let made;
    /** @type {(at: number, count?: number) => Uint8Array} */
    const octets = (at, count) => new Uint8Array(made.memory.buffer, at, count);
    const host = {
        /** @type {(place: number, to: number, room: number) => number} */
        word(place, to, room) {
            if (place >= given.length) return -1;
            if (given[place].length > room) return -2;
            octets(to).set(given[place]);
            return given[place].length;
        },
        /** @param {number} name */
        open(name) {
            const all = octets(name);
            return system.open(all.slice(0, all.indexOf(0)));
        },
        /** @type {(file: number, to: number, count: number) => number} */
        read: (file, to, count) => system.read(file, octets(to, count)),
        /** @type {(file: number, from: number, count: number) => number} */
        write: (file, from, count) => system.write(file, octets(from, count)),
        /** @type {(file: number) => number} */
        end: (file) => system.end?.(file) ?? -1,
    };
    made = new WebAssembly.Instance(module, { host }).exports;
    return made.tctool_program();
}
