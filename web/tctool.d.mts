// Made by web/types of web/tctool.mjs.
/**
 * What the command requires of its system. The calls resemble those of POSIX: `open` returns a file number from 3 on, and
 * `read` and `write` return how many octets they read or wrote. A call that fails returns minus the Linux error number, or
 * -1. `end`, if there is one, returns how many octets a file has, or -1 if that is not known. Files 0, 1 and 2 are open.
 * @typedef {{
 *     open(name: Uint8Array): number,
 *     read(file: number, room: Uint8Array): number,
 *     write(file: number, octets: Uint8Array): number,
 *     end?(file: number): number,
 * }} System
 */
/**
 * Runs the command: `run(module, ['farm', 'capture.bin'], system)`. An exception that the system throws ends it.
 * @param {WebAssembly.Module} module
 * @param {(string | Uint8Array)[]} words the command's arguments, as texts or octets
 * @param {System} system
 * @returns {number} the exit status
 */
export function run(module: WebAssembly.Module, words: (string | Uint8Array)[], system: System): number;
/**
 * What the command requires of its system. The calls resemble those of POSIX: `open` returns a file number from 3 on, and
 * `read` and `write` return how many octets they read or wrote. A call that fails returns minus the Linux error number, or
 * -1. `end`, if there is one, returns how many octets a file has, or -1 if that is not known. Files 0, 1 and 2 are open.
 */
export type System = {
    open(name: Uint8Array): number;
    read(file: number, room: Uint8Array): number;
    write(file: number, octets: Uint8Array): number;
    end?(file: number): number;
};
