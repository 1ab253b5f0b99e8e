#!/usr/bin/env node
// The command tctool in node, from its module: `web/tctool_node.mjs WORDS ..`. The module is tctool.wasm next to this
// file, or what TCTOOL_MODULE names.
import { existsSync, fstatSync, openSync, readFileSync, readSync, writeSync } from 'node:fs';
import { run } from './tctool.mjs';

// Returns the result of a system call, or minus its error number if it fails. Repeats the call if a pipe is not ready.
function tried(call) {
    for (;;) {
        try {
            return call();
        } catch (error) {
            if (error.code !== 'EAGAIN') return error.errno < 0 ? error.errno : -1;
            Atomics.wait(new Int32Array(new SharedArrayBuffer(4)), 0, 0, 5);
        }
    }
}

// Returns the arguments of the command line: texts, or octets if one may not be UTF-8. Node replaces such octets by
// U+FFFD, so they are read from the system (Linux).
function words() {
    const texts = process.argv.slice(2);
    const whole = '/proc/self/cmdline';
    if (!texts.some((it) => it.includes('\ufffd')) || !existsSync(whole)) return texts;
    const all = readFileSync(whole, 'latin1').split('\0').slice(0, -1);
    return all.slice(-texts.length).map((it) => Buffer.from(it, 'latin1'));
}

const file = process.env.TCTOOL_MODULE ?? new URL('tctool.wasm', import.meta.url);
const module = new WebAssembly.Module(readFileSync(file));
process.exitCode = run(module, words(), {
    open: (name) => tried(() => openSync(Buffer.from(name), 'r')),
    read: (file, room) => tried(() => readSync(file, room, 0, room.length, null)),
    write: (file, octets) => tried(() => writeSync(file, octets)),
    end: (file) => {
        const found = fstatSync(file);
        return found.isFile() ? found.size : -1;
    },
});
