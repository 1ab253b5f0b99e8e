// Runs the module of tctool for web/rows: `node web/rows.mjs MODULE`. Each line of standard input describes a run: its
// arguments and its input as base64, and the maximum that a read returns. The answer is a line with the status and what
// was written.
import { openSync, readFileSync, readSync } from 'node:fs';
import { createInterface } from 'node:readline';
import { run } from './tctool.mjs';

const module = new WebAssembly.Module(readFileSync(process.argv[2]));

function ran({ words, input, piece }) {
    const given = Buffer.from(input, 'base64'), written = { 1: [], 2: [] };
    let from = 0;
    const system = {
        open(name) {
            try {
                return openSync(Buffer.from(name), 'r');
            } catch (error) {
                return error.errno < 0 ? error.errno : -1;
            }
        },
        read(file, room) {
            if (file !== 0) {
                try {
                    return readSync(file, room, 0, room.length, null);
                } catch (error) {
                    return error.errno < 0 ? error.errno : -1;
                }
            }
            const part = given.subarray(from, from + Math.min(room.length, piece ?? Infinity));
            room.set(part);
            from += part.length;
            return part.length;
        },
        write(file, octets) {
            written[file].push(octets.slice());
            return octets.length;
        },
    };
    const status = run(module, words.map((it) => Buffer.from(it, 'base64')), system);
    const [out, said] = [written[1], written[2]].map((it) => Buffer.concat(it).toString('base64'));
    return { status, out, said };
}

for await (const line of createInterface({ input: process.stdin })) {
    process.stdout.write(`${JSON.stringify(ran(JSON.parse(line)))}\n`);
}
