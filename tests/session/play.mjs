// Runs scripts of the simulated link with the module for JavaScript, and writes the lines of `tctool sim`:
// `node play.mjs MODULE SCRIPT ..`. Without a SCRIPT, it reads standard input.
import { readFileSync } from 'node:fs';
import { load } from '../../web/sedgechisel.mjs';
import { Link, scriptOf } from '../../web/link.mjs';

const [, , module, ...files] = process.argv, calls = await load(readFileSync(module));
for (const file of files.length > 0 ? files : [0]) {
    const { config, events } = scriptOf(readFileSync(file, 'latin1')), link = new Link(calls, config);
    process.stdout.write(events.map(({ event }) => `${link.answer(event)}\n`).join(''));
    link.close();
}
