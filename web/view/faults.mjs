// What the page says above the lines of a capture: how many of the first frames pass a check, and which record is the
// first one with a fault. Both follow from the totals and the lines of the command.
import { plural } from './words.mjs';

const NAMES = { packets: 'packet', clcw: 'control word' }; // of a command's records; the others are frames
const FILTERS = ['scid', 'vcid', 'apid', 'map'];

// The pattern of a line with a fault. With --resync no line has one, and octets that are no good frame are skipped.
export const faultOf = ({ resync }) => (resync ? '^\\d+ skipped \\d' : ' invalid \\d');

// Whether frames are listed with their check, where that is for the page to decide: if most of the first ones pass it.
// By chance 1 frame in 65,536 passes.
export const isMostlyChecked = ({ good, records }) => 2 * good > records;

// How many of the first frames pass a check; none where this is of no use: none of them pass, and none is checked.
export function passWords({ good, records }, isChecked, isByPage) {
    if (records === 0 || (!isChecked && good * 100 <= records)) return '';
    const first = records === 1 ? 'The first frame' : `${good || 'None'} of the first ${records} frames`;
    const passes = good > 1 ? 'pass a check' : records === 1 && good === 0 ? 'passes no check' : 'passes a check';
    return `${first} ${passes}${isByPage ? ', so all are listed with --check' : ''}: `;
}

// Which record is the first with a fault, as far as the totals and a line say it. `found` is the first line with a
// fault, by its text and its place from 0; `said` is what the command wrote to standard error.
export function faultWords({ command, asked, isPlain }, { records, octets, said }, found) {
    const name = NAMES[command] ?? 'frame', isPart = FILTERS.some((it) => asked[it]);
    const listed = isPart ? 'listed ' : '', fault = `a fault${isPlain ? ' without --check' : ''}`;
    const [, number, cause] = found?.line.match(/^(\d+) (?:invalid|skipped) (.*)$/) ?? [];
    if (octets === 0) return 'The file is empty.';
    if (asked.resync) {
        return found ? `The first octets skipped are record ${number} of ${records}: ${plural(Number(cause), 'octet')}` : 'No octets are skipped.';
    }
    const none = `No ${listed}${name}${isPart ? '' : ` of ${records}`} has ${fault}`;
    if (!found) return `${none}.`;
    if (number === undefined) return `The first line with a fault is line ${found.place + 1}: ${found.line}`;
    const first = `The first ${listed}${name} with ${fault} is ${name} ${number}`;
    if (Number(number) <= records) return `${first} of ${records}: ${cause}`;
    if (said.includes('stopped at record')) return `${first}, where reading stops: ${cause}`;
    return records === 0 ? `There is no whole ${name}: ${cause}` : `${none}, but octets are left at the end: ${cause}`;
}
