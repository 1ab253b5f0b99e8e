// What people do with captures, for acts.mjs: hints, faults, totals, octets, and a file of 100,000,000 octets.
const FRAMES = Uint8Array.from('0001080E00C41005C0000000AAE75D'.match(/../g), (it) => parseInt(it, 16));
const listed = () => at('listed').children;
const isListed = () => at('told').dataset.status !== undefined && listed().length > 0;

// Frames one after another, of which some are damaged.
function capture(count, ...damaged) {
    const octets = new Uint8Array(FRAMES.length * count);
    for (let k = 0; k < count; k++) octets.set(FRAMES, k * FRAMES.length);
    for (const k of damaged) octets[k * FRAMES.length + 9] ^= 1;
    return octets;
}

// Opens a capture. If its last part is a function, it says when the capture is listed.
async function open(name, command, ...parts) {
    const holds = typeof parts.at(-1) === 'function' ? parts.pop() : isListed;
    at('to-captures').click();
    type('command', command);
    drop(name, ...parts);
    await until(`${name} is listed`, holds);
}

// Lists the frames with their check or without it.
async function useCheck(isWanted) {
    const isSo = () => at('typed').textContent.includes('--check') === isWanted;
    if (isSo()) return;
    at('help-check').parentElement.querySelector('input').click();
    await until(`frames ${isWanted ? 'with' : 'without'} their check`, () => isSo() && isListed());
}

// Frames that pass their check are listed with it at once, unless somebody decides otherwise.
async function hints() {
    const passed = '3196 of the first 3197 frames pass a check', box = () => at('help-check').parentElement.querySelector('input');
    const shows = (check, what) => is([at('typed').textContent, box().checked, at('hint').textContent],
        [`tctool tc ${check ? '--check ' : ''}hint.bin`, check, `${passed}${what}`], `the hint, check ${check}`);
    await open('hint.bin', 'tc', capture(3197, 40));
    shows(true, ', so all are listed with --check: list without --check');
    await until('the first fault', () => at('first-fault').textContent === 'The first frame with a fault is frame 41 of 3197: 6 Check');
    at('use-check').click();
    await until('the frames without their check', isListed);
    shows(false, ': list with --check');
    is([at('first-found').textContent, at('first-fault').hidden], ['No frame of 3197 has a fault without --check.', true], 'no fault');
    at('use-check').click();
    await until('the frames with their check', isListed);
    shows(true, ': list without --check');
    await useCheck(false);
    shows(false, ': list with --check');
}

// A capture whose first million octets have no fault, and end within a frame: only whole frames are counted. A capture
// without checks, opened after it, is listed without them.
async function hurried() {
    const bare = Uint8Array.from([...FRAMES.subarray(0, 3), 12, ...FRAMES.subarray(4, 13)]);
    await open('bare.bin', 'tc', bare);
    await useCheck(false);
    at('next-fault').click();
    await until('no fault without the check', () => at('told').textContent === 'No line has a fault without --check.');
    await open('hurried.bin', 'tc', capture(100000, 99990));
    has(at('hint').textContent, '69905 of the first 69905 frames pass a check, so all are listed with --check', 'the hint');
    await until('the first fault', () => at('first-fault').textContent === 'The first frame with a fault is frame 99991 of 100000: 6 Check');
    const { top, bottom } = at('first-fault').getBoundingClientRect();
    is([top > 0, bottom < innerHeight], [true, true], 'the first fault is in sight');
    at('first-fault').click();
    await until('its line', () => at('listed').querySelector('.found')?.textContent === '99991 invalid 6 Check');
    await until('its record', () => at('record').textContent.includes('Record 99991, from octet 1499850 on: 15 octets'));
    at('next-fault').click();
    await until('no more', () => at('told').textContent === 'No later line has a fault.');
    await open('bare.bin', 'tc', bare);
    is([at('typed').textContent, at('hint').hidden], ['tctool tc bare.bin', true], 'a capture without checks');
}

// What is said of captures that end early, of empty ones, of two kinds of frames, and of other records.
async function kinds() {
    const cut = capture(31).subarray(0, 457), none = 'the page says of the first fault', packet = FRAMES.subarray(6, 13);
    const stops = Uint8Array.from([...capture(2), 0, 1, 8, 1, 0, 0, 0]), other = Uint8Array.from([...FRAMES.subarray(0, 3), 12, ...FRAMES.subarray(4, 13)]);
    const said = {
        'tc cut': [[cut], 'No frame of 30 has a fault, but octets are left at the end: 1 Short'],
        'tc empty': [[], 'The file is empty.'],
        'tc short': [[FRAMES.subarray(0, 7)], 'There is no whole frame: 1 Short'],
        'tc stops': [[stops], 'The first frame with a fault is frame 3, where reading stops: 5 Length'],
        'tc mixed': [[other, other, FRAMES], 'No frame of 3 has a fault without --check.'],
        'check sound': [[capture(3)], 'No frame of 3 has a fault.'],
        'packets pair': [[packet, packet.subarray(0, 6)], 'No packet of 1 has a fault, but octets are left at the end: 1 Truncated'],
        'clcw words': [[Uint8Array.of(1, 8, 0, 0, 129, 8, 0, 0)], 'The first control word with a fault is control word 2 of 2: 1 Kind'],
    };
    for (const [name, [parts, words]] of Object.entries(said)) {
        await open(`${name}.bin`, name.split(' ')[0], ...parts, () => at('first-found').textContent === words);
        is(at('first-found').textContent, words, `${none}, ${name}`);
    }
    await open('mixed.bin', 'tc', other, other, FRAMES);
    has(at('hint').textContent, '1 of the first 3 frames passes a check: list with --check', 'a capture of two kinds');
    type('command', 'farm');
    await until('another command', isListed);
    is(at('typed').textContent, 'tctool farm mixed.bin', 'another command');
}

// The first fault is looked for while the page can be used, and Stop ends this.
async function searches() {
    const looks = new Promise((end) => {
        new MutationObserver((_, it) => {
            if (!at('first-words').textContent.startsWith('Looking')) return;
            it.disconnect();
            end();
        }).observe(at('first-words'), { childList: true });
    });
    open('searched.bin', 'tc', ...Array(9).fill(capture(100000)), capture(100000, 7));
    await looks;
    is([at('stop').getAttribute('aria-disabled'), at('next-fault').getAttribute('aria-disabled')], ['false', 'false'], 'Stop, and a button');
    at('stop').click();
    is(at('first-found').textContent, 'Stopped: the first fault is not known.', 'what is said after Stop');
    is([at('stop').getAttribute('aria-disabled'), listed().length], ['true', 1000], 'the lines after Stop');
    at('next-fault').click();
    await until('a fault', () => at('listed').querySelector('.found')?.textContent === '900008 invalid 6 Check');
    await open('interrupted.bin', 'tc', capture(100000, 99990), () => at('totals').querySelector('button'));
    at('totals').querySelector('button').click(); // (which may end the reading of the first lines)
    await until('the first fault', () => at('first-fault').textContent === 'The first frame with a fault is frame 99991 of 100000: 6 Check');
}

async function faults() {
    const times = slowness(), begun = performance.now();
    await open('faults.bin', 'farm', ...Array(4).fill(capture(100000)), capture(100000, 7, 90));
    await useCheck(true);
    at('next-fault').click();
    await until('a fault', () => at('listed').querySelector('.found'));
    is(at('listed').querySelector('.found').textContent, '400008 invalid 6 Check', 'the first fault');
    is(performance.now() - begun < 60000 * Math.max(times, slowness()), true, 'the first fault within a minute');
    await until('its record', () => at('record').textContent.includes('invalid 6 Check'));
    has(at('record').textContent, `Record 400008, from octet ${400007 * FRAMES.length} on: 15 octets`, 'the place of the record');
    at('next-fault').click();
    await until('another fault', () => at('listed').querySelector('.found')?.textContent === '400091 invalid 6 Check');
    at('next-fault').click();
    await until('no more', () => at('told').textContent === 'No later line has a fault.');
}

async function records() {
    await open('records.bin', 'tc', capture(20, 5));
    click(listed()[2]);
    await until('a record', () => at('record').textContent.includes('Record 3, from octet 30 on: 15 octets'));
    for (const it of ['00 01 08 0E 00 C4', 'AD 0', 'Space packet', '1005C0000000AA'.slice(0, 4)]) has(at('record').textContent, it, 'the record');
    at('listed').dispatchEvent(new KeyboardEvent('keydown', { key: 'ArrowDown', bubbles: true }));
    await until('the next record', () => at('record').textContent.includes('Record 4,'));
    const total = [...at('totals').querySelectorAll('button')].find((it) => it.textContent === 'Check');
    total.click();
    await until('the line of a total', () => at('listed').querySelector('.found')?.textContent === '6 invalid 6 Check');
}

async function hundred() {
    const parts = Array(100).fill(capture(66666));
    await within({ longest: 250 }, 'the longest wait while 100 MB are read', async () => (
        { longest: await longestWait(() => open('hundred.bin', 'tc', ...parts)) }));
    is(listed().length, 1000, 'lines of 100 MB');
    is([...at('totals').querySelectorAll('dd')][0].textContent, '6666600', 'frames of 100 MB');
}

globalThis.CAPTURE_ACTS = {
    'frames that pass a check are listed with it': hints,
    'the first fault after a million octets without one': hurried,
    'what is said of captures of each kind': kinds,
    'the first fault is looked for, until Stop': searches,
    'the first bad frame of a capture, and the next one': faults,
    'the octets of a line, and the line of a total': records,
    'a capture of 100,000,000 octets': hundred,
};
