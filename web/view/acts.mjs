// Does in the page what people do, and reports for each act whether the page then shows what it should. web/check adds
// it to a copy of the page, which at the end shows a line for each act. Time limits are for an idle machine. It
// measures how busy the machine is, and extends them accordingly.
const at = (name) => document.getElementById(name);
const saved = []; // the files that the page has saved
const OWN = 'init none\nsubmit 4 1005C0000000AA\nsend\nup deliver\nreport\ndown deliver\nshow\n';

const sleep = (time) => new Promise((end) => { setTimeout(end, time); });

async function until(what, holds) {
    for (let k = 0; k < 2400 && !holds(); k++) await sleep(50);
    is(Boolean(holds()), true, what);
}

function is(found, wanted, what) {
    if (JSON.stringify(found) === JSON.stringify(wanted)) return;
    throw new Error(`${what}: ${JSON.stringify(found)}, and not ${JSON.stringify(wanted)}`);
}

function has(text, part, what) {
    if (!String(text).includes(part)) throw new Error(`${what}: no ${part} in ${String(text).slice(0, 300)}`);
}

function type(name, text) {
    at(name).value = text;
    at(name).dispatchEvent(new Event('input', { bubbles: true }));
    at(name).dispatchEvent(new Event('change', { bubbles: true }));
}

function press(key) {
    document.body.dispatchEvent(new KeyboardEvent('keydown', { key, bubbles: true }));
}

function drop(name, ...parts) {
    const dataTransfer = new DataTransfer();
    dataTransfer.items.add(new File(parts, name));
    document.body.dispatchEvent(new DragEvent('drop', { dataTransfer, bubbles: true, cancelable: true }));
}

function click(element) {
    element.dispatchEvent(new MouseEvent('click', { bubbles: true }));
}

// Goes to an address, and waits until the page has begun again there.
async function goTo(hash, what, holds) {
    if (location.hash === hash) history.replaceState(null, '', '#');
    const isChanged = new Promise((end) => { addEventListener('hashchange', end, { once: true }); });
    location.hash = hash;
    await isChanged; // (the page begins again even if it already is as wanted)
    const example = hash.match(/example=(\w+)/)?.[1] ?? '';
    await until(what, () => (hash.startsWith('#packed=%') || at('example').value === example) && holds());
}

async function own(text = OWN) {
    at('to-scripts').click();
    type('text', text);
    at('end').click();
    await until('the script is played', () => at('end').getAttribute('aria-disabled') === 'true');
}

// Returns how many times longer a fixed piece of work takes now than on an idle machine.
function slowness() {
    const begun = performance.now();
    let it = 1;
    for (let k = 0; k < 2e7; k++) it = Math.imul(it, 31) + k | 0;
    return Math.max(1, (performance.now() - begun) / 30 + (it === 0 ? 1 : 0));
}

// Does something that is measured, again up to five times until the milliseconds are below their limits: during one of
// them others may have had the processor.
async function within(limits, what, act) {
    let found, times;
    for (let k = 0; k < 5; k++) {
        const before = slowness();
        found = await act();
        times = Math.max(before, slowness());
        if (Object.entries(limits).every(([name, most]) => found[name] < most * times)) return;
    }
    throw new Error(`${what}: ${JSON.stringify(found)} ms, and not below ${times} times ${JSON.stringify(limits)}`);
}

// The longest time for which the page did nothing else while something was done.
async function longestWait(act) {
    let last = performance.now(), longest = 0;
    const beat = setInterval(() => {
        longest = Math.max(longest, performance.now() - last);
        last = performance.now();
    }, 10);
    await act();
    clearInterval(beat);
    return longest;
}

const lines = () => [...at('lines').querySelectorAll('code')].map((it) => it.textContent);
const turns = () => [...at('ladder').querySelectorAll('.turn')].map((it) => it.textContent);
const arrow = (k) => at('ladder').querySelectorAll('[data-gone]')[k];

// 1: no typed text is lost.

async function typing() {
    const text = `${OWN}fly\n`;
    await own(text);
    await until('the cause', () => at('fault').textContent.includes('no line begins with its first word'));
    has(at('fault').textContent, 'line 8 is unreadable: fly', 'the complaint');
    document.querySelector('[data-line="tick"]').click();
    is(at('text').value, text, 'the text after an event button');
    for (const name of ['back', 'first']) at(name).click();
    is(at('fault').hidden, false, 'the complaint after Back');
    has(at('fault').textContent, 'What is shown is the script before', 'the complaint after Back');
    await own(`${OWN}${'submit 4 '.repeat(20000)}\n`);
    const { lineHeight, paddingTop, paddingBottom } = getComputedStyle(at('fault')), inner = at('fault').clientHeight
        - parseFloat(paddingTop) - parseFloat(paddingBottom);
    is([inner > 0, inner < 1.5 * parseFloat(lineHeight), at('fault').title.length < 300], [true, true, true],
        'a long complaint is a line');
    await own();
    is(at('fault').hidden, true, 'no complaint about a good script');
}

async function unreadableAddress() {
    await goTo('#script=init%20none%0Afly&line=1', 'a complaint', () => at('fault').textContent.includes('line 2 is unreadable'));
    is(at('text').value, 'init none\nfly', 'the text is there');
    await goTo('#packed=%21%21', 'a complaint', () => at('fault').textContent.includes('the address has no whole script'));
}

async function undoing() {
    await own();
    type('example', 'lost_frame');
    await until('the example', () => lines().some((it) => it.startsWith('#')));
    at('undo').click();
    is(at('text').value, OWN, 'the text after Undo');
    at('octets').value = 'ABC';
    document.querySelector('[data-line^="submit"]').click();
    await until('a refused button', () => at('fault').textContent.includes('it is not submit M HEX'));
    is(at('text').value, OWN, 'the text after a refused button');
    at('octets').value = '1005C0000000AA';
    document.querySelector('[data-line="tick"]').click();
    is(at('fault').hidden, true, 'no complaint after a good button');
    press('z');
    is(at('text').value, OWN, 'the text after the key of Undo');
}

// A refused button shows what to do. A grey button shows why it does nothing, and then does nothing.
async function refusals() {
    await own();
    const inserts = (line, advice) => {
        document.querySelector(`[data-line="${line}"]`).click();
        has(at('last').textContent, `Refused: ${advice}`, line);
        is(at('swap').getAttribute('aria-disabled'), 'true', `Lose it after ${line}`);
        at('undo').click();
        is([at('text').value, at('last').textContent.startsWith('Line 7')], [OWN, true], 'the script after Undo');
    };
    inserts('up lose', 'nothing is in transit up. Go to a line where a frame is, or click its arrow. Line 8, 8 of 8: up lose');
    inserts('down deliver', 'nothing is in transit down.');
    has(at('swap').title, 'No frame arrives or is lost on this line', 'why Lose it is grey');
    await goTo('#example=lost_frame&play', 'an example', () => at('last').textContent.includes('show'));
    at('ladder').scrollTop = 0;
    at('end').click();
    press('End');
    is(at('ladder').scrollTop, 0, 'the ladder after a grey End');
    at('back').click();
    is(at('swap').title.startsWith('The frame of this line'), true, 'what Lose it does');
}

async function droppedScript() {
    drop('some.script', `${OWN}tick\n`.replaceAll('\n', '\r\n'));
    await until('a dropped script is played', () => at('last').textContent.startsWith('Line 8, 8 of 8: tick'));
    is([at('scripts').hidden, at('captures').hidden, at('listed').children.length], [false, true, 0], 'the views');
}

// 2: a run becomes a link, a file and a picture.

async function addresses() {
    await goTo('#example=lost_frame&line=20', 'a line of an example', () => at('last').textContent.startsWith('Line 20'));
    at('back').click();
    await until('the address follows', () => location.hash === '#example=lost_frame&line=19');
    await own();
    at('back').click();
    await until('the address has the script', () => location.hash === `#script=${encodeURIComponent(OWN)}&line=6`);
    const long = OWN + 'tick\n'.repeat(500);
    await own(long);
    await until('a compressed address', () => /^#packed=[\w-]{20,300}&line=507$/.test(location.hash));
    const { hash } = location;
    await own();
    await goTo(hash, 'a compressed script', () => at('last').textContent.startsWith('Line 507'));
    is(at('text').value, long, 'the script of a compressed address');
    const said = [];
    new MutationObserver(() => said.push(at('link').textContent)).observe(at('link'), { childList: true });
    at('link').click();
    await until('a link is copied', () => /^(Copied|In the address bar)$/.test(said[0]));
    is(location.hash, hash, 'the address of the link');
    is(at('sharing').hidden, location.protocol !== 'file:', 'what to send instead of a link to a file');
    has(at('sharing').textContent, 'send a colleague this page with this run', 'what to send');
}

// The page as a file: it has all that this page has, and begins with the run that is shown, however long it is.
async function pages() {
    const parts = (it) => [...it.querySelectorAll('style, script[id]')].map(({ id, textContent }) => [id, textContent]);
    const long = `# ${Array.from({ length: 60000 }, () => Math.floor(16 * Math.random()).toString(16)).join('')}\n${OWN}`;
    const begins = { 'own.html': `#script=${encodeURIComponent(long)}&line=8`, 'lost_frame.html': '#example=lost_frame&line=20' };
    await own(long);
    at('save-page').click();
    await until('a long run as a page', () => saved.length === 1);
    await goTo('#example=lost_frame&line=20', 'a line of an example', () => at('last').textContent.startsWith('Line 20'));
    at('send-page').click();
    await until('a run as a page', () => saved.length === 2);
    for (const { name, part } of saved.splice(0)) {
        const text = await part.text(), { documentElement: page } = new DOMParser().parseFromString(text, 'text/html');
        is([part.type, text.startsWith('<!doctype html>'), page.dataset.begins], ['text/html', true, begins[name]], name);
        is(JSON.stringify(parts(page)) === JSON.stringify(parts(document)), true, `the parts of ${name}`);
        is([page.querySelectorAll('#example option').length, page.querySelector('#version').textContent], [0, ''], `${name} as it began`);
    }
}

// A button opens a script or a capture, by its name.
async function opening() {
    const choose = (name, ...parts) => {
        const chosen = new DataTransfer();
        chosen.items.add(new File(parts, name));
        at('any-file').files = chosen.files;
        at('any-file').dispatchEvent(new Event('change', { bubbles: true }));
    };
    choose('some.txt', `${OWN}tick\n`);
    await until('a script is played', () => at('last').textContent.startsWith('Line 8, 8 of 8: tick'));
    choose('one.bin', Uint8Array.of(0, 1, 8, 4));
    await until('a capture is listed', () => at('told').dataset.status === '1' && !at('captures').hidden);
    is([at('listed').textContent, at('open-file').tagName], ['1 invalid 1 Short', 'BUTTON'], 'a capture');
    at('to-scripts').click();
}

// Without a cause of its own, a line has the places of the run that have one, each of which is a button that goes there.
async function courses() {
    const named = () => [...at('cause').querySelectorAll('[data-goes]')].map((it) => it.textContent);
    await goTo('#example=full_buffer&play', 'an example', () => at('last').textContent.includes('show'));
    is(named().slice(0, 4), ['Open \u2192 Wait', 'S1 \u2192 S3', 'Wait \u2192 Open', 'S3 \u2192 S2'], 'the places of a run');
    at('cause').querySelectorAll('[data-goes]')[1].click();
    is(at('cause').textContent, 'S1 \u2192 S3 because of the CLCW of line 14: V(R) = 1, wait and retransmit, FARM-B 0.', 'a change');
    has(at('last').textContent, 'Line ', 'a line that is gone to');
    at('end').click();
    at('cause').querySelector('[data-goes]').click();
    is(at('cause').textContent, 'Open \u2192 Wait: a Type-AD frame, N(S) = V(R), no buffer is free.', 'a change on board');
    await own(OWN);
    is(at('cause').textContent, 'Nothing was sent again so far.', 'a run without such places');
}

async function files() {
    await goTo('#example=lost_frame&play', 'an example', () => at('last').textContent.includes('show'));
    for (const name of ['save-script', 'save-svg', 'save-png']) at(name).click();
    await until('three files', () => saved.length === 3);
    is(saved.map(({ name }) => name), ['lost_frame.script', 'lost_frame.svg', 'lost_frame.png'], 'the names');
    const [script, svg, png] = saved.splice(0).sort((one, other) => 'tgn'.indexOf(one.name.at(-1)) - 'tgn'.indexOf(other.name.at(-1)));
    is(await script.part.text(), at('text').value, 'the file of the script');
    const text = await svg.part.text(), drawn = new DOMParser().parseFromString(text, 'image/svg+xml');
    is([drawn.querySelector('parsererror'), text.includes('var(')], [null, false], 'the SVG');
    is(drawn.querySelectorAll('.frame').length, at('ladder').querySelectorAll('.frame').length, 'the frames of the SVG');
    const picture = await createImageBitmap(png.part);
    is(picture.width > 500 && picture.height > 500, true, 'the size of the PNG');
}

// A chosen example is played to its end, and the menu lists what both machines do in it.
async function examples() {
    const options = [...at('example').options].filter(({ value }) => value !== '');
    await own(`${OWN}${'tick\n'.repeat(90)}`);
    await until('the menu has words', () => options.every(({ text }) => text.includes(': ')));
    is(options.some(({ text }) => text === 'full buffer: sender to S3, S2; receiver to Wait'), true, 'an entry of the menu');
    type('example', 'one_packet');
    has(at('last').textContent, 'Line 9, 8 of 8: show', 'the last line of an example');
    is([at('line').value, at('line').max, at('line').checkValidity()], ['9', '9', true], 'the field To line');
    at('first').click();
    is(at('line').value, '1', 'the field To line at the start');
    at('line').value = '5';
    at('to').requestSubmit();
    has(at('last').textContent, 'Line 5, 4 of 8', 'the line of the field');
}

// 3: states, and what if.

async function states() {
    await goTo('#example=lost_frame&play', 'an example', () => at('last').textContent.includes('show'));
    for (const it of ['S1 \u2192 S2', 'S2 \u2192 S1']) is(turns().includes(it), true, it);
    await goTo('#example=lockout&play', 'a lockout', () => turns().includes('Open \u2192 Lockout'));
    is(turns().includes('Lockout \u2192 Open'), true, 'the end of the lockout');
    const hint = [...at('ladder').querySelectorAll('.frame title')].map((it) => it.textContent).find((it) => it.includes('Octets'));
    for (const it of ['AD 100', 'Octets 00', 'MAP 4: packet of APID 5', 'Receiver: E5', 'In Open: ']) has(hint, it, 'a hint');
    await goTo('#example=lost_frame&play', 'an example', () => at('last').textContent.includes('show'));
    const titles = [...at('ladder').querySelectorAll('.frame title')].map((it) => it.textContent);
    const why = titles.filter((it) => it.startsWith('AD 2')).map((it) => it.match(/^Sent again.*$/m)?.[0]);
    const because = 'Sent again because of line 20: a CLCW arrived with value 1, retransmit. '
        + 'AD 1 was lost on line 15, and AD 2 arrived ahead on line 16.';
    is(why, [undefined, because], 'why AD 2 is sent again');
    const labels = [...at('ladder').querySelectorAll('.frame > text')].map((it) => it.textContent);
    is(labels.filter((it) => it.startsWith('CLCW')).length, 3, 'the labels of CLCWs');
    await goTo('#example=full_buffer&play', 'a Wait', () => turns().includes('Open \u2192 Wait') && turns().includes('S1 \u2192 S3'));
    for (const it of ['window', 'timer', 'buffer']) {
        const widths = [...at('ladder').querySelectorAll(`.used.${it}`)].map((bar) => Number(bar.getAttribute('width')));
        is([new Set(widths).size > 1, Math.min(...widths) >= 0, Math.max(...widths) <= 18], [true, true, true], it);
    }
    colours();
}

// Each end of a row has the colour that the legend shows for its state.
function colours() {
    const shown = (it, name) => getComputedStyle(it)[name];
    const keys = [...at('states').querySelectorAll('i')];
    const legend = Object.fromEntries(keys.map((it) => [it.className, shown(it, 'backgroundColor')]));
    is(new Set(Object.values(legend)).size >= 9, true, 'the colours of the legend differ');
    for (const [state, of] of [['fop1', 'fop1'], ['fop3', 'fop3'], ['farm0', 'fop1'], ['farm1', 'fop3']]) {
        const parts = [...at('ladder').querySelectorAll(`.band.${state}`)];
        is([parts.length > 0, parts.every((it) => shown(it, 'fill') === legend[of])], [true, true], `the colour of ${state}`);
    }
}

// A cause names lines. Each is a button that goes to its line. The rows after the chosen one stay, and the bars of the
// states are drawn over the marking of the chosen row.
async function causes() {
    const box = () => at('ladder').getBoundingClientRect(), isSeen = (it) => it.getBoundingClientRect().top >= box().top
        && it.getBoundingClientRect().bottom <= box().bottom;
    const found = (selector) => at('ladder').querySelector(selector);
    await goTo('#example=lost_frame&play', 'an example', () => at('last').textContent.includes('show'));
    click(found('[data-step="15"] .place'));
    const named = [...at('cause').querySelectorAll('.cause [data-goes]')];
    is(named.map((it) => it.textContent), ['line 20', 'line 15', 'line 16'], 'the lines of a cause');
    for (const it of named) is(it.tagName, 'BUTTON', 'a line that is named');
    named[1].click();
    has(at('last').textContent, 'Line 15, ', 'a line that is named');
    is(at('lines').querySelector('[aria-current]').dataset.line, '15', 'the line in the script');
    is(Number(found('.now.row').getAttribute('y')), Number(found('[data-step="10"] .place').getAttribute('y')), 'its row');
    is([found('.now.row'), found('[data-step="13"] .place')].every(isSeen), true, 'the row, and rows after it');
    is([turns().includes('S1 \u2192 S2'), found('.later.frame') !== null], [true, true], 'rows that were played before');
    const kinds = [...at('ladder').querySelectorAll('.place, .band')].map((it) => it.classList.contains('band'));
    is(kinds.indexOf(true) > kinds.lastIndexOf(false), true, 'the bars are above the rows');
    for (let k = 0; k < 3; k++) at('step').click();
    has(at('last').textContent, 'Line 20, ', 'steps over rows that were played before');
    click(found('.later.frame .reach'));
    has(at('last').textContent, 'by hand', 'an arrow after the chosen row');
    at('undo').click();
    at('end').click();
    const frames = [...at('ladder').querySelectorAll('.frame')];
    click(frames.find((it) => it.textContent.startsWith('AD 0')).querySelector('.reach'));
    is(isSeen(found('.lost.cross')), true, 'the frame that was lost by hand');
    await until('the address has its line', () => /&row=14$/.test(location.hash));
    const { hash } = location, words = at('text').value;
    await goTo('#example=one_packet&play', 'another example', () => at('last').textContent.includes('show'));
    await goTo(hash, 'a script that was changed by hand', () => at('text').value === words && found('.lost.cross'));
    is([isSeen(found('.lost.cross')), at('end').getAttribute('aria-disabled')], [true, 'true'], 'the frame that was lost');
}

// The guided scenarios: each has remarks, and ends with everything acknowledged and this many packets delivered.
async function scenarios() {
    const counts = { lost_frame: 3, lost_clcw: 2, lockout: 1, full_buffer: 2, outage_and_resume: 1, board_restart: 1 };
    for (const [name, count] of Object.entries(counts)) {
        await goTo(`#example=${name}&play`, name, () => at('last').textContent.includes('show'));
        is(at('text').value.match(/^# [A-Z]/gm).length >= 2, true, `the remarks of ${name}`);
        for (const it of [`delivered=${count}`, 'state=S1', 'outstanding=0']) has(at('last').textContent, it, name);
        await goTo(`#example=${name}&line=1`, name, () => at('first').getAttribute('aria-disabled') === 'true');
        is(at('lines').querySelectorAll('.remark').length > 0, true, `a remark of ${name} is in sight`);
    }
    await goTo('#example=board_restart&play', 'a restart', () => at('last').textContent.includes('show'));
    for (const it of ['Open \u2192 Lockout', 'S1 \u2192 S6', 'Lockout \u2192 Open']) is(turns().includes(it), true, it);
    const told = [...at('ladder').querySelectorAll('.told')].map((it) => it.textContent);
    is(told.includes('AD 3 discarded'), true, 'an old frame is discarded');
}

// 7: commands are executed once, over restarts and torn writes.
async function commands() {
    const said = () => at('step-said').textContent, note = () => at('step-said').querySelector('.note').textContent;
    const fates = () => [...at('fates').rows].map((it) => it.cells[2].textContent);
    location.hash = '#commands&step=14';
    await until('a step', () => said().startsWith('14. The board restarts in the middle of command 2.'));
    is(`14. ${at('run').querySelector('[aria-current]').textContent}${note()}`, said(), 'the current step');
    is([at('status').textContent.slice(0, 6), fates()[1]], ['STARTS', 'executed in part'], 'a restart');
    at('run-end').click();
    const once = 'executed once';
    is(fates(), [once, 'executed in part', once, 'not executed', once], 'what happened');
    for (const it of ['Executed: 1, 3, 5.', 'Nothing is known of: 2, 4.']) has(at('known').textContent, it, 'the status');
    is([at('order').className, note() !== ''], ['good', true], 'the order');
    press('Home');
    press('ArrowRight');
    await until('the address follows', () => location.hash === '#commands&step=2');
    is(at('guided').getAttribute('aria-disabled'), 'true', 'a guided run');
    press('r');
    has(said(), '3. The board restarts before it writes the first place.', 'the key R');
    is([at('guided').getAttribute('aria-disabled'), note()], ['false', ''], 'an own run');
    at('run-step').click();
    at('torn').value = '10';
    at('tear').click();
    has(said(), '5. The write of the first place is torn after 10 octets: the board restarts.', 'a torn write');
    is(at('places').querySelectorAll('.bad').length, 1, 'a place without a record');
    is([...at('places').querySelectorAll('.changed')].length > 0, true, 'what is torn is marked');
    at('run-end').click();
    is([fates(), at('order').className], [Array(5).fill(once), 'good'], 'an own run at its end');
    is(at('tear').getAttribute('aria-disabled'), 'true', 'nothing is written at the end');
    at('tear').click();
    has(said(), 'The board writes the second place', 'no write is torn at the end');
    at('guided').click();
    has(said(), '1. The board starts for the first time.', 'the guided run again');
    for (const it of document.querySelectorAll('#commands button, #torn')) {
        it.focus();
        is(document.activeElement === it, true, `the focus of ${it.id}`);
    }
    at('to-scripts').click();
}

// 6: sliders set parameters. A frame of 128 octets takes 0.128 s at 8,000 bit/s. The longest round trip is 9.128 s, or
// 72 frames (docs/CHOOSING.md).
async function choosing() {
    at('to-choosing').click();
    const numbers = { rate: '8000', octets: '128', trip: '8', loss: '5', packets: '100' };
    for (const [name, value] of Object.entries(numbers)) type(`choose-${name}`, value);
    await until('the windows have run', () => 'done' in at('choosing').dataset);
    is(at('chosen').textContent, 'window=72  timer=11  limit=4', 'the parameters');
    has(at('why').textContent, 'A frame takes 0.128 s; the longest round trip is 9.128 s, or 72 frames.', 'why');
    is(['circle', '.curve'].map((it) => at('times').querySelectorAll(it).length), [8, 1], 'dots and a curve');
    has(location.hash, 'loss=5', 'the address');
    at('to-scripts').click();
}

async function whatIf() {
    await goTo('#example=one_packet&play', 'an example', () => at('last').textContent.includes('show'));
    const before = at('text').value, isWhole = () => at('last').textContent.includes('delivered=1')
        && at('last').textContent.includes('outstanding=0');
    click(arrow(0).querySelector('.reach'));
    is([lines().includes('up lose'), lines().filter((it) => it === 'send').length], [true, 2], 'a frame is lost and sent again');
    is([turns().includes('S1 \u2192 S2') || lines().includes('tick'), isWhole()], [true, true], 'what follows');
    const isTold = (pattern) => pattern.test(at('last').textContent);
    is(isTold(/^AD 0 lost by hand: \d+ lines added; AD 0 sent again\. Line /), true, 'what was lost');
    click(arrow(0).querySelector('.reach'));
    is([lines().includes('up lose'), isWhole()], [false, true], 'it arrives again');
    is(isTold(/^AD 0 delivered by hand: \d+ lines fewer\. Line /), true, 'what was delivered');
    at('undo').click();
    at('undo').click();
    is(at('text').value, before, 'the script after two times Undo');
    click(at('ladder').querySelector('[data-step="2"] .place'));
    is(at('last').textContent.includes(': send'), true, 'a click on a row goes there');
    click(at('ladder').querySelector('[data-sent] circle'));
    is([lines().includes('up lose'), isWhole()], [true, true], 'a frame in transit is lost');
    at('undo').click();
    at('step').click();
    press('l');
    is(lines().includes('up lose'), true, 'the key L');
}

// 5: large scripts.

async function large() {
    let text = 'init none\n';
    for (let k = 0; k < 6250; k++) {
        const count = (0xc000 + k % 16384).toString(16).toUpperCase();
        text += `submit 4 1005${count}0000AA\nsend\nup deliver\nsend\ntake\nreport\ndown deliver\n${k % 5 ? '# a remark' : 'tick'}\n`;
    }
    const digits = Array.from({ length: 60000 }, () => Math.floor(16 * Math.random()).toString(16)).join('');
    text = `# ${digits}\n${text}`; // which no compression makes short enough for an address
    const isThere = (it) => at('last').textContent.startsWith(`Line ${it}`);
    await within({ opened: 2000, played: 20000, longest: 2000 }, 'a script of 50,001 lines', async () => {
        let opened;
        await own();
        const begun = performance.now(), longest = await longestWait(async () => {
            drop('large.script', text);
            await until('50,001 lines are opened', () => lines().length > 100 && at('line').max === '50002');
            opened = performance.now() - begun;
            await until('50,001 lines are played', () => isThere(50001));
        });
        return { opened, played: performance.now() - begun, longest };
    });
    is(at('lines').children.length < 500 && at('ladder').querySelectorAll('*').length < 5000, true, 'what is drawn');
    const took = (act) => {
        const from = performance.now();
        act();
        return performance.now() - from;
    };
    await within({ first: 50, step: 50, back: 50, end: 50 }, 'buttons in a large script', () => {
        const names = ['back', 'back', 'step', 'first', 'step', 'end', 'back'], all = {};
        for (const name of names) all[name] = Math.max(all[name] ?? 0, took(() => at(name).click()));
        return all;
    });
    await within({ event: 1000 }, 'an event in a large script', () => (
        { event: took(() => document.querySelector('[data-line="tick"]').click()) }));
    at('ladder').scrollTop = at('ladder').scrollHeight / 2;
    at('list').scrollTop = at('list').scrollHeight / 2;
    await until('the middle is drawn', () => lines().length > 0 && at('ladder').querySelector('[data-step="22500"]'));
    await until('no script is in the address', () => location.hash.startsWith('#long='));
    await own();
}

// 8: how the page looks, and what a screen reader finds.

function luminance(colour) {
    const it = colour.length === 4 ? colour.replace(/[^#]/g, '$&$&') : colour;
    const [r, g, b] = [1, 3, 5].map((k) => parseInt(it.slice(k, k + 2), 16) / 255)
        .map((part) => (part <= 0.03928 ? part / 12.92 : ((part + 0.055) / 1.055) ** 2.4));
    return 0.2126 * r + 0.7152 * g + 0.0722 * b;
}

function contrasts() {
    const rules = [...document.styleSheets[0].cssRules], light = rules.find((it) => it.selectorText === ':root');
    const dark = rules.find((it) => it.conditionText?.includes('dark')).cssRules[0];
    for (const { style } of [light, dark]) {
        const of = (name) => luminance(style.getPropertyValue(`--${name}`).trim());
        const between = (one, other) => (Math.max(of(one), of(other)) + 0.05) / (Math.min(of(one), of(other)) + 0.05);
        for (const name of ['edge', 'end', 'line', 'mark', 'focus']) is(between(name, 'back') >= 3 ? '' : name, '', 'a border of 3:1');
        for (const name of ['ink', 'quiet', 'lost', 'good', 's1', 's2', 's3', 's4', 's5', 's6', 'm2']) {
            is(between(name, 'back') >= 4.5 ? '' : name, '', 'text of 4.5:1');
        }
        is(between('ink', 'now') >= 4.5, true, 'what is marked, of 4.5:1');
    }
}

async function names() {
    const all = [...at('events').querySelectorAll('button')].map((it) => it.getAttribute('aria-label') ?? it.textContent);
    is(new Set(all).size, all.length, 'the names of the event buttons');
    await goTo('#example=lost_frame&line=3', 'an example', () => at('last').textContent.startsWith('Line 3'));
    at('play').click();
    is(at('play').getAttribute('aria-pressed'), 'true', 'Play is pressed');
    at('play').click();
    is(at('play').getAttribute('aria-pressed'), 'false', 'Play is not pressed');
    const print = [...document.styleSheets[0].cssRules].find((it) => it.conditionText === 'print').cssText;
    for (const it of ['nav', '#events', '#ladder']) has(print, it, 'the rules of print');
    await own(OWN + 'tick\n'.repeat(293));
    const drawn = () => [at('ladder').querySelectorAll('[data-step]').length, at('lines').children.length];
    is(drawn().every((it) => it < 250), true, 'what is drawn before printing');
    dispatchEvent(new Event('beforeprint'));
    is(drawn(), [300, 300], 'what is printed');
    dispatchEvent(new Event('afterprint'));
    is(drawn().every((it) => it < 250), true, 'what is drawn after printing');
    await own();
}

async function still() {
    const { scrollingElement: page } = document;
    await goTo('#example=lost_frame&line=1', 'an example', () => at('step').getAttribute('aria-disabled') === 'false');
    at('first').click();
    const seen = () => ['list', 'ladder', 'cause', 'fop', 'events', 'states'].map((it) => Math.round(at(it).getBoundingClientRect().top));
    const before = seen();
    while (at('step').getAttribute('aria-disabled') === 'false') {
        at('step').click();
        is(seen(), before, `the panels after ${at('last').textContent}`);
    }
    for (const name of ['to-commands', 'to-captures', 'to-choosing', 'to-scripts']) {
        at(name).click();
        is([page.scrollHeight <= innerHeight, page.scrollWidth <= innerWidth], [true, true], `no scrollbar after ${name}`);
    }
    at('to-commands').click();
    const parts = [...document.querySelectorAll('#commands > *, #commands .drawn > .scroll')];
    for (at('run-first').click(); at('run-step').getAttribute('aria-disabled') === 'false'; at('run-step').click()) {
        const isFree = parts.every((it) => it.scrollHeight <= it.clientHeight && it.scrollWidth <= it.clientWidth);
        is([page.scrollHeight <= innerHeight, isFree], [true, true], `no scrollbar at ${at('step-said').textContent}`);
    }
    at('to-scripts').click();
}

const ACTS = {
    'what is typed stays, and the cause of an unreadable line is that of the command': typing,
    'an unreadable script in the address': unreadableAddress,
    'Undo, and a button whose line is unreadable': undoing,
    'refused and grey buttons': refusals,
    'a script that is dropped': droppedScript,
    'an example that is chosen': examples,
    'the address follows the script and the line': addresses,
    'the files Script, SVG and PNG': files,
    'the page as a file, with the run': pages,
    'a button that opens a file': opening,
    'the places of a run, with their causes': courses,
    'the states on the ladder, and hints': states,
    'causes, and the rows after the chosen one': causes,
    'what if a frame is lost': whatIf,
    'guided scenarios': scenarios,
    'a script of 50,000 lines': large,
    'commands executed once, over restarts and torn writes': commands,
    'parameters chosen by sliders': choosing,
    'contrast': contrasts,
    'names, pressed buttons and print': names,
    'no scrollbar, and panels that stay': still,
};

// Keeps the files that the page saves.
function keepFiles() {
    const parts = new Map(), { createObjectURL } = URL;
    URL.createObjectURL = (part) => {
        const address = createObjectURL.call(URL, part);
        parts.set(address, part);
        return address;
    };
    HTMLAnchorElement.prototype.click = function noted() {
        saved.push({ name: this.download, part: parts.get(this.href) });
    };
}

async function act() {
    const said = [];
    for (const [name, does] of Object.entries(globalThis.CAPTURE_ACTS ?? ACTS)) {
        try {
            await does();
            said.push(`${name}: passed`);
        } catch (error) {
            said.push(`${error.message}\n${name}: failed`);
        }
        document.title = said.join('\n');
    }
    const shown = document.createElement('pre');
    shown.id = 'acts';
    shown.textContent = said.join('\n');
    at('scripts').before(shown);
}

const wait = setInterval(() => {
    if (at('version').textContent === '') return;
    clearInterval(wait);
    keepFiles();
    act();
}, 50);
