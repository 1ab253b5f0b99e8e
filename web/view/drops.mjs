// Drops a large capture on the page, and presses the buttons of the captures, as a person does. web/check adds it to a
// copy of the page. DROPPED contains the octets of a capture, and TIMES is how often the large capture repeats them. At
// the end the page shows the lines from 2,001 on. If anything is wrong, it replaces the page with an error message.
const at = (name) => document.getElementById(name);
const octets = Uint8Array.from(DROPPED.match(/../g), (it) => parseInt(it, 16));

function drop(name, times) {
    const dataTransfer = new DataTransfer();
    dataTransfer.items.add(new File(Array(times).fill(octets), name));
    document.body.dispatchEvent(new DragEvent('drop', { dataTransfer, bubbles: true, cancelable: true }));
}

async function until(what, holds) {
    for (let k = 0; k < 2400 && !holds(); k++) await new Promise((end) => { setTimeout(end, 50); });
    if (holds()) return;
    throw new Error(`${what}: ${at('told').textContent} ${at('said').textContent}`);
}

// Ends as soon as a progress is above 0, however late this program is given the processor.
function moves(progress) {
    return new Promise((end) => {
        const look = (_, it) => {
            if (progress.hidden || progress.value === 0) return;
            it.disconnect();
            end();
        };
        new MutationObserver(look).observe(progress, { attributes: true });
    });
}

function set(name, value) {
    const input = at(`help-${name}`).parentElement.querySelector('input');
    if (input.type === 'checkbox') input.checked = value;
    else input.value = value;
    input.dispatchEvent(new Event('input', { bubbles: true }));
    input.dispatchEvent(new Event('change', { bubbles: true }));
}

const shows = (first, last) => () => at('told').textContent === `Lines ${first} to ${last}; there are more. Status 0.`
    && at('listed').children.length === last - first + 1;

async function go() {
    at('command').value = 'tc';
    at('command').dispatchEvent(new Event('change', { bubbles: true }));
    set('check', true);
    drop('large.bin', TIMES);
    await until('a part', shows(1, 1000));
    at('later').click();
    await until('a later part', shows(1001, 2000));
    at('earlier').click();
    await until('an earlier part', shows(1, 1000));
    set('scid', '9');
    await until('a channel without frames', () => at('told').textContent === 'No lines. Status 0.');
    set('scid', '1024');
    await until('a refused number', () => at('told').dataset.status === '2' && !at('said').hidden);
    set('scid', '');
    const isMoving = moves(at('progress'));
    drop('larger.bin', 1 << 20);
    await isMoving;
    at('stop').click();
    await until('a run that is stopped', () => at('told').textContent === 'Stopped.' && at('progress').hidden);
    drop('large.bin', TIMES);
    await until('a part once more', shows(1, 1000));
    at('later').click();
    await until('its later part', shows(1001, 2000));
    at('later').click();
    await until('a third part', shows(2001, 3000));
}

const wait = setInterval(async () => {
    if (at('version').textContent === '') return;
    clearInterval(wait);
    try {
        await go();
    } catch (error) {
        document.body.textContent = error.message;
    }
    document.documentElement.dataset.clicked = '';
}, 50);
