// Presses the buttons and keys of the page, as a person does to play examples/one_packet.script. web/check adds it to a
// copy of the page, whose answers are then those of that script. If the number of played lines is wrong, it replaces
// the page with an error message.
const at = (name) => document.getElementById(name);
const LINES = ['init none', 'submit MAP OCTETS', 'send', 'up deliver', 'take', 'report', 'down deliver', 'show'];

function wants(count, what) {
    const found = document.querySelectorAll('.answer:not(:empty)').length;
    if (found !== count) document.body.textContent = `${found} lines are played after ${what}, and not ${count}`;
}

function press(key, count) {
    document.body.dispatchEvent(new KeyboardEvent('keydown', { key, bubbles: true }));
    wants(count, key);
}

function click(name, count) {
    at(name).click();
    wants(count, name);
}

function play() {
    LINES.forEach((line, k) => {
        document.querySelector(`[data-line="${line}"]`).click();
        wants(k + 1, line);
    });
    const keys = [['Home', 0], ['ArrowRight', 1], ['ArrowRight', 2], ['ArrowLeft', 1], ['End', 8]];
    for (const [key, count] of keys) press(key, count);
    for (const [name, count] of [['first', 0], ['step', 1], ['step', 2], ['back', 1]]) click(name, count);
    at('line').value = 5;
    at('to').requestSubmit();
    wants(5, 'running to line 5');
    document.querySelector('#lines li:nth-child(3)').click();
    wants(3, 'a click on line 3');
    click('end', 8);
}

const wait = setInterval(() => {
    if (at('version').textContent === '') return;
    clearInterval(wait);
    play();
    document.documentElement.dataset.clicked = '';
}, 50);
