// The page: scripts of the simulated link (page.mjs), commands that are executed once (commands.mjs), captures
// (captures.mjs), and the choice of managed parameters (choose.mjs). The address selects what to begin with:
// #example=NAME, #script=TEXT or #packed=LETTERS, then &line=N or &play; and octets to decode, &octets=HEX&kind=KIND.
// #commands selects commands, #capture captures, and #choose the choice of parameters.
import { load } from '../sedgechisel.mjs';
import { Captures } from './captures.mjs';
import { Choosing } from './choose.mjs';
import { Commands } from './commands.mjs';
import { courseWords } from './hints.mjs';
import { Page } from './page.mjs';
import { Player } from './player.mjs';
import { unpacked } from './share.mjs';
import { use } from '../values.mjs';
import { KINDS } from './words.mjs';

const LONGEST = 1 << 26;
const VIEWS = {
    scripts: ['player', 'scripts'], commands: ['commands'], captures: ['captures'], choosing: ['choosing'],
};
const at = (name) => document.getElementById(name);
const askedBy = (hash) => new URLSearchParams(hash.slice(1).replaceAll('+', '%2B'));

// Shows one of the views.
function turnTo(name) {
    for (const [view, ids] of Object.entries(VIEWS)) {
        for (const id of ids) at(id).hidden = view !== name;
        at(`to-${view}`).setAttribute('aria-pressed', view === name);
    }
}

// Begins with the script in the address (plain, compressed, or an example), or with the first example.
async function beginScript(page, words, count) {
    const [first] = Object.keys(page.made.examples);
    const isOwn = words.has('script') || words.has('packed');
    try {
        if (isOwn) page.text = words.get('script') ?? await unpacked(words.get('packed'));
        page.choose(isOwn ? '' : words.get('example') ?? first, count);
        if (words.has('line')) page.runTo(Number(words.get('line')));
        if (words.has('row')) page.showChange(Number(words.get('row')));
    } catch (error) {
        page.choose(first, 0);
        page.complain(error.message);
    }
    if (words.has('octets')) at('pasted').value = words.get('octets');
    if (words.get('kind') in KINDS) at('kind').value = words.get('kind');
    page.decode();
}

// Shows what the address selects.
async function begin({ page, commands, captures, choosing }, hash) {
    page.keepAddress();
    const words = askedBy(hash), view = ['commands', 'capture', 'choose'].find((it) => words.has(it));
    turnTo({ commands: 'commands', capture: 'captures', choose: 'choosing' }[view] ?? 'scripts');
    if (view === 'commands') commands.beginWith(words);
    else if (view === 'capture') captures.beginWith(words);
    else if (view === 'choose') choosing.beginWith(words);
    else await beginScript(page, words, hash.length < 2 || words.has('play') ? Infinity : 0);
}

const isField = ({ tagName }) => /^(INPUT|TEXTAREA|SELECT)$/.test(tagName);

// Binds the buttons of a view, and its keys, which act unless a field has the focus.
function bindActs(view, acts, keys) {
    const does = (name) => at(name).getAttribute('aria-disabled') !== 'true' && acts[name]();
    for (const name of Object.keys(acts)) at(name).addEventListener('click', () => does(name));
    document.addEventListener('keydown', (event) => {
        const isPlain = !event.altKey && !event.ctrlKey && !event.metaKey && !event.shiftKey, name = keys[event.key];
        if (!isPlain || name === undefined || isField(event.target) || at(view).hidden) return;
        event.preventDefault();
        does(name);
    });
}

function bindPlayer(page) {
    const moves = { first: -Infinity, back: -1, step: 1, end: Infinity };
    const keys = { Home: 'first', ArrowLeft: 'back', ArrowRight: 'step', End: 'end', l: 'swap', z: 'undo' };
    const acts = {
        swap: () => page.swap(page.player.at - 1), undo: () => page.undo(), play: () => page.play(),
        link: () => page.copyLink(), 'save-page': () => page.savePage(), 'send-page': () => page.savePage(), 'save-script': () => page.saveScript(), 'save-svg': () => page.savePicture('svg'),
        'save-png': () => page.savePicture('png'),
    };
    for (const [name, by] of Object.entries(moves)) acts[name] = () => page.move(page.player.at + by);
    bindActs('scripts', acts, keys);
    at('to').addEventListener('submit', (event) => {
        event.preventDefault();
        page.runTo(Number(at('line').value));
    });
    at('lines').addEventListener('click', ({ target }) => page.runTo(Number(target.closest('li')?.dataset.line)));
    at('ladder').addEventListener('click', ({ target }) => page.click(target));
    at('cause').addEventListener('click', ({ target }) => target.dataset.goes && page.runTo(Number(target.dataset.goes)));
}

function bindScript(page) {
    at('example').addEventListener('change', () => page.choose(at('example').value, Infinity));
    at('text').addEventListener('input', () => page.edit());
    at('events').addEventListener('click', ({ target }) => target.dataset.line && page.insert(target.dataset.line));
    for (const name of ['kind', 'pasted']) at(name).addEventListener('input', () => page.decode());
    addEventListener('resize', () => page.resized());
    addEventListener('beforeprint', () => page.draws((it) => it.drawWhole()));
    addEventListener('afterprint', () => page.draws((it) => it.show(page.player)));
}

// Opens a file as a script, and plays it.
async function openScript(page, file) {
    turnTo('scripts');
    const text = (await file.slice(0, LONGEST).text()).replaceAll('\r\n', '\n');
    at('own').open = text.length < 5000;
    page.replace(text, '', Infinity);
}

// A file is a script by its name, or a capture.
function takeFile(page, captures, file) {
    page.pause();
    if (/\.(script|txt)$/.test(file.name)) {
        openScript(page, file);
        return;
    }
    turnTo('captures');
    captures.open(file);
}

function bindFiles(page, captures) {
    for (const name of ['dragover', 'dragleave', 'drop']) {
        addEventListener(name, (event) => {
            if (!event.dataTransfer?.types.includes('Files')) return;
            event.preventDefault();
            document.body.classList.toggle('dropping', name === 'dragover');
            if (name !== 'drop' || event.dataTransfer.files.length === 0) return;
            takeFile(page, captures, event.dataTransfer.files[0]);
        });
    }
    at('open-file').addEventListener('click', () => at('any-file').click());
    at('any-file').addEventListener('change', ({ target }) => {
        if (target.files.length > 0) takeFile(page, captures, target.files[0]);
        target.value = ''; // (so that the same file can be opened again)
    });
}

// Binds the buttons of the views, and files that are opened, or dropped anywhere.
function bindViews(views) {
    const { page, commands, captures, choosing } = views;
    at('to-scripts').addEventListener('click', () => {
        turnTo('scripts');
        if (page.player.script === undefined) beginScript(page, new URLSearchParams(), Infinity);
        page.resized();
    });
    at('to-commands').addEventListener('click', () => {
        page.pause();
        turnTo('commands');
        commands.begin();
    });
    bindActs('commands', commands.acts(), {
        Home: 'run-first', ArrowLeft: 'run-back', ArrowRight: 'run-step', End: 'run-end', r: 'restart', t: 'tear',
    });
    at('to-captures').addEventListener('click', () => {
        page.pause();
        turnTo('captures');
    });
    at('to-choosing').addEventListener('click', () => {
        page.pause();
        turnTo('choosing');
        choosing.begin();
    });
    addEventListener('hashchange', ({ newURL }) => new URL(newURL).hash.length > 1 && begin(views, new URL(newURL).hash));
    bindFiles(page, captures);
}

// Adds to the names of the examples what both machines do in them. It plays each example for this.
async function describe(calls, examples) {
    for (const it of [...at('example').options].filter(({ value }) => value in examples)) {
        await new Promise((end) => { setTimeout(end); });
        const player = new Player(calls);
        player.load(examples[it.value]);
        player.goTo(Infinity);
        it.text = `${it.text}: ${courseWords(player)}`;
        player.link.close();
    }
}

// What the page begins with: its address, or what it was saved with.
function asked() {
    const { hash } = location, { begins } = document.documentElement.dataset;
    return begins !== undefined && (hash.length < 2 || hash.startsWith('#long=')) ? begins : hash;
}

async function start() {
    const whole = document.documentElement.cloneNode(true);
    const made = JSON.parse(at('made').textContent), option = (value, text) => new Option(text, value);
    const octets = Uint8Array.from(atob(at('module').textContent), (it) => it.charCodeAt(0));
    const calls = await load(new WebAssembly.Module(octets)), page = new Page(calls, made);
    const examples = Object.keys(made.examples).map((it) => option(it, it.replaceAll('_', ' ')));
    at('example').append(...examples, option('', 'a script of your own'));
    at('kind').append(...Object.entries(KINDS).map(([kind, [name]]) => option(kind, name)));
    use(calls); // (for the classes)
    const captures = new Captures(made, calls), choosing = new Choosing(calls), commands = new Commands(calls);
    const views = { page, captures, choosing, commands };
    page.whole = whole;
    await begin(views, asked());
    at('version').textContent = calls.sedge_version();
    bindPlayer(page);
    bindScript(page);
    bindViews(views);
    await describe(calls, made.examples);
}

start().catch((error) => {
    at('fault').textContent = `The page does not run here: ${error.message}`;
    at('fault').hidden = false;
});
