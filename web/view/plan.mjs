// What if: reverses whether a frame is lost or arrives, and plans the rest of the script again. Lines stay if they
// still do something, and are removed otherwise. At the end the link is driven until everything is acknowledged, or an
// alert ends the session. The machines alone determine what is sent again.
import { numbers as n } from '../sedgechisel.mjs';
import { eventOf } from '../link.mjs';
import { Player } from './player.mjs';

const ROUNDS = 64, MOST = 5000; // the maximum number of rounds, and of lines added

// Plays lines one after another on its own link, and keeps those that do something.
class Planner {
    constructor(calls, rows) {
        this.player = new Player(calls);
        this.player.load(rows.join('\n'));
        this.player.goTo(Infinity);
        this.rows = rows;
        this.added = 0;
    }

    get now() {
        return this.player.final;
    }

    isWaiting(way) {
        const [first, next] = this.now[way];
        return first < next;
    }

    // Adds a line, unless it does nothing, or is refused and was not before. Returns whether it was added; if not,
    // nothing has changed.
    add(line, wasRefused = false) {
        const [way] = line.split(' '), isEmpty = (way === 'up' || way === 'down') && !this.isWaiting(way);
        if (isEmpty || this.added === MOST) return false;
        const { player } = this, event = eventOf(line), step = player.step({ line, event });
        if (step.answer === 'nothing' || (step.answer.startsWith('refused') && !wasRefused)) return false;
        player.steps.push(step);
        this.rows.push(line);
        this.added++;
        return true;
    }

    // Sends all that is due, delivers it and a CLCW about it, and if that changes nothing waits for the timer.
    round() {
        const before = JSON.stringify(this.now.after.fop);
        while (this.add('send'));
        while (this.add('up deliver'));
        while (this.now.after.farm.wait && this.add('take'));
        if (!this.isWaiting('down')) this.add('report');
        while (this.add('down deliver'));
        if (JSON.stringify(this.now.after.fop) !== before) return;
        for (let { ticks } = this.now.after.fop; ticks > 0 && this.add('tick'); ticks--);
    }

    get isSettled() {
        const { fop } = this.now.after, isOver = fop.state === n.SEDGE_FOP_S6;
        const isDone = fop.state === n.SEDGE_FOP_S1 && fop.outstanding === 0 && fop.bypass === 0;
        return (isOver || isDone) && !this.isWaiting('up') && !this.isWaiting('down');
    }

    settle() {
        for (let k = 0; k < ROUNDS && this.added < MOST && !this.isSettled; k++) this.round();
    }

    end() {
        this.player.link.close();
        return `${this.rows.join('\n')}\n`;
    }
}

// Returns the text of a script that begins with some rows, and continues with the steps of another one from `from` on.
function planned({ calls, steps, events }, rows, from) {
    const planner = new Planner(calls, rows), rest = events.slice(from, from + MOST).map(({ line }) => line);
    const isShown = rest.includes('show');
    rest.forEach((line, k) => line === 'show' || planner.add(line, steps[from + k]?.answer.startsWith('refused')));
    planner.settle();
    if (isShown) planner.add('show');
    return planner.end();
}

// Returns the script with the fate of a step's frame reversed, or null if the step has no frame.
export function swapped(player, k) {
    const [way, what] = player.events[k]?.line.split(' ') ?? [];
    if (way !== 'up' && way !== 'down') return null;
    const rows = player.rows.slice(0, player.lines[k]);
    return planned(player, [...rows, `${way} ${what === 'lose' ? 'deliver' : 'lose'}`], k + 1);
}

// Returns the script in which the frame in transit that a step sent is lost, after those before it have arrived.
export function lostInTransit(player, k) {
    const way = player.steps[k].sent.word ? 'down' : 'up', [first] = player.last[way];
    const place = player.ways[way].indexOf(player.steps[k].sent, first), count = place - first + 1;
    const rows = player.rows.slice(0, player.lines[player.at - 1] + 1);
    let left = count;
    const events = player.events.slice(player.at).filter(({ line }) => !(line.startsWith(`${way} `) && left-- > 0));
    const lost = [...Array(count - 1).fill(`${way} deliver`), `${way} lose`];
    return planned({ calls: player.calls, steps: [], events }, [...rows, ...lost], 0);
}
