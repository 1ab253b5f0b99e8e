// The tooltips of a row and of an arrow of the ladder: octets, fields, and the rules that were applied.
import { numbers as n } from '../sedgechisel.mjs';
import { digitsOf } from '../link.mjs';
import { frameName, frameWords, reportName, reportWords, valueWords } from './words.mjs';

export const FARM_MODES = ['Open', 'Wait', 'Lockout'];
const LONGEST = 240, FARTHEST = 1000; // letters of a part of a tooltip, and steps searched for a cause

const cut = (text) => (text.length > LONGEST ? `${text.slice(0, LONGEST)}..` : text);

// Searches back from the step `from` for one for which `holds` is true, while `lasts` is. Returns its index, or -1.
function lastOf(steps, from, holds, lasts) {
    for (let k = from; k >= Math.max(0, from - FARTHEST) && lasts(steps[k]); k--) if (holds(steps[k])) return k;
    return -1;
}

const isLost = ({ reply: { kind, up } }) => kind === n.SEDGE_REPLY_LOST || up?.kind === n.SEDGE_RECEIVED_INVALID;
const isAd = ({ gone }, number) => gone?.frame?.kind === n.SEDGE_TC_AD && gone.frame.n === number;

// Returns, as far as known, what led to a step that causes a retransmission: the frame that was lost, and the frame
// that arrived ahead or found no free buffer and thus set the retransmit flag of the CLCW.
function rootWords({ steps, lines }, again) {
    const { gone, before } = steps[again], line = (k) => `line ${lines[k] + 1}`;
    const isSet = ({ before: { farm: was }, after: { farm: is } }) => is.retransmit && !was.retransmit;
    const set = gone ? lastOf(steps, gone.from, isSet, ({ after }) => after.farm.retransmit) : again;
    if (set < 0) return [];
    const { reply: { up }, before: { farm: { vr } } } = steps[set], number = gone ? vr : before.fop.nn;
    const isMissing = ({ before: { farm } }) => farm.vr === number;
    const lost = lastOf(steps, set, (it) => isAd(it, number) && isLost(it), isMissing);
    const found = { [n.SEDGE_AHEAD]: 'arrived ahead', [n.SEDGE_NO_BUFFER]: 'found no free buffer' }[gone && up?.verdict];
    const words = [lost >= 0 && `AD ${number} was lost on ${line(lost)}`, found && `AD ${up.n} ${found} on ${line(set)}`];
    return words.filter(Boolean);
}

// Returns in words why a frame is sent again, or nothing for a frame that is sent for the first time.
export function againWords(player, { again } = {}) {
    if (again === undefined) return [];
    const { gone } = player.steps[again], word = gone && valueWords(gone.word);
    const cause = word ? `a CLCW arrived with ${word}` : 'the timer ran out';
    const roots = rootWords(player, again), root = roots.length > 0 ? ` ${roots.join(', and ')}.` : '';
    return [`Sent again because of line ${player.lines[again] + 1}: ${cause}.${root}`];
}

// The states of both machines where they become others: S1 to S3 at the ground, Open to Lockout on board.
export function turnsOf({ before, after }) {
    const name = (of, one, other) => (one.state === other.state ? '' : `${of(one.state)} \u2192 ${of(other.state)}`);
    return { fop: name((it) => `S${it}`, before.fop, after.fop), farm: name((it) => FARM_MODES[it], before.farm, after.farm) };
}

// Why the last step is as it is, in words: why its frame is sent again, which CLCW arrived or was lost, and what led to
// another state, which without a CLCW is an event of the standard (tables 5-1 and 6-1).
export function causeWords(player, made) {
    const { last, lines } = player, { before, rows = {}, sent, gone } = last;
    if (before === undefined) return [];
    const { fop, farm } = turnsOf(last), word = gone?.word, ends = [];
    const clcw = word && `CLCW of line ${lines[gone.from] + 1}: ${reportWords(word)}.`;
    const sender = made.fop[rows.fop?.event]?.[0] ?? last.line, receiver = made.farm[rows.farm?.event]?.[0] ?? last.line;
    if (clcw) ends.push(fop ? `${fop} because of the ${clcw}` : `The ${clcw}`);
    else if (fop) ends.push(`${fop}: ${sender}.`);
    return [...againWords(player, sent), ...ends, ...farm ? [`${farm}: ${receiver}.`] : []];
}

// The places of a run at which frames are sent again, or states change other than by a directive: what happens, and the
// line; so many at most, and one more where there are more. Steps that were looked at are not looked at again.
export function placesOf(player, most) {
    const { steps, lines, script, places } = player;
    const it = player.places = places?.script === script && places.most === most ? places : { script, most, count: 0, found: [] };
    for (; it.count < steps.length && it.found.length <= most; it.count++) {
        const { sent, rows, before, after } = steps[it.count], isAsked = rows.fop?.part === 'the directives';
        const isSame = before.fop.state === after.fop.state && before.farm.state === after.farm.state;
        if (isSame && sent?.again === undefined) continue;
        const { fop, farm } = turnsOf(steps[it.count]), again = sent?.again !== undefined && `${frameName(sent.frame)} again`;
        it.found.push(...[again, !isAsked && fop, farm].filter(Boolean).map((name) => ({ name, line: lines[it.count] + 1 })));
    }
    return it.found.slice(0, most + 1);
}

// What both machines do in a script that was played: S2, S3, Wait and Lockout, where they go there, and the alerts.
export function courseWords({ steps }) {
    const found = (prefix, names) => {
        const all = [...new Set(names.filter(Boolean))];
        return all.length > 0 ? [`${prefix} ${all.join(', ')}`] : [];
    };
    const words = [
        ...found('sender to', steps.map(({ after: { fop } }) => [2, 3].includes(fop.state) && `S${fop.state}`)),
        ...found('receiver to', steps.map(({ after: { farm } }) => farm.state > 0 && FARM_MODES[farm.state])),
        ...found('alert', steps.map(({ answer }) => answer.match(/\balert (\w+)/)?.[1])),
    ];
    return words.length > 0 ? words.join('; ') : 'sender stays in S1';
}

// Describes the events of both machines, each with its rule or row, and their changes of state.
function rules(step, made) {
    const { before, rows: { fop, farm } } = step, said = Object.values(turnsOf(step)).filter((it) => it !== '');
    const rule = made.rules[fop?.part]?.[fop.rule - 1], cell = made.cells[farm?.event]?.[before.farm.state];
    const isNamed = fop?.event !== undefined;
    if (fop) said.push(cut(`Sender: ${isNamed ? `${fop.event}, ${made.fop[fop.event]?.[0] ?? ''}` : `rule ${fop.rule} of ${fop.part}`}`));
    if (rule) said.push(cut(isNamed ? `Rule ${fop.rule} of ${fop.part}: ${rule}` : rule));
    if (farm) said.push(cut(`Receiver: ${farm.event}, ${made.farm[farm.event][0]}`));
    if (cell) said.push(cut(`In ${FARM_MODES[before.farm.state]}: ${cell}`));
    return said;
}

export function rowHint(player, step, made) {
    const { fop, farm } = step.after, { ready_slots: slots } = player.config;
    return [
        cut(step.line), cut(step.answer), ...againWords(player, step.sent), ...rules(step, made),
        `V(S) ${fop.vs}, NN(R) ${fop.nn}, window ${fop.sent} of ${fop.window}, `
            + `timer ${fop.ticks ? `${fop.ticks} of ${fop.timer}` : 'off'}; V(R) ${farm.vr}, buffer ${farm.ready} of ${slots}`,
        'Click: play up to here.',
    ].join('\n');
}

function octetsOf(calls, word) {
    const octets = new Uint8Array(4);
    calls.sedge_clcw_encode(word, octets);
    return octets;
}

export function arrowHint(player, step, made) {
    const { calls } = player, { gone: { word, frame, octets, ...sent }, reply, answer } = step;
    const isLost = reply.kind === n.SEDGE_REPLY_LOST;
    const what = word ? [reportName(word), reportWords(word)] : [frameName(frame), frameWords(calls, { frame, ...sent })];
    const digits = digitsOf(word ? octetsOf(calls, word) : octets);
    return [...what, ...againWords(player, sent), cut(`${word ? 'Control word' : 'Octets'} ${digits}`),
        cut(isLost ? 'It is lost.' : answer), ...rules(step, made), isLost ? 'Click: it arrives.' : 'Click: it is lost.'].join('\n');
}
