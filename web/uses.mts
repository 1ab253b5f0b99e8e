// What TypeScript has to accept of the package, and what it has to refuse; web/package_check compiles it, and does not
// run it.
import {
    Alert, BoardStatus, Clcw, Commander, CommanderAction, ConfigFault, Executor, Fault, Ground, LedgerFault, Link,
    LinkFault, LogFault, Spacecraft, commandPacket, historyAfter, load, newRecord, numbers, rebuildOrder,
} from 'sedgechisel';
import { load as loadCalls } from 'sedgechisel/calls';
import { eventOf, scriptOf } from 'sedgechisel/script';
import { run, type System } from 'sedgechisel/tctool';

declare global {
    // What TypeScript 5.2 has for `using`.
    interface SymbolConstructor { readonly dispose: unique symbol }
    interface Disposable { [Symbol.dispose](): void }
}

export async function uses(octets: Uint8Array, system: System): Promise<number> {
    const calls = await load(octets), others: typeof calls = await loadCalls(octets);
    const accepted: 0 = numbers.SEDGE_ACCEPTED, config = { scid: 1, window: 4 };
    const fault: number = others.sedge_config_fault(config), map: { value?: number } = {};
    const ground = new Ground({ timer: 3, maps: 2n ** 63n }), spacecraft = new Spacecraft(ground.config);
    const kept: number[] = ground.kept.segments, state: 'S1' | 'S2' | 'S3' | 'S4' | 'S5' | 'S6' = ground.state;
    const frames: Uint8Array[] = [...ground.frames()], alert: Alert | null = ground.tick(), word: Clcw = spacecraft.controlWord;
    const { kind, verdict, dropped } = spacecraft.receive(frames[0]);
    const name: string | undefined = kind === 'AD' && verdict === 'ACCEPTED' ? dropped ?? undefined : alert?.advice;
    const faults: Fault[] = [new LinkFault(5), new ConfigFault(1)], link = new Link(), packet = link.take()?.packet;
    ground[Symbol.dispose]();
    const status: number = run(new WebAssembly.Module(octets), ['farm', octets], system);
    return [kept, state, word, name, faults, packet, map, scriptOf(''), eventOf('send')].length + accepted + fault + status;
}

export function restarts(board: Executor): bigint {
    const action = board.next();
    const kind: 'NOTHING' | 'WRITE_FIRST' | 'WRITE_SECOND' | 'EXECUTE' | 'RESTART' = action.kind;
    const octets: Uint8Array = kind === 'EXECUTE' ? action.content : action.octets;
    const places: [Uint8Array, Uint8Array] = [octets, newRecord()];
    board.done(action);
    const content: Uint8Array = board.offer(commandPacket(5, 0, 1, octets)), again = new Executor(...places, 7);
    again.obey(rebuildOrder(6, 0, 7, 1, historyAfter(0, content)));
    const { kind: said, known, begun } = BoardStatus.decode(again.status(1));
    const isKnown: boolean = said === 'SAYS' && begun;
    return isKnown ? known : BigInt(new LogFault(5).number);
}

export function commands(store: Uint8Array): bigint {
    const ground = new Commander({ roundTrip: 2, orders: 1, status: 2, map: 0, holds: true }, store, { timer: 3 });
    const number: number = ground.command(7n, 3, 5, 0, store), again: number = ground.command(7, 3, 5, 0, store);
    const action: CommanderAction = ground.next(), alert: Alert | null = action.alert, tag: bigint = action.tag;
    const kind: 'NOTHING' | 'STORE' | 'EXECUTED' | 'UNKNOWN' | 'RESTARTED' | 'RECORD_LOST' | 'FOREIGN' | 'ALERT'
        | 'TELEMETRY' | 'SEND' = action.kind;
    ground.done(action);
    const progress: 'WAITS' | 'SENT' | 'ON_BOARD' | null = ground.progress(number), isWorth: boolean = ground.isWorth;
    const octets: Uint8Array = kind === 'STORE' ? action.octets : ground.fresh(), fault: Fault = new LedgerFault(8);
    const heard: Alert | null = ground.telemetry(octets).alert, taken: Uint8Array | null = ground.takeTelemetry();
    const { good, below, highest, config, closed } = ground, { state }: { state: string } = ground.ground;
    const said = [alert, progress, isWorth, heard, taken, good, below, highest, state, config, closed, fault];
    return tag + BigInt(again + said.length);
}

export function misuses(ground: Ground, board: Executor, commander: Commander): void {
    // @ts-expect-error: there is no such parameter
    new Ground({ windw: 4 });
    // @ts-expect-error: a MAP is a number
    ground.submit('4', new Uint8Array(7));
    // @ts-expect-error: a packet is octets
    ground.submit(4, [1, 2]);
    // @ts-expect-error: a state is S1 to S6
    if (ground.state === 'S7') return;
    // @ts-expect-error: there may be no frame
    ground.pull().length;
    // @ts-expect-error: an executor has two places and a mark
    new Executor(newRecord());
    // @ts-expect-error: an action is one that `next` returned
    board.done({ kind: 'EXECUTE' });
    // @ts-expect-error: there is no such kind
    if (board.next().kind === 'WRITE') return;
    // @ts-expect-error: an action stays as it is
    board.next().number = 4;
    // @ts-expect-error: a mission has an APID of orders
    new Commander({ roundTrip: 2, status: 2, map: 0 });
    // @ts-expect-error: there is no such kind
    if (commander.next().kind === 'WRITE') return;
    // @ts-expect-error: an action is one that `next` returned
    commander.done({ kind: 'SEND' });
    // @ts-expect-error: it is not for programs
    ground.asked(() => 0);
}
