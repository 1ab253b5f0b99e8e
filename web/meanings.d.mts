// Made by web/bindings of c/include/sedgechisel.h and c/include/sedgechisel_nodes.h.

/** The managed parameters of a node (docs/PROFILE.md). */
export interface Config {
    /** The spacecraft identifier, 0 to 1,023; default 1. */
    scid: number;
    /** The virtual channel of telecommand frames, 0 to 63; default 2. */
    vcid: number;
    /** The virtual channel of telemetry frames, 0 to 7; default 0. */
    tmVcid: number;
    /** The width of the receiver's window, even, 2 to 254; default 254. */
    width: number;
    /** The sender's window K, 1 to width/2; default 127. */
    window: number;
    /** The transmission limit, 1 to 255; default 3. */
    limit: number;
    /** The timer's value in ticks, 1 to 65,535; default 10. */
    timer: number;
    /**
     * The maximum number of data octets in a segment. Without silence before an initiation, segments of two longer
     * packets can be joined into a command that nobody submitted. Range 1 to 1,016; default 1,016.
     */
    part: number;
    /** The maximum length of a packet in octets, 7 to 65,542; default 65,542. */
    maxPacket: number;
    /** The open MAPs, any 64 bits: bit m, of value 2 to the power of m, is 1 if MAP m is open; default all ones. */
    maps: number | bigint;
    /** The number of packets waiting to be taken at which the buffer on board is full, 1 to 64; default 64. */
    readySlots: number;
    /** The maximum number of bypass packets that wait to be taken, 1 to 64; default 4. */
    bypassSlots: number;
    /** The maximum number of units that wait to be sent for the first time, 1 to 65,535; default 1,000. */
    queueSlots: number;
    /** The length of a telemetry frame in octets, 16 to 2,048; default 64. */
    frameLength: number;
    /** 1 if a segment may contain several packets, 0 to 1; default 0. */
    blocking: number;
}

/** The settings of a mission. */
export interface Mission {
    /**
     * The longest time in ticks from sending a frame to the arrival of a CLCW and of a status that were both made after
     * the frame arrived.
     */
    roundTrip: number;
    /** The APID of orders, 0 to 2,046. */
    orders: number;
    /** The APID of the board's status. */
    status: number;
    /** The MAP of orders, one that is open. */
    map: number;
    /**
     * Whether sending stops after a restart of the board, or the loss of its record, until `goOn` is called. The first
     * status of a board counts as a restart. No pause is stored.
     */
    holds?: boolean;
}

export type State = 'S1' | 'S2' | 'S3' | 'S4' | 'S5' | 'S6';
export type Mode = 'OPEN' | 'WAIT' | 'LOCKOUT';
export type Verdict = 'ACCEPTED' | 'AHEAD' | 'NO_BUFFER' | 'BEHIND' | 'OUTSIDE' | 'DISCARDED';
export type ReceivedKind = 'INVALID' | 'FOREIGN' | 'AD' | 'BD' | 'BC';
export type HeardKind = 'INVALID' | 'FOREIGN' | 'FRAME' | 'CLCW';
export type Report = 'USED' | 'REFUSED' | 'OTHER_CHANNEL';
export type Command = 'UNLOCK' | 'SET_VR';
export type Begun = 'NOT' | 'WITHOUT_CHECK' | 'WITH_CHECK' | 'UNLOCK' | 'SET_VR';
export type ActionKind = 'NOTHING' | 'WRITE_FIRST' | 'WRITE_SECOND' | 'EXECUTE' | 'RESTART';
export type StatusKind = 'SAYS' | 'CHANGES' | 'STARTS' | 'LOST';
export type CommanderActionKind = 'NOTHING' | 'STORE' | 'EXECUTED' | 'UNKNOWN' | 'RESTARTED' | 'RECORD_LOST' | 'FOREIGN' | 'ALERT' | 'TELEMETRY' | 'SEND';
export type Progress = 'WAITS' | 'SENT' | 'ON_BOARD';

declare global {
    // Of the library of TypeScript where it has `using`; empty where it does not.
    interface Disposable {}
}
/** What `using` closes. */
export interface Closing extends Disposable {}

export const meanings: Record<string, Record<number, string>>;
export const members: {
    fop_state: Record<number, State>;
    farm_mode: Record<number, Mode>;
    verdict: Record<number, Verdict>;
    received_kind: Record<number, ReceivedKind>;
    heard_kind: Record<number, HeardKind>;
    heard_report: Record<number, Report>;
    command: Record<number, Command>;
    begun: Record<number, Begun>;
    log_action: Record<number, ActionKind>;
    log_status_kind: Record<number, StatusKind>;
    commander_action_kind: Record<number, CommanderActionKind>;
    progress: Record<number, Progress>;
};
export const ranges: Record<string, string>;
