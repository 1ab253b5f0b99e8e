// Made by web/types of web/link.mjs.
/** @typedef {import('./sedgechisel.mjs').Calls} Calls */
/** @typedef {import('./sedgechisel.mjs').sedge_config} sedge_config */
/** @typedef {Partial<import('./sedgechisel.mjs').sedge_event>} Event */
/** @typedef {import('./sedgechisel.mjs').sedge_reply} Reply */
/**
 * @param {Uint8Array} octets
 * @returns {string}
 */
export function digitsOf(octets: Uint8Array): string;
/**
 * Returns the octets of hexadecimal digits, no octets for '-', or null for anything else.
 * @param {string} digits
 * @returns {Uint8Array | null}
 */
export function octetsOf(digits: string): Uint8Array | null;
/**
 * Returns the event of a script line, or null if the line is unreadable.
 * @param {string} line
 * @returns {Event | null}
 */
export function eventOf(line: string): Event | null;
/**
 * Reads a script. Returns its managed parameters, and its lines with their events. Throws an Error that names a line if
 * it is unreadable.
 * @param {string} text
 * @returns {{ config: sedge_config, events: { line: string, event: Event }[] }}
 */
export function scriptOf(text: string): {
    config: sedge_config;
    events: {
        line: string;
        event: Event;
    }[];
};
/**
 * The defaults of the managed parameters.
 * @type {import('./sedgechisel.mjs').sedge_config}
 */
export const DEFAULTS: import('./sedgechisel.mjs').sedge_config;
/** A simulated link that answers in the words of `tctool sim`. */
export class Link {
    /**
     * @param {Calls} calls
     * @param {sedge_config} config
     * @throws {RangeError} if a parameter is out of range
     */
    constructor(calls: Calls, config: sedge_config);
    calls: import("./sedgechisel.mjs").Calls;
    sim: {};
    /** @type {any} */
    reply: any;
    close(): void;
    /**
     * Makes an event happen. Returns the line that answers it, and keeps the link's answer in `reply`.
     * @param {Event} event
     * @returns {string}
     */
    answer(event: Event): string;
    /** Returns the octets of the last event's frame or packet. */
    octets(): Uint8Array;
    /**
     * @param {Reply} it
     * @returns {string}
     */
    lineOf(it: Reply): string;
    /**
     * Returns the line for a CLCW that arrived by itself.
     * @param {import('./sedgechisel.mjs').sedge_heard} it
     */
    wordLine(it: import('./sedgechisel.mjs').sedge_heard): string;
    /** @param {import('./sedgechisel.mjs').sedge_received} it */
    receivedLine(it: import('./sedgechisel.mjs').sedge_received): string;
    /** @param {import('./sedgechisel.mjs').sedge_heard} it */
    heardLine(it: import('./sedgechisel.mjs').sedge_heard): string;
    /**
     * Returns how many entries a record has on a MAP.
     * @param {number} record
     * @param {number} map
     * @returns {number}
     */
    count(record: number, map: number): number;
    /** Reads the link. Returns the fields of sedge_sim_reading, how many packets were submitted and delivered, and how many
     * frames were sent and accepted. */
    read(): import("./sedgechisel.mjs").sedge_sim_reading & Record<string, number>;
    show(): string;
}
export type Calls = import('./sedgechisel.mjs').Calls;
export type sedge_config = import('./sedgechisel.mjs').sedge_config;
export type Event = Partial<import('./sedgechisel.mjs').sedge_event>;
export type Reply = import('./sedgechisel.mjs').sedge_reply;
