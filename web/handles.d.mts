// Made by web/types of web/handles.mjs.
/**
 * Returns an object that has only these fields. Throws a TypeError if it has another one.
 * @template {object} T
 * @param {string} name
 * @param {T} given
 * @param {string[]} fields
 * @returns {T}
 */
export function recordOf<T extends object>(name: string, given: T, fields: string[]): T;
declare const Handle_base: new () => import("./meanings.mjs").Closing;
/** What the nodes share. A node is closed by `close`, at the end of a `using` block, or after nothing refers to it any
 * more. Every later call throws an Error. */
export class Handle extends Handle_base {
    /**
     * @param {Partial<Config>} given
     * @param {(config: sedge_config, raw: object) => number} opens
     * @param {(raw: any) => void} closes
     * @param {new (number: number) => Fault} [fault] the class of what calls refuse
     */
    constructor(given: Partial<Config>, opens: (config: sedge_config, raw: object) => number, closes: (raw: any) => void, fault?: (new (number: number) => Fault) | undefined);
    /** The managed parameters. */
    get config(): import("./meanings.mjs").Config;
    /** Closes the node and releases its memory. A second call does nothing. */
    close(): void;
    /** Whether the node is closed. */
    get closed(): boolean;
    /**
     * The answer of a call to the node, if it is not refused.
     * @protected
     * @param {(raw: any) => number} call
     * @param {new (number: number) => Fault} [fault]
     * @returns {number}
     */
    protected asked(call: (raw: any) => number, fault?: (new (number: number) => Fault) | undefined): number;
    /**
     * What a call writes into an object.
     * @protected
     * @template T
     * @param {(raw: any, into: T) => number} call
     * @returns {T}
     */
    protected read<T>(call: (raw: any, into: T) => number): T;
    /**
     * The octets that a call takes, after another call has returned their number; null if there are none.
     * @protected
     * @param {(raw: any, count: { value?: number }) => number} next
     * @param {(raw: any, out: Uint8Array, count: { value?: number }) => number} take
     * @returns {Uint8Array | null}
     */
    protected octets(next: (raw: any, count: {
        value?: number | undefined;
    }) => number, take: (raw: any, out: Uint8Array, count: {
        value?: number | undefined;
    }) => number): Uint8Array | null;
    #private;
}
export type Config = import('./meanings.mjs').Config;
export type Fault = import('./values.mjs').Fault;
export type sedge_config = import('./sedgechisel.mjs').sedge_config;
export {};
