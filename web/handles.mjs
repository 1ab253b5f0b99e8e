// What the nodes for JavaScript are made of: the managed parameters, records of fields, and the handle of a node.
import { objectOf } from './arguments.mjs';
import { defaults } from './calls.mjs';
import { numbers as n } from './sedgechisel.mjs';
import { ConfigFault, LinkFault, camel, sedge } from './values.mjs';

/** @typedef {import('./meanings.mjs').Config} Config */
/** @typedef {import('./values.mjs').Fault} Fault */
/** @typedef {import('./sedgechisel.mjs').sedge_config} sedge_config */

/** @type {Record<string, string>} */
const PARAMETERS = Object.fromEntries(Object.keys(defaults).map((it) => [camel(it), it]));

/**
 * The parameters as the library has them.
 * @param {Partial<Config>} given
 * @returns {sedge_config}
 */
function configOf(given) {
    const config = /** @type {sedge_config & Record<string, any>} */ ({ ...defaults });
    for (const [name, value] of Object.entries(objectOf('config', given, false))) {
        if (!Object.hasOwn(PARAMETERS, name)) throw new TypeError(`config: there is no parameter ${name}`);
        config[PARAMETERS[name]] = value;
    }
    return config;
}

/**
 * Returns an object that has only these fields. Throws a TypeError if it has another one.
 * @template {object} T
 * @param {string} name
 * @param {T} given
 * @param {string[]} fields
 * @returns {T}
 */
export function recordOf(name, given, fields) {
    for (const it of Object.keys(objectOf(name, given, false))) {
        if (!fields.includes(it)) throw new TypeError(`${name}: there is no ${it}`);
    }
    return given;
}

/** @type {FinalizationRegistry<() => void>} */
const forgotten = new FinalizationRegistry((close) => close());

/** @type {new () => import('./meanings.mjs').Closing} */
const Closing = class {
    [/** @type {any} */ (Symbol).dispose ?? Symbol('dispose')]() {
        /** @type {any} */ (this).close();
    }
};

/** What the nodes share. A node is closed by `close`, at the end of a `using` block, or after nothing refers to it any
 * more. Every later call throws an Error. */
export class Handle extends Closing {
    /** @type {any} */
    #raw = {};
    /** @type {Config} */
    #config;
    /** @type {(raw: any) => void} */
    #closes;
    /** @type {new (number: number) => Fault} */
    #fault;

    /**
     * @param {Partial<Config>} given
     * @param {(config: sedge_config, raw: object) => number} opens
     * @param {(raw: any) => void} closes
     * @param {new (number: number) => Fault} [fault] the class of what calls refuse
     */
    constructor(given, opens, closes, fault = LinkFault) {
        super();
        const config = configOf(given), raw = this.#raw, answer = opens(config, raw);
        this.#closes = closes;
        this.#fault = fault;
        if (answer === n.SEDGE_NODE_OUT_OF_RANGE) {
            const number = sedge().sedge_config_fault(config);
            if (number === 0) throw new RangeError('kept: no node of this configuration gives these numbers');
            throw new ConfigFault(number);
        }
        if (answer !== 0) throw new fault(answer);
        this.#config = /** @type {any} */ (Object.freeze(
            Object.fromEntries(Object.entries(config).map(([name, value]) => [camel(name), value]))));
        forgotten.register(this, () => closes(raw), this);
    }

    /** The managed parameters. */
    get config() {
        return this.#config;
    }

    /** Closes the node and releases its memory. A second call does nothing. */
    close() {
        forgotten.unregister(this);
        this.#closes(this.#raw);
    }

    /** Whether the node is closed. */
    get closed() {
        return Object.values(this.#raw).every((it) => it === 0);
    }

    /**
     * The answer of a call to the node, if it is not refused.
     * @protected
     * @param {(raw: any) => number} call
     * @param {new (number: number) => Fault} [fault]
     * @returns {number}
     */
    asked(call, fault = this.#fault) {
        const answer = call(this.#raw);
        if (answer === n.SEDGE_NODE_NONE) throw new Error('the node is closed');
        if (answer !== 0 && answer !== n.SEDGE_NODE_ABSENT) throw new fault(answer);
        return answer;
    }

    /**
     * What a call writes into an object.
     * @protected
     * @template T
     * @param {(raw: any, into: T) => number} call
     * @returns {T}
     */
    read(call) {
        const into = /** @type {T} */ ({});
        this.asked((raw) => call(raw, into));
        return into;
    }

    /**
     * The octets that a call takes, after another call has returned their number; null if there are none.
     * @protected
     * @param {(raw: any, count: { value?: number }) => number} next
     * @param {(raw: any, out: Uint8Array, count: { value?: number }) => number} take
     * @returns {Uint8Array | null}
     */
    octets(next, take) {
        const { value = 0 } = this.read(next), out = new Uint8Array(value);
        if (value === 0) return null;
        this.asked((raw) => take(raw, out, {}));
        return out;
    }
}
