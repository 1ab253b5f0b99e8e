// Runs commands of tctool over files, in a worker (lister.mjs).
const LINES = 1000, OCTETS = 1 << 20;
const at = (name) => document.getElementById(name);

// Compiles the module of tctool, which the page contains as base64 of its gzip.
async function moduleOf(text) {
    const octets = Uint8Array.from(atob(text), (it) => it.charCodeAt(0));
    const whole = new Blob([octets]).stream().pipeThrough(new DecompressionStream('gzip'));
    return WebAssembly.compile(await new Response(whole).arrayBuffer());
}

let compiled; // by the first run, for all runs

// Returns an address for a program that the page contains.
const addressOf = (text) => URL.createObjectURL(new Blob([text], { type: 'text/javascript' }));

// Runs commands in a worker, one at a time.
export class Runner {
    // Runs a command. Passes messages to `take` until the command ends. A run that was stopped, or after which another
    // one began, never ends.
    async run(asked, take) {
        const turn = this.stop(), module = await (compiled ??= moduleOf(at('tctool').textContent));
        if (turn !== this.turn) return new Promise(() => {});
        this.worker ??= new Worker(this.address ??= addressOf(at('worker').textContent));
        this.isRunning = true;
        return new Promise((end, fail) => {
            this.worker.onmessage = ({ data }) => {
                if (!('said' in data)) return take(data);
                this.isRunning = false;
                return end(data);
            };
            this.worker.onerror = (event) => fail(new Error(event.message));
            this.worker.postMessage({ module, before: 0, lines: LINES, octets: OCTETS, ends: false, ...asked });
        });
    }

    stop() {
        if (this.isRunning) {
            this.worker.onmessage = null;
            this.worker.terminate();
            this.worker = undefined;
            this.isRunning = false;
        }
        this.turn = (this.turn ?? 0) + 1;
        return this.turn;
    }
}
