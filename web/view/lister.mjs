// The worker of the page: it runs a command of tctool over a file, which it reads in pieces, and hands out lines as
// they come, in bounded memory. A message has the module, the words, the file, the number of lines before the first that is
// wanted, the most lines and the most octets of them, and whether the command ends with the last of these; or `finds`,
// the pattern of a line that is looked for. The answers are { read }, how far the file was read; { lines }; and at last
// { status, said, isCut, place, line }, where isCut says that there are lines after those, and place is that of the line
// that was looked for, from 0. The status is undefined where the command was ended before its own end. A message with
// `record` instead asks where in the file a record is, and is answered by { said, from, octets }.
import { run } from '../tctool.mjs';

const PIECE = 1 << 20, LONGEST_WAIT = 100, LINE_FEED = 10, LONGEST_RECORD = 65542;
const ENOUGH = new Error('enough');

// The lines of what is written, those that are wanted.
class Lines {
    constructor({ before, lines, octets, ends, finds }) {
        Object.assign(this, { before, lines, octets, ends, isCut: false, seen: before, wanted: finds && new RegExp(finds) });
        Object.assign(this, { text: new TextDecoder(), rest: '', found: [], posted: Date.now() });
    }

    write(octets) {
        let from = 0;
        for (; this.before > 0; this.before--) {
            from = octets.indexOf(LINE_FEED, from) + 1;
            if (from === 0) return;
        }
        if (this.wanted) {
            this.find(octets.subarray(from));
            return;
        }
        if (this.lines > 0) from = this.take(octets, from);
        if (from < octets.length) {
            this.isCut = true;
            if (this.ends) throw ENOUGH;
        }
        if (Date.now() - this.posted > LONGEST_WAIT) this.post();
    }

    // Looks for the first line that is wanted, whose place is then known.
    find(octets) {
        const lines = (this.rest + this.text.decode(octets, { stream: true })).split('\n');
        this.rest = lines.pop();
        const k = lines.findIndex((it) => this.wanted.test(it));
        this.seen += k < 0 ? lines.length : k;
        if (k < 0) return;
        Object.assign(this, { place: this.seen, line: lines[k] });
        throw ENOUGH;
    }

    // Takes lines from a place on, as many as are still wanted, and returns the place after them.
    take(octets, from) {
        while (this.lines > 0) {
            const end = octets.indexOf(LINE_FEED, from) + 1;
            this.rest += this.text.decode(octets.subarray(from, end || octets.length), { stream: true });
            if (end === 0) return octets.length;
            this.found.push(this.rest.slice(0, -1));
            this.octets -= this.rest.length;
            this.rest = '';
            this.lines = this.octets > 0 ? this.lines - 1 : 0;
            from = end;
        }
        return from;
    }

    post() {
        if (this.found.length > 0) postMessage({ lines: this.found });
        this.found = [];
        this.posted = Date.now();
    }
}

// Reads a file in pieces. What throws is a failure for the command.
function reader(file) {
    const files = new FileReaderSync();
    let piece = new Uint8Array(0), at = 0, from = 0;
    return (room) => {
        if (at === piece.length) {
            try {
                piece = new Uint8Array(files.readAsArrayBuffer(file.slice(from, from + PIECE)));
            } catch {
                return -1;
            }
            at = 0;
            from += piece.length;
            postMessage({ read: from });
        }
        const part = piece.subarray(at, at + room.length);
        room.set(part);
        at += part.length;
        return part.length;
    };
}

// The octets of a record, counted from 1, in a file of frames (by their length field), of packets (likewise), or of
// records that are equally long; fewer where the file ends before.
const LENGTHS = {
    frames: (view) => (view.getUint16(2) & 0x3ff) + 1,
    packets: (view) => view.getUint16(4) + 7,
};

function recordOf({ file, record, kind, length }) {
    const files = new FileReaderSync(), octetsAt = (from, count) => new Uint8Array(files.readAsArrayBuffer(file.slice(from, from + count)));
    if (length) return { from: (record - 1) * length, octets: octetsAt((record - 1) * length, length) };
    let piece = octetsAt(0, PIECE), begun = 0, from = 0;
    for (let k = 1; ; k++) {
        if (from + LONGEST_RECORD > begun + piece.length && begun + piece.length < file.size) {
            piece = octetsAt(from, PIECE);
            begun = from;
        }
        const at = from - begun, isShort = piece.length - at < 6;
        const count = isShort ? piece.length - at : LENGTHS[kind](new DataView(piece.buffer, at));
        if (k === record || isShort) return { from, octets: piece.slice(at, at + count) };
        from += count;
    }
}

onmessage = ({ data }) => {
    if (data.record) {
        postMessage({ said: '', ...recordOf(data) });
        return;
    }
    const lines = new Lines(data), text = new TextDecoder(), read = data.file && reader(data.file);
    let status, said = '';
    const write = (file, octets) => {
        if (file === 1) lines.write(octets);
        else said += text.decode(octets, { stream: true });
        return octets.length;
    };
    try {
        const system = { open: () => 3, read: (file, room) => (file === 3 ? read(room) : 0), write };
        status = run(data.module, data.words, system);
    } catch (error) {
        if (error !== ENOUGH) throw error;
    }
    lines.post();
    postMessage({ status, said, isCut: lines.isCut, place: lines.place, line: lines.line });
};
