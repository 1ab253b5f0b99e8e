"""Reads rows, which rows/README.md describes, and runs the tool over an input."""
import glob
import os
import re
import shlex
import subprocess
import threading

from entries import entries

ROOT = os.path.dirname(os.path.dirname(os.path.realpath(__file__)))
TCTOOL = os.path.abspath(os.environ.get("TCTOOL", f"{ROOT}/crates/tctool/out/tctool"))
REPEATED = re.compile(r"\{(?:(\w+)\.\.(\w+)|(\d+))\*([^{}]*)\}")


def repeated(it):
    if it[3]:
        return int(it[3]) * it[4]
    numbers = range(int(it[1], 16), int(it[2], 16) + 1)
    return "".join(it[4].replace("%", f"{number:0{len(it[1])}X}") for number in numbers)


def spelled(text):
    """The octets of a text: {N*TEXT} is TEXT so many times, {A..B*TEXT} for each number, \\xHH an octet."""
    while text != (text := REPEATED.sub(repeated, text)):
        pass
    return re.sub(rb"\\x([0-9A-Fa-f]{2})", lambda it: bytes.fromhex(it[1].decode()), text.encode())


class Row:
    """What an entry says: `runs` has each input with what is written of it, `records` each line of octets, and of lines
    that are answered or encoded one by one each line."""

    def __init__(self, name, says, head):
        self.name, self.says, self.words, self.has, self.records = name, says, [], [], []
        self.status, self.error, self.cause, self.pieces = 0, None, None, []
        self.rest, kind, lines = None, "script", []
        for at, line in enumerate(head):
            key, _, value = line.partition(":")
            if key in ("octets", "script", "each", "encoded") and not value:
                kind, lines = key, head[at + 1 :]
                break
            self.take(key, value.removeprefix(" "))
        getattr(self, f"take_{kind}")([self.split(it) for it in lines])

    def take(self, key, value):
        """Takes a line of the head."""
        if key == "words":
            self.words.append([os.fsdecode(spelled(it)) for it in shlex.split(value)])
        elif key == "pieces":
            self.pieces = [int(it) for it in value.split()]
        elif key == "status":
            self.status = int(value)
        elif key == "has":
            self.has += spelled(value).split(b"\n")
        elif key in ("error", "cause", "rest"):
            setattr(self, key, spelled(value).decode())
        else:
            raise ValueError(f"{self.name}: no such line: {key}")

    def split(self, line):
        """The input on a line, None where it has none, and what is written of it."""
        if line.startswith("-> "):
            return None, f"{line[3:]}\n"
        front, arrow, written = line.partition(" -> ")
        return (front.rstrip(), f"{written}\n") if arrow else (line, "")

    def take_script(self, lines):
        script = "".join(f"{it}\n" for it, _ in lines if it is not None)
        self.runs = [(spelled(script), spelled("".join(it for _, it in lines)))]
        if self.words and self.words[0][:1] in (["ground"], ["spacecraft"]):
            self.records = [(spelled(f"{it}\n"), spelled(written)) for it, written in lines if it is not None]

    def take_each(self, lines):
        self.runs = [(spelled(it or ""), spelled(written)) for it, written in lines]

    def take_encoded(self, lines):
        for line, written in lines:
            octets = bytes.fromhex(spelled(written).decode())
            self.records.append((spelled(f"{line}\n"), octets) if line is not None else (b"", octets))
        self.runs = [tuple(b"".join(it) for it in zip(*self.records))]

    def take_octets(self, lines):
        for front, written in lines:
            digits = re.sub(r"#.*|\s", "", front or "")
            if digits:
                self.records.append((bytes.fromhex(spelled(digits).decode()), spelled(written)))
            elif written:
                octets, before = self.records.pop()
                self.records.append((octets, before + spelled(written)))
        self.runs = [tuple(b"".join(it) for it in zip(*self.records))]

    def beginnings(self):
        """Each beginning of the octets, and what is written of it, and whether octets are left."""
        octets, _ = self.runs[0]
        for end in range(len(octets)):
            written, left = b"", end
            for number, (record, lines) in enumerate(self.records, 1):
                if left < len(record):
                    written += f"{number} invalid {self.rest}\n".encode() if left else b""
                    break
                written, left = written + lines, left - len(record)
            yield octets[:end], written, left > 0


def is_named(row, name):
    """Whether this folder, file or name is one of the row; that of rows/sim/lines.rows is rows/sim/lines/NAME."""
    place = os.path.relpath(name, ROOT).removesuffix(".rows")
    return f"{row.name}/".startswith(f"{place}/") or f"/{row.name}".endswith(f"/{name}")


def rows(names=()):
    """The rows that these name, or all."""
    every = []
    for file in sorted(glob.glob(f"{ROOT}/rows/**/*.rows", recursive=True)):
        stem = os.path.relpath(file, ROOT).removesuffix(".rows")
        every += [Row(f"{stem}/{name}", says, lines) for name, says, lines in entries(file)]
    return [row for row in every if not names or any(is_named(row, it) for it in names)]


def feed(pipe, octets, piece):
    try:
        for at in range(0, len(octets), piece):
            os.write(pipe, octets[at : at + piece])
    except BrokenPipeError:
        pass
    os.close(pipe)


def run(words, octets=b"", piece=None, **more):
    """The status of the tool, what it writes, and what it says. A read gives at most `piece` octets."""
    more = {"cwd": ROOT, **more}
    if piece is None:
        ran = subprocess.run([TCTOOL, *words], input=octets, capture_output=True, check=False, **more)
        return ran.returncode, ran.stdout, ran.stderr
    reads, writes = os.pipe2(os.O_DIRECT | os.O_CLOEXEC)  # a read of such a pipe gives what one write put in
    how = {"stdin": reads, "stdout": subprocess.PIPE, "stderr": subprocess.PIPE, **more}
    with subprocess.Popen([TCTOOL, *words], **how) as ran:
        os.close(reads)
        threading.Thread(target=feed, args=(writes, octets, piece)).start()
        written, said = ran.communicate()
    return ran.returncode, written, said
