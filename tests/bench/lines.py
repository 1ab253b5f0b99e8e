"""The lines of a node, read and answered one by one (docs/TCTOOL.md, "One node, line by line")."""
import os
import re
import sys

from frames import Fault

PROFILE = os.path.join(os.path.dirname(os.path.realpath(__file__)), "..", "..", "docs", "PROFILE.md")
#: What the table of the managed parameters has in place of a number.
WORDS = {",": "", "even ": "", "width/2": "127", "any 64 bits": f"0 to {2**64 - 1}", "all ones": f"{2**64 - 1}"}


def fields():
    """The managed parameters as docs/PROFILE.md has them, in their order: least, most, default."""
    with open(PROFILE, encoding="utf-8") as it:
        table = it.read().partition("\n## The managed parameters\n")[2]
    for word, number in WORDS.items():
        table = table.replace(word, number)
    rows = re.findall(r"^\| `(\w+)`.* \| (\d+) to (\d+) \| (\d+) \|$", table, re.M)
    return {name: tuple(map(int, bounds)) for name, *bounds in rows}


FIELDS = fields()


def number(word, most):
    if not (word.isascii() and word.isdigit()) or word[0] == "0" and word != "0" or int(word) > most:
        raise ValueError
    return int(word)


def octets(word):
    if word == "-":
        return b""
    if not word.isalnum():
        raise ValueError
    return bytes.fromhex(word)


def word(digits):
    if len(digits) != 8:
        raise ValueError
    return octets(digits)


READERS = {"M": lambda it: number(it, 255), "X": lambda it: number(it, 255),
           "T": lambda it: number(it, 65535), "HEX": octets, "WORD": word}


class Node:
    """A node that is made at the first line that needs it. CALLS has its lines, and the methods that answer them."""

    CALLS = {}

    def __init__(self):
        self.config = {field: default for field, (_, _, default) in FIELDS.items()}
        self.made, self.good = False, True
        self.calls = {}
        for line, call in self.CALLS.items():
            words = line.split(" ")
            self.calls.setdefault((words[0], len(words)), []).append((words[1:], call))

    def called(self, words):
        """The method that a line asks for, and what it gives it."""
        for wanted, call in self.calls.get((words[0], len(words)), ()):
            if all(it in READERS or it == word for it, word in zip(wanted, words[1:])):
                return call, [READERS[it](word) for it, word in zip(wanted, words[1:]) if it in READERS]
        raise ValueError

    def set_field(self, words):
        if self.made or len(words) != 3 or words[1] not in FIELDS:
            raise ValueError
        self.config[words[1]] = number(words[2], FIELDS["maps"][1] if words[1] == "maps" else 65542)

    def field_out_of_range(self):
        config = self.config
        for field, (least, most, _) in FIELDS.items():
            fits = least <= config[field] <= most and (field != "width" or config[field] % 2 == 0)
            if not fits or field == "window" and config[field] > config["width"] // 2:
                return field
        return None

    def answer(self, line):
        """The answer to a line, or None where it has none."""
        if not line or line.startswith("#"):
            return None
        words = line.split(" ")
        try:
            if words[0] == "config":
                return self.set_field(words)
            call, given = self.called(words)
        except ValueError:
            self.good = False
            return "unreadable"
        if not self.made:
            field = self.field_out_of_range()
            if field:
                self.good = False
                return f"config out of range: {field}"
            self.begin(self.config)
            self.made = True
        try:
            return call(self, *given)
        except Fault as fault:
            return f"refused {fault}"


def serve(node):
    """Answers the lines of standard input; ends the program."""
    sys.stdin.reconfigure(encoding="latin-1", newline="\n")
    for line in sys.stdin:
        answer = node.answer(line[:-1] if line.endswith("\n") else line)
        if answer is not None:
            print(answer, flush=True)
    sys.exit(0 if node.good else 1)
