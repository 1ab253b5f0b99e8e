"""What crosses the link: the input lines of a program that is only a FARM-1 or a FOP-1, and the parts of its answers
that are compared (driver.py --link)."""
import re

from frames import ALONE, Fault, are_packets, read_clcw, read_tc

LINES = {"spacecraft": {"frame", "report", "take"},
         "ground": {"submit", "init", "vs", "window", "limit", "timer", "terminate", "send", "clcw", "tick"}}
FIELDS = {"spacecraft": {"scid", "vcid", "width", "window", "ready_slots"},
          "ground": {"scid", "vcid", "window", "limit", "timer"}}
#: Alerts by the names that the book has for them.
ALERTS = {"t1": "timer", "nn(r)": "nnr", "term": "terminated"}
#: Faults of frames that the profile refuses and the book does not: Spare, BypassNumber, EmptyData.
STRICTER = {4, 7, 8}
#: The fields of a control word that COP-1 does not set: the status, no RF available, no bit lock.
CARRIED = 0x1C00C000

# What shows the rest of a state after an event: what is received, or what is sent, and when, until the alert.
SUBMIT = "submit 4 1005C0000000BB"
SENDS, ANEW = ["send"] * 3, ["init none", SUBMIT, "send"]
AFTER = {"spacecraft": [["report", "take", "report", "take", "report"]],
         "ground": [[*SENDS, *[SUBMIT, "send"] * 3, *["tick"] * 3, *SENDS, "send", *["tick"] * 9],
                    [*["tick"] * 30, *ANEW]]}


class Whole:
    """A program that speaks all lines of a node: each is given, and all of each answer is compared, but for the fields
    that are ignored."""

    def __init__(self, ignored=()):
        self.ignored = tuple(f"{it}=" for it in ignored if it)

    def fits(self, node, line):
        return True

    def compared(self, answer):
        """The answer; of one that says why a line is unreadable that it is."""
        if answer.startswith("unreadable:"):
            return "unreadable"
        return " ".join(it for it in answer.split(" ") if not (self.ignored and it.startswith(self.ignored)))


class Link:
    """A program that knows no more than what crosses the link."""

    def __init__(self, node, book, fixed):
        self.ground, self.book = node == "ground", book
        self.model = {"window": 1, **fixed} if "width" in fixed else fixed  # (half of the width at most)
        self.lines, self.fields = LINES[node], FIELDS[node] - {*self.model}

    def fits(self, node, line):
        """Whether a line is given, by what the model is at."""
        word, *words = line.split(" ")
        if word == "config":
            return not node.made and words[0] in self.fields
        if word not in self.lines:
            return False
        try:
            given = node.called([word, *words])[1]
        except ValueError:
            return False
        return not node.made or (self.ground_fits(node, word, words, given) if self.ground else
                                 word != "frame" or self.frame_fits(given[0]))

    def frame_fits(self, octets):
        """A segment is exactly one packet: what becomes of others is for the node, not for FARM-1."""
        try:
            _, _, kind, _, data = read_tc(octets)
        except Fault as fault:
            return octets != b"" and not (self.book and fault.args[0] in STRICTER)
        return kind == "BC" or data[0] >> 6 == ALONE and are_packets(data[1:], 1) != []

    def ground_fits(self, node, word, words, given):
        fop = node.fop
        if word == "submit":  # one unit, and only if its place is free: a node keeps more
            try:
                packets = node.commands(*given, 1)
            except Fault:
                return False
            return fop.waiting is None and not node.pending and len(packets[0]) <= node.config["part"]
        if not self.book:
            return True
        if word in ("window", "limit", "timer"):
            return 1 <= given[0] <= (fop.room if word == "window" else 65535)
        if word == "init":  # (what the book does in S4 and S5 if NN(R) is not V(S) is not in docs/PROFILE.md)
            return fop.state != 6 or fop.nn == fop.vs or words[0] in ("none", "set")
        if word == "terminate":
            return fop.state != 6
        return not (word == "clcw" and fop.state == 5 and is_invalid(given[0]))

    def compared(self, answer):
        """Of an answer, the frame, the control word, the packet or the alert; of any other one nothing."""
        word, _, rest = answer.partition(" ")
        if re.fullmatch("report [0-9A-Fa-f]{8}", answer):
            return f"report {int(rest, 16) & ~CARRIED:08X}"
        if word == "alert":
            return f"alert {ALERTS.get(rest.lower(), rest.lower())}"
        return answer.upper() if word in ("sent", "report", "packet", "nothing") else "-"


def is_invalid(octets):
    try:
        read_clcw(octets)
    except Fault:
        return True
    return False
