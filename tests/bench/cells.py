"""The cells of tables/: finds the cell of an event of the model's FARM-1 or FOP-1, and whether the model agrees."""
import csv
import os
from collections import Counter, namedtuple

from frames import Fault

TABLES = os.path.join(os.path.dirname(os.path.realpath(__file__)), "..", "..", "tables")
Farm = namedtuple("Farm", "state vr lockout wait retransmit farm_b")
Fop = namedtuple("Fop", "state vs nn sent due waiting control timer count values")
COMMANDS = {0: "Unlock", 0x82: "Set V(R)"}


def is_usual(machine):
    """Whether it is a machine in which all numbers from NN(R) to V(S) are of units that were sent."""
    return not isinstance(machine, Fop) or machine.sent == (machine.vs - machine.nn) % 256


def farm_now(farm):
    return Farm(farm.state, farm.vr, farm.lockout, farm.wait, farm.retransmit, farm.farm_b)


def fop_now(fop):
    control = f"{COMMANDS[fop.command[0]]} {'due' if fop.due else 'sent'}" if fop.state == 5 else "none"
    return Fop(f"S{fop.state}", fop.vs, fop.nn, len(fop.sent), sum(it[1] for it in fop.sent),
               int(fop.waiting is not None), control, fop.ticks, fop.count, (fop.window, fop.limit, fop.timer))


def flag(name):
    return {"stays": lambda a, b, x: getattr(a, name), "0": lambda a, b, x: 0, "1": lambda a, b, x: 1}


#: What each word of a column says that the field is after an event, of the machine before the event and after it, and
#: the number that the event carries.
FARM_WORDS = {
    "vr": {"stays": lambda a, b, x: a.vr, "V(R)+1": lambda a, b, x: (a.vr + 1) % 256, "x": lambda a, b, x: x},
    "lockout": flag("lockout"), "wait": flag("wait"), "retransmit": flag("retransmit"),
    "farm_b": {"stays": lambda a, b, x: a.farm_b, "FARM-B+1": lambda a, b, x: (a.farm_b + 1) % 4},
}
FOP_WORDS = {
    "vs": {"stays": lambda a, b, x: a.vs, "V(S)+1": lambda a, b, x: (a.vs + 1) % 256, "x": lambda a, b, x: x},
    "nn": {"stays": lambda a, b, x: a.nn, "N(R)": lambda a, b, x: x, "V(S)": lambda a, b, x: a.vs,
           "x": lambda a, b, x: x},
    "sent": {"stays": lambda a, b, x: a.sent, "0": lambda a, b, x: 0, "one more": lambda a, b, x: a.sent + 1,
             "those not acknowledged": lambda a, b, x: (a.vs - x) % 256},
    "due": {"stays": lambda a, b, x: a.due, "0": lambda a, b, x: 0, "all sent": lambda a, b, x: b.sent,
            "those of them not acknowledged": lambda a, b, x: min(a.due, b.sent),
            "one less": lambda a, b, x: a.due - 1},
    "waiting": flag("waiting"),
    "control": {"stays": lambda a, b, x: a.control, "none": lambda a, b, x: "none",
                "Unlock due": lambda a, b, x: "Unlock due", "Set V(R) due": lambda a, b, x: "Set V(R) due",
                "due": lambda a, b, x: a.control.replace("sent", "due"),
                "sent": lambda a, b, x: a.control.replace("due", "sent")},
    "timer": {"stays": lambda a, b, x: a.timer, "off": lambda a, b, x: 0, "restarts": lambda a, b, x: b.values[2],
              "one tick less": lambda a, b, x: a.timer - 1},
    "count": {"stays": lambda a, b, x: a.count, "1": lambda a, b, x: 1, "2": lambda a, b, x: 2,
              "count+1": lambda a, b, x: a.count + 1,
              "1 if none was sent; else stays": lambda a, b, x: a.count if a.sent else 1},
    "values": {"stay": lambda a, b, x: a.values, "window = x": lambda a, b, x: (x, *a.values[1:]),
               "limit = x": lambda a, b, x: (a.values[0], x, a.values[2]),
               "timer = x": lambda a, b, x: (*a.values[:2], x)},
}


class Cell:
    """A line of a table."""

    by_book = False  # whether the model does what the book does: then the profile departs nowhere

    def __init__(self, line, row, words):
        self.line, self.row = line, row
        self.fields = [(column, words[column][row[column]]) for column in words]

    def __str__(self):
        own = ("" if self.row["profile_says"] == "as in the book" else "; the book has no such event"
               if self.row["event"] == "-" else "" if self.by_book else "; the profile departs from the book here")
        return f"line {self.line}, {self.row['event']} ({self.row['what']}) in {self.row['before']}{own}"

    def wrong(self, before, after, x, answer):
        """What of this cell is not so, or None."""
        if after.state != self.row["after"] or answer not in (self.row["answer"], None):
            return f"{after.state} and {answer}, where it has {self.row['after']} and {self.row['answer']}"
        for column, wanted in self.fields:
            if getattr(after, column) != wanted(before, after, x):
                return f"{column} is {getattr(after, column)}, where it has {self.row[column]}"
        return None


class Watch:
    """Looks at each call of a machine, and keeps which cell it was."""

    def __init__(self, name, words, calls, now):
        self.name, self.calls, self.now = name, calls, now
        with open(f"{TABLES}/{name}", encoding="utf-8", newline="") as it:
            cells = [Cell(line, row, words) for line, row in enumerate(csv.DictReader(it), 2)]
        self.cells = {(it.row["what"], it.row["before"]): it for it in cells}
        self.what = {it.row["event"]: it.row["what"] for it in reversed(cells)}  # (the first words of an event)
        self.seen, self.cell, self.wrong = Counter(), None, []
        self.book = False  # whether the model does what the book does, where the profile says otherwise

    def of(self, machine):
        """Has the calls of a machine looked at from now on."""
        for name, describe in self.calls.items():
            setattr(machine, name, self.watched(machine, getattr(machine, name), describe))

    def watched(self, machine, call, describe):
        def calls(*given):
            before, fault, result = self.now(machine), None, None
            event, x = describe(machine, *given)
            try:
                result = call(*given)
            except Fault as it:
                fault = it
            self.look(event, before, self.now(machine), x, self.answer(call.__name__, result, fault))
            if fault:
                raise fault
            return result
        return calls

    def answer(self, name, result, fault):
        """The answer of a call as the table has it, or None where it has another form."""
        if fault:
            return f"refused {fault}"
        if name == "pull":
            kind, _, data = result or (None, 0, b"")
            return {"BC": f"sends {COMMANDS.get(data[0])}" if data else None, None: "nothing"}.get(kind)
        if self.name == "farm.csv" or name == "invalid":
            return result if name == "ad" else None
        return f"alert {result}" if result else "ok"

    def look(self, event, before, after, x, answer):
        if event is None:
            return
        cell = self.cells.get((self.what.get(event, event), before.state))
        if cell is None:
            self.wrong += [] if self.book else [f"no cell has {event} in {before.state}"]
            return
        self.cell = self.cell or cell
        self.seen[cell.line] += 1
        wrong = cell.wrong(before, after, x, answer)
        if wrong and not (self.book and (cell.row["profile_says"] == "otherwise" or not is_usual(before))):
            self.wrong.append(f"the model is not {self.name}, {cell}: {wrong}")


def watch_farm():
    calls = {"ad": lambda farm, n, free: (farm.event_of(n, free), n), "bd": lambda farm: ("E6", 0),
             "unlock": lambda farm: ("E7", 0), "set_vr": lambda farm, vr: ("E8", vr),
             "invalid": lambda farm: ("E9", 0), "released": lambda farm: ("E10", 0),
             "report": lambda farm, vcid: ("E11", 0)}
    return Watch("farm.csv", FARM_WORDS, calls, farm_now)


def tick_of(fop):
    if fop.ticks < 2:
        return ("E16" if fop.count < fop.limit else "E17") if fop.ticks else "tick: the timer is off", 0
    return "tick: ticks are left after it", 0


def pull_of(fop):
    if fop.due:
        return f"pull: {COMMANDS[fop.command[0]]} is due", 0
    if fop.bypass:
        return None, 0
    if fop.state in (1, 2) and any(it[1] for it in fop.sent):
        return "pull: a unit is due to be sent again", 0
    waits = fop.state in (1, 2) and fop.waiting is not None and len(fop.sent) < fop.window
    return "pull: a unit waits; within the window; none is due" if waits else "pull: nothing of these", 0


def value_of(fop, fault, name, value):
    event, wrong = {"Window": ("E36", "Set FOP_Sliding_Window_Width to x; out of its range"),
                    "Limit": ("E38", "Set Transmission_Limit to 0"), "Timer": ("E37", "Set T1_Initial to 0")}[name]
    return event if 1 <= value <= (fop.room if name == "Window" else 65535) else wrong, value


def watch_fop():
    initiations = {"none": "E23", "check": "E24", "unlock": "E25", "set": "E27"}
    calls = {"report": lambda fop, word: (fop.event_of(word), word.value), "invalid": lambda fop: ("E15", 0),
             "tick": tick_of, "pull": pull_of,
             "submit": lambda fop, unit: ("E19" if fop.waiting is None else "E20", 0),
             "terminate": lambda fop: ("E29", 0), "set_vs": lambda fop, vs: ("E35", vs), "set_value": value_of,
             "initiate": lambda fop, how, vr=None: (initiations[how], vr)}
    return Watch("fop.csv", FOP_WORDS, calls, fop_now)
