#!/usr/bin/env python3
"""A ground with FOP-1, line by line on standard input and output. It implements CCSDS 232.1-B-2, 5, and docs/PROFILE.md
independently of the crates. driver.py runs another implementation against it."""
import sys
from bisect import bisect_right
from collections import deque

sys.dont_write_bytecode = True
from frames import (AD, ALONE, BC, BD, CONTINUING, FIRST, LAST, Fault, apid_of, are_packets,  # noqa: E402
                    packet_length, packets_of, read_clcw, read_tm, tc_frame)
from lines import Node, serve  # noqa: E402

IDLE, ONLY_IDLE, NO_START = 2047, 2046, 2047

#: Table 5-1, the events of reports: what is done in S1, S2, S3, S4 and S5. `-` ignores, `S1` to `S3` is the state that
#: follows, `ack` acknowledges, `again` marks all units sent, and another word is an alert.
REPORTS = {
    "E1": ("-", "", "", "S1", "S1"),
    "E2": ("ack S1", "ack S1", "ack S1", "", ""),
    "E3": ("Clcw", "Clcw", "Clcw", "Clcw", "-"),
    "E4": ("Synch", "Synch", "Synch", "Synch", "-"),
    "E5": ("-", "Synch", "Synch", "", ""),
    "E6": ("ack S1", "ack S1", "ack S1", "", ""),
    "E7": ("Clcw", "Clcw", "Clcw", "", ""),
    "E101": ("ack Limit", "ack Limit", "ack Limit", "", ""),
    "E102": ("Limit", "Limit", "Limit", "", ""),
    "E8": ("ack again S2", "ack again S2", "ack again S2", "", ""),
    "E9": ("ack S3", "ack S3", "ack S3", "", ""),
    "E10": ("again S2", "-", "again S2", "", ""),
    "E11": ("S3", "S3", "S3", "", ""),
    "E12": ("S2", "-", "S2", "", ""),
    "E103": ("S3", "S3", "S3", "", ""),
    "E13": ("NnR", "NnR", "NnR", "NnR", "-"),
    "E14": ("Lockout", "Lockout", "Lockout", "Lockout", "-"),
}


class Fop:
    """FOP-1: its numbers, and its queues of units. By the book, where docs/PROFILE.md has "otherwise" in its events, it
    does what the book does."""

    def __init__(self, config, book=False):
        self.book = book
        self.state, self.vs, self.nn, self.count, self.ticks = 6, 0, 0, 1, 0
        self.room, self.window = config["width"] // 2, config["window"]
        self.limit, self.timer = config["limit"], config["timer"]
        self.waiting, self.sent, self.bypass = None, deque(), deque()  # (of those sent: the unit, and its mark)
        self.command, self.due = b"", False

    def alert(self, name):
        self.state, self.waiting, self.ticks, self.due = 6, None, 0, False
        self.sent.clear()
        return name

    def again(self):
        self.count, self.ticks = self.count + 1, self.timer
        for it in self.sent:
            it[1] = True

    def acknowledge(self, value):
        while self.nn != value:
            if len(self.sent) == (self.vs - self.nn) % 256:  # (by the book NN(R) may be before what was sent)
                self.sent.popleft()
            self.nn = (self.nn + 1) % 256
        self.count = 1

    def event_of(self, word):
        """The event of table 5-1 that a report is."""
        some, sent = (word.value - self.nn) % 256, (self.vs - self.nn) % 256
        if word.lockout:
            return "E14"
        if some > sent:
            return "E13"
        if some == sent:
            return "E4" if word.retransmit else "E3" if word.wait else "E2" if sent else "E1"
        if not word.retransmit:
            return "E7" if word.wait else "E6" if some else "E5"
        if self.limit == 1:
            return "E101" if some else "E102"
        if some:
            return "E9" if word.wait else "E8"
        if self.count < self.limit:
            return "E11" if word.wait else "E10"
        return "E103" if word.wait else "E12"

    def report(self, word):
        """The alert that a report leads to, or None."""
        if self.state == 6:
            return None
        event = self.event_of(word)
        for action in REPORTS[event][self.state - 1].split():
            if action == "ack":
                self.acknowledge(word.value)
                if event == "E2" or event == "E6" and not self.book:
                    self.ticks = self.timer if self.sent else 0
            elif action == "again":
                self.again()
            elif action in ("S1", "S2", "S3"):
                if self.state in (4, 5):
                    self.ticks, self.due = 0, False
                self.state = int(action[1])
            elif action != "-":
                return self.alert(action)
        return None

    def invalid(self):
        return self.alert("Clcw") if self.book and self.state < 5 else None

    def tick(self):
        if self.ticks == 0:
            return None
        self.ticks -= 1
        if self.ticks:
            return None
        if self.state == 4 or self.count >= self.limit:
            return self.alert("Timer")
        if self.state in (1, 2):
            self.again()
        elif self.state == 5 or not self.book:
            self.due, self.count, self.ticks = self.state == 5, self.count + 1, self.timer
        return None

    def submit(self, unit):
        if self.state == 6 or self.book and self.state in (4, 5):
            raise Fault(6, "NotOpen")
        if self.waiting is not None:
            raise Fault(7, "Busy")
        self.waiting = unit

    def terminate(self):
        if self.state == 6:
            raise Fault(8, "WrongState")
        return self.alert("Terminated")

    def set_vs(self, vs):
        if self.state != 6:
            raise Fault(8, "WrongState")
        self.vs = self.nn = vs

    def set_value(self, fault, name, value):
        if not 1 <= value <= (self.room if name == "Window" else 65535):
            raise Fault(fault, name)
        setattr(self, name.lower(), value)

    def initiate(self, how, vr=None):
        if self.state != 6:
            raise Fault(8, "WrongState")
        self.vs = self.vs if vr is None else vr
        self.nn, self.count = self.nn if self.book and vr is None else self.vs, 1
        self.state = {"none": 1, "check": 4, "unlock": 5, "set": 5}[how]
        self.ticks = self.timer if how == "check" else 0
        self.due, self.command = self.state == 5, b"\0" if how == "unlock" else bytes([0x82, 0, self.vs])

    def pull(self):
        """The type, the number and the data field of what goes next, or None."""
        if self.due:
            self.due, self.ticks = False, self.timer
            return BC, 0, self.command
        if self.bypass:
            return BD, 0, self.bypass.popleft()
        if self.state not in (1, 2):
            return None
        for k, it in enumerate(self.sent, self.vs - len(self.sent)):
            if it[1]:
                it[1], self.ticks = False, self.timer
                return AD, k % 256, it[0]
        if self.waiting is None or (self.vs - self.nn) % 256 >= self.window:
            return None
        self.count = self.count if self.sent else 1
        self.sent.append([self.waiting, False])
        unit, number, self.waiting, self.vs, self.ticks = self.waiting, self.vs, None, (self.vs + 1) % 256, self.timer
        return AD, number, unit


class Extractor:
    """Packets out of telemetry frames: the last count, and the part of a packet whose end is to come."""

    def __init__(self):
        self.last, self.part = None, b""

    def frame(self, it):
        """The gap before a frame, and the packets that it finishes, but for idle ones."""
        gap = "-" if self.last is None else (it.count - self.last - 1) % 256
        self.last, part, packets = it.count, b"" if gap not in ("-", 0) else self.part, []
        self.part = b""
        if it.pointer == NO_START:
            octets = part + it.data
            length = packet_length(octets) if part else 0
            if length is None or length > len(octets):
                self.part = octets
            elif length == len(octets):
                packets = [octets]
        elif it.pointer != ONLY_IDLE:
            packets = are_packets(part + it.data[:it.pointer], 1) if part else []
            more, rest = packets_of(it.data[it.pointer:])
            packets += more
            self.part = b"" if packet_length(rest) == 0 else rest
        return gap, [each for each in packets if apid_of(each) != IDLE]


# the alerts that show a broken condition: nothing is known after one of them
BROKEN = {"Lockout", "NnR", "Clcw", "Synch"}


class Ground(Node):
    book = False

    def begin(self, config):
        self.fop, self.extractor, self.packets = Fop(config, self.book), Extractor(), deque()
        self.pending, self.known = deque(), False
        self.begin_session(False)

    def begin_session(self, known):
        """Counts submissions anew: where each one ends in the segments of the session, and how many are sent."""
        self.known, self.ends, self.sent, self.acknowledged = known, [], 0, 0

    def refill(self):
        if self.fop.state == 6:
            self.pending.clear()
        elif self.fop.waiting is None and self.pending:
            self.fop.submit(self.pending.popleft())

    def whole(self, segments):
        """How many first submissions these first segments make whole."""
        return bisect_right(self.ends, segments)

    def commands(self, at, octets, most):
        if at > 63 or not self.config["maps"] >> at & 1:
            raise Fault(2, "ClosedMap")
        packets = are_packets(octets, most)
        if not packets or any(not it[0] & 0x10 or apid_of(it) == IDLE for it in packets):
            raise Fault(3, "NotCommand")
        if max(map(len, packets)) > self.config["max_packet"]:
            raise Fault(4, "TooLong")
        return packets

    def segments_of(self, at, packets):
        part, groups = self.config["part"], [b""]
        for it in packets:
            if not groups[-1] or len(groups[-1]) + len(it) <= part:
                groups[-1] += it
            else:
                groups.append(it)
        for group in groups:
            parts = [group[k:k + part] for k in range(0, len(group), part)]
            flags = [FIRST] + [CONTINUING] * (len(parts) - 2) + [LAST] if len(parts) > 1 else [ALONE]
            yield from (bytes([flag << 6 | at]) + it for flag, it in zip(flags, parts))

    def on_submit(self, at, octets):
        fop = self.fop
        if fop.state == 6:
            raise Fault(1, "NotOpen")
        packets = self.commands(at, octets, None if self.config["blocking"] else 1)
        segments = list(self.segments_of(at, packets))
        if len(segments) + len(self.pending) + (fop.waiting is not None) > self.config["queue_slots"]:
            raise Fault(5, "QueueFull")
        if fop.book and fop.state in (4, 5):
            fop.submit(segments[0])  # (refused)
        self.ends.append((self.ends[-1] if self.ends else 0) + len(segments))
        self.pending.extend(segments)
        self.refill()
        return "ok"

    def on_bypass(self, at, octets):
        packet = self.commands(at, octets, 1)[0]
        if len(packet) > self.config["part"]:
            raise Fault(4, "TooLong")
        if len(self.fop.bypass) >= self.config["queue_slots"]:
            raise Fault(5, "QueueFull")
        self.fop.bypass.append(bytes([ALONE << 6 | at]) + packet)
        return "ok"

    def initiate(self, how, vr=None):
        self.fop.initiate(how, vr)
        self.begin_session(True)
        return "ok"

    def on_vs(self, vs):
        self.fop.set_vs(vs)
        self.begin_session(False)
        return "ok"

    def set_value(self, fault, name, value):
        self.fop.set_value(fault, name, value)
        return "ok"

    def on_terminate(self):
        return self.said(self.fop.terminate())

    def said(self, alert):
        self.refill()
        return f"alert {alert}" if alert else "ok"

    def on_send(self):
        vs, pulled = self.fop.vs, self.fop.pull()
        if pulled is None:
            return "nothing"
        self.sent += self.fop.vs != vs
        self.refill()
        return f"sent {tc_frame(self.config['scid'], self.config['vcid'], *pulled).hex().upper()}"

    def report(self, word):
        nn, alert = self.fop.nn, self.fop.report(word)
        self.acknowledged += (self.fop.nn - nn) % 256
        self.known = self.known and alert not in BROKEN
        return self.said(alert)

    def on_telemetry(self, octets):
        try:
            frame = read_tm(octets, self.config["frame_length"])
        except Fault as fault:
            return f"invalid {fault}"
        if (frame.scid, frame.vcid) != (self.config["scid"], self.config["tm_vcid"]):
            return "foreign"
        gap, packets = self.extractor.frame(frame)
        self.packets.extend(packets)
        said = self.on_clcw(frame.ocf)
        return f"gap={gap} packets={len(packets)}{f' {said}' if said.startswith('alert') else ''}"

    def on_clcw(self, octets):
        try:
            word = read_clcw(octets)
        except Fault as fault:
            alert = self.fop.invalid()
            return self.said(alert) if alert else f"invalid {fault}"
        return self.report(word) if word.vcid == self.config["vcid"] else "foreign"

    def on_take(self):
        return f"packet {self.packets.popleft().hex().upper()}" if self.packets else "nothing"

    def on_resume(self, value):
        fop = self.fop
        some, sent = (value - fop.nn) % 256, (fop.vs - fop.nn) % 256
        if sent == 0:
            some = 0
        if fop.state != 6 or not self.known or some > sent:
            raise Fault(10, "NotKnown")
        whole = self.whole(self.acknowledged + some)
        fop.set_vs(value)
        self.initiate("unlock")
        return f"resumed {whole}"

    def on_show(self):
        fop = self.fop
        unsent, due = (fop.waiting is not None) + len(self.pending), sum(marked for _, marked in fop.sent)
        return (f"state=S{fop.state} vs={fop.vs} nn={fop.nn} count={fop.count} timer={fop.ticks or 'off'} due={due} "
                f"unsent={unsent} bypass={len(fop.bypass)} submitted={len(self.ends)} sent={self.whole(self.sent)} "
                f"acknowledged={self.whole(self.acknowledged)} outstanding={len(fop.sent) + unsent}")

    CALLS = {"submit M HEX": on_submit, "bypass M HEX": on_bypass, "init none": lambda self: self.initiate("none"),
             "init check": lambda self: self.initiate("check"), "init unlock": lambda self: self.initiate("unlock"),
             "init set X": lambda self, vr: self.initiate("set", vr), "vs X": on_vs,
             "window X": lambda self, value: self.set_value(2, "Window", value),
             "limit X": lambda self, value: self.set_value(3, "Limit", value),
             "timer T": lambda self, value: self.set_value(4, "Timer", value),
             "terminate": on_terminate, "send": on_send, "telemetry HEX": on_telemetry,
             "clcw WORD": on_clcw, "tick": lambda self: self.said(self.fop.tick()), "take": on_take,
             "resume X": on_resume, "show": on_show}


if __name__ == "__main__":
    if sys.argv[1:]:
        import argparse  # (only now, since a driver starts this program often)

        argparse.ArgumentParser(description=__doc__, formatter_class=argparse.RawDescriptionHelpFormatter).parse_args()
    serve(Ground())
