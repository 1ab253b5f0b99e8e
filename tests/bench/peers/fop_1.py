#!/usr/bin/env python3
"""A sender with FOP-1 that only knows the standard (CCSDS 232.1-B-2, 5), for trials of driver.py --link. It was written
independently of the crates and of the model, from what docs/PROFILE.md and tables/fop.csv state about the standard. The
lower procedures are ready for a frame only when the line `send` requests it."""
import re
import sys
from binascii import crc_hqx

# what it has built in, unless a line `config NAME N` says otherwise
managed = {"scid": 1, "vcid": 2, "window": 127, "limit": 3, "timer": 10}
S1, S2, S3, S4, S5, S6 = range(1, 7)
# the lines that it knows (docs/BENCH.md, "A FARM-1 or a FOP-1 alone")
X = r"(?:\d|[1-9]\d|1\d\d|2[0-4]\d|25[0-5])"
KNOWN = re.compile(rf"submit {X} (?:[0-9A-Fa-f]{{2}})+|init (?:none|check|unlock|set {X})|vs {X}|(?:config \w+|window|limit|timer) \d+"
                   r"|clcw [0-9A-Fa-f]{8}|terminate|tick|send", re.ASCII)


class Fop1:
    state, vs, nnr, transmissions, ticks = S6, 0, 0, 1, 0
    ad_out_ready, waiting, directive, out = False, None, None, None

    def __init__(self):
        self.sent = []  # of each frame N(S), the unit, and whether it is to be retransmitted

    # ---- the actions of table 5-1 ----

    def alert(self, name):
        self.purge()
        self.ticks, self.directive, self.state = 0, None, S6
        return f"alert {name}"

    def purge(self):
        self.sent, self.waiting, self.out = [], None, None

    def initialise(self, state):
        self.purge()
        self.transmissions, self.state = 1, state

    def start_timer(self):
        self.ticks = managed["timer"]

    def remove_acknowledged(self, value):
        while self.nnr != value:
            self.sent = [it for it in self.sent if it[0] != self.nnr]
            self.nnr = (self.nnr + 1) % 256
        self.transmissions = 1

    def initiate_retransmission(self):
        self.transmissions += 1
        self.start_timer()
        for it in self.sent:
            it[2] = True

    def look_for_fdu(self):
        if not self.ad_out_ready:
            return
        again = [it for it in self.sent if it[2]]
        if again:
            again[0][2] = False
            self.transmit(0, again[0][0], again[0][1])
        elif self.waiting is not None and (self.vs - self.nnr) % 256 < managed["window"]:
            if not self.sent:
                self.transmissions = 1
            self.sent.append([self.vs, self.waiting, False])
            self.transmit(0, self.vs, self.waiting)
            self.vs, self.waiting = (self.vs + 1) % 256, None

    def transmit(self, types, number, data):
        first = types << 4 | managed["scid"] >> 8
        length = len(data) + 6
        frame = bytes([first, managed["scid"] & 255, managed["vcid"] << 2 | length >> 8, length & 255, number]) + data
        self.out, self.ad_out_ready = frame + crc_hqx(frame, 0xFFFF).to_bytes(2, "big"), False
        self.start_timer()

    # ---- CLCWs: E1 to E15 ----

    def clcw(self, word):
        if word[0] & 0xE3 != 1 or word[1] & 3 or word[2] & 1:
            return self.alert("CLCW") if self.state < S5 else "ok"  # E15
        lockout, wait, retransmit, value = word[2] >> 5 & 1, word[2] >> 4 & 1, word[2] >> 3 & 1, word[3]
        if word[1] >> 2 != managed["vcid"] or self.state == S6:
            return "ok"
        if self.state == S5:  # E1 alone has an effect
            if not (lockout or wait or retransmit) and value == self.vs:
                self.ticks, self.directive, self.state = 0, None, S1
            return "ok"
        if lockout:
            return self.alert("LOCKOUT")  # E14
        if (value - self.nnr) % 256 > (self.vs - self.nnr) % 256:
            return self.alert("NN(R)")  # E13
        if wait and not retransmit:
            return self.alert("CLCW")  # E3, E7
        if value == self.vs:
            return self.alert("SYNCH") if retransmit else self.all_acknowledged(value)  # E4; E1, E2
        if not retransmit:
            return self.some_acknowledged(value)  # E5, E6
        return self.to_retransmit(value, wait)

    def all_acknowledged(self, value):
        if value == self.nnr and self.state in (S2, S3):
            return self.alert("SYNCH")
        if value != self.nnr or self.state == S4:  # E2; E1 in S4
            self.remove_acknowledged(value) if value != self.nnr else None
            self.ticks, self.state = 0, S1
        self.look_for_fdu()
        return "ok"

    def some_acknowledged(self, value):
        if value == self.nnr:  # E5
            return self.alert("SYNCH") if self.state in (S2, S3) else "ok"
        self.remove_acknowledged(value)  # E6
        self.state = S1
        self.look_for_fdu()
        return "ok"

    def to_retransmit(self, value, wait):
        some = value != self.nnr
        if some:
            self.remove_acknowledged(value)
        if managed["limit"] == 1:
            return self.alert("LIMIT")  # E101, E102
        if wait:
            self.state = S3  # E9, E11, E103
        elif some:  # E8
            self.initiate_retransmission()
            self.state = S2
        elif self.state != S2:
            if self.transmissions < managed["limit"]:
                self.initiate_retransmission()  # E10
            self.state = S2  # E12 does no more than that
        return "ok"

    # ---- the timer: E16, E17 ----

    def tick(self):
        if self.ticks == 0:
            return "ok"
        self.ticks -= 1
        if self.ticks:
            return "ok"
        if self.transmissions >= managed["limit"] or self.state == S4:
            return self.alert("T1")
        if self.state in (S1, S2):
            self.initiate_retransmission()
        elif self.state == S5:
            self.transmissions += 1
            self.transmit(3, 0, self.directive)
        return "ok"

    # ---- requests: E19, E20, E23 to E38, E41 ----

    def submit(self, at, packet):
        if self.state in (S1, S2, S3) and self.waiting is None:
            self.waiting = bytes([3 << 6 | at]) + packet
        return "ok"

    def initiate(self, how, value=None):
        if self.state != S6:
            return "ok"
        self.initialise({"none": S1, "check": S4}.get(how, S5))
        if how == "check":
            self.start_timer()
        if value is not None:
            self.vs = self.nnr = value
        if self.state == S5:
            self.directive = b"\0" if value is None else bytes([0x82, 0, value])
            self.transmit(3, 0, self.directive)
        return "ok"

    def terminate(self):
        return "ok" if self.state == S6 else self.alert("TERM")

    def set_vs(self, value):
        if self.state == S6:
            self.vs = self.nnr = value
        return "ok"

    def send(self):
        self.ad_out_ready = True
        if self.out is None and self.state in (S1, S2):
            self.look_for_fdu()
        frame, self.out, self.ad_out_ready = self.out, None, False
        return "nothing" if frame is None else f"sent {frame.hex().upper()}"


if sys.argv[1:]:
    import argparse  # (only now, since a driver starts this program often)

    argparse.ArgumentParser(description=__doc__, formatter_class=argparse.RawDescriptionHelpFormatter).parse_args()
fop = Fop1()
for line in map(str.strip, sys.stdin):
    if not line or line.startswith("#"):
        continue
    word, *words = line.split()
    if not KNOWN.fullmatch(line):
        answer = "unreadable"
    elif word in ("config", "window", "limit", "timer"):
        managed[words[0] if word == "config" else word] = int(words[-1])
        if word == "config":
            continue
        answer = "ok"
    else:
        answer = {"submit": lambda: fop.submit(int(words[0]), bytes.fromhex(words[1])), "send": fop.send,
                  "init": lambda: fop.initiate(words[0], *map(int, words[1:])), "terminate": fop.terminate,
                  "vs": lambda: fop.set_vs(int(words[0])), "tick": fop.tick,
                  "clcw": lambda: fop.clcw(bytes.fromhex(words[0]))}[word]()
    print(answer, flush=True)
