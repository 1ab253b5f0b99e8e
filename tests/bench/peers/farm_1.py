#!/usr/bin/env python3
"""A receiver with FARM-1 that only knows the standard (CCSDS 232.1-B-2, 6), for trials of driver.py --link. It was
written independently of the crates and of the model, from what docs/PROFILE.md and tables/farm.csv state about the
standard."""
import sys
from binascii import crc_hqx

# what it has built in, unless a line `config NAME N` says otherwise
managed = {"scid": 1, "vcid": 2, "width": 254, "ready_slots": 64}
OPEN, WAIT, LOCKOUT = 1, 2, 3


class Farm1:
    state, expected, farm_b = OPEN, 0, 0
    lockout = wait = retransmit = False

    def __init__(self):
        self.buffers = []

    def receive(self, frame):
        """A frame of this virtual channel, or octets that are none."""
        if not is_valid(frame):
            return  # E9
        bypass, control = frame[0] >> 5 & 1, frame[0] >> 4 & 1
        if not bypass:
            self.sequence_controlled(frame[4], frame[5:-2])
            return
        self.farm_b = (self.farm_b + 1) % 4  # E6, E7, E8
        if control and frame[5] == 0:
            self.state, self.lockout, self.wait, self.retransmit = OPEN, False, False, False
        elif control and self.state != LOCKOUT:
            self.state, self.expected, self.wait, self.retransmit = OPEN, frame[7], False, False

    def sequence_controlled(self, number, segment):
        half, distance = managed["width"] // 2, (number - self.expected) % 256
        if self.state == LOCKOUT:
            return
        if half <= distance < 256 - half:  # E5
            self.state, self.lockout = LOCKOUT, True
        elif self.state == WAIT:
            return
        elif distance == 0 and len(self.buffers) < managed["ready_slots"]:  # E1
            self.buffers.append(segment)
            self.expected, self.retransmit = (self.expected + 1) % 256, False
        elif distance == 0:  # E2
            self.state, self.retransmit, self.wait = WAIT, True, True
        elif distance < half:  # E3 (and E4 leaves all as it is)
            self.retransmit = True

    def take(self):
        """The oldest segment goes to the layer above, and its buffer is released (E10)."""
        if not self.buffers:
            return "nothing"
        segment = self.buffers.pop(0)
        if len(self.buffers) < managed["ready_slots"]:
            self.wait = False
            self.state = OPEN if self.state == WAIT else self.state
        return f"packet {segment[0] & 63} {segment[1:].hex().upper()}"

    def clcw(self):
        flags = self.lockout << 5 | self.wait << 4 | self.retransmit << 3 | self.farm_b << 1
        return bytes([1, managed["vcid"] << 2, flags, self.expected])


def is_valid(frame):
    if len(frame) < 7 or crc_hqx(frame, 0xFFFF) or frame[0] & 0xC0 or frame[0] & 0x30 == 0x10:
        return False
    channel = ((frame[0] & 3) << 8 | frame[1], frame[2] >> 2)
    if len(frame) != ((frame[2] & 3) << 8 | frame[3]) + 1 or channel != (managed["scid"], managed["vcid"]):
        return False
    command = frame[5:-2]
    return frame[0] & 0x30 != 0x30 or command == b"\0" or len(command) == 3 and command[:2] == b"\x82\0"


if sys.argv[1:]:
    import argparse  # (only now, since a driver starts this program often)

    argparse.ArgumentParser(description=__doc__, formatter_class=argparse.RawDescriptionHelpFormatter).parse_args()
farm = Farm1()
for line in map(str.strip, sys.stdin):
    if not line or line.startswith("#"):
        continue
    word, *words = line.split()
    if word == "config":
        managed[words[0]] = int(words[1])
        continue
    answer = "ok"
    if word == "frame":
        farm.receive(bytes.fromhex(words[0]))
    elif word == "report":
        answer = f"report {farm.clcw().hex().upper()}"
    elif word == "take":
        answer = farm.take()
    print(answer, flush=True)
