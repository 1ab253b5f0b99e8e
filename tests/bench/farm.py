#!/usr/bin/env python3
"""A spacecraft with FARM-1, line by line on standard input and output. It implements CCSDS 232.1-B-2, 6, and
docs/PROFILE.md independently of the crates. driver.py runs another implementation against it."""
import sys
from collections import deque

sys.dont_write_bytecode = True
from frames import (AD, ALONE, BD, CONTINUING, FIRST, Clcw, Fault, Telemetry, apid_of, are_packets,  # noqa: E402
                    clcw, packet, read_tc, tm_frame)
from lines import Node, serve  # noqa: E402

OPEN, WAIT, LOCKOUT = "Open", "Wait", "Lockout"
IDLE = 2047


class Farm:
    """FARM-1: table 6-1, each event by its number."""

    def __init__(self, width):
        self.half, self.state, self.vr, self.farm_b = width // 2, OPEN, 0, 0
        self.lockout = self.wait = self.retransmit = 0

    def event_of(self, n, buffer_free):
        ahead = (n - self.vr) % 256
        if ahead == 0:
            return "E1" if buffer_free else "E2"
        return "E3" if ahead < self.half else "E4" if ahead >= 256 - self.half else "E5"

    def ad(self, n, buffer_free):
        event = self.event_of(n, buffer_free)
        if self.state == LOCKOUT or self.state == WAIT and event != "E5":
            return "discarded"
        if event == "E1":
            self.vr, self.retransmit = (self.vr + 1) % 256, 0
        elif event == "E2":
            self.retransmit, self.wait, self.state = 1, 1, WAIT
        elif event == "E3":
            self.retransmit = 1
        elif event == "E5":
            self.lockout, self.state = 1, LOCKOUT
        return {"E1": "accepted", "E2": "nobuffer", "E3": "ahead", "E4": "behind", "E5": "outside"}[event]

    def bd(self):
        self.farm_b = (self.farm_b + 1) % 4

    def unlock(self):
        self.farm_b = (self.farm_b + 1) % 4
        self.lockout = self.wait = self.retransmit = 0
        self.state = OPEN

    def set_vr(self, vr):
        self.farm_b = (self.farm_b + 1) % 4
        if self.state != LOCKOUT:
            self.vr, self.wait, self.retransmit, self.state = vr, 0, 0, OPEN

    def invalid(self):
        pass

    def released(self):
        self.wait = 0
        if self.state == WAIT:
            self.state = OPEN

    def report(self, vcid):
        return clcw(Clcw(vcid, self.lockout, self.wait, self.retransmit, self.farm_b, self.vr))


class Assembler:
    """The open parts of all MAPs, and why something was dropped last."""

    def __init__(self, config):
        self.config, self.parts, self.dropped = config, {}, None

    def judged(self, octets, most):
        """The packets that octets are which are whole now, at most so many."""
        longest, packets = self.config["max_packet"], are_packets(octets, most)
        if most == 1 and len(octets) > longest:
            self.dropped = "TooLong"
        elif not packets:
            self.dropped = "NotAPacket"
        elif max(map(len, packets)) > longest:
            self.dropped = "TooLong"
        else:
            return packets
        return []

    def take(self, segment):
        """The packets that are whole with a segment."""
        flags, at, data = segment[0] >> 6, segment[0] & 63, segment[1:]
        self.dropped = None
        if not self.config["maps"] >> at & 1:
            self.dropped = "ClosedMap"
            return []
        part = self.parts.pop(at, None)
        if flags in (FIRST, ALONE):
            self.dropped = None if part is None else "Interrupted"
        elif part is None:
            self.dropped = "NoBeginning"
            return []
        if flags == ALONE:
            return self.judged(data, None if self.config["blocking"] else 1)
        part = data if flags == FIRST else part + data
        if len(part) > self.config["max_packet"]:
            self.dropped = "TooLong"
        elif flags in (FIRST, CONTINUING):
            self.parts[at] = part
        else:
            return self.judged(part, 1)
        return []


class Builder:
    """Telemetry frames, of packets that are queued."""

    def __init__(self, config):
        self.config, self.queue, self.rest, self.frames = config, deque(), b"", 0

    def frame(self, word):
        """The next frame, with this control word; an idle packet fills it where packets run out in it."""
        room, data, pointer = self.config["frame_length"] - 12, b"", 2047
        if not self.rest and not self.queue:
            data, pointer = b"\x55" * room, 2046
        while len(data) < room:
            if not self.rest:
                pointer = min(pointer, len(data))
                idle = packet(IDLE, b"\x55" * max(room - len(data) - 6, 1), 0)
                self.rest = self.queue.popleft() if self.queue else idle
            data, self.rest = data + self.rest[:room - len(data)], self.rest[room - len(data):]
        frame = Telemetry(self.config["scid"], self.config["tm_vcid"], self.frames, pointer, data, word)
        self.frames = (self.frames + 1) % 256
        return tm_frame(frame)


class Spacecraft(Node):
    def begin(self, config):
        self.farm, self.assembler, self.builder = Farm(config["width"]), Assembler(config), Builder(config)
        self.ready, self.kept = deque(), deque(maxlen=config["bypass_slots"])

    def buffer_free(self):
        return len(self.ready) < self.config["ready_slots"]

    def on_frame(self, octets):
        try:
            scid, vcid, kind, n, data = read_tc(octets)
        except Fault as fault:
            self.farm.invalid()
            return f"invalid {fault}"
        if (scid, vcid) != (self.config["scid"], self.config["vcid"]):
            return "foreign"
        if kind == AD:
            return self.on_ad(n, data)
        if kind == BD:
            return self.on_bd(data)
        if data == b"\0":
            self.farm.unlock()
            return "BC unlock"
        self.farm.set_vr(data[2])
        return f"BC set {data[2]}"

    def on_ad(self, n, segment):
        verdict = self.farm.ad(n, self.buffer_free())
        if verdict != "accepted":
            return f"AD {n} {verdict}"
        packets = self.assembler.take(segment)
        self.ready.extend((segment[0] & 63, it) for it in packets)
        ready = f" ready {len(packets)}" if len(packets) > 1 else " ready" if packets else ""
        return f"AD {n} accepted{ready}{f' dropped {self.assembler.dropped}' if self.assembler.dropped else ''}"

    def on_bd(self, segment):
        self.farm.bd()
        at, data = segment[0] & 63, segment[1:]
        kept = self.config["maps"] >> at & 1 and segment[0] >> 6 == ALONE and are_packets(data, 1)
        if not kept or len(data) > self.config["max_packet"]:
            return "BD dropped"
        self.kept.append((at, data))
        return "BD kept"

    def on_telemetry(self, octets):
        if not are_packets(octets, 1) or apid_of(octets) == IDLE:
            raise Fault(8, "NotAPacket")
        self.builder.queue.append(octets)
        return "ok"

    def on_send(self):
        return f"sent {self.builder.frame(self.farm.report(self.config['vcid'])).hex().upper()}"

    def on_report(self):
        return f"report {self.farm.report(self.config['vcid']).hex().upper()}"

    def on_take(self):
        if not self.ready:
            return "nothing"
        at, octets = self.ready.popleft()
        if self.buffer_free():
            self.farm.released()
        return f"packet {at} {octets.hex().upper()}"

    def on_take_bypass(self):
        if not self.kept:
            return "nothing"
        at, octets = self.kept.popleft()
        return f"packet {at} {octets.hex().upper()}"

    def on_show(self):
        it = self.farm
        return (f"state={it.state} vr={it.vr} l={it.lockout} w={it.wait} t={it.retransmit} b={it.farm_b} "
                f"ready={len(self.ready)} bypass={len(self.kept)}")

    CALLS = {"frame HEX": on_frame, "telemetry HEX": on_telemetry, "send": on_send, "report": on_report,
             "take": on_take, "takebypass": on_take_bypass, "show": on_show}


if __name__ == "__main__":
    if sys.argv[1:]:
        import argparse  # (only now, since a driver starts this program often)

        argparse.ArgumentParser(description=__doc__, formatter_class=argparse.RawDescriptionHelpFormatter).parse_args()
    serve(Spacecraft())
