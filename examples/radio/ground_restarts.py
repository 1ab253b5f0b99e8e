"""A ground with restarts, for a board with a record: `ground_restarts.py BASE COMMANDS STORE` sends commands until the
status of the board shows the fate of so many. STORE is a file. Either end may be killed and started again at any time, and
each command is executed once and in order. The status is 1 if a person must decide."""
import os
import sys
import time

import sedgechisel as sc
from link import CONFIG, TICK, Link

COMMAND, STATUS = 5, 8  # APIDs
ROUND_TRIP = 0.5  # seconds; a value that is too short only causes more sessions
BEYOND = 64  # a status has a bit for so many numbers


def say(*words):
    print("ground:", *words, flush=True)


def content(number):
    """Returns what a command carries here: the time at which it is given, and up to 600 further octets."""
    return int(time.time() * 1e6).to_bytes(8, "big") + bytes((number + k) % 256 for k in range(1 + number * 37 % 600))


class Store:
    """An append-only file. It has a line for each command, with the packet, and a line for each fate."""

    def __init__(self, name):
        self.packets, self.history, self.fates = [], [0], []
        self.file = open(name, "ab+", buffering=0)
        self.file.seek(0)
        octets = self.file.read()
        whole = octets.rfind(b"\n") + 1  # the last line may be cut off
        self.file.truncate(whole)
        self._know(octets[:whole].decode().splitlines())

    def append(self, lines):
        if lines:
            octets = "".join(f"{it}\n" for it in lines).encode()
            if self.file.write(octets) != len(octets):
                raise SystemExit(f"ground: {self.file.name} has no room; at the next start its last line is cut off")
            os.fsync(self.file.fileno())
            self._know(lines)

    def _know(self, lines):
        for kind, _, *packet in map(str.split, lines):
            if packet:
                self.packets.append(bytes.fromhex(packet[0]))
                self.history.append(sc.history_after(self.history[-1], self.packets[-1]))
            else:
                self.fates.append(kind)


class Commander:
    """Sends command n, which is packets[n - 1] of the store, until the store has its fate, fates[n - 1]."""

    def __init__(self, ground, link, store, wanted):
        self.ground, self.link, self.store, self.wanted = ground, link, store, wanted
        self.boot = self.last = 0  # of the last status
        self.is_open, self.sent = False, 0  # whether a session has begun; the last number that it has submitted
        self.quiet = time.monotonic()  # when the silence began

    def is_silent(self):
        return time.monotonic() > self.quiet + ROUND_TRIP

    def ends_session(self):
        if self.ground.state != sc.State.S6:
            self.ground.terminate()
        self.is_open, self.quiet = False, time.monotonic()

    def alerts(self, alert):
        if alert:
            say("alert", alert.word)
            self.ends_session()

    def sends(self):
        """Numbers further commands and stores them, and only then sends."""
        its = self.store
        numbers = range(len(its.packets) + 1, min(self.wanted, len(its.fates) + BEYOND) + 1)
        its.append([f"command {n} {sc.command_packet(COMMAND, n % 16384, n, content(n)).hex()}" for n in numbers])
        while self.is_open and self.sent < min(len(its.packets), len(its.fates) + BEYOND):
            if self.ground.try_submit(4 + self.sent % 2, its.packets[self.sent]) is None:
                break
            self.sent += 1
        for frame in self.ground.frames() if self.is_open else ():
            self.link.send(frame)
            self.quiet = time.monotonic()

    def hears(self, frame):
        """Reads each status in a telemetry frame. A CLCW that arrives in the silence begins a session."""
        heard = self.ground.telemetry(frame)
        self.alerts(heard.alert)
        for packet in list(self.ground.packets()):
            header, data = sc.Packet.decode(packet)
            if header.apid == STATUS:
                try:
                    self.reads(sc.BoardStatus.decode(data))
                except sc.LogFault:
                    pass  # parts of two packets
        is_new = heard.report == sc.Report.USED and not heard.word.wait and self.is_silent()
        if is_new and self.boot and not self.is_open:
            self.ground.set_vs(heard.word.value)
            self.ground.init_unlock()
            self.is_open, self.sent = True, self.last

    def reads(self, status):
        """Compares a status with the store, ends the session if the board has restarted, and tells the fates."""
        if status.kind == sc.StatusKind.LOST:
            raise SystemExit("ground: the board has lost its record: a person decides")
        reach = status.last + status.begun
        if status.kind != sc.StatusKind.SAYS or (status.boot, status.last) < (self.boot, self.last):
            return  # the previous status holds, or this one is older
        its = self.store
        if reach >= len(its.history) or status.history != its.history[reach] or status.last < len(its.fates):
            raise SystemExit(f"ground: the board's record and {its.file.name} do not belong together: a person decides")
        if status.boot != self.boot:
            say("the board has boot count", status.boot)
            self.ground.forget_telemetry()
            self.ends_session()
        self.boot, self.last = status.boot, status.last
        self.tells(status)
        is_idle = self.ground.state == sc.State.S1 and not self.ground.outstanding and not status.waiting and self.is_silent()
        if self.is_open and is_idle and self.sent > reach:
            self.ends_session()  # the board has dropped a command

    def tells(self, status):
        lines = []
        for number in range(len(self.store.fates) + 1, status.last + 1):
            age = status.last - number
            lines.append(f"{'executed' if age < BEYOND and status.known >> age & 1 else 'unknown'} {number}")
        self.store.append(lines)
        for it in lines:
            if it.startswith("unknown"):
                say(f"nothing is known of command {it.split()[1]}: the board restarted during its execution")


def main():
    base, wanted, name = int(sys.argv[1]), int(sys.argv[2]), sys.argv[3]
    link, its = Link(base), Store(name)
    say(f"{name} has {len(its.packets)} commands, {len(its.fates)} of them with a fate")
    start = due = time.monotonic()
    with sc.Ground(CONFIG) as ground:
        commander = Commander(ground, link, its, wanted)
        while len(its.fates) < wanted:
            commander.sends()
            if frame := link.frame(due - time.monotonic()):
                commander.hears(frame)
            if time.monotonic() >= due:
                due += TICK
                commander.alerts(ground.tick())
    say(f"of {len(its.fates)} commands, {its.fates.count('executed')} are executed and {its.fates.count('unknown')} unknown, "
        f"after {time.monotonic() - start:.1f} s")


if __name__ == "__main__":
    main()
