"""The ground's end of the link, by UDP on 127.0.0.1: sends a CLTU for each frame, and returns the frame of each CADU."""
import socket

import sedgechisel as sc
import sync

CONFIG = sc.Config(scid=42, vcid=2, tm_vcid=0, width=64, window=32, part=249, max_packet=1024, maps=3 << 4,
                   frame_length=223, timer=8, limit=20, queue_slots=16)
TICK = 0.05  # seconds
PORTS = range(1, 5)  # after BASE: CLTUs to the relay and to the board, CADUs to the relay and to the ground


def longest(commands):
    """Returns after how many seconds a ground with so many commands gives up."""
    return 60 + commands / 2


def bound(port):
    """Returns a socket at this port. Ends the program if the port is in use."""
    it = socket.socket(socket.AF_INET, socket.SOCK_DGRAM)
    try:
        it.bind(("127.0.0.1", port))
    except OSError as why:
        it.close()
        raise SystemExit(f"UDP port {port} of 127.0.0.1: {why.strerror}. Another run may use it: end that run, or set "
                         "BASE_PORT to a number with four free ports after it") from None
    return it


class Link:
    """Counts the CLTUs that it sends, the CADUs that arrive, those that are uncorrectable, and the corrected symbols."""

    def __init__(self, base):
        self.to, self.socket = ("127.0.0.1", base + 1), bound(base + 4)
        self.cltus = self.cadus = self.uncorrectable = self.symbols = 0

    def send(self, frame):
        self.socket.sendto(sync.cltu(frame), self.to)
        self.cltus += 1

    def frame(self, seconds):
        """Returns the next frame, or None if no CADU arrives in this time or the CADU is uncorrectable."""
        self.socket.settimeout(max(seconds, 1e-6))
        try:
            raw = sync.unrandomized(self.socket.recv(4096))
        except (TimeoutError, socket.timeout):
            return None
        self.cadus += 1
        frame, fixed = sync.rs_decode(raw) if raw else (None, -1)
        if frame is None:
            self.uncorrectable += 1
        else:
            self.symbols += fixed
        return frame
