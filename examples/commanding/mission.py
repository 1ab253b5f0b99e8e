"""The parts that the ground and the board of this example share: the managed parameters, the settings of the mission,
and a UDP link on 127.0.0.1, which loses frames."""
import argparse
import random
import socket
from typing import Optional

import sedgechisel as sc

COMMANDS, ORDERS, STATUS = 5, 6, 7  # APIDs
CONFIG = sc.Config(scid=42, maps=0b11, window=16, timer=8, limit=5)
MISSION = sc.Mission(round_trip=4, map=1, orders=ORDERS, status=STATUS)
TICK = 0.02  # seconds


class Link:
    """One end of the link: the ground has the port BASE, and the board BASE + 1."""

    def __init__(self, own: int, other: int, loss: float) -> None:
        self.to, self.loss = ("127.0.0.1", other), loss
        self.socket = socket.socket(socket.AF_INET, socket.SOCK_DGRAM)
        self.socket.bind(("127.0.0.1", own))

    def send(self, frame: bytes) -> None:
        if random.random() >= self.loss:
            self.socket.sendto(frame, self.to)

    def receive(self, seconds: float) -> Optional[bytes]:
        """Returns the next frame, or None if none arrives in this time."""
        self.socket.settimeout(max(seconds, 1e-6))
        try:
            return self.socket.recv(4096)
        except socket.timeout:
            return None


def arguments(text: Optional[str], *names: str) -> argparse.ArgumentParser:
    """Returns a parser for BASE, for these further arguments, and for the losses of the link."""
    parser = argparse.ArgumentParser(description=text)
    for name in ("base", *names):
        parser.add_argument(name, metavar=name.upper(), type=str if name in ("store", "folder") else int)
    parser.add_argument("--loss", type=float, default=0.1, help="how likely a frame is lost that this end sends")
    return parser
