"""A board that executes each command at most once, and in order. FOLDER contains the two places of its record; without
FOLDER, the board is new. To execute a command, it appends a line to FOLDER/executed. It may be killed at any moment,
and started again."""
import os
import sys
import time
from typing import Callable

import sedgechisel as sc
from mission import CONFIG, MISSION, TICK, Link, arguments

Kind = sc.ActionKind


def read(name: str) -> bytes:
    try:
        with open(name, "rb") as file:
            return file.read()
    except OSError:
        return b""


def write(name: str, octets: bytes, how: str = "wb") -> None:
    with open(name, how) as file:
        file.write(octets)
        file.flush()
        os.fsync(file.fileno())


class Board:
    def __init__(self, folder: str, link: Link) -> None:
        self.places, self.effects, self.link = (f"{folder}/first", f"{folder}/second"), f"{folder}/executed", link
        self.node, self.count = sc.Spacecraft(CONFIG), 0
        first, second = map(read, self.places)
        self.executor = sc.Executor(first, second, int.from_bytes(os.urandom(4), "big"))

    def act(self) -> None:
        while (action := self.executor.next()).kind:
            if action.kind is Kind.EXECUTE:
                write(self.effects, b"%d %s\n" % (action.number, action.content), "ab")
            elif action.kind is Kind.RESTART:
                os.execv(sys.executable, [sys.executable, *sys.argv])
            else:
                write(self.places[action.kind - Kind.WRITE_FIRST], action.octets)
            self.executor.done(action)

    def take(self, call: Callable[[bytes], object], packet: bytes) -> None:
        try:
            call(packet)
        except sc.LogFault as fault:
            print("dropped:", fault, flush=True)
        self.act()

    def hear(self, frame: bytes) -> None:
        self.node.receive(frame)
        for _, order in self.node.bypass_packets():
            self.take(self.executor.obey, order)
        for _, command in self.node.packets():
            self.take(self.executor.offer, command)

    def report(self) -> None:
        status = sc.Packet(apid=MISSION.status, count=self.count % 16384).encode(self.executor.status(self.node.ready))
        self.count += 1
        self.node.telemetry(status)
        self.link.send(self.node.telemetry_frame())


def main() -> None:
    words = arguments(__doc__, "folder").parse_args()
    if not os.path.exists(words.folder):
        os.makedirs(f"{words.folder}.new", exist_ok=True)
        write(f"{words.folder}.new/first", sc.new_record())
        write(f"{words.folder}.new/second", sc.new_record())
        os.rename(f"{words.folder}.new", words.folder)
    board, due = Board(words.folder, Link(words.base + 1, words.base, words.loss)), time.monotonic()
    board.act()
    while True:
        if frame := board.link.receive(due - time.monotonic()):
            board.hear(frame)
        if time.monotonic() >= due:
            due = time.monotonic() + TICK
            board.report()


if __name__ == "__main__":
    main()
