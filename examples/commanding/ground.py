"""A ground whose commands are executed on board once and in order. It keeps them in the file STORE, gives commands up
to the number COMMANDS, and ends when each has its fate. It may be killed at any moment, and started again."""
import os
import time

import sedgechisel as sc
from mission import COMMANDS, CONFIG, MISSION, TICK, Link, arguments

Kind = sc.CommanderActionKind


class Store:
    def __init__(self, name: str) -> None:
        self.name, self.file = name, open(name, "ab+")
        self.file.seek(0)

    def append(self, octets: bytes) -> None:
        self.file.write(octets)
        self.file.flush()
        os.fsync(self.file.fileno())

    def replace(self, octets: bytes) -> None:
        self.file = open(f"{self.name}.new", "wb+")
        self.append(octets)
        os.replace(self.file.name, self.name)
        folder = os.open(os.path.dirname(os.path.abspath(self.name)), os.O_RDONLY)
        os.fsync(folder)  # (the new name, too, outlives a loss of power)
        os.close(folder)


def act(commander: sc.Commander, store: Store, link: Link) -> None:
    while (action := commander.next()).kind:
        if action.kind is Kind.STORE:
            store.append(action.octets)
        elif action.kind is Kind.SEND:
            link.send(action.octets)
        elif action.kind is not Kind.TELEMETRY:
            print(action.kind.name, action.tag, action.number, action.last, action.alert.word, flush=True)
        commander.done(action)
    if commander.is_worth:
        octets = commander.fresh()
        store.replace(octets)
        commander.renewed(len(octets))


def main() -> None:
    parser = arguments(__doc__, "store", "commands")
    parser.add_argument("--rebuild", action="store_true", help="bring a record to a board that has lost its own")
    words = parser.parse_args()
    store, link = Store(words.store), Link(words.base, words.base + 1, words.loss)
    with sc.Commander(MISSION, store.file.read(), CONFIG) as commander:
        store.file.truncate(commander.good)
        if words.rebuild:
            commander.rebuild()
        for number in range(commander.highest + 1, words.commands + 1):
            commander.command(number, 0, COMMANDS, number % 16384, b"command %d" % number)
        due = time.monotonic()
        act(commander, store, link)
        while commander.below < words.commands:
            if frame := link.receive(due - time.monotonic()):
                commander.telemetry(frame)
            if time.monotonic() >= due:
                due = time.monotonic() + TICK
                commander.tick()
            act(commander, store, link)


if __name__ == "__main__":
    main()
