"""Whole sessions of a commander with a board, over restarts of both ends and links that lose frames; and the programs
of examples/commanding, which are killed at random moments."""
import collections
import os
import random
import socket
import subprocess
import sys
import tempfile
import time

from commanding import GIVEN, HISTORY, each, mission, packet_of_status
from restarts import status

TOP = os.path.dirname(os.path.dirname(os.path.dirname(os.path.realpath(__file__))))


class Board:
    """A spacecraft and its executor, with the two places."""

    def __init__(self, it, world):
        self.it, self.world, self.places, self.executed, self.boots = it, world, [it.new_record()] * 2, [], 0
        self.starts()

    def starts(self):
        self.boots += 1
        self.node = self.it.Spacecraft(self.world.config)
        self.executor = self.it.Executor(*self.places, self.boots)

    def acts(self):
        """Does what is due; a crash comes before it, after a part of a write, or after it."""
        kind = self.it.ActionKind
        while (action := self.executor.next()).kind is not kind.NOTHING:
            crash = self.world.chance.random() < self.world.board_crash and self.world.chance.randrange(3) + 1
            if action.kind is kind.RESTART or crash == 1:
                return self.starts()
            if action.kind is kind.EXECUTE:
                self.executed.append((action.number, action.content))
            else:
                end, place = self.world.chance.randrange(50) if crash == 2 else 50, action.kind - kind.WRITE_FIRST
                self.places[place] = action.octets[:end] + self.places[place][end:]
            if crash:
                return self.starts()
            self.executor.done(action)

    def takes(self):
        its = self.executor
        for call, packets in ((its.obey, self.node.bypass_packets()), (its.offer, self.node.packets())):
            for taken in packets:
                try:
                    call(taken.packet)
                except self.it.LogFault:
                    pass
                boots = self.boots
                self.acts()
                if self.boots != boots:
                    return

    def reports(self):
        self.node.telemetry(packet_of_status(self.it, self.executor.status(self.node.ready)))
        return self.node.telemetry_frame()


class World:
    """A commander and a board, each of which may crash at any moment, and a link that loses frames."""

    def __init__(self, it, seed=0, loss=0.0, ground_crash=0.0, board_crash=0.0, **settings):
        self.it, self.chance, self.loss = it, random.Random(seed), loss
        self.ground_crash, self.board_crash = ground_crash, board_crash
        self.config = it.Config(window=8, timer=6, limit=3)
        self.mission, self.store, self.told = mission(it, **settings), b"", []
        self.given, self.crashes, self.lives, self.by_clcw, self.fates = {}, 0, 0, False, set()
        self.commander, self.board = None, Board(it, self)
        self.opens()

    def opens(self):
        if self.commander:
            self.commander.close()
        self.lives += 1
        self.commander = self.it.Commander(self.mission, self.store, self.config)
        self.store = self.store[:self.commander.good]

    def gives(self, count):
        for _ in range(count):
            tag = 1000 + len(self.given)
            content = self.chance.randbytes(self.chance.randrange(20))
            number = self.commander.command(tag, self.chance.randrange(4), 5, tag % 16384, content)
            self.given[tag] = number, content

    def acts(self):
        kind = self.it.CommanderActionKind
        while (action := self.commander.next()).kind is not kind.NOTHING:
            crashes = self.chance.random() < self.ground_crash
            if action.kind is kind.STORE:
                end = self.chance.randrange(len(action.octets)) if crashes else len(action.octets)
                self.store += action.octets[:end]
            elif action.kind is kind.SEND and self.chance.random() >= self.loss:
                self.board.node.receive(action.octets)
            elif action.kind in (kind.EXECUTED, kind.UNKNOWN):
                assert (self.lives, action.tag) not in self.fates
                self.fates.add((self.lives, action.tag))
                self.told.append((action.kind.name, action.tag))
            elif action.kind not in (kind.SEND, kind.TELEMETRY):
                self.told.append((action.kind.name, action.alert or action.number))
            if crashes:
                self.crashes += 1
                self.opens()
                self.given = {tag: it for tag, it in self.given.items() if it[0] <= self.commander.highest}
                return
            self.commander.done(action)

    def passes(self, ticks):
        for _ in range(ticks):
            self.acts()
            self.board.takes()
            self.board.acts()
            frame = self.board.reports()
            if self.chance.random() >= self.loss:
                self.hears(frame)
            self.commander.tick()
            if self.commander.is_worth:
                self.store = self.commander.fresh()
                self.commander.renewed(len(self.store))

    def hears(self, frame):
        """A frame, or its CLCW and its status by themselves."""
        if not self.by_clcw:
            assert self.commander.telemetry(frame).kind is self.it.Arrived.TM
            return
        assert self.commander.clcw(frame[-6:-2]).report is self.it.Report.USED
        self.commander.status(frame[12:39])

    def names(self, *kinds):
        return [name for name, _ in self.told if name in kinds]


def commands_over_a_lossy_link(it):
    for by_clcw in (False, True):
        world = World(it, seed=1, loss=0.2)
        world.by_clcw = by_clcw
        world.gives(100)
        world.passes(400)
        assert [number for number, _ in world.board.executed] == [*range(1, 101)]
        assert [content for _, content in world.board.executed] == [content for _, content in world.given.values()]
        assert world.names("EXECUTED", "UNKNOWN") == ["EXECUTED"] * 100 and world.commander.below == 100
        ground = world.commander.ground
        assert (ground.outstanding, ground.unsent, ground.due, ground.bypassed, ground.frame_length) == (0, 0, 0, 0, 64)


def commands_over_restarts_of_the_board(it):
    world = World(it)
    world.gives(20)
    world.passes(6)
    world.board.starts()
    world.gives(20)
    world.passes(60)
    world.commander.restart_board()
    world.passes(30)
    world.gives(1)
    world.passes(60)
    assert [number for number, _ in world.board.executed] == [*range(1, 42)] and world.board.boots == 3
    assert [told for told in world.told if told[0] == "RESTARTED"] == [("RESTARTED", boot) for boot in (1, 2, 3)]
    assert world.names("EXECUTED", "UNKNOWN") == ["EXECUTED"] * 41


def a_pause(it):
    world = World(it, holds=True)
    executed = []
    for step in (None, world.commander.go_on, world.commander.pause, world.commander.go_on):
        if step:
            step()
        world.gives(5)
        world.passes(30)
        executed.append(len(world.board.executed))
    assert executed == [0, 10, 10, 20]


def an_alert(it):
    """The link is out, and a session begins by itself when it is back."""
    world = World(it)
    world.gives(5)
    world.passes(20)
    world.loss = 1.0
    world.gives(5)
    world.passes(40)
    assert world.told[-1] == ("ALERT", it.Alert.TIMER) and world.commander.ground.state is it.State.S6
    assert world.commander.progress(6) is it.Progress.SENT
    world.loss = 0.0
    world.passes(40)
    assert world.names("EXECUTED") == ["EXECUTED"] * 10


def the_progress_of_commands(it):
    world = World(it)
    world.gives(3)
    found = []
    for _ in range(20):
        for does in (world.acts, world.board.takes, lambda: world.hears(world.board.reports()), world.commander.tick):
            does()
            found.append(world.commander.progress(2))
    assert [*dict.fromkeys(found)] == [*it.Progress, None] == sorted({*found} - {None}) + [None], found


def a_record_that_is_brought(it):
    world = World(it)
    world.gives(5)
    world.passes(20)
    world.board.places = [bytes(50), b""]
    world.board.starts()
    world.gives(2)
    world.passes(20)
    assert len(world.board.executed) == 5 and world.told[-1] == ("RECORD_LOST", 2)
    world.commander.rebuild()
    world.gives(3)
    world.passes(40)
    assert [number for number, _ in world.board.executed] == [1, 2, 3, 4, 5, 8, 9, 10]
    assert world.names("EXECUTED", "UNKNOWN") == ["EXECUTED"] * 5 + ["UNKNOWN"] * 2 + ["EXECUTED"] * 3


def an_older_store(it):
    """Of a ground that was lost: what the board has executed since is Foreign, and numbers go on behind it."""
    world = World(it)
    world.gives(3)
    world.passes(20)
    older = world.store
    world.gives(4)
    world.passes(20)
    world.store, world.told = older, []
    world.opens()
    world.passes(3)
    world.gives(2)
    world.passes(20)
    assert world.told == [("FOREIGN", 4), ("EXECUTED", 1007), ("EXECUTED", 1008)], world.told
    assert [number for number, _ in world.board.executed] == [*range(1, 10)] and world.given[1007][0] == 8


def random_sessions(it):
    """Whatever happens, each command is executed at most once and in order, its octets are those that were given, and
    its fate is true. A fate is told once, or again after a crash of the ground."""
    executed, unknown, crashes, boots = 0, 0, 0, 0
    for seed in range(30):
        world = World(it, seed, loss=(0.0, 0.2)[seed % 2], ground_crash=0.02, board_crash=0.02)
        for _ in range(12):
            world.gives(world.chance.randrange(8))
            world.acts()
            if world.chance.random() < 0.2:
                world.commander.restart_board()
            world.passes(world.chance.randrange(30))
        world.loss = world.ground_crash = world.board_crash = 0.0
        world.passes(200)
        executed, unknown = [one + len(more) for one, more in zip((executed, unknown), fates_of(it, world))]
        crashes, boots = crashes + world.crashes, boots + world.board.boots
    assert executed > 700 and unknown > 5 and crashes > 100 and boots > 100, (executed, unknown, crashes, boots)


def fates_of(it, world):
    """The tags that were told to be executed, and those that were told to be unknown."""
    numbers = [number for number, _ in world.board.executed]
    assert numbers == sorted({*numbers}), numbers
    stored = {number: tag for tag, (number, _) in world.given.items()}
    contents = {number: world.given[tag][1] for number, tag in stored.items()}
    assert all(contents[number] == content for number, content in world.board.executed)
    assert not world.names("FOREIGN") and world.commander.below == world.commander.highest == max(stored)
    told = collections.defaultdict(set)
    for name, tag in world.told:
        told[name].add(tag)
    fates = told["EXECUTED"] | told["UNKNOWN"]
    assert fates == {*stored.values()} and not told["EXECUTED"] & told["UNKNOWN"]
    assert all(world.given[tag][0] in numbers for tag in told["EXECUTED"])
    return told["EXECUTED"], told["UNKNOWN"]


# ---- Members, for each.py. ----


def members(it):
    """The kinds of the actions, and of the progress, of a session."""
    world, kinds, progress = World(it, loss=0.2), [], []
    next_one = it.Commander.next

    def noted(commander):
        progress.append(commander.progress(commander.below + 1))
        action = next_one(commander)
        kinds.append(action.kind)
        return action

    it.Commander.next = noted
    try:
        world.gives(30)
        world.passes(8)
        world.loss = 1.0
        world.passes(60)
        world.loss = 0.0
        world.passes(60)
        world.board.places = [b"", b""]
        world.board.starts()
        world.passes(20)
        world.commander.rebuild()
        world.gives(2)
        world.passes(30)
        world.store = b""
        world.opens()
        world.passes(10)
        world.gives(1)
        world.passes(20)
    finally:
        it.Commander.next = next_one
    with it.Commander(mission(it), GIVEN) as commander:
        commander.status(status(0, (1, 1, 0, HISTORY, 0), 0))
        kinds += [action.kind for action in each(it, commander)]
    return [*kinds, *(one for one in progress if one is not None)]


# ---- The programs of examples/commanding. ----


class Programs:
    """The ground and the board of examples/commanding, each a process that may be killed."""

    def __init__(self, room):
        self.room, self.running, self.said = room, {}, open(f"{room}/said", "ab+")
        self.base = free_ports()
        words = {"ground": (f"{room}/store", "60"), "board": (f"{room}/board",)}
        self.words = {name: (str(self.base), *more, "--loss", "0.05") for name, more in words.items()}

    def starts(self, name, *more):
        self.running[name] = subprocess.Popen(
            [sys.executable, "-B", f"{TOP}/examples/commanding/{name}.py", *self.words[name], *more],
            stdout=self.said if name == "ground" else subprocess.DEVNULL, env={**os.environ, "PYTHONPATH": sys.path[0]})

    def kills(self, name):
        self.running[name].kill()
        self.running[name].wait()

    def lines(self):
        self.said.seek(0)
        return self.said.read().decode().splitlines()


def free_ports():
    """The first of two ports that are free."""
    for base in range(20000, 60000, 2):
        sockets = [socket.socket(socket.AF_INET, socket.SOCK_DGRAM) for _ in range(2)]
        try:
            for place, one in enumerate(sockets):
                one.bind(("127.0.0.1", base + place))
            return base
        except OSError:
            continue
        finally:
            for one in sockets:
                one.close()
    raise AssertionError("no free ports")


def programs_that_are_killed(it):
    """Either program is killed at random moments, and each command is executed once and in order."""
    chance = random.Random(4)
    with tempfile.TemporaryDirectory() as room:
        programs = Programs(room)
        programs.starts("board"), programs.starts("ground")
        try:
            for _ in range(8):
                time.sleep(chance.random() * 0.7)
                name = chance.choice(("board", "ground"))
                programs.kills(name), programs.starts(name)
            assert programs.running["ground"].wait(60) == 0
        finally:
            programs.kills("board"), programs.kills("ground")
        with open(f"{room}/board/executed", encoding="ascii") as file:
            executed = [int(line.split()[0]) for line in file if line.endswith("\n")]
        lines = [line.split() for line in programs.lines()]
        fates = {int(tag): kind for kind, tag, *_ in lines if kind in ("EXECUTED", "UNKNOWN")}
        programs.said.close()
        assert executed == sorted({*executed}) and sorted(fates) == [*range(1, 61)]
        assert all(number in executed for number, fate in fates.items() if fate == "EXECUTED")
        assert sum(fate == "EXECUTED" for fate in fates.values()) > 50


def programs_and_their_words(it):
    """Each program answers --help, and refuses words that it does not know by status 2."""
    for name in ("ground", "board"):
        for words, wanted in ((["--help"], 0), (["1", "a", "1", "--lose"], 2), (["1", "a", "b", "c"], 2)):
            ran = subprocess.run([sys.executable, "-B", f"{TOP}/examples/commanding/{name}.py", *words], text=True,
                                 capture_output=True, env={**os.environ, "PYTHONPATH": sys.path[0]})
            said = ran.stderr if wanted else ran.stdout
            assert ran.returncode == wanted and said.startswith("usage: "), ran


TESTS = (commands_over_a_lossy_link, commands_over_restarts_of_the_board, a_pause, an_alert, the_progress_of_commands,
         a_record_that_is_brought, an_older_store, random_sessions, programs_that_are_killed, programs_and_their_words)
