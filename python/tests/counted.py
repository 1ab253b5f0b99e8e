"""The package over a library whose memory is counted and may be refused (counted.c)."""
import ctypes
import functools
import gc
import importlib.util
import os
import random
import shutil
import subprocess
import sys
import tempfile

import commanding

HERE = os.path.dirname(os.path.realpath(__file__))
SESSIONS, EVENTS = 300, 120


class Counted:
    """A second copy of an installed package, over the installed archive, with its memory."""

    def __init__(self, it, folder):
        package, shared = f"{folder}/counted", f"{folder}/counted/libsedgechisel_nodes.so"
        installed = os.path.dirname(it.__file__)
        shutil.copytree(installed, package)
        archive = f"{os.path.dirname(os.path.dirname(installed))}/libsedgechisel_nodes.a"
        subprocess.run([os.environ.get("CC", "cc"), "-shared", "-fPIC", "-O2", "-o", shared, f"{HERE}/counted.c",
                        "-Wl,--whole-archive", archive, "-Wl,--no-whole-archive"], check=True)
        spec = importlib.util.spec_from_file_location("counted_package", f"{package}/__init__.py",
                                                      submodule_search_locations=[package])
        self.package = sys.modules["counted_package"] = importlib.util.module_from_spec(spec)
        spec.loader.exec_module(self.package)
        self.library = self.package._library.NODES

    def _number(self, name):
        return ctypes.c_long.in_dll(self.library, f"counted_{name}")

    @property
    def live(self):
        """How many places are not freed."""
        return self._number("live").value

    def refuse(self, which):
        """Has an allocation refused, 1 for the next; 0 for none."""
        self._number("refuse").value = which

    @property
    def refused(self):
        """How many were refused so far."""
        return self._number("refused").value


@functools.lru_cache(None)
def counted_of(it):
    with tempfile.TemporaryDirectory() as folder:
        return Counted(it, folder)


def each_kind_of_node_is_freed(it):
    """A node of each kind is freed by its close, at the end of its `with`, and when nothing refers to it; one that is
    begun again frees the first, and one that is not begun leaves nothing."""
    counted = counted_of(it)
    it, chance = counted.package, random.Random(5)
    words = it.Mission(2, 3, 6, 7), commanding.GIVEN + commanding.given(1, 4, commanding.command(2))
    for kind, opens, words, fault in (*((kind, kind, (), it.LinkFault) for kind in (it.Ground, it.Spacecraft, it.Link)),
                                      (it.Commander, functools.partial(it.Commander, *words), words, it.LedgerFault)):
        for _ in range(200):
            length = chance.randrange(16, 2049)
            before = counted.live
            node = opens(frame_length=length)
            held = counted.live
            assert held > before, f"{kind.__name__}: nothing is held"
            node.__init__(*words, frame_length=length)
            assert counted.live == held, f"{kind.__name__}: {counted.live} places, and {held} before it was begun again"
            node.close(), node.close()
            assert counted.live == before == 0, f"{kind.__name__}: {counted.live} places after its close"
            with opens(frame_length=length) as node:
                assert counted.live == held
            assert counted.live == 0
            node = opens(frame_length=length)
            del node
            gc.collect()
            assert counted.live == 0, f"{kind.__name__}: {counted.live} places where nothing refers to it"
            says_no(it.ConfigFault, opens, frame_length=15)
            for which in range(1, held + 1):
                counted.refuse(which)
                says_no(fault, opens, frame_length=length)
                assert counted.live == 0, f"{kind.__name__}: {counted.live} places after a refusal"
            counted.refuse(0)


def says_no(kind, call, **fields):
    try:
        call(**fields)
    except kind:
        return
    raise AssertionError(f"no {kind.__name__}")


# ---- Random sessions. ----


def any_config(it, chance):
    return it.Config(
        width=20, window=chance.randrange(1, 11), limit=chance.randrange(1, 4), timer=chance.randrange(1, 9),
        part=chance.choice((1, 7, 40, 1016)), max_packet=chance.choice((7, 60, 2000)),
        maps=chance.choice((2**64 - 1, 21)), ready_slots=chance.randrange(1, 9), bypass_slots=chance.randrange(1, 5),
        queue_slots=chance.choice((1, 30, 3000)), frame_length=chance.choice((16, 64, chance.randrange(16, 2049))),
        blocking=chance.randrange(2))


def any_packets(it, chance, kind):
    return b"".join(it.Packet(apid=chance.randrange(2047), count=chance.randrange(16384), kind=kind,
                              secondary=chance.randrange(2)).encode(chance.randbytes(chance.choice((1, 9, 40, 3000))))
                    for _ in range(chance.choice((1, 1, 1, 2, 40))))


def directives(it, chance, node):
    number = chance.randrange(12)
    return (node.init_without_check, node.init_with_check, node.init_unlock, lambda: node.init_set_vr(number),
            lambda: node.set_vs(number), lambda: node.set_window(number), lambda: node.set_limit(number),
            lambda: node.set_timer(number + 1), *[node.terminate] * (number == 0))


def submits(it, chance, node):
    map, packets = chance.randrange(6), any_packets(it, chance, it.PacketKind.TELECOMMAND)
    return (lambda: node.submit(map, packets),) * 3 + (lambda: node.bypass(map, packets),)


class OverNodes:
    """A ground and a spacecraft, and the last frames of each."""

    def __init__(self, it, chance):
        config = any_config(it, chance)
        self.it, self.chance, self.up, self.down = it, chance, b"", b""
        self.ground, self.board = it.Ground(config), it.Spacecraft(config)

    def pulls(self):
        self.up = self.ground.pull() or self.up

    def reports(self):
        self.down = self.board.telemetry_frame()

    def events(self):
        it, chance, ground, board = self.it, self.chance, self.ground, self.board
        packets = any_packets(it, chance, it.PacketKind.TELEMETRY)
        return chance.choice((
            directives(it, chance, ground), submits(it, chance, ground), (self.pulls,), (self.reports,),
            (lambda: board.receive(self.up), lambda: board.receive(self.up[1:])),
            (lambda: ground.telemetry(self.down), lambda: ground.telemetry(self.down[1:])),
            (board.take, board.take_bypass, ground.take_telemetry, ground.tick), (lambda: board.telemetry(packets),)))

    def shown(self):
        return bytes(self.ground._read()), bytes(self.board._read())

    def close(self):
        self.ground.close(), self.board.close()


class OverALink:
    """The simulated link."""

    def __init__(self, it, chance):
        self.it, self.chance, self.link = it, chance, it.Link(any_config(it, chance))

    def events(self):
        it, chance, link = self.it, self.chance, self.link
        packets = any_packets(it, chance, it.PacketKind.TELEMETRY)
        return chance.choice((
            directives(it, chance, link), submits(it, chance, link), (link.send,), (link.send,), (link.report,),
            (link.up_deliver,) * 4 + (link.up_lose, lambda: link.up_damage(b"1")),
            (link.down_deliver,) * 4 + (link.down_clcw, link.down_lose, lambda: link.down_damage(b"1")),
            (link.take, link.take_bypass, link.tick, lambda: link.resume(link.control_word.value)),
            (lambda: link.telemetry(packets),)))

    def shown(self):
        link = self.link
        return (bytes(link._read()), link.sent, link.accepted, link.submissions,
                [(link.submitted(map), link.delivered(map)) for map in range(6)])

    def close(self):
        self.link.close()


class OverACommander:
    """A commander, the store, the last frames of it and of a spacecraft, and statuses that may be of another board."""

    def __init__(self, it, chance):
        config = it.Config(width=20, window=8, limit=2, timer=4, part=chance.choice((40, 1016)), maps=29,
                           max_packet=chance.choice((60, 2000)), queue_slots=chance.choice((1, 30)), frame_length=64)
        self.it, self.chance, self.up, self.down = it, chance, b"", b""
        self.commander = it.Commander(it.Mission(1, 2, 6, 7), commanding.GIVEN, config)
        self.board = it.Spacecraft(config)
        self.action = self.boot = 0

    def acts(self):
        if self.action:
            self.commander.done(self.action)
            self.action = 0
        else:
            action = self.commander.next()
            self.up = action.octets if action.kind is self.it.CommanderActionKind.SEND else self.up
            owes_nothing = self.it.CommanderActionKind.NOTHING, self.it.CommanderActionKind.ALERT
            self.action = 0 if action.kind in owes_nothing else action

    def reports(self):
        self.down = self.board.telemetry_frame()

    def status(self):
        chance, last = self.chance, self.chance.randrange(self.commander.below, self.commander.highest + 2)
        self.boot += chance.random() < 0.2
        record = self.boot, last, chance.getrandbits(64), chance.getrandbits(32), chance.randrange(2)
        return commanding.status(*chance.choice(((0, record), (0, record), (0, (1, 0, 0, 0, 0)), (1, (0,) * 5))), 0)

    def events(self):
        chance, commander, board, status = self.chance, self.commander, self.board, self.status()
        octets, tag, map = chance.randbytes(chance.choice((0, 9, 3000))), chance.getrandbits(64), chance.randrange(6)
        lost = commanding.sealed(b"\3" + bytes([0, 0, 0, chance.randrange(9)]) + bytes(18))
        packet = self.it.Packet(apid=chance.choice((7, 9))).encode(status)
        return chance.choice((
            (lambda: commander.command(tag, map, 5, 0, octets),), (self.acts,), (self.acts,), (self.reports,),
            (lambda: board.receive(self.up), lambda: board.receive(self.up[1:]), board.take),
            (lambda: commander.telemetry(self.down), lambda: commander.clcw(self.down[-6:-2] or bytes(4))),
            (lambda: commander.status(status), lambda: commander.status(status[1:]), lambda: commander.status(lost)),
            (commander.tick,), (commander.rebuild, commander.restart_board, commander.fresh, commander.take_telemetry),
            (lambda: board.telemetry(packet),)))

    def shown(self):
        it = self.commander
        return bytes(it._read()), it.ground, [it.progress(number) for number in range(9)], bytes(self.board._read())

    def close(self):
        self.commander.close(), self.board.close()


def is_want_of_memory(it, fault):
    numbers = {it.LinkFault: 6, it.SimFault: 6, it.TelemetryFault: 7, it.LedgerFault: 9}
    return fault.number == numbers.get(type(fault))


def memory_in_random_sessions(it):
    """Memory is answered only where an allocation was refused in this event; nothing has changed then. All memory is
    given back at the close."""
    counted = counted_of(it)
    it, refusals, answers = counted.package, 0, 0
    for number in range(SESSIONS):
        chance = random.Random(number)
        session = (OverNodes, OverALink, OverACommander)[number % 3](it, chance)
        refuses = number % 6 > 2
        for _ in range(EVENTS):
            event, before, refused = chance.choice(session.events()), session.shown(), counted.refused
            counted.refuse(chance.randrange(1, 4) if refuses and chance.randrange(2) else 0)
            try:
                event()
                fault = None
            except it.Fault as one:
                fault = one
            counted.refuse(0)
            refusals += counted.refused - refused
            if fault and is_want_of_memory(it, fault):
                answers += 1
                assert counted.refused > refused, f"session {number}: {fault}, and nothing was refused"
                kept = {it.TelemetryFault: "out of memory for what would be kept"}
                assert fault.meaning == kept.get(type(fault), "out of memory"), fault
            if fault:
                assert session.shown() == before, f"session {number}: {fault}, and something has changed"
        session.close()
        assert counted.live == 0, f"session {number}: {counted.live} places are not given back"
    assert answers > 200 and refusals >= answers, (answers, refusals)


TESTS = (each_kind_of_node_is_freed, memory_in_random_sessions)
