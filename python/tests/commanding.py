"""The commander, the ground's half of commands that are executed once and in order: octets from struct and zlib,
refusals, misuse, signal handlers and threads."""
import random
import signal
import struct
import sys
import threading
import zlib

from interrupts import Alarms
from restarts import fields, packet, sealed, status
from wanted import refuses, says

TAG, MARK = 0x1122334455667788, 0x12345678


def mission(it, **fields):
    return it.Mission(**{"round_trip": 2, "map": 3, "orders": 6, "status": 7, **fields})


# ---- The store. Its entries are spelled by docs/PROFILE.md, "Commands that have no fate yet". ----


def entry(kind, content=b""):
    return sealed(struct.pack(">IB", len(content) + 9, kind) + content)


def given(tag, map, octets):
    return entry(1, struct.pack(">QB", tag, map) + octets)


def stands(below, record):
    """The first entry of a fresh store of a board that has lost no record."""
    return entry(6, struct.pack(">I", below) + record + bytes(23))


def command(number, content=b"\1\2\3"):
    return packet(5, 44, struct.pack(">I", number) + content)


TOLD = entry(5)
GIVEN = given(TAG, 3, command(1))
HISTORY = zlib.crc32(command(1)[-4:])


def gives(it, commander, number=1, tag=TAG):
    assert commander.command(tag, 3, 5, 44, b"\1\2\3") == number


def acts(it, commander, kind, **wanted):
    """The next action is this one, and is done."""
    action = commander.next()
    assert action == it.CommanderAction(kind, **wanted), action
    assert type(action.kind) is it.CommanderActionKind and type(action.alert) is it.Alert
    commander.done(action)
    return action


def rests(it, commander):
    assert commander.next() == (it.CommanderActionKind.NOTHING, b"", 0, 0, 0, it.Alert.NONE)


def octets_of_the_store(it):
    """Those that docs/PROFILE.md has, and the ones above are the same."""
    worked = ("00000023 01 1122334455667788 03 1005C02C000A 00000001 010203 54997AC4 135192F6", "00000009 05 678AB8DB",
              "0000000D 03 12345678 767AAC24", "00000015 04 12345678 00010000 00000001 BDD62E37",
              "00000039 06 00000001 00000001 00000001 0000000000000001 DE305343" + 24 * " 00" + " 7C4E0568",
              "0000001E 02 00000001 00000001 0000000000000001 DE305343 00 A7FCF126")
    ours = (GIVEN, TOLD, entry(3, struct.pack(">I", MARK)), entry(4, struct.pack(">III", MARK, 65536, 1)),
            stands(1, fields(1, 1, 1, HISTORY, 0)), entry(2, fields(1, 1, 1, HISTORY, 0)))
    assert [bytes.fromhex(one) for one in worked] == [*ours]


def a_command_and_its_fate(it):
    kind = it.CommanderActionKind
    with it.Commander(mission(it)) as commander:
        assert (commander.good, commander.below, commander.highest, commander.is_worth) == (0, 0, 0, False)
        rests(it, commander)
        gives(it, commander)
        assert (commander.below, commander.highest, commander.progress(1)) == (0, 1, it.Progress.WAITS)
        assert commander.progress(0) is commander.progress(2) is None
        refuses(it.LedgerFault, 8, "Owing", commander.fresh)
        acts(it, commander, kind.STORE, octets=GIVEN)
        rests(it, commander)
        commander.status(status(0, (1, 1, 1, HISTORY, 0), 0))
        acts(it, commander, kind.STORE, octets=entry(2, fields(1, 1, 1, HISTORY, 0)))
        acts(it, commander, kind.RESTARTED, number=1)
        acts(it, commander, kind.EXECUTED, tag=TAG)
        acts(it, commander, kind.STORE, octets=TOLD * 2)
        rests(it, commander)
        assert (commander.below, commander.highest, commander.progress(1)) == (1, 1, None)
        fresh = stands(1, fields(1, 1, 1, HISTORY, 0))
        assert commander.fresh() == fresh
        gives(it, commander, 2)
    with it.Commander(mission(it), fresh) as commander:
        assert (commander.good, commander.below, commander.highest) == (57, 1, 1)
        gives(it, commander, 2)
        acts(it, commander, kind.STORE, octets=given(TAG, 3, command(2)))


def a_fresh_store_is_worth_it(it):
    """After 20 commands that have their fates. What the program says of the new length decides then."""
    with it.Commander(mission(it)) as commander:
        history, length = 0, 0
        for number in range(1, 21):
            gives(it, commander, number)
            history = zlib.crc32(command(number)[-4:], history)
        commander.status(status(0, (1, 20, 2**20 - 1, history, 0), 0))
        for action in each(it, commander):
            length += len(action.octets)
        assert commander.is_worth is True and length == 20 * 35 + 30 + 21 * 9
        fresh = commander.fresh()
        assert fresh == stands(20, fields(1, 20, 2**20 - 1, history, 0))
        commander.renewed(len(fresh))
        assert commander.is_worth is False
        commander.renewed(2 * len(fresh) + 2)
        assert commander.is_worth is True


def each(it, commander):
    """The actions up to NOTHING, each done when the next one is requested."""
    while (action := commander.next()).kind is not it.CommanderActionKind.NOTHING:
        yield action
        commander.done(action)


def a_history_that_is_another(it):
    """Of a store that is older than the board: the commands of another ground are Foreign, and those of this store
    Unknown."""
    kind = it.CommanderActionKind
    with it.Commander(mission(it), GIVEN) as commander:
        commander.status(status(0, (1, 3, 7, 5, 0), 0))
        acts(it, commander, kind.STORE, octets=entry(2, fields(1, 3, 7, 5, 0)))
        acts(it, commander, kind.RESTARTED, number=1)
        acts(it, commander, kind.FOREIGN, number=1, last=3)
        acts(it, commander, kind.UNKNOWN, tag=TAG)
        acts(it, commander, kind.STORE, octets=TOLD * 3)
        gives(it, commander, 4)


def a_record_that_is_lost(it):
    kind = it.CommanderActionKind
    with it.Commander(mission(it), GIVEN) as commander:
        refuses(it.LedgerFault, 6, "NotLost", commander.rebuild)
        lost = sealed(struct.pack(">BI", 3, MARK) + bytes(17) + b"\xff")
        commander.status(lost)
        acts(it, commander, kind.STORE, octets=entry(3, struct.pack(">I", MARK)))
        acts(it, commander, kind.RECORD_LOST, number=MARK)
        acts(it, commander, kind.STORE, octets=TOLD)
        commander.status(lost)
        rests(it, commander)
        commander.rebuild()
        acts(it, commander, kind.STORE, octets=entry(4, struct.pack(">III", MARK, 65536, 1)))
        order = commander.next()
        assert it.TcFrame.decode(order.octets) == (
            it.TcFrame(scid=1, vcid=2, kind=it.Kind.BD, flags=it.Segment.ALONE, map=3),
            packet_of_order(2, 65536, 1, MARK))
        commander.done(order)
        commander.status(status(0, (65536, 1, 0, 0, 0), 0))
        acts(it, commander, kind.STORE, octets=entry(2, fields(65536, 1, 0, 0, 0)))
        acts(it, commander, kind.RESTARTED, number=65536)
        acts(it, commander, kind.UNKNOWN, tag=TAG)


def packet_of_order(kind, boot, last=0, mark=0):
    return sealed(struct.pack(">HHHBIII", 0x1006, 0xC000, 16, kind, boot, last, mark))


def a_store_that_was_cut_off(it):
    """At any octet: the entries before it are good, and the store grows again from there."""
    octets = GIVEN + given(8, 4, command(2, b"")) + entry(2, fields(1, 1, 1, HISTORY, 0)) + TOLD * 2
    octets, ends = octets + given(9, 0, command(3)), [0]
    while ends[-1] < len(octets):
        ends.append(ends[-1] + struct.unpack_from(">I", octets, ends[-1])[0])
    assert len(ends) == 7
    highest = [0, 1, 2, 2, 2, 2, 3]
    for end in range(len(octets) + 1):
        whole = max(k for k, one in enumerate(ends) if one <= end)
        with it.Commander(mission(it), memoryview(octets)[:end]) as commander:
            found = commander.good, commander.highest, commander.below
            assert found == (ends[whole], highest[whole], int(whole > 2)), (end, found)
            kept = octets[:commander.good]
            commander.command(1, 3, 5, 44, b"\1\2\3")
            kept += b"".join(action.octets for action in each(it, commander))
        with it.Commander(mission(it), kept) as commander:
            assert (commander.good, commander.highest) == (len(kept), highest[whole] + 1)
            rests(it, commander)
    for place in range(len(octets)):  # any octet that is damaged is in an entry that is not read
        damaged = octets[:place] + bytes([octets[place] ^ 1]) + octets[place + 1:]
        with it.Commander(mission(it), damaged) as commander:
            assert commander.good == max(one for one in ends if one <= place)


# ---- Refusals and misuse. ----


def refusals_of_a_commander(it):
    with it.Commander(mission(it), maps=0b1000, max_packet=30, part=23, queue_slots=1) as commander:
        for words in ((1, 2, 5, 0, b""), (1, 64, 5, 0, b""), (1, 3, 2047, 0, b""), (1, 3, 5, 16384, b""),
                      (1, 3, 5, 0, bytes(65529))):
            refuses(it.LedgerFault, 3, "FieldRange", commander.command, *words)
        refuses(it.LedgerFault, 4, "TooLong", commander.command, 1, 3, 5, 0, bytes(10))
        assert commander.highest == 0 and commander.command(1, 3, 5, 0, bytes(9)) == 1
        refuses(it.LedgerFault, 1, "Layout", commander.status, bytes(26))
        refuses(it.LedgerFault, 2, "Check", commander.status, bytes(27))
        refuses(it.LedgerFault, 6, "NotLost", commander.rebuild)
        refuses(it.LedgerFault, 8, "Owing", commander.fresh)
        says(ValueError, "word: 3 octets", commander.clcw, bytes(3))
        commander.status(status(0, (2**32 - 65536, 2**32 - 1, 1, 5, 0), 0))
        refuses(it.LedgerFault, 5, "NoNumber", commander.command, 1, 3, 5, 0, b"")
        commander.status(sealed(struct.pack(">BI", 3, MARK) + bytes(18)))
        refuses(it.LedgerFault, 7, "NoBoot", commander.rebuild)
        assert commander.highest == 2**32 - 1
    refuses(it.LedgerFault, 3, "FieldRange", it.Commander, mission(it, orders=2047))
    refuses(it.LedgerFault, 3, "FieldRange", it.Commander, mission(it, map=64))
    for fields in ({"maps": 1}, {"maps": 2**64 - 1 - 8}):
        says(it.LedgerFault, "3 FieldRange", it.Commander, mission(it), **fields)
    for fields in ({"part": 22}, {"max_packet": 22}):
        says(it.LedgerFault, "4 TooLong", it.Commander, mission(it), **fields)
    says(it.ConfigFault, "4 width", it.Commander, mission(it), width=3)
    refuses(it.ConfigFault, 15, "blocking", it.Commander, mission(it), b"", it.Config(blocking=2))
    for name, value in (("round_trip", 2**32), ("map", 256), ("orders", 65536), ("status", -1)):
        says(OverflowError, f"{name}: {value} is not in", it.Commander, mission(it, **{name: value}))
        says(TypeError, f"{name}: '1' is not a number", it.Commander, mission(it, **{name: "1"}))
    says(TypeError, "a Config or its fields", it.Commander, mission(it), b"", it.Config(), timer=3)


def what_is_not_done(it):
    """Nothing comes before what is not done, and nothing is done that was not requested."""
    kind = it.CommanderActionKind
    with it.Commander(mission(it, round_trip=0)) as commander:
        nothing = commander.next()
        commander.done(nothing), commander.done(nothing), commander.done(it.CommanderAction(kind.ALERT))
        gives(it, commander)
        action = commander.next()
        for _ in range(2):
            says(RuntimeError, "next before done: STORE is not done", commander.next)
        for other in (nothing, it.CommanderAction(*action), *map(it.CommanderAction, (kind.SEND, kind.ALERT))):
            says(RuntimeError, "this is not the action that next returned last", commander.done, other)
        says(RuntimeError, "next before done: STORE is not done", commander.next)
        commander.done(action)
        says(RuntimeError, "this is not the action", commander.done, action)
        commander.status(status(0, (1, 0, 0, 0, 0), 0))
        commander.done(commander.next())
        action = commander.next()
        assert action.kind is kind.RESTARTED
        says(RuntimeError, "next before done: RESTARTED is not done", commander.next)
        commander.done(action)
        commander.restart_board()
        commander.done(commander.next())
        action = commander.next()
        assert action.kind is kind.SEND and it.TcFrame.decode(action.octets)[1] == packet_of_order(1, 1)
        says(RuntimeError, "next before done: SEND is not done", commander.next)
        commander.done(action)
        commander.telemetry(telemetry(it, status(0, (1, 0, 0, 0, 0), 0)))
        action = commander.next()
        assert action == (kind.TELEMETRY, packet_of_status(it, status(0, (1, 0, 0, 0, 0), 0)), 0, 0, 0, 0)
        says(RuntimeError, "next before done: TELEMETRY is not done", commander.next)
        commander.done(action)
        rests(it, commander)


def packet_of_status(it, octets, apid=7):
    return it.Packet(apid=apid).encode(octets)


def telemetry(it, octets, value=0, apid=7):
    """A telemetry frame with a packet, and with the CLCW of a receiver in Open."""
    whole = packet_of_status(it, octets, apid)
    idle = it.Packet(apid=2047).encode(bytes(52 - len(whole) - 6))
    return it.TmFrame(scid=1, pointer=0, ocf=it.Clcw(vcid=2, value=value).encode()).encode(whole + idle)


def what_comes_between(it):
    """Commands and statuses between `next` and `done` do no harm: no octets come twice, and no report is made twice."""
    kind = it.CommanderActionKind
    with it.Commander(mission(it)) as commander:
        gives(it, commander)
        first = commander.next()
        gives(it, commander, 2, 8)
        commander.done(first)
        second = commander.next()
        gives(it, commander, 3, 9)
        commander.done(second)
        acts(it, commander, kind.STORE, octets=given(9, 3, command(3)))
        assert first.octets + second.octets == GIVEN + given(8, 3, command(2))
        rests(it, commander)
        commander.status(status(0, (1, 0, 0, 0, 0), 0))
        commander.done(commander.next())
        restarted = commander.next()
        gives(it, commander, 4, 10)
        commander.done(restarted)
        assert restarted.kind is kind.RESTARTED
        acts(it, commander, kind.STORE, octets=given(10, 3, command(4)))
        acts(it, commander, kind.STORE, octets=TOLD)
        rests(it, commander)
        history = zlib.crc32(command(2)[-4:], HISTORY)
        commander.status(status(0, (1, 2, 3, history, 0), 0))
        commander.done(commander.next())
        executed = commander.next()
        assert executed == (kind.EXECUTED, b"", TAG, 0, 0, 0)
        commander.status(status(0, (2, 2, 3, history, 0), 0))
        commander.done(executed)
        acts(it, commander, kind.STORE, octets=entry(2, fields(2, 2, 3, history, 0)))
        acts(it, commander, kind.EXECUTED, tag=8)
        acts(it, commander, kind.RESTARTED, number=2)
        acts(it, commander, kind.STORE, octets=TOLD * 3)
        rests(it, commander)


def a_commander_is_closed(it):
    """Each call and each reading of a commander that is closed raises a ValueError."""
    commander = it.Commander(mission(it))
    gives(it, commander)
    action = commander.next()
    assert repr(commander) == "<Commander 1 of 1 commands without a fate, S6>"
    commander.close(), commander.close()
    assert commander.closed and repr(commander) == "<Commander closed>"
    calls = (commander.next, lambda: commander.done(action), lambda: commander.command(1, 3, 5, 0, b""),
             lambda: commander.telemetry(b""), lambda: commander.clcw(bytes(4)), lambda: commander.status(bytes(27)),
             commander.tick, commander.take_telemetry, lambda: commander.progress(1), commander.pause, commander.go_on,
             commander.restart_board, commander.rebuild, lambda: commander.below, lambda: commander.highest,
             lambda: commander.is_worth, lambda: commander.ground, commander.fresh, lambda: commander.renewed(1),
             commander.__enter__)
    for call in calls:
        says(ValueError, "the commander is closed", call)
    assert commander.good == 0 and commander.config == it.Config()
    names = {name for name in vars(it.Commander) if name[0] != "_"} - {"close", "good"}
    assert len(names) == len(calls) - 1, names  # besides `__enter__`


def opened_again(it):
    """A commander that is opened again has the state of its store alone; one that cannot be opened stays."""
    commander = it.Commander(mission(it))
    gives(it, commander)
    action = commander.next()
    says(it.LedgerFault, "3 FieldRange", commander.__init__, mission(it, orders=2047), GIVEN)
    says(RuntimeError, "next before done: STORE", commander.next)
    commander.__init__(mission(it), GIVEN + TOLD[:8])
    assert (commander.good, commander.highest) == (35, 1)
    says(RuntimeError, "this is not the action", commander.done, action)
    rests(it, commander)
    commander.close()


# ---- The longest values, for each.py. ----


def longest(it):
    """Each call with the longest octets and the largest numbers."""
    most, content = 2**32 - 1, bytes(range(256)) * 255 + bytes(248)
    config = it.Config(scid=1023, vcid=63, tm_vcid=7, width=254, window=127, limit=255, timer=65535, frame_length=2048,
                       queue_slots=65535)
    settings = it.Mission(round_trip=most, map=63, orders=2046, status=2047, holds=True)
    octets = packet(2046, 16383, struct.pack(">I", most) + content)
    assert len(octets) == 65542
    store = stands(most - 1, fields(most, most - 1, 2**64 - 1, most, 0))
    commander = it.Commander(settings, store, config)
    assert commander.good == len(store) == 57 and commander.command(2**64 - 1, 63, 2046, 16383, content) == most
    acts(it, commander, it.CommanderActionKind.STORE, octets=given(2**64 - 1, 63, octets))
    assert len(commander.fresh()) == 57 + 65560 and commander.highest == most and commander.below == most - 1
    refuses(it.LedgerFault, 5, "NoNumber", commander.command, 2**64 - 1, 63, 2046, 16383, content)
    commander.renewed(2**64 - 1)
    assert commander.is_worth and commander.progress(most) is it.Progress.WAITS and commander.progress(0) is None
    commander.pause(), commander.go_on(), commander.restart_board(), commander.tick()
    frame = it.TmFrame(scid=1023, vcid=7, pointer=0, ocf=it.Clcw(vcid=63, value=255).encode())
    packets = it.Packet(apid=2046).encode(bytes(2030))
    heard = commander.telemetry(frame.encode(packets))
    assert (heard.kind, heard.packets, heard.word.value) == (it.Arrived.TM, 1, 255)
    assert commander.take_telemetry() == packets and commander.take_telemetry() is None
    assert commander.clcw(it.Clcw(vcid=63, value=255).encode()).report is it.Report.USED
    history = zlib.crc32(octets[-4:], most)
    commander.status(status(0, (most, most, 2**64 - 1, history, 0), 255))
    acts(it, commander, it.CommanderActionKind.STORE, octets=entry(2, fields(most, most, 2**64 - 1, history, 0)))
    acts(it, commander, it.CommanderActionKind.EXECUTED, tag=2**64 - 1)
    refuses(it.LedgerFault, 6, "NotLost", commander.rebuild)
    assert commander.ground.count == 1 and commander.ground.state is it.State.S6 and commander.config == config
    assert not commander.closed
    commander.close()
    store = given(2**64 - 1, 63, packet(2046, 16383, struct.pack(">I", 1) + content))
    with it.Commander(settings, store, config) as commander:
        assert (commander.good, commander.highest) == (65560, 1)


# ---- Signal handlers and threads. ----


def interrupted_actions_come_once(it):
    """Handlers that raise in the middle of `next` and `done`: no octets are stored twice or lost, no report is lost or
    made twice, and no frame and no packet is lost."""
    if sys.version_info < (3, 11):  # where a handler may run between any two steps, so before a `return` too
        return
    with Alarms(it, random.Random(3)) as alarms:
        while alarms.count < 4000:
            store, told, sent, packets = b"", [], 0, []
            with it.Commander(mission(it, round_trip=0)) as commander:
                history = 0
                for number in range(1, 21):
                    gives(it, commander, number, number)
                    history = zlib.crc32(command(number)[-4:], history)
                    if number % 5 == 0:
                        commander.status(status(0, (1, number, 2**number - 1, history, 0), 0))
                        commander.telemetry(telemetry(it, bytes([number]), apid=9))
                        commander.restart_board(), commander.tick()
                    for action in interrupted(it, alarms, commander):
                        kind = it.CommanderActionKind
                        store += action.octets if action.kind is kind.STORE else b""
                        packets += [action.octets[6]] if action.kind is kind.TELEMETRY else []
                        told += [action.tag or action.number] if kind.EXECUTED <= action.kind <= kind.RESTARTED else []
                        sent += action.kind is kind.SEND
            assert told == [1, *range(1, 21)] and packets == [5, 10, 15, 20] and sent == 3, (told, packets, sent)
            with it.Commander(mission(it), store) as commander:
                assert commander.good == len(store) and commander.below == 20
                rests(it, commander)


def interrupted_reports_are_made_once(it):
    """A status comes after each report of a restart, so that something is to be stored before the report is noted."""
    if sys.version_info < (3, 11):
        return
    with Alarms(it, random.Random(4)) as alarms:
        while alarms.count < 1000:
            with it.Commander(mission(it)) as commander:
                told = [0]
                commander.status(status(0, (1, 0, 0, 0, 0), 0))
                for action in interrupted(it, alarms, commander):
                    if action.kind is it.CommanderActionKind.RESTARTED:
                        told.append(action.number)
                        commander.status(status(0, (min(len(told), 40), 0, 0, 0, 0), 0))
            assert told == [*range(41)], told


def interrupted(it, alarms, commander):
    """The actions up to NOTHING; `next` and `done` are called again whenever they are interrupted."""
    while True:
        action = alarms.through(commander.next)
        if action.kind is it.CommanderActionKind.NOTHING:
            return
        yield action
        count = alarms.count
        while True:
            before = alarms.count
            try:
                alarms.once(commander.done, action)
            except RuntimeError as why:
                assert before > count and str(why).startswith("this is not the action"), why
                break
            if alarms.count == before:
                break


def a_handler_that_gives_commands(it):
    """A handler that gives commands and does what `next` returns, in the middle of either: each entry is stored once."""
    calls = 0
    while calls <= 300:
        with it.Commander(mission(it)) as commander:
            store, count = b"", 0

            def does(action):
                nonlocal store
                if action.kind is it.CommanderActionKind.STORE:
                    store += action.octets
                commander.done(action)

            def handler(*_):
                nonlocal calls, count
                calls, count = calls + 1, count + 1
                commander.command(0, 3, 5, 44, b"\1\2\3")
                try:
                    does(commander.next())
                except RuntimeError as why:
                    assert str(why).startswith("next before done")
                signal.setitimer(signal.ITIMER_REAL, 40e-6)

            before = signal.signal(signal.SIGALRM, handler)
            signal.setitimer(signal.ITIMER_REAL, 40e-6)
            for _ in range(100):
                commander.command(0, 3, 5, 44, b"\1\2\3")
                count += 1
                action = commander.next()
                does(action)
            signal.signal(signal.SIGALRM, lambda *_: None)
            signal.setitimer(signal.ITIMER_REAL, 0)
            signal.signal(signal.SIGALRM, before)
            for action in each(it, commander):
                store += action.octets
            assert commander.highest == count
        with it.Commander(mission(it), store) as commander:
            assert (commander.good, commander.highest) == (len(store), count)


def threads_that_give_commands(it):
    """Threads that give commands while another one does what `next` returns: each entry is stored once, and each number
    is given once."""
    with it.Commander(mission(it)) as commander:
        store, numbers, threads = b"", [], []
        for _ in range(4):
            threads.append(threading.Thread(target=lambda: numbers.extend(
                commander.command(k, 3, 5, 44, b"\1\2\3") for k in range(500))))
            threads[-1].start()
        while any(one.is_alive() for one in threads) or commander.highest < 2000 or not store:
            for action in each(it, commander):
                store += action.octets
        for action in each(it, commander):
            store += action.octets
        assert sorted(numbers) == [*range(1, 2001)]
    with it.Commander(mission(it), store) as commander:
        assert (commander.good, commander.highest) == (len(store), 2000)


TESTS = (octets_of_the_store, a_command_and_its_fate, a_fresh_store_is_worth_it, a_history_that_is_another,
         a_record_that_is_lost, a_store_that_was_cut_off, refusals_of_a_commander, what_is_not_done, what_comes_between,
         a_commander_is_closed, opened_again, interrupted_actions_come_once, interrupted_reports_are_made_once,
         a_handler_that_gives_commands, threads_that_give_commands)
