"""Each member of each enumeration once, each method with the longest values, each argument with a wrong one, and
threads that share an object."""
import copy
import ctypes
import enum
import inspect
import io
import pickle
import socket
import sys
import threading
import warnings

import commanding
import commanding_sessions
import restarts
from wanted import says

COMMAND = bytes.fromhex("1005c0000000aa")


# ---- Enumerations. The octets are spelled by 232.0-B-4, 4.1 and 4.2, and 133.0-B-2, 4.1. ----


def each_member_of_each_enumeration(it):
    """Each member comes of a call, or names what a call read."""
    found = [*verdicts(it), *alerts(it), *senders(it), *read(it), *arrivals(it), *links(it), *restarts.members(it),
             *commanding_sessions.members(it)]
    wanted = [member for kind in vars(it).values() if isinstance(kind, enum.EnumMeta) for member in kind]
    assert all(isinstance(one, enum.Enum) for one in found)
    names = {f"{type(one).__name__}.{one.name}" for one in found}
    # Terminate answers nothing: its alert has its word alone.
    assert {f"{type(one).__name__}.{one.name}" for one in wanted} - names == {"Alert.TERMINATED"}


def verdicts(it):
    farm = it.Farm(10)
    found = [farm.ad(0), farm.ad(2), farm.ad(0), farm.mode, farm.ad(1, False), farm.mode]
    farm.released()
    found += [farm.ad(100), farm.mode, farm.ad(1)]
    verdict, mode = it.Verdict, it.Mode
    assert found == [verdict.ACCEPTED, verdict.AHEAD, verdict.BEHIND, mode.OPEN, verdict.NO_BUFFER, mode.WAIT,
                     verdict.OUTSIDE, mode.LOCKOUT, verdict.DISCARDED]
    assert [one.word for one in verdict] == ["accepted", "ahead", "nobuffer", "behind", "outside", "discarded"]
    return found


def active(it, limit=2):
    """A sender in S1 whose unit 0 is sent and not acknowledged."""
    fop = it.Fop(width=10, window=5, limit=limit, timer=2)
    fop.init_without_check()
    fop.submit()
    assert fop.next() == (it.Next.FIRST, 0)
    return fop


def alerts(it):
    retransmit, wait, lockout = it.Flags.RETRANSMIT, it.Flags.WAIT, it.Flags.LOCKOUT
    rows = (("LOCKOUT", 2, lockout, 0), ("NNR", 2, 0, 2), ("CLCW", 2, wait, 0), ("SYNCH", 2, retransmit, 1),
            ("LIMIT", 1, retransmit, 0), ("NONE", 2, 0, 1))
    found = [active(it, limit).clcw(2, it.Clcw(vcid=2, flags=flags, value=value)) for _, limit, flags, value in rows]
    assert found == [(it.Alert[name], 1 if name == "NONE" else 0) for name, *_ in rows]
    assert active(it).clcw(2, it.Clcw(vcid=3)) is None
    last = active(it, 1)
    assert (last.tick(), last.tick(), last.tick()) == (it.Alert.NONE, it.Alert.TIMER, it.Alert.NONE)
    words = ["", "Lockout", "NnR", "Clcw", "Synch", "Limit", "Timer", "Terminated"]
    assert [one.word for one in it.Alert] == words
    # Those of a report, but for the one that asks to repeat: promise 5 of README.
    broken = [one.name for one in it.Alert if one.shows_a_broken_condition]
    assert broken == ["LOCKOUT", "NNR", "CLCW", "SYNCH"] and it.Alert.NONE.advice == ""
    for one in [*it.Alert][1:]:
        looks_for = "restart on board" in one.advice and one.advice.endswith("begin anew")
        assert looks_for == one.shows_a_broken_condition != ("resume by a newer CLCW" in one.advice), one.advice
    return [*(alert for alert, _ in found), active_alert(it)]


def active_alert(it):
    fop = active(it, 1)
    fop.tick()
    return fop.tick()


def senders(it):
    """What is next, and the states of a sender by a ground, whose reports these are."""
    fop = it.Fop(width=10, window=5, limit=2, timer=2)
    found, controls = [fop.next()], [fop.control]
    for initiate, number in ((fop.init_unlock, ()), (fop.init_set_vr, (7,))):
        initiate(*number)
        controls += [fop.control]
        found += [fop.next()]
        controls += [fop.control]
        fop.terminate()
    assert [one.name for one in controls] == ["IDLE", "UNLOCK_DUE", "UNLOCK_SENT", "SET_VR_DUE", "SET_VR_SENT"]
    again = active(it)
    again.clcw(0, it.Clcw(flags=it.Flags.RETRANSMIT))
    found += [again.next()]
    which = it.Next
    assert found == [(which.NOTHING, 0), (which.UNLOCK, 0), (which.SET_VR, 7), (which.AGAIN, 0)]
    states = []
    with it.Ground() as ground:
        def hears(word):
            ground.telemetry(it.TmFrame(scid=1, pointer=it.ONLY_IDLE, ocf=word.encode()).encode(bytes(52)))
            states.append(ground.state)

        states.append(ground.state)
        ground.init_unlock()
        hears(it.Clcw(vcid=2, flags=it.Flags.LOCKOUT))
        ground.terminate()
        ground.init_with_check()
        states.append(ground.state)
        hears(it.Clcw(vcid=2))
        ground.submit(4, COMMAND)
        ground.pull()
        hears(it.Clcw(vcid=2, flags=it.Flags.RETRANSMIT | it.Flags.WAIT))
        hears(it.Clcw(vcid=2, flags=it.Flags.RETRANSMIT))
    assert [one.name for one in states] == ["S6", "S5", "S4", "S1", "S3", "S2"]
    return [*(one for one, _ in found), which.FIRST, *states, *controls]


def read(it):
    """What names the fields of frames, packets and control words."""
    segments = [it.TcFrame.decode(bytes.fromhex(f"0001080603{flags}aa"), checked=False)
                for flags in ("04", "44", "84", "c4")]
    assert all(data == b"\xaa" and (frame.n, frame.map) == (3, 4) for frame, data in segments)
    frames = [segments[0][0], *(it.TcFrame.decode(bytes.fromhex(octets), checked=False)[0] for octets in (
        "20010806003faa", "300108050000", "3001080700820007"))]
    kinds = [frame.kind for frame in frames]
    assert kinds == [it.Kind.AD, it.Kind.BD, it.Kind.BC, it.Kind.BC] and frames[1].map == 63
    commands = [frame.command for frame in frames[2:]]
    assert commands == [it.Command.UNLOCK, it.Command.SET_VR] and frames[3].vr == 7
    flags = [frame.flags for frame, _ in segments]
    assert flags == [it.Segment.CONTINUING, it.Segment.FIRST, it.Segment.LAST, it.Segment.ALONE]
    packets = [it.Packet.decode(bytes.fromhex(octets))[0] for octets in (
        "00050001000055", "10054001000055", "18058001000055", "1805c001000055")]
    assert [packet.secondary for packet in packets] == [0, 0, 1, 1] and {packet.apid for packet in packets} == {5}
    types = [packet.kind for packet in packets]
    assert types == [it.PacketKind.TELEMETRY, *[it.PacketKind.TELECOMMAND] * 3]
    sequence = [packet.flags for packet in packets]
    assert [one.name for one in sequence] == ["CONTINUATION", "FIRST", "LAST", "UNSEGMENTED"]
    words = [it.Clcw.decode(bytes.fromhex(f"0108{flag}07")) for flag in ("08", "10", "20", "40", "80")]
    bits = [word.flags for word in words]
    assert [one.name for one in bits] == ["RETRANSMIT", "WAIT", "LOCKOUT", "NO_BIT_LOCK", "NO_RF"]
    return [*kinds, *commands, *flags, *types, *sequence, *bits]


def arrivals(it):
    """What octets were that arrived, each with what its kind has."""
    kind, idle = it.Arrived, {"pointer": it.ONLY_IDLE}
    config = it.Config(maps=1 << 4, part=3)
    segment = it.TcFrame(scid=1, vcid=2, flags=it.Segment.ALONE, map=5)
    with it.Spacecraft(config) as board, it.Ground(config) as ground:
        came = [board.receive(b"1"), board.receive(it.TcFrame(scid=2, flags=3).encode(b"1")),
                board.receive(segment.encode(COMMAND))]
        segment.map, segment.kind = 4, it.Kind.BD
        came += [board.receive(segment.encode(COMMAND))]
        came += [board.receive(it.TcFrame(scid=1, vcid=2, kind=it.Kind.BC, command=one, vr=1).encode())
                 for one in (it.Command.UNLOCK, it.Command.SET_VR)]
        assert came == [
            it.Received(kind.INVALID, fault=it.TcFault(1)), it.Received(kind.FOREIGN),
            it.Received(kind.AD, n=0, verdict=it.Verdict.ACCEPTED, dropped="ClosedMap"),
            it.Received(kind.BD, kept=True), it.Received(kind.BC, command=it.Command.UNLOCK),
            it.Received(kind.BC, command=it.Command.SET_VR, vr=1)], came
        rows = ((4, it.Segment.LAST, "NoBeginning"), (4, it.Segment.FIRST, None), (4, it.Segment.FIRST, "Interrupted"),
                (4, it.Segment.LAST, "NotAPacket"))
        for n, (map, flags, dropped) in enumerate(rows, 1):
            segment = it.TcFrame(scid=1, vcid=2, n=n, flags=flags, map=map)
            assert board.receive(segment.encode(COMMAND[:5])) == it.Received(
                kind.AD, n=n, verdict=it.Verdict.ACCEPTED, dropped=dropped)
        heard = [ground.telemetry(octets) for octets in (
            b"1", it.TmFrame(scid=2, **idle).encode(bytes(52)),
            it.TmFrame(scid=1, ocf=b"\x80\0\0\0", **idle).encode(bytes(52)),
            it.TmFrame(scid=1, vc_count=3, ocf=it.Clcw(vcid=3).encode(), **idle).encode(bytes(52)),
            it.TmFrame(scid=1, vc_count=4, ocf=it.Clcw(vcid=2).encode(), **idle).encode(bytes(52)))]
        heard.append(ground.clcw(it.Clcw(vcid=2).encode()))
        assert heard == [
            it.Heard(kind.INVALID, fault=it.TmFault(1)), it.Heard(kind.FOREIGN),
            it.Heard(kind.TM, gap=None, report=it.Report.REFUSED, word_fault=it.ClcwFault(1)),
            it.Heard(kind.TM, gap=2, report=it.Report.OTHER_CHANNEL, word=it.Clcw(vcid=3)),
            it.Heard(kind.TM, gap=0, report=it.Report.USED, word=it.Clcw(vcid=2)),
            it.Heard(kind.CLCW, report=it.Report.USED, word=it.Clcw(vcid=2))], heard
    with it.Spacecraft(max_packet=7) as board:
        long = it.TcFrame(scid=1, vcid=2, flags=it.Segment.ALONE)
        assert board.receive(long.encode(it.Packet(kind=1).encode(b"12"))).dropped == "TooLong"
    return [one.kind for one in came + heard] + [one.report for one in heard[2:]]


def links(it):
    """How a session begins."""
    with it.Link() as link:
        found = [link.begun]
        for begins in (link.init_without_check, link.init_with_check, link.init_unlock, lambda: link.init_set_vr(7)):
            begins()
            found.append(link.begun)
            link.terminate()
    assert [one.name for one in found] == ["NOT", "WITHOUT_CHECK", "WITH_CHECK", "UNLOCK", "SET_VR"]
    return found


# ---- Methods. ----


def each_method_with_the_longest_values(it):
    """Each public method is called, with the longest octets and the largest numbers that it takes or gives."""
    called = set()
    sys.setprofile(lambda frame, event, _: called.add(frame.f_code) if event == "call" else None)
    try:
        for calls in (longest_frames, longest_telemetry, longest_segments, longest_machines, longest_nodes,
                      longest_link, restarts.longest, commanding.longest):
            calls(it)
    finally:
        sys.setprofile(None)
    missing = sorted(code.co_qualname if hasattr(code, "co_qualname") else code.co_name
                     for code in public_code(it) if code not in called)
    assert not missing, missing


def public_code(it):
    """The code of each public function, method and property, but for names of before 0.3."""
    for owner in (vars(it)[name] for name in it.__all__):
        kinds = owner.__mro__ if isinstance(owner, type) else ()
        own = {name: one for kind in reversed(kinds) for name, one in vars(kind).items()} or {owner: owner}
        for name, one in own.items():
            one = getattr(one, "fget", None) or getattr(one, "__func__", one)
            is_public = name == "__init__" or not str(name).startswith("_")
            if is_public and inspect.isfunction(one) and one.__module__.startswith(it.__name__ + "."):
                if not one.__code__.co_filename.startswith("<") and not hasattr(one, "__wrapped__"):
                    yield one.__code__


# The longest data field, and the packets of it.
DATA = bytes(range(256)) * 256


def packets(it):
    return [it.Packet(apid=2046, count=16383, kind=kind, secondary=1, flags=3).encode(DATA) for kind in (0, 1)]


def longest_frames(it):
    _, command = packets(it)
    assert it.Packet.decode(command) == (it.Packet(2046, 16383, 1, 1, 3), DATA)
    assert it.Packet.declared(command[:6]) == len(command) == 65542 and command[:6].hex() == "1ffeffffffff"
    gaps = it.GapCheck()
    assert [gaps.see(2047, count) for count in (16383, 16383, 0)] == [None, 16383, 0]
    frame = it.TcFrame(scid=1023, vcid=63, kind=it.Kind.AD, n=255, flags=it.Segment.ALONE, map=63)
    for checked, most in ((True, 1016), (False, 1018)):
        octets = frame.encode(DATA[:most], checked=checked)
        assert len(octets) == 1024 and octets[:6].hex() == "03ffffffffff" and octets[6:6 + most] == DATA[:most]
        assert it.TcFrame.decode(octets, checked=checked) == (frame, DATA[:most])
        assert [*it.TcFrame.decode_all(octets * 100, checked=checked)] == [(frame, DATA[:most])] * 100
        assert it.TcFrame.declared(octets[:5], checked=checked) == 1024
        says(it.TcFault, "11 FieldRange", lambda: frame.encode(DATA[:most + 1], checked=checked))
    frame = it.TmFrame(scid=1023, vcid=7, mc_count=255, vc_count=255, pointer=2035, ocf=b"\xff\xfe\xfd\xfc")
    octets = frame.encode(DATA[:2036])
    assert len(octets) == 2048 and octets[:6].hex() == "3fffffff1ff3" and octets[2042:2046] == frame.ocf
    assert it.TmFrame.decode(octets, 2048) == it.TmFrame.decode(octets) == (frame, DATA[:2036])
    assert [*it.read_frames(io.BytesIO(octets * 100), 2048)] == [octets] * 100
    word = it.Clcw(status=7, vcid=63, flags=0xF8, farm_b=3, value=255)
    assert word.encode().hex() == "1dfcfeff" and it.Clcw.decode(word.encode()) == word
    assert word.no_rf and word.no_bit_lock and word.lockout and word.wait and word.retransmit
    assert it.check_append(DATA) == DATA[:-2] + it.check(DATA[:-2]).to_bytes(2, "big")
    assert it.check_holds(it.check_append(DATA)) and it.check_append(b"..") == b"\xff\xff"


def longest_telemetry(it):
    packet, _ = packets(it)
    builder, extractor, found = it.TmBuilder(1023, 7, 2048, room=2 * len(packet)), it.TmExtractor(65542), []
    stream = b""
    builder.queue(packet), builder.queue(packet)
    assert builder.waiting == 2 * 65542
    says(it.TmFault, "7 Memory", builder.queue, bytes.fromhex("0005c0000000aa"))
    while builder.waiting:
        octets = builder.build(b"\xff\xfe\xfd\xfc")
        assert len(octets) == 2048
        found += extractor.take(*it.TmFrame.decode(octets))[0]
        stream += octets
    assert found == [packet] * 2
    assert [one for _, more, _ in it.TmExtractor(65542).take_all(stream, 2048) for one in more] == found
    with it.Ground(scid=1023, tm_vcid=7, frame_length=2048) as ground:
        assert {heard.kind for heard in ground.telemetry_all(stream, 2048)} == {it.Arrived.TM}
        assert [*ground.packets()] == found
    frame = it.TmFrame(vc_count=63, pointer=it.ONLY_IDLE)
    assert extractor.take(frame, bytes(2036)) == ([], 254)  # the last count was 64, of 65 frames
    assert extractor.dropped == 0


def longest_segments(it):
    _, command = packets(it)
    cut, board = it.segments(command, 1016), it.Map(65542)
    assert len(cut) == 65 and b"".join(data for _, data in cut) == command
    assert [board.take(*segment) for segment in cut] == [([], None)] * 64 + [([command], None)]
    assert it.segments(command, 2**32 - 1, 2**32 - 1) == [(it.Segment.ALONE, command)]
    assert it.Map(65542).take(it.Segment.ALONE, command) == ([command], None)
    two = command + COMMAND
    assert it.segments(two, len(two), blocking=True) == [(it.Segment.ALONE, two)]
    assert it.Map(65542, True).take(it.Segment.ALONE, two) == ([command, COMMAND], None)
    says(it.MapFault, "2 TooLong", it.segments, command, 1016, 65541)
    assert it.Map(65541).take(it.Segment.ALONE, command) == ([], "TooLong")


def longest_machines(it):
    farm = it.Farm(254, 255)
    farm.bd(), farm.set_vr(254), farm.unlock(), farm.released()
    assert (farm.ad(254, True), farm.ad(255)) == (it.Verdict.ACCEPTED, it.Verdict.ACCEPTED)
    assert farm.control_word(63) == it.Clcw(vcid=63, farm_b=3, value=0) and farm.mode == it.Mode.OPEN
    fop = it.Fop(width=254, window=127, limit=255, timer=65535)
    for directs in (lambda: fop.set_vs(255), lambda: fop.set_window(127), lambda: fop.set_limit(255),
                    lambda: fop.set_timer(65535), fop.init_with_check, fop.terminate, fop.init_unlock, fop.terminate,
                    lambda: fop.init_set_vr(255), fop.terminate, fop.init_without_check):
        directs()
    assert (fop.timer, fop.room, fop.vs, fop.nn, fop.window, fop.limit) == (65535, 127, 255, 255, 127, 255)
    for k in range(127):
        fop.submit()
        assert fop.next() == (it.Next.FIRST, (255 + k) % 256)
    assert fop.tick() == it.Alert.NONE and fop.ticks == 65534 and (fop.sent, fop.vs) == (127, 126)
    assert fop.accepted_beyond(126) == it.accepted_beyond(255, 126, 126) == 127 and fop.accepted_beyond(127) is None
    assert fop.clcw(63, it.Clcw(vcid=63, value=126)) == (it.Alert.NONE, 127)
    # Nothing is sent and not acknowledged, whatever the value.
    assert {fop.accepted_beyond(value) for value in range(256)} == {0}
    assert {it.accepted_beyond(126, 126, value) for value in range(256)} == {0}
    assert it.version.count(".") == 2 and it.Alert.NNR.word == "NnR" and it.Verdict.AHEAD.word == "ahead"
    assert it.Alert.TERMINATED.advice and not it.Alert.TERMINATED.shows_a_broken_condition
    for kind in (fault for fault in vars(it).values() if isinstance(fault, type) and issubclass(fault, it.Fault)):
        assert kind(255).number == 255


def largest(it):
    return it.Config(scid=1023, vcid=63, tm_vcid=7, width=254, window=127, limit=255, timer=65535, part=1016,
                     max_packet=65542, maps=2**64 - 1, ready_slots=64, bypass_slots=64, queue_slots=65535,
                     frame_length=2048, blocking=1)


def directs(node):
    """Each directive, with the largest number that it takes."""
    for directive, *number in (
            (node.set_vs, 255), (node.set_window, 127), (node.set_limit, 255), (node.set_timer, 65535),
            (node.init_without_check,), (node.terminate,), (node.init_with_check,), (node.terminate,),
            (node.init_unlock,), (node.terminate,), (node.init_set_vr, 255)):
        directive(*number)


def reports_alone(it, ground, down, word):
    """Telemetry that begins anew, and control words by themselves."""
    assert ground.telemetry(down).gap == 255
    ground.forget_telemetry()
    assert ground.telemetry(down).gap is None
    assert ground.clcw(word) == it.Heard(it.Arrived.CLCW, report=it.Report.USED, word=it.Clcw.decode(word))
    assert ground.clcw(b"\x01\x00\x00\x00") == it.Heard(
        it.Arrived.CLCW, report=it.Report.OTHER_CHANNEL, word=it.Clcw())
    assert ground.clcw(b"\x81\xfc\x00\x00") == it.Heard(
        it.Arrived.CLCW, report=it.Report.REFUSED, word_fault=it.ClcwFault(1))
    says(ValueError, "word: 3 octets", ground.clcw, word[:3])


def longest_nodes(it):
    packet, command = packets(it)
    assert largest(it).fault() is None and it.Config(scid=2**32 - 1).fault() == "scid"
    with it.Ground(largest(it)) as ground, it.Spacecraft(largest(it)) as board:
        assert ground.config == board.config == largest(it) and ground.config is not ground.config
        directs(ground)
        octets = ground.pull()
        assert it.TcFrame.decode(octets)[0] == it.TcFrame(scid=1023, vcid=63, kind=it.Kind.BC, command=1, vr=255)
        assert board.receive(octets) == it.Received(it.Arrived.BC, command=it.Command.SET_VR, vr=255)
        assert board.control_word == it.Clcw(vcid=63, farm_b=1, value=255) and board.mode == it.Mode.OPEN
        down = board.telemetry_frame()
        assert len(down) == ground.frame_length == board.frame_length == 2048
        assert ground.clcw_in(down) == board.control_word
        assert ground.telemetry(down) == it.Heard(it.Arrived.TM, report=it.Report.USED, word=board.control_word)
        reports_alone(it, ground, down, board.control_word.encode())
        assert ground.try_submit(63, command) == 0
        assert (ground.state, ground.vs, ground.nn, ground.outstanding) == (it.State.S1, 255, 255, 65)
        assert (ground.unsent, ground.due, ground.ticks, ground.count) == (65, 0, 0, 1)
        frames = [ground.pull(), *ground.frames()]
        assert (ground.unsent, ground.due, ground.ticks, ground.count) == (0, 0, 65535, 1)
        assert [len(frame) for frame in frames] == [1024] * 64 + [526] and ground.pull() is None
        kept = it.KeptNumbers(vr=255, farm_b=1, mc_count=1, vc_count=1)
        assert board.kept_numbers == kept
        accepted = {"kind": it.Arrived.AD, "verdict": it.Verdict.ACCEPTED}
        assert [board.receive(frame) for frame in frames] == [
            it.Received(n=(255 + k) % 256, ready=k // 64, **accepted) for k in range(65)]
        assert board.ready == 1
        assert board.take() == (63, command) and [*board.packets()] == [] and ground.accepted_beyond(64) == 65
        assert (ground.submitted, ground.sent_whole, ground.acknowledged_whole) == (1, 1, 0)
        # V(S) is 64, NN(R) 255, and the submission has 65 segments.
        assert ground.kept == it.KeptGround(vs=64, nn=255, known=True, segments=(65,))
        with it.Ground(largest(it), kept=ground.kept) as another:
            assert another.kept == ground.kept
        assert [ground.known_on_board(value) for value in (254, 255, 63, 64, 65)] == [None, 0, 0, 1, None]
        ground.advance()
        assert ground.peek() is None
        ground.bypass(63, it.Packet(kind=1).encode(DATA[:1010]))
        assert ground.bypassed == 1
        octets = ground.peek()
        assert ground.peek() == octets
        ground.advance()
        assert ground.peek() is None
        assert len(octets) == 1024 and board.receive(octets) == it.Received(it.Arrived.BD, kept=True)
        assert board.bypassed == 1 and board.take_bypass() == (63, octets[6:-2]) and [*board.bypass_packets()] == []
        for _ in range(255):
            board.telemetry_frame()
        board.telemetry(packet)
        heard = [ground.telemetry(board.telemetry_frame()) for _ in range(33)]
        assert [one.gap for one in heard] == [255] + [0] * 32 and [one.packets for one in heard] == [0] * 32 + [1]
        assert (ground.nn, ground.outstanding) == (64, 0) and ground.take_telemetry() == packet
        assert [*ground.packets()] == [] and ground.tick() == it.Alert.NONE and not ground.closed
        assert ground.submit(63, command) == 1
        ground.terminate()
        assert (ground.acknowledged_whole, ground.resume(64), ground.state) == (1, 1, it.State.S5)
        ground.close()
        assert ground.closed


def longest_link(it):
    packet, command = packets(it)
    with it.Link(largest(it)) as link:
        directs(link)
        assert len(link.send()) == 10 and link.up_deliver().vr == 255
        assert link.report() == it.Clcw(vcid=63, farm_b=1, value=255)
        assert link.down_deliver() == it.Heard(it.Arrived.TM, report=it.Report.USED)
        assert (link.begun, link.clean, link.idle, link.confirmed) == (it.Begun.SET_VR, True, True, True)
        link.submit(63, command), link.bypass(63, it.Packet(kind=1).encode(DATA[:1010]))
        assert (link.vs, link.nn, link.unsent, link.bypass_unsent) == (255, 255, 65, 1)
        assert [len(link.send()) for _ in range(66)] == [1024] * 65 + [526] and link.send() is None
        came = [link.up_deliver() for _ in range(66)]
        assert (link.due, link.ticks, link.count, link.ready, link.bypass_ready) == (0, 65535, 1, 1, 1)
        assert link.control_word == it.Clcw(vcid=63, farm_b=2, value=64) and link.mode == it.Mode.OPEN
        assert [one.ready for one in came] == [0] * 65 + [1] and link.take() == (63, command) and link.take() is None
        assert link.take_bypass() == (63, it.Packet(kind=1).encode(DATA[:1010])) and link.take_bypass() is None
        assert link.submitted(63) == link.delivered(63) == [command] and link.submissions == [(63, command)]
        assert link.sent == link.accepted and [len(one) for one in link.sent] == [1017] * 64 + [519]
        assert (link.state, link.acknowledged, link.outstanding) == (it.State.S1, 0, 65)
        link.telemetry(packet)
        for _ in range(33):
            link.report()
        assert sum(link.down_deliver().packets for _ in range(33)) == 1 and link.acknowledged == 65
        link.submit(63, command), link.send(), link.send(), link.report(), link.report()
        assert link.up_damage(DATA) == it.Received(it.Arrived.INVALID, fault=it.TcFault(5))
        assert link.down_damage(DATA) == it.Heard(it.Arrived.INVALID, fault=it.TmFault(1))
        assert link.up_lose() is None and link.down_lose() is None and link.tick() == it.Alert.NONE
        link.report(), link.terminate()
        assert link.down_clcw() == it.Heard(it.Arrived.CLCW, report=it.Report.USED)
        assert (link.resume(64), link.begun, link.state) == (1, it.Begun.UNLOCK, it.State.S5)


# ---- Arguments. ----


def owners(it):
    """What has methods, and one of each."""
    return (it.Clcw(), it.Farm(10), it.Fop(10, 5, 1, 1), it.TcFrame(), it.Packet(), it.TmFrame(),
            it.GapCheck(), it.TmBuilder(1, 0, 20), it.TmExtractor(), it.Map(), it.Ground(), it.Spacecraft(), it.Link(),
            it.Executor(b"", b"", 0), it.Commander(it.Mission(1, 0, 6, 7)))


def callables(it):
    """Each call that takes a value, and its name."""
    for one in owners(it):
        yield type(one).__name__, type(one)
        for name in dir(type(one)):
            if name[0] != "_" and callable(getattr(type(one), name)):
                yield f"{type(one).__name__}.{name}", getattr(one, name)
    yield "Config", it.Config
    for name in ("accepted_beyond", "check", "check_append", "check_holds", "read_frames", "segments",
                 "command_packet", "history_after", "rebuild_order", "restart_order"):
        yield name, getattr(it, name)


def each_wrong_argument(it):
    """A value of a wrong type is a TypeError, and a number that does not fit an OverflowError; both name it."""
    right = {"int": 1, "Optional[int]": 1, "Octets": bytes(4), "bool": False, "Clcw": it.Clcw(), "TmFrame": it.TmFrame(),
             "Optional[Config]": None, "Optional[KeptGround]": None, "Optional[KeptNumbers]": None,
             "Readable": io.BytesIO(), "Action": it.Action(it.ActionKind.NOTHING, b"", 0, b""),
             "Mission": it.Mission(1, 0, 6, 7), "CommanderAction": it.CommanderAction(it.CommanderActionKind.NOTHING)}
    wrong = {"int": ("1", 1.0, None, b"1"), "Octets": ("1", 1, None, it.Clcw()), "Clcw": ("1", 1, None, it.TmFrame()),
             "TmFrame": ("1", 1, None, it.Clcw()), "Optional[Config]": ("1", 1, it.Clcw()), "Optional[int]": ("1", 1.0),
             "Optional[KeptGround]": ("1", 1, it.KeptNumbers()), "Optional[KeptNumbers]": ("1", 1, it.Clcw()),
             "Readable": ("1", 1, None), "Action": ("1", 1, None, it.Clcw()),
             "Mission": ("1", 1, None, (1, 0, 6, 7)), "CommanderAction": ("1", 1, None, right["Action"])}
    tried = 0
    for name, call in callables(it):
        parameters = {own: one for own, one in inspect.signature(call).parameters.items() if own != "fields"}
        given = {own: 16 if own == "length" else right[one.annotation] for own, one in parameters.items()}
        for own, kind in ((own, one.annotation) for own, one in parameters.items() if one.annotation in wrong):
            for value in wrong[kind]:
                says(TypeError, f"{own}: ", call, **{**given, own: value})
            tried += 1
            for value in (-1, 2**64) if "int" in kind else ():
                is_own = f"{name} {own}" in ("TmExtractor longest", "TmExtractor.take_all length",
                                             "Ground.telemetry_all length", "read_frames length")
                says(ValueError if is_own else OverflowError,
                     f"{own}: {value} is not in ", call, **{**given, own: value})
    assert tried > 100, tried
    for one in (*owners(it)[:6], it.Config()):
        for own, kind in one._fields_:
            if own != "_ocf":
                says(TypeError, f"{own}: '1' is not a number", setattr, one, own, "1")
                says(OverflowError, f"{own}: -1 is not in 0 to", setattr, one, own, -1)
                says(OverflowError, f"{own}: {1 << 8 * ctypes.sizeof(kind)} is not in", setattr, one, own,
                     1 << 8 * ctypes.sizeof(kind))
        says(AttributeError, "", setattr, one, "other", 1)


def structs_give_their_octets_or_none(it):
    """A control word has one spelling, so `bytes` gives it. Nothing gives a struct's memory: neither `bytes` nor what
    reads a buffer, such as `send` of a socket and `write` of a file. A copy has memory of its own."""
    word = it.Clcw(vcid=2, flags=0x88, value=7)
    assert bytes(word) == word.encode() == bytes.fromhex("01088807")
    batch = [frame for frame, _ in it.TcFrame.decode_all(it.TcFrame(scid=1).encode(b"1") * 2)]
    one, other = socket.socketpair()
    with one, other:
        for struct in (*owners(it)[:6], it.Config(), *batch):
            takes = (memoryview, bytearray, io.BytesIO().write, one.send, it.check, *[bytes] * (type(struct) is not it.Clcw))
            for call in takes:
                says(TypeError, "", call, struct)
            assert not isinstance(struct, ctypes.Structure) and not hasattr(struct, "__dict__")
            for made in (copy.copy(struct), copy.deepcopy(struct), pickle.loads(pickle.dumps(struct))):
                name = struct._fields_[0][0]
                assert made == struct and type(made) is type(struct)
                setattr(made, name, getattr(made, name) ^ 1)
                assert made != struct


# ---- Threads. ----


def between(module, name, does, method, is_after=True):
    """What a method answers where another thread does something after this call of the method, or before it."""
    call, thread = getattr(module, name), threading.Thread(target=does)

    def stand(*values):
        answer = call(*values) if is_after or thread.ident else None
        if not thread.ident:
            thread.start()
            thread.join(0.1)
        return call(*values) if answer is None else answer

    setattr(module, name, stand)
    try:
        answer = method()
        thread.join()
    finally:
        setattr(module, name, call)
    return answer


def threads_that_share(it):
    """Where a method makes several calls of the library, no method of another thread comes between them."""
    calls, link_calls = it._calls, it._link
    board = it.Map(7)
    board.take(it.Segment.FIRST, COMMAND[:3])

    def takes():
        other = COMMAND[:-1] + b"\xbb"
        board.take(it.Segment.FIRST, other[:3]), board.take(it.Segment.LAST, other[3:])

    assert between(calls, "_map_take", takes, lambda: board.take(it.Segment.LAST, COMMAND[3:])) == ([COMMAND], None)
    with it.Ground() as ground:
        ground.init_without_check()
        numbers = []
        for is_after in (True, False):
            numbers.append(between(it._nodes, "_each_called", lambda: numbers.append(ground.submit(4, COMMAND)),
                                   lambda: ground.submit(4, COMMAND), is_after))
        assert sorted(numbers) == [0, 1, 2, 3]
    extractor, packet = it.TmExtractor(16), bytes.fromhex("0005c0000004") + b"abcde"
    halves = [(it.TmFrame(pointer=0), packet[:6]), (it.TmFrame(pointer=it.NO_START, vc_count=1), packet[6:])]
    extractor.take(*halves[0])
    third = it.TmFrame(pointer=0, vc_count=2), bytes.fromhex("0005c0010009")
    assert between(calls, "_tm_extractor_frame", lambda: extractor.take(*third),
                   lambda: extractor.take(*halves[1])) == ([packet], 0)
    with it.Link() as link:
        link.init_without_check()
        link.submit(4, COMMAND), link.submit(5, COMMAND)
        assert len(between(link_calls, "_sim_octets", link.tick, link.send, is_after=False)) == 15
        assert link.up_deliver().ready == 1
        assert between(link_calls, "_sim_octets", link.tick, link.take, is_after=False) == (4, COMMAND)

        def begins():
            link.terminate(), link.init_without_check()

        assert between(link_calls, "_sim_count", begins, lambda: link.submitted(4)) == [COMMAND]
        link.submit(4, COMMAND)
        assert between(link_calls, "_sim_submissions", begins, lambda: link.submissions) == [(4, COMMAND)]


def names_before_0_3(it):
    """Each name that goes after 0.3 serves as the one that stands for it, with a DeprecationWarning of the caller's
    line."""
    farm, fop, ground, board = it.Farm(10), it.Fop(10, 5, 3, 10), it.Ground(), it.Spacecraft()
    with warnings.catch_warnings(record=True) as said:
        warnings.simplefilter("always")
        word = farm.report(2)
        assert word == farm.control_word(2) and fop.report(3, word) is None
        assert fop.report(2, word=word) == (it.Alert.NONE, 0)
        assert ground.report_in(board.report()) == board.control_word
        assert it.Report.NONE is it.Report.REFUSED and it.Report.OTHER is it.Report.OTHER_CHANNEL
    assert [str(one.message).partition(";")[0] for one in said] == [
        "report is control_word now", "report is clcw now", "report is clcw now", "report is telemetry_frame now",
        "report_in is clcw_in now", "Report.NONE is REFUSED now", "Report.OTHER is OTHER_CHANNEL now"]
    assert {(one.category, one.filename) for one in said} == {(DeprecationWarning, __file__)}
    for old, new in ((it.Farm.report, "control_word"), (it.Fop.report, "clcw"), (it.Ground.report_in, "clcw_in"),
                     (it.Spacecraft.report, "telemetry_frame")):
        assert old.__doc__ == f"The old name of `{new}`; it goes after 0.3."
        assert f"`{old.__qualname__.partition('.')[0]}.{old.__name__}` (now `{new}`)" in " ".join(it.__doc__.split())
    assert not hasattr(it.Report, "ABSENT") and [*it.Report.__members__] == ["USED", "REFUSED", "OTHER_CHANNEL"]


TESTS = (each_member_of_each_enumeration, each_method_with_the_longest_values, each_wrong_argument,
         structs_give_their_octets_or_none, threads_that_share, names_before_0_3)
