"""Each fault of each decode; and results that stay as they are, whatever is called later, or by another thread
meanwhile."""
import random
import sys
import threading

from each import between
from wanted import does_not_fit, refuses, says

COMMAND, OTHER = bytes.fromhex("1005c0000000aa"), bytes.fromhex("1005c0010001abac")


# ---- Faults. The octets are spelled by 133.0-B-2, 4.1, 132.0-B-3, 4.1, and 232.0-B-4, 4.1 and 4.2. ----


def telemetry_of(it, header):
    """A telemetry frame with this header, given as digits."""
    return it.check_append(bytes.fromhex(header + "55555555010800000000"))


def decodes(it):
    """Each decode, octets that it reads, what it makes of them, the kind of its faults, and octets that have each."""
    bad_telemetry = ((2, "401100001ffe"), (4, "001100009ffe"), (4, "001100000ffe"), (5, "001100001804"),
                     (6, "001000001ffe"))
    return (
        (it.Clcw.decode, bytes.fromhex("01080a07"), it.Clcw(vcid=2, flags=8, farm_b=1, value=7), it.ClcwFault, (
            (1, "81080a07"), (2, "21080a07"), (3, "00080a07"), (4, "01090a07"), (254, "01080a"), (254, ""))),
        (lambda octets: it.TcFrame.decode(octets, checked=False), bytes.fromhex("0001080c03c4") + COMMAND,
         (it.TcFrame(scid=1, vcid=2, n=3, flags=3, map=4), COMMAND), it.TcFault, (
             (1, "0001080c"), (2, "4001080603c4aa"), (3, "1001080603c4aa"), (4, "0401080603c4aa"),
             (5, "0001080703c4aa"), (7, "2001080603c4aa"), (8, "0001080503c4"), (8, "0001080403"),
             (9, "300108050001"))),
        (it.TcFrame.decode, bytes.fromhex("3001080700008b9e"), (it.TcFrame(scid=1, vcid=2, kind=it.Kind.BC), b""),
         it.TcFault, ((1, ""), (6, "3001080700008b9f"))),
        (it.Packet.decode, COMMAND + b"more", (it.Packet(apid=5, kind=1), b"\xaa"), it.PacketFault, (
            (1, ""), (1, "1005c0000000"), (1, "1005c0000001aa"), (2, "3005c0000000aa"), (3, "1fffc0000000aa"))),
        (it.TmFrame.decode, telemetry_of(it, "001100001ffe"),
         (it.TmFrame(scid=1, pointer=it.ONLY_IDLE, ocf=bytes.fromhex("01080000")), b"UUUU"), it.TmFault, (
             (1, ""), (3, "001100001ffe55555555010800000000"),
             *((number, telemetry_of(it, header).hex()) for number, header in bad_telemetry))))


def each_fault_of_each_decode(it):
    """Octets that are refused change nothing: others give the same before and after, of each type of octets."""
    seen = set()
    for decode, octets, wanted, fault, refused in decodes(it):
        first = decode(octets)
        for number, digits in refused:
            refuses(fault, number, fault(number).name, decode, bytes.fromhex(digits))
            assert decode(octets) == decode(bytearray(octets)) == decode(memoryview(octets)) == first == wanted
            seen.add((fault, number))
    for fault, most in ((it.ClcwFault, 4), (it.TcFault, 9), (it.PacketFault, 3), (it.TmFault, 6)):
        assert {(fault, number) for number in range(1, most + 1)} <= seen, fault


def decodes_of_own_kinds(it):
    """A class of a program's own decodes to itself."""
    for kind, octets in ((it.Clcw, "01080a07"), (it.TcFrame, "3001080700008b9e"), (it.Packet, "1005c0000000aa"),
                         (it.TmFrame, telemetry_of(it, "001100001ffe").hex())):
        own = type("Own", (kind,), {})
        found = own.decode(bytes.fromhex(octets))
        assert type(found if kind is it.Clcw else found[0]) is own
        if kind is it.TcFrame:
            assert {type(frame) for frame, _ in own.decode_all(bytes.fromhex(octets) * 2)} == {own}


# ---- Many frames. ----


def frames_one_after_another(it):
    """Frames and their faults come as each by itself, whatever the octets are, in order; the rest is the last."""
    chance, commands = random.Random(1), [bytes.fromhex(one) for one in (
        "0001080e00c41005c0000000aae75d", "3001080700008b9e", "30010809008200074f60", "3001080700008b9f")]
    fault = it.TcFault(6)
    assert [*it.TcFrame.decode_all(b"".join(commands))] == [
        (it.TcFrame(scid=1, vcid=2, flags=3, map=4), COMMAND), (it.TcFrame(scid=1, vcid=2, kind=it.Kind.BC), b""),
        (it.TcFrame(scid=1, vcid=2, kind=it.Kind.BC, command=1, vr=7), b""), (fault, commands[3])]
    assert [*it.TcFrame.decode_all(b"")] == [*it.TcFrame.decode_all(b"", False)] == []
    for digits, number in (("3001", 1), ("30010807", 1), ("3001080700", 5), ("3001080000008b9e", 5)):
        rest = bytes.fromhex(digits)
        assert [*it.TcFrame.decode_all(commands[1] + rest)][1:] == [(it.TcFault(number), rest)]
    for checked in (True, False):
        frames = [any_command(it, chance, checked) for _ in range(10_000)]
        found = it.TcFrame.decode_all(bytearray(b"".join(frames)), checked)
        for wanted, one in zip(frames, found):
            assert one == decoded(it.TcFrame, it.TcFault, wanted, checked)
        assert next(found, None) is None


def frames_of_one_channel(it):
    """With a spacecraft or a virtual channel those alone come whose header names it, refused ones too, and the rest."""
    chance, fault, own = random.Random(3), it.TcFault(6), it.TcFrame(scid=1, vcid=2, kind=it.Kind.BC)
    unlock, bad, other = (bytes.fromhex(one) for one in ("3001080700008b9e", "3001080700008b9f", "30020c0700000000"))
    for octets, rest in ((other + unlock + bad + other, []), (unlock + other + bad + b"30", [(it.TcFault(1), b"30")])):
        for names in ({"scid": 1, "vcid": 2}, {"scid": 1}, {"vcid": 2}):
            assert [*it.TcFrame.decode_all(octets, **names)] == [(own, b""), (fault, bad), *rest], names
    for checked in (True, False):
        octets = b"".join(any_command(it, chance, checked) for _ in range(10_000))
        found, at = [*it.TcFrame.decode_all(octets, checked)], 0
        headers = [octets[at:(at := at + it.TcFrame.declared(octets[at:], checked))][:3] for _ in found]
        for names in ({}, {"scid": 700}, {"vcid": 9}, {"scid": 3, "vcid": 63}, {"scid": 0, "vcid": 0}):
            named = [one for one, (high, low, third) in zip(found, headers)
                     if names.items() <= {"scid": (high & 3) << 8 | low, "vcid": third >> 2}.items()]
            assert [*it.TcFrame.decode_all(octets, checked, **names)] == named
    for call in (it.TcFrame.decode_all, lambda octets, **names: it.TmExtractor().take_all(octets, 16, **names)):
        for name, number in (("scid", 1024), ("scid", -1), ("vcid", 64), ("vcid", -1)):
            does_not_fit(call, b"", **{name: number})
        says(TypeError, "vcid: '2' is not a number", call, b"", vcid="2")


def telemetry_of_one_channel(it):
    """Of frames of several channels an extractor takes those of one, as if they stood alone."""
    chance, channels = random.Random(4), [(1, 0), (1, 5), (1008, 0), (17, 5)]
    builders = {one: it.TmBuilder(*one, 32) for one in channels}
    frames = []
    for k in range(1000):
        channel = chance.choice(channels)
        if builders[channel].waiting < 32:
            builders[channel].queue(it.Packet(apid=k, count=k).encode(bytes(chance.randrange(1, 60))))
        frame = bytearray(builders[channel].build(bytes(4)))
        frame[chance.randrange(4, 32)] ^= chance.randrange(10) == 0
        frames.append((channel, bytes(frame)))
    octets = b"".join(frame for _, frame in frames) + b"rest"
    for scid, vcid in channels:
        alone = b"".join(frame for channel, frame in frames if channel == (scid, vcid)) + b"rest"
        wanted = it.TmExtractor().take_all(alone, 32)
        assert it.TmExtractor().take_all(octets, 32, scid=scid, vcid=vcid) == wanted and len(wanted) > 200
    for names in ({"scid": 1}, {"vcid": 5}):
        place, number = ("scid", "vcid").index([*names][0]), [*names.values()][0]
        alone = b"".join(frame for channel, frame in frames if channel[place] == number)
        assert it.TmExtractor().take_all(octets[:-4], 32, **names) == it.TmExtractor().take_all(alone, 32)


def frames_that_are_changed(it):
    """A frame of many is changed by itself."""
    (one, _), (other, _) = it.TcFrame.decode_all(bytes.fromhex("3001080700008b9e") * 2)
    one.scid = 2
    assert (one.scid, other.scid) == (2, 1)


def numbers_of_either_order(it):
    """Where the octets of a record go into a struct, on processors of either order."""
    for kind, numbers in ((it.TcFrame, 1), (it.TmFrame, 2)):
        kinds = [one for _, one in kind._fields_]
        little, big = (it._calls._places_of(kinds, 3, order) for order in ("little", "big"))
        assert little == [*range(3, 3 + len(little))] and big[2 * numbers:] == little[2 * numbers:]
        assert big[:2 * numbers] == [4, 3, 6, 5][:2 * numbers]


def any_command(it, chance, checked):
    """A telecommand frame of any kind, one in eight with a wrong octet, but for those that declare its length."""
    frame = it.TcFrame(chance.randrange(1024), chance.randrange(64), chance.randrange(3), chance.randrange(256),
                       chance.randrange(4), chance.randrange(64), chance.randrange(2), chance.randrange(256))
    octets = bytearray(frame.encode(chance.randbytes(chance.choice((1, 30, 1016))), checked))
    if chance.randrange(8) == 0:
        octets[chance.choice((0, 1, *range(4, len(octets))))] ^= 1 << chance.randrange(8)
    return bytes(octets)


def decoded(kind, fault, octets, *more):
    """What a decode gives, or its fault and the octets."""
    try:
        return kind.decode(octets, *more)
    except fault as why:
        return why, octets


def telemetry_one_after_another(it):
    """What `take_all` and `telemetry_all` give is what each frame gives by itself: damaged and lost ones, and a rest."""
    chance, builder, stream = random.Random(2), it.TmBuilder(1, 0, 64), []
    for k in range(2000):
        while builder.waiting < 200:
            builder.queue(it.Packet(apid=k % 2047, count=k % 16384).encode(bytes(chance.choice((1, 20, 150)))))
        frame = bytearray(builder.build(it.Clcw(vcid=2).encode()))
        if chance.randrange(10) == 0:
            frame[chance.randrange(64)] ^= 1
        stream += [bytes(frame)] * (chance.randrange(10) > 0)
    octets, one, other = b"".join(stream) + b"rest", it.TmExtractor(), it.TmExtractor()
    found = [*one.take_all(octets, 64)]
    for (frame, packets, lost), whole in zip(found, stream):
        alone = decoded(it.TmFrame, it.TmFault, whole, 64)
        assert frame == alone[0]
        assert (packets, lost) == (([], None) if isinstance(frame, it.TmFault) else other.take(*alone))
    assert found[len(stream):] == [(it.TmFault(1), [], None)] and one.dropped == other.dropped > 0
    assert sum(len(packets) for _, packets, _ in found) > 1000
    with it.Ground(scid=1, tm_vcid=0) as ground, it.Ground(scid=1, tm_vcid=0) as alone:
        heard = [*ground.telemetry_all(memoryview(octets), 64)]
        assert heard == [alone.telemetry(one) for one in (*stream, b"rest")] and heard[-1].fault == it.TmFault(1)
        assert [*ground.packets()] == [*alone.packets()] == [packet for _, more, _ in found for packet in more]
        for call in (one.take_all, ground.telemetry_all):
            assert [*call(b"", 64)] == []
            for length in (15, 2049):
                says(ValueError, f"length: {length} is not in 16 to 2048", call, b"", length)


# ---- Results. ----


def any_struct(it, chance, kind):
    if kind is it.Clcw:
        return it.Clcw(chance.randrange(8), chance.randrange(64), 8 * chance.randrange(32), chance.randrange(4),
                       chance.randrange(256))
    if kind is it.TcFrame:
        return it.TcFrame(scid=chance.randrange(1024), vcid=chance.randrange(64), n=chance.randrange(256),
                          flags=chance.randrange(4), map=chance.randrange(64))
    if kind is it.Packet:
        return it.Packet(chance.randrange(2047), chance.randrange(16384), *(chance.randrange(2) for _ in range(3)))
    return it.TmFrame(chance.randrange(1024), chance.randrange(4), *(chance.randrange(8) for _ in range(3)),
                      ocf=chance.randbytes(4))


def results_that_stay(it):
    """What was encoded and decoded stays as it was, whatever is encoded and decoded later."""
    chance = random.Random(8)
    for kind in (it.Clcw, it.TcFrame, it.Packet, it.TmFrame):
        ones = [any_struct(it, chance, kind) for _ in range(300)]
        data = [[] if kind is it.Clcw else [chance.randbytes(chance.randrange(4, 900))] for _ in ones]
        octets = [one.encode(*each) for one, each in zip(ones, data)]
        found = [kind.decode(each) for each in octets]
        assert found == (ones if kind is it.Clcw else [(one, *each) for one, each in zip(ones, data)]), kind
        assert octets == [one.encode(*each) for one, each in zip(ones, data)], kind


def frames_and_packets_that_stay(it):
    """What nodes gave stays as it was, whatever others give later."""
    chance, nodes = random.Random(9), [(it.Ground(scid=k), it.Spacecraft(scid=k)) for k in range(3)]
    up, down = ([[it.Packet(apid=k, kind=kind).encode(chance.randbytes(chance.randrange(1, 900))) for k in range(9)]
                 for _ in nodes] for kind in (1, 0))
    for (ground, board), commands, telemetry in zip(nodes, up, down):
        ground.init_without_check()
        for command, packet in zip(commands, telemetry):
            ground.submit(4, command), board.telemetry(packet)
    frames = [[ground.pull() for ground, _ in nodes] for _ in range(9)]
    reports = [[board.telemetry_frame() for _, board in nodes] for _ in range(180)]
    words = [[ground.clcw_in(octets) for (ground, _), octets in zip(nodes, each)] for each in reports]
    heard = [[ground.telemetry(octets) for (ground, _), octets in zip(nodes, each)] for each in reports]
    received = [[board.receive(octets) for (_, board), octets in zip(nodes, each)] for each in frames]
    taken = [[board.take() for _, board in nodes] for _ in range(9)]
    packets = [[ground.take_telemetry() for ground, _ in nodes] for _ in range(9)]
    assert [[it.TcFrame.decode(octets)[1] for octets in each] for each in frames] == [*map(list, zip(*up))]
    assert {word.encode().hex() for each in words for word in each} == {"01080000"}
    assert [sum(one.packets for one in each) for each in zip(*heard)] == [9] * 3
    assert received == [[it.Received(it.Arrived.AD, n=n, verdict=it.Verdict.ACCEPTED, ready=1)] * 3 for n in range(9)]
    assert taken == [[(4, packet) for packet in each] for each in zip(*up)] and packets == [*map(list, zip(*down))]


def calls_at_once(it):
    """What a call gives is its own, whatever another thread calls before it has come to its end."""
    frames = [it.TcFrame(scid=k, n=k) for k in range(2)]
    words = [it.Clcw(vcid=k, value=k).encode() for k in range(2)]
    tm = [it.TmFrame(scid=k, pointer=k, ocf=word).encode(bytes([k]) * 52) for k, word in enumerate(words)]
    with it.Ground() as one, it.Ground() as other, it.Spacecraft() as board:
        for ground, packet in ((one, COMMAND), (other, OTHER)):
            ground.init_without_check()
            ground.submit(4, packet)
        commands = [ground.peek() for ground in (one, other)]
        no_frames = b"1", tm[0][:-1] + b"1", commands[0][:-1] + b"1"
        for module, name, *calls in (
                (it._calls, "_tc_encode", lambda: frames[0].encode(b"one"), lambda: frames[1].encode(b"other")),
                (it._calls, "_tc_decode", *(lambda each=each: it.TcFrame.decode(each) for each in commands)),
                (it._calls, "_packet_decode", *(lambda each=each: it.Packet.decode(each) for each in (COMMAND, OTHER))),
                (it._calls, "_tm_decode", *(lambda each=each: it.TmFrame.decode(each) for each in tm)),
                (it._calls, "_clcw_decode", *(lambda each=each: it.Clcw.decode(each) for each in words)),
                (it._nodes, "_ground_clcw_in", *(lambda each=each: one.clcw_in(each) for each in tm)),
                (it._nodes, "_ground_telemetry", *(lambda each=each: one.telemetry(each) for each in no_frames[:2])),
                (it._spacecraft, "_spacecraft_receive", *(lambda each=each: board.receive(each) for each in no_frames[::2])),
                (it._nodes, "_ground_peek", one.peek, other.peek)):
            wanted, meanwhile = [call() for call in calls], []
            first = between(module, name, lambda: meanwhile.append(calls[1]()), calls[0])
            assert [first, *meanwhile] == wanted and wanted[0] != wanted[1], name


def threads_that_take_turns(it):
    """Threads that take turns at any place give what each would give alone."""
    wrong, interval = [], sys.getswitchinterval()

    def codes(k):
        frame, data = it.TcFrame(scid=k, n=k), bytes([k]) * (k + 1)
        wanted = frame.encode(data)
        for _ in range(2000):
            if frame.encode(data) != wanted or it.TcFrame.decode(wanted) != (frame, data):
                wrong.append(k)

    threads = [threading.Thread(target=codes, args=(k,)) for k in range(4)]
    sys.setswitchinterval(1e-6)
    try:
        for one in threads:
            one.start()
        for one in threads:
            one.join()
    finally:
        sys.setswitchinterval(interval)
    assert not wrong, wrong


TESTS = (each_fault_of_each_decode, decodes_of_own_kinds, frames_one_after_another, frames_of_one_channel,
         telemetry_of_one_channel, frames_that_are_changed,
         numbers_of_either_order, telemetry_one_after_another,
         results_that_stay, frames_and_packets_that_stay, calls_at_once, threads_that_take_turns)
