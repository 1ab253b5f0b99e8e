"""What is given one at a time: the frames and the packets of nodes, and the frames of files; and how many packets are
dropped between frames."""
import gzip
import io
import os
import random
import socket
import tempfile
import threading

from wanted import says

COMMANDS = [bytes.fromhex(f"1005c00{k}0000a{k}") for k in range(4)]
TELEMETRY = [bytes.fromhex(f"0005c00{k}0000a{k}") for k in range(4)]


# ---- Nodes. ----


def frames_one_at_a_time(it):
    """A frame counts as sent when it is given, and the others stay; what has ended gives no more."""
    with it.Ground() as ground:
        ground.init_without_check()
        for packet in COMMANDS:
            ground.submit(4, packet)
        frames = ground.frames()
        assert ground.vs == 0
        up = [next(frames)]
        assert ground.vs == 1
        up += [ground.pull(), *frames]
        assert [it.TcFrame.decode(octets)[0].n for octets in up] == [0, 1, 2, 3] and ground.vs == 4
        ground.submit(4, COMMANDS[0])
        assert next(frames, None) is None and ground.vs == 4
        for octets in ground.frames():
            assert it.TcFrame.decode(octets)[1] == COMMANDS[0]
        assert ground.vs == 5 and [*ground.frames()] == []
        for k in range(3):
            ground.bypass(k, COMMANDS[k])
        for octets in ground.frames():
            break
        assert [it.TcFrame.decode(one)[0].map for one in (octets, *ground.frames())] == [0, 1, 2]


def packets_one_at_a_time(it):
    """Packets come in order with their MAPs, each once, whoever asks; those that nobody asked for stay."""
    with it.Ground() as ground, it.Spacecraft() as board:
        ground.init_without_check()
        for k, packet in enumerate(COMMANDS):
            ground.submit(k, packet)
            ground.bypass(k + 8, packet)
        for octets in ground.frames():
            board.receive(octets)
        for call, take, first in ((board.packets, board.take, 0), (board.bypass_packets, board.take_bypass, 8)):
            packets, came = call(), []
            for packet in call():
                came.append(packet)
                break
            came += [next(packets), take(), *packets]
            assert came == [(first + k, packet) for k, packet in enumerate(COMMANDS)]
            assert [*packets] == [*call()] == [] and take() is None
        for packet in TELEMETRY:
            board.telemetry(packet)
        assert ground.telemetry(board.telemetry_frame()).packets == 4
        packets = ground.packets()
        assert [ground.take_telemetry(), next(packets), *ground.packets()] == TELEMETRY and [*packets] == []
        ended = ground.frames(), ground.packets(), board.packets(), board.bypass_packets()
    for one in ended:
        says(ValueError, "the ", next, one)


# ---- Files. ----


def reports(it, count, length=64):
    with it.Spacecraft(frame_length=length) as board:
        return [board.telemetry_frame() for _ in range(count)]


def piped(octets, chance, buffering):
    """A pipe that gives the octets in short pieces."""
    ours, theirs = os.pipe()

    def writes():
        start = 0
        while start < len(octets):
            start += os.write(theirs, octets[start:start + chance.randrange(1, 300)])
        os.close(theirs)

    threading.Thread(target=writes).start()
    return os.fdopen(ours, "rb", buffering)


def received(octets):
    """What a socket gives of the octets."""
    ours, theirs = socket.socketpair()

    def sends():
        theirs.sendall(octets)
        theirs.close()

    threading.Thread(target=sends).start()
    with ours:
        return ours.makefile("rb")


def files_of(folder, octets, chance):
    """Files of each kind with these octets."""
    with open(f"{folder}/plain", "wb") as plain, gzip.open(f"{folder}/packed", "wb", 1) as packed:
        plain.write(octets), packed.write(octets)
    return {"raw": open(f"{folder}/plain", "rb", 0), "buffered": open(f"{folder}/plain", "rb"),
            "of a small buffer": open(f"{folder}/plain", "rb", 16), "in memory": io.BytesIO(octets),
            "packed": gzip.open(f"{folder}/packed"), "a pipe": piped(octets, chance, 0),
            "a buffered pipe": piped(octets, chance, -1), "a socket": received(octets)}


def frames_of_files(it):
    """Files of each kind give the same frames, however they are read; and then say how many octets are left."""
    chance = random.Random(7)
    for length, count in ((16, 0), (16, 1), (17, 5000), (64, 3000), (1115, 200), (2048, 100)):
        frames = reports(it, count, length)
        for rest in (0, 1, length - 1):
            octets = b"".join(frames) + bytes(rest)
            wanted = f"file: the last {rest} octets are no frame, which has {length}"
            with tempfile.TemporaryDirectory() as folder:
                for name, file in files_of(folder, octets, chance).items():
                    with file:
                        reader = it.read_frames(file, length)
                        assert all(next(reader) == frame for frame in frames), name
                        if rest:
                            says(ValueError, wanted, next, reader)
                        assert next(reader, None) is None, name


def frames_of_an_open_pipe(it):
    """A frame is given once it came, though the pipe may give more."""
    for buffering in (0, -1):
        ours, theirs = os.pipe()
        with os.fdopen(ours, "rb", buffering) as file, os.fdopen(theirs, "wb", 0) as out:
            late = threading.Timer(20, out.close)
            late.start()
            reader = it.read_frames(file, 64)
            for frame in reports(it, 3):
                out.write(frame[:9]), out.write(frame[9:])
                assert next(reader) == frame and not out.closed, "it waits for what is after the frame"
            late.cancel()
            out.write(b"12345"), out.close()
            says(ValueError, "file: the last 5 octets are no frame, which has 64", next, reader)


class Counted(io.RawIOBase):
    """A file that counts its reads."""

    def __init__(self, octets):
        super().__init__()
        self.octets, self.reads = io.BytesIO(octets), 0

    def readable(self):
        return True

    def readinto(self, room):
        self.reads += 1
        return self.octets.readinto(room)


def reads_of_a_file(it):
    """The file is read in large pieces, and not before a frame is asked for."""
    frames = reports(it, 10_000)
    for kind in (lambda file: file, io.BufferedReader):
        counted = Counted(b"".join(frames))
        reader = it.read_frames(kind(counted), 64)
        assert counted.reads == 0
        assert next(reader) == frames[0] and counted.reads == 1
        assert [*reader] == frames[1:] and counted.reads < 20, counted.reads


def files_that_are_refused(it):
    for length in (15, 2049):
        says(ValueError, f"length: {length} is not in 16 to 2048", it.read_frames, io.BytesIO(), length)
    says(TypeError, "file: it has text, not octets", next, it.read_frames(io.StringIO("1"), 16))
    ours, theirs = os.pipe()
    os.set_blocking(ours, False)
    with os.fdopen(ours, "rb", 0) as file, os.fdopen(theirs, "wb", 0):
        says(BlockingIOError, "file: it does not wait", next, it.read_frames(file, 16))


# ---- Packets that are dropped. ----


def dropped_packets(it):
    """Each way in which a packet that was begun is dropped, or is not, by the rules of docs/PROFILE.md."""
    at, octets, idle = it.NO_START, bytes.fromhex("0005c0000004") + b"abcde", bytes.fromhex("07ffc0000004") + b"UUUUU"
    begun, wrong = (0, 0, octets[:6]), bytes.fromhex("e005c0000004")
    rows = (  # frames, each with the number of frames missing before it; and how many packets are dropped
        ((begun, (0, at, octets[6:])), 0), ((begun, (0, at, octets[6:8]), (0, 3, octets[8:] + octets)), 0),
        ((begun, (1, at, octets[6:])), 1), ((begun, (255, 0, octets)), 1), ((begun, (0, it.ONLY_IDLE, b"UUUU")), 1),
        ((begun, (0, 4, octets[6:])), 1), ((begun, begun, begun), 2), ((begun, (0, at, octets)), 1),
        (((0, 0, idle[:6]), (0, at, idle[6:])), 0), (((0, 0, idle[:6]), (1, at, idle[6:])), 0),
        (((0, 0, idle[:1]), (0, 10, idle[1:] + octets)), 0), (((0, 0, idle[:1]), (0, 9, idle[1:])), 0),
        (((0, 0, idle[:1]), (1, 0, octets)), 1), (((0, 0, idle[:1]), (1, at, idle[1:])), 1),
        (((0, 0, idle[:1]), (0, it.ONLY_IDLE, idle[1:])), 1), (((0, 0, wrong[:5]), (0, at, wrong[5:])), 1),
        (((0, 0, wrong), (0, at, octets)), 0), (((0, at, octets), (1, at, octets)), 0))
    for frames, dropped in rows:
        extractor, count = it.TmExtractor(), 0
        assert extractor.dropped == 0
        for missing, pointer, data in frames:
            count = (count + 1 + missing) % 256
            extractor.take(it.TmFrame(pointer=pointer, vc_count=count), data)
        assert extractor.dropped == dropped, f"{frames}: {extractor.dropped}, and not {dropped}"
    extractor = it.TmExtractor(16)
    extractor.take(it.TmFrame(pointer=0), octets[:6])
    says(it.TmFault, "10 FieldRange", extractor.take, it.TmFrame(pointer=9, vc_count=1), bytes(9))
    long = octets[6:] + it.Packet(apid=5).encode(bytes(65536))[:2042]
    says(it.TmFault, "7 Memory", extractor.take, it.TmFrame(pointer=5, vc_count=1), long)
    assert extractor.dropped == 0
    extractor.take(it.TmFrame(pointer=at, vc_count=2), octets[6:])
    assert extractor.dropped == 1


def built(it, chance):
    """The frames of a builder as it is given packets, each with its pointer and its data, until all are sent."""
    builder, frames = it.TmBuilder(1, 0, chance.randrange(16, 80)), []
    for count in range(60):
        if chance.randrange(2):
            builder.queue(it.Packet(apid=5, count=count).encode(chance.randbytes(chance.randrange(1, 90))))
        frames.append(it.TmFrame.decode(builder.build(bytes(4))))
    while builder.waiting or len(frames) < 70:
        frames.append(it.TmFrame.decode(builder.build(bytes(4))))
    return frames


def packets_of(it, frames):
    """The packets of the frames, idle ones too: the octets, and which frames these are in."""
    places = [(octet, k) for k, (frame, data) in enumerate(frames) if frame.pointer != it.ONLY_IDLE for octet in data]
    octets, found, start = bytes(octet for octet, _ in places), [], 0
    while start + 6 <= len(octets) and (end := start + it.Packet.declared(octets[start:start + 6])) <= len(octets):
        found.append((octets[start:end], [k for _, k in places[start:end]]))
        start = end
    return found


def dropped_packets_of_streams(it):
    """Of the packets whose first octet came, those are dropped of which any other octet did not."""
    chance, total = random.Random(8), 0
    for _ in range(300):
        frames = built(it, chance)
        came = {k for k in range(len(frames)) if k + 3 > len(frames) or chance.randrange(4)}
        extractor, found, dropped = it.TmExtractor(), [], 0
        for k in sorted(came):
            found += extractor.take(*frames[k])[0]
        packets = packets_of(it, frames)
        for octets, places in packets:
            is_idle = octets.startswith(b"\x07\xff") and (places[0] == places[1] or places[1] in came)
            dropped += places[0] in came and not came.issuperset(places) and not is_idle
        assert found == [octets for octets, places in packets
                         if came.issuperset(places) and not octets.startswith(b"\x07\xff")]
        assert extractor.dropped == dropped
        total += dropped
    assert total > 1000, total


TESTS = (frames_one_at_a_time, packets_one_at_a_time, frames_of_files, frames_of_an_open_pipe, reads_of_a_file,
         files_that_are_refused, dropped_packets, dropped_packets_of_streams)
