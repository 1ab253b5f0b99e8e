"""Makes inputs for the measurements, from a generator with a fixed seed: frames of one length, frames of mixed lengths,
packets of mixed lengths, and telemetry frames of 1,115 octets that carry such packets. It also measures the memory of a
running process."""
import binascii
import random

MIXED = (1, 16, 64, 200, 1000)


def check(octets):
    return binascii.crc_hqx(octets, 0xFFFF).to_bytes(2, "big")


def frame(octets_of_word, body, has_check):
    """A telecommand frame of spacecraft 1 on channel 2, whose first word has these bypass and control flags."""
    length = 4 + len(body) + 2 * has_check
    octets = (octets_of_word << 12 | 1).to_bytes(2, "big") + (2 << 10 | length - 1).to_bytes(2, "big") + body
    return octets + check(octets) * has_check


def packet(apid, count, octets):
    return (0x1000 | apid).to_bytes(2, "big") + (0xC000 | count % 16384).to_bytes(2, "big") + (len(octets) - 1).to_bytes(2, "big") + octets


def segments(random, part, count):
    """A packet in one segment, or in three of which the first two are full, each with its flags and MAP."""
    map_number = random.randrange(64)
    if random.random() < 0.5:
        return [bytes([0xC0 | map_number]) + packet(5, count, random.randbytes(part - 6))]
    octets = packet(5, count, random.randbytes(3 * part - 6))
    return [bytes([flags << 6 | map_number]) + octets[at * part : (at + 1) * part] for at, flags in enumerate((1, 0, 2))]


def frames(size, length, has_check, seed):
    """Frames in sequence of one length, which carry the segments of packets; one in a hundred passes the sequence by."""
    source, done, number, count = random.Random(seed), 0, 0, 0
    part = length - 6 - 2 * has_check
    while done < size:
        if part < 7:
            octets = frame(3, b"\0\0", has_check)
            yield octets
            done += len(octets)
            continue
        if source.random() < 0.01:
            octets = frame(2, b"\0\xc4" + packet(5, count, source.randbytes(part - 6)), has_check)
            yield octets
            done += len(octets)
        for segment in segments(source, part, count):
            octets = frame(0, bytes([number]) + segment, has_check)
            number = (number + 1) % 256
            yield octets
            done += len(octets)
        count += 1


def mixed_frames(size, has_check, seed):
    source, done, number = random.Random(seed), 0, 0
    while done < size:
        data, kind = source.randbytes(source.choice((7, 32, 120, 500, 1000))), source.random()
        if kind < 0.97:
            octets = frame(0, bytes([number, 0xC0 | source.randrange(64)]) + data, has_check)
            number = (number + 1) % 256
        elif kind < 0.985:
            octets = frame(2, b"\0\xc4" + data, has_check)
        else:
            octets = frame(3, b"\0\0", has_check)
        yield octets
        done += len(octets)


def packets(size, seed):
    """Packets of 64 APIDs; one in a hundred is missing."""
    source, done, counts = random.Random(seed), 0, [0] * 64
    while done < size:
        apid = source.randrange(64)
        counts[apid] += 1 + (source.random() < 0.01)
        octets = packet(apid, counts[apid], source.randbytes(source.choice(MIXED)))
        yield octets
        done += len(octets)


def telemetry(size, seed, length=1115):
    """Telemetry frames of one length, back to back with packets; one in five hundred is missing."""
    source, done, stream, place, starts, number, count = random.Random(seed), 0, bytearray(), 0, [], 0, 0
    data = length - 12
    while done < size:
        while len(stream) < data:
            starts.append(place + len(stream))
            octets = packet(source.randrange(64), count, source.randbytes(source.choice(MIXED + (3000,))))
            stream += bytes([octets[0] & 0xEF]) + octets[1:]
            count += 1
        first = starts[0] - place if starts and starts[0] < place + data else 2047
        starts = [it for it in starts if it >= place + data]
        octets = bytes([0x00, 0x13, number, number]) + (0x1800 | first).to_bytes(2, "big") + stream[:data] + b"\x01\x08\0\0"
        del stream[:data]
        place, number = place + data, (number + 1) % 256
        if source.random() > 0.002:
            yield octets + check(octets)
            done += length


def words(size, seed):
    """Control words of channel 2, whose report value goes on and whose flags are any of the receiver's."""
    source, value = random.Random(seed), 0
    for _ in range(size // 4):
        value = (value + source.randrange(3)) % 256
        yield bytes([0x01, 0x08, source.choice((0x00, 0x00, 0x00, 0x08, 0x18, 0x20)) | 2 * source.randrange(4), value])


# ---- hostile ones

def damaged(octets, seed, spared=(), share=0.1):
    """The same records, a share of which have one octet changed, at any place but those spared."""
    source = random.Random(seed)
    for it in octets:
        place = source.randrange(len(it))
        if place not in spared and source.random() < share:
            it = it[:place] + bytes([it[place] ^ source.randrange(1, 256)]) + it[place + 1 :]
        yield it


def wild_frames(count, has_check, seed):
    """Frames whose declared length and check are right, and whose flags, numbers and content are anything."""
    source = random.Random(seed)
    for _ in range(count):
        first = source.choice((0x0001, 0x2001, 0x3001, 0x3001, 0x1001, source.randrange(0x10000)))
        body = source.choice((b"\0", b"\x82\0" + source.randbytes(1), source.randbytes(source.randrange(0, 12)), packet(5, 0, b"\xaa")))
        number = source.choice((b"\0", source.randbytes(1)))
        flags = bytes([source.randrange(256)]) if source.random() < 0.7 else b""
        content = number + flags + body
        length = 4 + len(content) + 2 * has_check
        octets = first.to_bytes(2, "big") + (source.randrange(64) << 10 | length - 1).to_bytes(2, "big") + content
        yield octets + check(octets) * has_check


def wild_telemetry(count, length, seed):
    """Telemetry frames whose check is right, and whose header, pointer and content are anything."""
    source, number = random.Random(seed), 0
    for _ in range(count):
        first = source.choice((0x0013, 0x0013, 0x0013, source.randrange(0x10000)))
        pointer = source.choice((0, 2046, 2047, source.randrange(length), source.randrange(2048)))
        status = 0x1800 | pointer if source.random() < 0.95 else source.randrange(0x10000)
        number = (number + source.choice((1, 1, 1, 1, 1, 1, 2, source.randrange(256)))) % 256
        data = b""
        while len(data) < length - 12:
            data += packet(source.choice((5, 2047)), 0, source.randbytes(source.randrange(1, length))) if source.random() < 0.9 else source.randbytes(3)
        octets = first.to_bytes(2, "big") + bytes([0, number]) + status.to_bytes(2, "big") + data[: length - 12] + source.randbytes(4)
        yield octets + check(octets)


def peak(pid):
    """The most memory that a process has held by now, in kilobytes; 0 where it has ended."""
    with open(f"/proc/{pid}/status", encoding="ascii") as status:
        return max([int(it.split()[1]) for it in status if it.startswith("VmHWM:")], default=0)


# The inputs, each by its size, and what it has.
FILES = {
    "6": (lambda size: frames(size, 6, False, 1), "frames of 6 octets"),
    "33": (lambda size: frames(size, 33, False, 2), "frames of 33 octets"),
    "33c": (lambda size: frames(size, 33, True, 3), "frames of 33 octets"),
    "1024": (lambda size: frames(size, 1024, False, 4), "frames of 1,024 octets"),
    "1024c": (lambda size: frames(size, 1024, True, 5), "frames of 1,024 octets"),
    "mixed": (lambda size: mixed_frames(size, False, 6), "frames of mixed length"),
    "mixedc": (lambda size: mixed_frames(size, True, 7), "frames of mixed length"),
    "packets": (lambda size: packets(size, 8), "packets of mixed length"),
    "tm": (lambda size: telemetry(size, 9), "frames of 1,115 octets"),
    "clcw": (lambda size: words(size, 10), "control words"),
}

# What is measured: the words of the command, and its input.
ROWS = [
    *((command, it) for command in ("tc", "farm", "map") for it in ("6", "33", "1024")),
    *((f"{command} --check", it) for command in ("tc", "farm", "map") for it in ("33c", "1024c")),
    ("check", "33c"),
    ("check", "1024c"),
    ("tc", "mixed"),
    ("tc --check", "mixedc"),
    ("packets", "packets"),
    ("tm --length 1115", "tm"),
    ("clcw", "clcw"),
]
