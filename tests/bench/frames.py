"""Octets of packets, frames and CLCWs, as docs/PROFILE.md defines them, written independently of the crates."""
from binascii import crc_hqx
from collections import namedtuple

AD, BD, BC = "AD", "BD", "BC"
CONTINUING, FIRST, LAST, ALONE = range(4)
Clcw = namedtuple("Clcw", "vcid lockout wait retransmit farm_b value", defaults=(0, 0, 0, 0, 0))
Telemetry = namedtuple("Telemetry", "scid vcid count pointer data ocf")


class Fault(Exception):
    """Why octets are refused, or a call: a number and a name."""

    def __str__(self):
        return f"{self.args[0]} {self.args[1]}"


def refuse_first(*cases):
    """Raises the first fault that applies, of its number, its name, and whether it applies."""
    for number, name, applies in cases:
        if applies:
            raise Fault(number, name)


def with_fecf(octets):
    return octets + crc_hqx(octets, 0xFFFF).to_bytes(2, "big")


# ---- Space packets (CCSDS 133.0-B-2, 4.1) ----


def packet(apid, data, kind=1, count=0):
    head = kind << 44 | apid << 32 | 3 << 30 | count << 16 | len(data) - 1
    return head.to_bytes(6, "big") + data


def packet_length(octets, at=0):
    """How long the packet is that begins there: None without its header, 0 where its header is refused."""
    if len(octets) - at < 6:
        return None
    head = octets[at] << 8 | octets[at + 1]
    if head >> 13 or head & 0xFFF == 0xFFF:
        return 0
    return 7 + (octets[at + 4] << 8 | octets[at + 5])


def packets_of(octets):
    """The packets that the octets are, one after another, and the octets after the last whole one."""
    packets, at = [], 0
    while (length := packet_length(octets, at)) and at + length <= len(octets):
        packets.append(octets[at:at + length])
        at += length
    return packets, octets[at:]


def are_packets(octets, most=None):
    """The packets that all of the octets are; [] where they are not one or more whole ones, or more than `most`."""
    packets, rest = packets_of(octets)
    return [] if rest or most is not None and len(packets) > most else packets


def apid_of(octets):
    return (octets[0] << 8 | octets[1]) & 0x7FF


# ---- Telecommand frames with their FECF (CCSDS 232.0-B-4, 4.1) ----


def tc_frame(scid, vcid, kind, n, data):
    types = {AD: 0, BD: 2, BC: 3}[kind]
    head = types << 36 | scid << 24 | vcid << 18 | len(data) + 6 << 8 | n
    return with_fecf(head.to_bytes(5, "big") + data)


def read_tc(octets):
    """The spacecraft, the virtual channel, the type, N(S) and the data field of a frame."""
    refuse_first((1, "Short", len(octets) < 5))
    head, n, data = int.from_bytes(octets[:4], "big"), octets[4], octets[5:-2]
    types, total = head >> 28 & 3, (head & 0x3FF) + 1
    refuse_first((2, "Version", head >> 30), (3, "ReservedType", types == 1), (4, "Spare", head >> 26 & 3),
                 (5, "Length", total != len(octets) or total < 7))
    refuse_first((6, "Check", crc_hqx(octets, 0xFFFF)), (7, "BypassNumber", types and n),
                 (8, "EmptyData", len(data) < (1 if types == 3 else 2)),
                 (9, "Command", types == 3 and data != b"\0" and not (len(data) == 3 and data[:2] == b"\x82\0")))
    return head >> 16 & 0x3FF, head >> 10 & 0x3F, (AD, None, BD, BC)[types], n, data


# ---- Control words (CCSDS 232.0-B-4, 4.2) ----


def clcw(word):
    flags = word.lockout << 13 | word.wait << 12 | word.retransmit << 11 | word.farm_b << 9
    return (1 << 24 | word.vcid << 18 | flags | word.value).to_bytes(4, "big")


def read_clcw(octets):
    word = int.from_bytes(octets, "big")
    refuse_first((1, "Kind", word >> 31), (2, "Version", word >> 29 & 3), (3, "Cop", word >> 24 & 3 != 1),
                 (4, "Spare", word >> 16 & 3 or word >> 8 & 1))
    return Clcw(word >> 18 & 63, word >> 13 & 1, word >> 12 & 1, word >> 11 & 1, word >> 9 & 3, word & 255)


# ---- Telemetry frames (CCSDS 132.0-B-3, 4.1) ----


def tm_frame(it):
    head = (it.scid << 4 | it.vcid << 1 | 1) << 32 | it.count << 24 | it.count << 16 | 3 << 11 | it.pointer
    return with_fecf(head.to_bytes(6, "big") + it.data + it.ocf)


def read_tm(octets, length):
    refuse_first((1, "Length", len(octets) != length))
    head = int.from_bytes(octets[:6], "big")
    pointer = head & 0x7FF
    refuse_first((2, "Version", head >> 46), (3, "Check", crc_hqx(octets, 0xFFFF)), (4, "Status", head >> 11 & 31 != 3),
                 (5, "Pointer", length - 12 <= pointer < 2046), (6, "NoOcf", not head >> 32 & 1))
    return Telemetry(head >> 36 & 0x3FF, head >> 33 & 7, head >> 16 & 255, pointer, octets[6:-6], octets[-6:-2])
