"""Compares the header layouts of gr-satellites with this project's codecs, each reading and writing 1,000 random values
of TC and TM frames, packets and CLCWs; then its blocks that add headers and that reconstruct packets. Debian:
gr-satellites, for /usr/bin/python3. The last line ends in the number of differences of the layouts; what the blocks do
comes before it."""
import random
import sys

import pmt
import sedgechisel as sc
from satellites.ccsds import space_packet, space_packet_primaryheader_adder, telecommand, telecommand_primaryheader_adder
from satellites.ccsds import telemetry, telemetry_packet_reconstruction

COUNT, RANDOM, DIFFERENCES = 1000, random.Random(17), []


def compare(name, layout, octets, start, wanted):
    """Their reading of a header, and the header that they write of these values."""
    read, size = layout.parse(octets[start:]), len(layout.build(wanted))
    if any(read[field] != value for field, value in wanted.items()):
        DIFFERENCES.append(f"{name} read")
    if layout.build(wanted) != octets[start:start + size]:
        DIFFERENCES.append(f"{name} written")


def telecommand_frame():
    kind = RANDOM.choice([sc.Kind.AD, sc.Kind.BD])
    it = sc.TcFrame(scid=RANDOM.randrange(1024), vcid=RANDOM.randrange(64), kind=kind, n=RANDOM.randrange(256) * (kind == sc.Kind.AD),
                    flags=RANDOM.randrange(4), map=RANDOM.randrange(64))
    octets = it.encode(RANDOM.randbytes(RANDOM.randrange(1, 1017)))
    compare("TC", telecommand.PrimaryHeader, octets, 0, dict(
        transfer_frame_version=0, bypass=kind == sc.Kind.BD, control=False, RSVD_spare=0, spacecraft_id=it.scid,
        virtual_channel_id=it.vcid, frame_length=len(octets) - 1, frame_sequence_number=it.n))


def control_word():
    it = sc.Clcw(status=RANDOM.randrange(8), vcid=RANDOM.randrange(64), flags=RANDOM.randrange(32) << 3, farm_b=RANDOM.randrange(4),
                 value=RANDOM.randrange(256))
    compare("CLCW", telemetry.OCFTrailer, it.encode(), 0, dict(
        control_word_type=False, clcw_version_number=0, status_field=it.status, cop_in_effect=1,
        virtual_channel_identification=it.vcid, rsvd_spare1=0, no_rf_avail=it.no_rf, no_bit_lock=it.no_bit_lock,
        lockout=it.lockout, wait=it.wait, retransmit=it.retransmit, farmb_counter=it.farm_b, rsvd_spare2=False, report_value=it.value))


def packet():
    it = sc.Packet(apid=RANDOM.randrange(2047), count=RANDOM.randrange(16384), secondary=RANDOM.randrange(2), flags=RANDOM.randrange(4),
                   kind=RANDOM.choice([sc.PacketKind.TELECOMMAND, sc.PacketKind.TELEMETRY]))
    data = RANDOM.randbytes(RANDOM.randrange(1, 300))
    compare("packet", space_packet.PrimaryHeader, it.encode(data), 0, dict(
        ccsds_version=0, packet_type=int(it.kind == sc.PacketKind.TELECOMMAND), secondary_header_flag=bool(it.secondary),
        AP_ID=it.apid, sequence_flags=int(it.flags), packet_sequence_count_or_name=it.count, data_length=len(data) - 1))


def telemetry_frame(board, count):
    if RANDOM.randrange(2):
        board.telemetry(sc.Packet(apid=3, count=count, kind=sc.PacketKind.TELEMETRY).encode(RANDOM.randbytes(RANDOM.randrange(1, 500))))
    octets = board.telemetry_frame()
    it = sc.TmFrame.decode(octets)[0]
    compare("TM", telemetry.PrimaryHeader, octets, 0, dict(
        transfer_frame_version_number=0, spacecraft_id=it.scid, virtual_channel_id=it.vcid, ocf_flag=True,
        master_channel_frame_count=it.mc_count, virtual_channel_frame_count=it.vc_count, transfer_frame_secondary_header_flag=False,
        synch_flag=False, packet_order_flag=False, segment_length_id=3, first_header_pointer=it.pointer))


def given_by(block, octets):
    """What a block of GNU Radio gives out when octets come in."""
    got = []
    block.message_port_pub = lambda port, message: got.append(bytes(pmt.u8vector_elements(pmt.cdr(message))))
    block.handle_msg(pmt.cons(pmt.PMT_NIL, pmt.init_u8vector(len(octets), list(octets))))
    return got


def is_refused(decode, octets):
    try:
        decode(octets)
        return False
    except sc.Fault:
        return True


def header_adders():
    frames = telecommand_primaryheader_adder(0, 0, 42, 2)
    packets = space_packet_primaryheader_adder(0, 0, 7, 0, 0)
    refused = [0, 0]
    for _ in range(COUNT):
        data = RANDOM.randbytes(RANDOM.randrange(2, 200))
        frames.frame_sequence_number %= 255  # (by itself it counts to 256, and fails)
        refused[0] += is_refused(lambda it: sc.TcFrame.decode(it, checked=False), given_by(frames, data)[0])
        refused[1] += is_refused(sc.Packet.decode, given_by(packets, data)[0])
    print(f"telecommand_primaryheader_adder: {refused[0]} of {COUNT} frames refused")
    print(f"space_packet_primaryheader_adder: {refused[1]} of {COUNT} packets refused")


def reconstruction():
    block, sent, got = telemetry_packet_reconstruction(), [], []
    with sc.Spacecraft(scid=42, frame_length=200) as board:
        for count in range(200):
            sent.append(sc.Packet(apid=7, count=count, kind=sc.PacketKind.TELEMETRY).encode(RANDOM.randbytes(60)))
            board.telemetry(sent[-1])
            got += given_by(block, board.telemetry_frame()[:-2])  # without the FECF
    print(f"telemetry_packet_reconstruction: {len(set(got) & set(sent))} of {len(sent)} packets found")


def main():
    with sc.Spacecraft(scid=777, tm_vcid=5, frame_length=200) as board:
        for count in range(COUNT):
            telecommand_frame()
            control_word()
            packet()
            telemetry_frame(board, count)
    header_adders()
    reconstruction()
    print(*DIFFERENCES[:5], sep="\n", end="\n" if DIFFERENCES else "")
    print(f"{COUNT} each of TC, CLCW, packet and TM, read and written: {len(DIFFERENCES)} differences")
    return 1 if DIFFERENCES else 0


if __name__ == "__main__":
    sys.exit(main())
