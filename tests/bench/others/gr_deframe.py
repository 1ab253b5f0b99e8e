"""Passes CADUs of the board of examples/radio, as soft symbols with wrong bits, through the deframer of gr-satellites:
`gr_deframe.py BOARD.so`. Each frame must come out as it was sent, and a Ground must take all of them. Debian:
gr-satellites and gnuradio, for /usr/bin/python3. The last line ends in the number of differences."""
import ctypes
import os
import sys
import time

import numpy as np
import pmt
import sedgechisel as sc
from gnuradio import blocks, gr, pdu

sys.path.insert(0, os.path.join(os.path.dirname(os.path.realpath(__file__)), "../../../examples/radio"))
import sync  # noqa: E402

# (Debian 12: gr-satellites 4.4.0 uses names that GNU Radio 3.10 has elsewhere)
for name, it in (("byte_t", gr.types.byte_t), ("tagged_stream_to_pdu", pdu.tagged_stream_to_pdu), ("pdu_to_tagged_stream", pdu.pdu_to_tagged_stream)):
    if not hasattr(blocks, name):
        setattr(blocks, name, it)
from satellites.components.deframers import ccsds_rs_deframer  # noqa: E402

SLOTS, COMMANDS, LENGTH = 300, 200, 223
CONFIG = dict(scid=42, vcid=2, tm_vcid=0, width=64, window=32, part=249, max_packet=1024, maps=3 << 4, frame_length=LENGTH)


def cadus_of(board):
    """What the board sends while a ground gives it commands, and the packets that the ground hears."""
    board.board_open.restype, board.board_slot.restype = ctypes.c_bool, ctypes.c_size_t
    assert board.board_open()
    cadus, packets, count = [], [], 0
    with sc.Ground(**CONFIG) as ground:
        ground.init_unlock()
        for _ in range(SLOTS):
            while count < COMMANDS and ground.unsent < 4:
                ground.submit(4, sc.Packet(apid=5, count=count, kind=sc.PacketKind.TELECOMMAND).encode(bytes(20)))
                count += 1
            for frame in ground.frames():
                cltu = sync.cltu(frame)
                board.board_uplink(cltu, len(cltu))
            cadu = (ctypes.c_uint8 * 259)()
            assert board.board_slot(cadu) == len(cadu)
            cadus.append(bytes(cadu))
            assert not ground.telemetry(bytes(sync.unrandomized(cadus[-1]))[:LENGTH]).alert and not ground.tick()
            packets += ground.packets()
    return cadus, packets


class Sink(gr.basic_block):
    """A block that keeps what it is sent."""

    def __init__(self):
        gr.basic_block.__init__(self, "sink", [], [])
        self.frames = []
        self.message_port_register_in(pmt.intern("in"))
        self.set_msg_handler(pmt.intern("in"), self.take)

    def take(self, message):
        self.frames.append(bytes(pmt.u8vector_elements(pmt.cdr(message))))


def deframed(cadus, rate):
    """What the deframer makes of CADUs, this part of whose bits is wrong."""
    rng = np.random.default_rng(4)
    symbols = np.unpackbits(np.frombuffer(rng.bytes(40) + b"".join(cadus) + bytes(20000), np.uint8)).astype(np.float32) * 2 - 1
    symbols[rng.random(len(symbols)) < rate] *= -1
    top, sink = gr.top_block(), Sink()
    deframer = ccsds_rs_deframer(frame_size=LENGTH, rs_basis="dual", syncword_threshold=4)
    top.connect(blocks.vector_source_f(symbols.tolist(), False), deframer)
    top.msg_connect((deframer, "out"), (sink, "in"))
    top.run()
    end = time.monotonic() + 10
    while len(sink.frames) < len(cadus) and time.monotonic() < end:  # (messages may come after the end of the stream)
        time.sleep(0.1)
    return sink.frames


def main():
    cadus, packets = cadus_of(ctypes.CDLL(os.path.abspath(sys.argv[1])))
    sent, differences = [bytes(sync.unrandomized(it))[:LENGTH] for it in cadus], 0
    for rate in (0, 0.002):
        got, heard = deframed(cadus, rate), []
        with sc.Ground(**CONFIG) as ground:
            for frame in got:
                it = ground.telemetry(frame)
                differences += it.kind != sc.Arrived.TM or bool(it.gap)
                heard += ground.packets()
        differences += abs(len(got) - len(sent)) + sum(a != b for a, b in zip(got, sent)) + (heard != packets)
        print(f"bits wrong {rate}: {len(sent)} CADUs, {len(got)} frames, {len(heard)} packets")
    print(f"ccsds_rs_deframer: {differences} differences", flush=True)
    os._exit(1 if differences or len(packets) != COMMANDS else 0)  # (GNU Radio may not end by itself)


if __name__ == "__main__":
    main()
