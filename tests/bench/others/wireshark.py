"""Compares Wireshark's own dissector `ccsds` with this project's codec, on 1,000 random packets in datagrams. Debian:
tshark. The last line ends in the number of differences."""
import os
import random
import subprocess
import sys
import tempfile

import sedgechisel as sc

sys.path.insert(0, os.path.join(os.path.dirname(os.path.realpath(__file__)), "../../../examples/wireshark"))
import to_pcap  # noqa: E402

COUNT = 1000
FIELDS = ("apid", "seqnum", "type", "secheader", "seqflag", "length")


def made():
    """Packets, and the fields of each."""
    rnd = random.Random(5)
    for _ in range(COUNT):
        kind = rnd.choice([sc.PacketKind.TELECOMMAND, sc.PacketKind.TELEMETRY])
        it = sc.Packet(apid=rnd.randrange(2047), count=rnd.randrange(16384), kind=kind, secondary=0, flags=rnd.randrange(4))
        octets = it.encode(rnd.randbytes(rnd.randrange(1, 300)))
        yield octets, [it.apid, it.count, int(kind == sc.PacketKind.TELECOMMAND), 0, int(it.flags), len(octets) - 7]


def main():
    packets = list(made())
    with tempfile.TemporaryDirectory() as room:
        with open(f"{room}/it.pcap", "wb") as file:
            file.write(to_pcap.capture([to_pcap.datagram(octets, 4001) for octets, _ in packets], to_pcap.RAW_IP))
        command = ["tshark", "-d", "udp.port==4001,ccsds", "-r", f"{room}/it.pcap", "-T", "fields"]
        command += [word for field in FIELDS for word in ("-e", f"ccsds.{field}")]
        ran = subprocess.run(command, stdout=subprocess.PIPE, stderr=subprocess.DEVNULL, text=True, check=True,
                             env={**os.environ, "HOME": room, "TZ": "UTC"})
    numbers = {"": 0, "True": 1, "False": 0}
    got = [[numbers[it] if it in numbers else int(it, 0) for it in line.split("\t")] for line in ran.stdout.splitlines()]
    differences = abs(len(got) - len(packets)) + sum(read != wanted for read, (_, wanted) in zip(got, packets))
    print(f"{len(packets)} packets: {differences} differences")
    return 1 if differences else 0


if __name__ == "__main__":
    sys.exit(main())
