"""Nine packets are sent and lost, and the spacecraft restarts: its first CLCW acknowledges six of them, with no alert.
The program sees the restart by the boot counter in telemetry, which also states that no command was executed. So all
nine are resubmitted, by the steps of docs/CONTROL.md. No frame of the old session is in transit here, so the new
receiver may begin Open; and the link has no delay, so the steps are short.
Run it by PYTHONPATH=DIR/lib/python python3 python/examples/reset.py."""
from typing import NamedTuple

import sedgechisel as sc

packets = [sc.Packet(apid=5, count=k, kind=sc.PacketKind.TELECOMMAND).encode(b"\xaa") for k in range(9)]


class Said(NamedTuple):
    heard: sc.Heard
    boots: int  # the boot counter
    executed: int  # how many commands the spacecraft has executed, which it keeps over restarts


def hear(ground: sc.Ground, spacecraft: sc.Spacecraft, boots: int) -> Said:
    """Carries a telemetry frame down, with a CLCW and a packet that states this of the spacecraft."""
    spacecraft.telemetry(sc.Packet(apid=6).encode(bytes([boots, 0])))
    heard = ground.telemetry(spacecraft.telemetry_frame())
    packet = list(ground.packets())[-1]
    return Said(heard, packet[6], packet[7])


with sc.Ground() as ground:
    ground.init_set_vr(250)
    with sc.Spacecraft() as spacecraft:
        for frame in ground.frames():  # the command that sets V(R)
            spacecraft.receive(frame)
        before = hear(ground, spacecraft, 1)
        for packet in packets:
            ground.submit(4, packet)
        print("sent and lost:", len(list(ground.frames())))
    with sc.Spacecraft() as spacecraft:  # it has restarted, and V(R) is 0
        said = hear(ground, spacecraft, 2)
        print("acknowledged:", ground.acknowledged_whole, "alert:", said.heard.alert.name)
        print("boot counter:", before.boots, "and then:", said.boots, "on board:", spacecraft.ready)
        ground.terminate()  # so nothing of the old session counts
        # (Here a round trip passes, in which nothing is pulled.)
        word = hear(ground, spacecraft, 2).heard.word  # a CLCW that is made then
        after = hear(ground, spacecraft, 2)  # telemetry that is made after it
        if after.boots != said.boots or not word:
            raise SystemExit("one more restart: back to the silence")
        ground.set_vs(word.value)
        ground.init_unlock()
        for frame in ground.frames():  # the command of the initiation
            spacecraft.receive(frame)
        if hear(ground, spacecraft, 2).boots != said.boots:  # before any Type-AD frame is pulled
            raise SystemExit("one more restart: back to the silence")
        for packet in packets[after.executed:]:
            ground.submit(4, packet)
        while ground.outstanding:
            for frame in ground.frames():
                spacecraft.receive(frame)
            hear(ground, spacecraft, 2)
        print("on board:", spacecraft.ready)
