"""Sessions over a link with a delay, which loses frames: each packet is delivered once. The steps after an alert are
those of docs/CONTROL.md, "After an alert", except for the boot counter: no node restarts here. A program for a real
link looks at the boot counter before it resumes, as asyncio_ground.py does.
Run it by PYTHONPATH=DIR/lib/python python3 python/examples/alert.py, or paste it into a notebook."""
import collections
import random
import sys

import sedgechisel as sc

DELAY, ROUND_TRIP = 3, 6  # in ticks
chance, up, down = random.Random(4), collections.deque(), collections.deque()
config = sc.Config(window=4, limit=2, timer=ROUND_TRIP + 1, part=8)  # so each packet is two segments
packets = [sc.Packet(apid=5, count=k, kind=sc.PacketKind.TELECOMMAND).encode(b"command") for k in range(6)]


def send(way, frame):
    if chance.randrange(5) > 1:  # two of five are lost
        way.append((now + DELAY, frame))


def arrived(way):
    while way and way[0][0] <= now:
        yield way.popleft()[1]


# The tick of the last alert, since which nothing is pulled; and how many packets earlier sessions have brought on
# board, which is the number of this session's first packet.
now, stopped, done = 0, 0, 0
with sc.Ground(config) as ground, sc.Spacecraft(config) as spacecraft:
    ground.init_unlock()  # V(S) and V(R) of new nodes are 0
    while done + ground.acknowledged_whole < len(packets):
        now, alert = now + 1, sc.Alert.NONE
        for frame in arrived(up):
            spacecraft.receive(frame)
        for _, packet in spacecraft.packets():
            print(f"tick {now}: packet {sc.Packet.decode(packet)[0].count} is delivered")
        send(down, spacecraft.telemetry_frame())
        for frame in arrived(down):
            heard = ground.telemetry(frame)
            alert = alert or heard.alert
            # What was pulled last has arrived or is lost DELAY later, and this CLCW was made DELAY ago. So nothing was
            # in transit on the uplink then if the CLCW arrives more than a round trip after the last pull.
            is_quiet = ground.state == sc.State.S6 and not alert and now - stopped > ROUND_TRIP
            if is_quiet and heard.report == sc.Report.USED:
                value = ground.clcw_in(frame).value
                try:
                    done += ground.resume(value)
                except sc.LinkFault as fault:
                    sys.exit(f"tick {now}: V(R) is {value}; {fault.meaning}")
                print(f"tick {now}: V(R) is {value}; a session begins at packet {done}")
        alert = alert or ground.tick()
        if alert:
            stopped = now
            print(f"tick {now}: alert {alert.word}; packets acknowledged: {done + ground.acknowledged_whole}")
        if ground.state != sc.State.S6:
            for packet in packets[done + ground.submitted:]:
                ground.submit(4, packet)
            for frame in ground.frames():
                send(up, frame)
print(f"tick {now}: all are acknowledged")
