"""A session over a link that loses a third of all frames, as a ladder: each line is a frame, up or down.
Run it by PYTHONPATH=DIR/lib/python python3 python/examples/session.py, or paste it into a notebook."""
import random

import sedgechisel as sc

chance, config = random.Random(4), sc.Config(window=3, timer=4)
with sc.Ground(config) as ground, sc.Spacecraft(config) as spacecraft:
    ground.init_without_check()
    for k in range(5):
        ground.submit(map=4, packets=sc.Packet(apid=5, count=k, kind=1, flags=3).encode(b"hello"))
    print("ground              spacecraft")
    while ground.outstanding:
        for frame in ground.frames():
            number, is_lost = sc.TcFrame.decode(frame)[0].n, chance.randrange(3) == 0
            came = "x" if is_lost else f"-----> {spacecraft.receive(frame).verdict.word}"
            print(f"AD {number} -----{came}")
        word, frame, is_lost = spacecraft.control_word, spacecraft.telemetry_frame(), chance.randrange(3) == 0
        print(f"     {'     x' if is_lost else '<-----'}----- V(R)={word.value}{', again' * (word.flags > 0)}")
        alert = ground.tick() if is_lost else ground.telemetry(frame).alert or ground.tick()
        assert alert == sc.Alert.NONE, alert
    for map, packet in spacecraft.packets():
        print(f"MAP {map}: packet {sc.Packet.decode(packet)[0].count}")
