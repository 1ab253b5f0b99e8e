"""A ground is lost while four frames are in transit; the last of these is lost too. Another ground is opened from the
record that was stored before each frame was sent, and continues as after an alert (docs/CONTROL.md, "The ground fails
over"). The link has no delay.
Run it by PYTHONPATH=DIR/lib/python python3 python/examples/failover.py."""
import sedgechisel as sc

packets = [sc.Packet(apid=5, count=k, kind=sc.PacketKind.TELECOMMAND).encode(b"\xaa") for k in range(6)]
with sc.Spacecraft() as spacecraft:
    with sc.Ground() as ground:
        ground.init_unlock()
        for frame in ground.frames():  # the command of the initiation
            spacecraft.receive(frame)
        ground.telemetry(spacecraft.telemetry_frame())  # it confirms the session
        for packet in packets:
            ground.submit(4, packet)
        for number, frame in zip(range(4), ground.frames()):
            stored = ground.kept  # after the pull, and before the frame is sent
            if number < 3:
                spacecraft.receive(frame)
    # The ground is lost. (Here a round trip passes, in which nothing is pulled.)
    with sc.Ground(kept=stored) as ground:
        word = ground.telemetry(spacecraft.telemetry_frame()).word  # made after that
        done = ground.resume(word.value) if word else 0
        print("on board:", done)
        for frame in ground.frames():
            spacecraft.receive(frame)
        ground.telemetry(spacecraft.telemetry_frame())
        for packet in packets[done:]:
            ground.submit(4, packet)
        while ground.outstanding:
            for frame in ground.frames():
                spacecraft.receive(frame)
            ground.telemetry(spacecraft.telemetry_frame())
    for map, packet in spacecraft.packets():
        print("delivered", packet.hex())
