"""A spacecraft is restarted on purpose, and continues with its four kept numbers, so the ground sees no gap in
telemetry (docs/CONTROL.md, "After a reset").
Run it by PYTHONPATH=DIR/lib/python python3 python/examples/restart.py."""
import sedgechisel as sc


def hear(ground: sc.Ground, spacecraft: sc.Spacecraft, boots: int) -> tuple[sc.Heard, int]:
    """Carries a telemetry frame down. A packet in it has the boot counter."""
    spacecraft.telemetry(sc.Packet(apid=6).encode(bytes([boots])))
    heard = ground.telemetry(spacecraft.telemetry_frame())
    return heard, [packet[6] for packet in ground.packets()][-1]


def deliver(ground: sc.Ground, spacecraft: sc.Spacecraft, boots: int, count: int) -> None:
    """Begins a session by the steps of docs/CONTROL.md, with nothing in transit. The boot counter must be this one."""
    heard, before = hear(ground, spacecraft, boots)
    _, after = hear(ground, spacecraft, boots)
    if not (before == after == boots and heard.word):
        raise SystemExit("another restart")
    print("missing frames:", heard.gap or 0)
    ground.set_vs(heard.word.value)
    ground.init_unlock()
    for frame in ground.frames():
        spacecraft.receive(frame)
    if hear(ground, spacecraft, boots)[1] != boots:
        raise SystemExit("another restart")
    ground.submit(4, sc.Packet(apid=5, count=count, kind=sc.PacketKind.TELECOMMAND).encode(b"\xaa"))
    while ground.outstanding:
        for frame in ground.frames():
            spacecraft.receive(frame)
        hear(ground, spacecraft, boots)
    ground.terminate()
    # (Here a round trip passes, in which nothing is pulled.)
    print(len(list(spacecraft.packets())), "delivered")


with sc.Ground() as ground:
    with sc.Spacecraft() as spacecraft:
        deliver(ground, spacecraft, 1, 0)
        kept = spacecraft.kept_numbers  # before the restart, when nothing waits on board any more
    print(kept)
    with sc.Spacecraft(kept=kept) as spacecraft:
        deliver(ground, spacecraft, 2, 1)
