"""Runs sessions at the ends of every range, with ample memory, from Python. The ranges are those of MAPs, windows,
segments, packets, identifiers, telemetry frames, what is in transit, and what a spacecraft with another configuration
drops. Sessions of random events with fixed seeds follow. No call may be refused because memory runs out, and all that
is submitted must be delivered. Prints a line for each, which ends in 'passed' or 'failed'; the status is 1 if one
failed."""
import random
import sys
import traceback

import sedgechisel as sc

ALL_MAPS = 2**64 - 1


def packet(kind, size, count=0):
    """A packet of 7 to 65,542 octets with this sequence count; every second one has a secondary header."""
    head = bytes([kind | 8 * (count % 2), 5, 0xC0 | count >> 8 & 63, count & 255, size - 7 >> 8, size - 7 & 255])
    return head + bytes([count & 255]) * (size - 6)


def command(size, count=0):
    return packet(0x10, size, count)


def measurement(size, count=0):
    return packet(0x00, size, count)


class Link:
    """A simulated link, and what was submitted and taken in its session."""

    def __init__(self, **config):
        self.link = sc.Link(**config)

    def __enter__(self):
        return self

    def __exit__(self, *_):
        self.link.close()

    def __getattr__(self, name):
        return getattr(self.link, name)

    def opens(self, directive, *value):
        self.begins(directive, *value)
        self.goes_round()
        assert self.state == sc.State.S1

    def begins(self, directive, *value):
        self.wanted, self.got = {}, {}
        getattr(self, directive)(*value)

    def ends(self):
        if self.state != sc.State.S6:
            self.terminate()

    def submits(self, map, octets, packets=None):
        self.submit(map, octets)
        self.wanted.setdefault(map, []).extend(packets or [octets])

    def sends(self, most=10**9):
        count = 0
        while count < most and self.send() is not None:
            count += 1
        return count

    def each(self, event):
        count = 0
        while True:
            try:
                event()
            except sc.SimFault as fault:
                assert fault.name == "NothingInTransit", fault
                return count
            count += 1

    def takes(self):
        count = 0
        while taken := self.take():
            self.got.setdefault(taken.map, []).append(taken.packet)
            count += 1
        return count

    def goes_round(self):
        self.sends()
        self.each(self.up_deliver)
        self.takes()
        self.report()
        self.each(self.down_deliver)

    def carries(self):
        """Goes round until nothing is outstanding. What was submitted has come out then, and all counts agree."""
        while True:
            self.goes_round()
            if self.outstanding == 0:
                break
        self.takes()
        sent = self.sent
        assert sent == self.accepted and len(sent) == self.acknowledged
        assert self.got == self.wanted


def carries(number, size, directive="init_with_check", **config):
    """A session that carries as many packets of this size, on MAPs in turn."""
    with Link(limit=255, queue_slots=65_535, **config) as link:
        link.opens(directive)
        for count in range(number):
            link.submits(count & 63, command(size, count))
        assert len(link.submissions) == number
        link.carries()


def a_thousand_submissions():
    carries(1000, 7)


def submissions_one_at_a_time():
    with Link() as link:
        link.opens("init_without_check")
        for count in range(1000):
            link.submits(4, command(7, count))
            link.carries()


def windows():
    for width, window in (2, 1), (254, 1), (4, 2), (254, 127), (128, 64):
        carries(300, 8, width=width, window=window)


def packets_and_segments():
    for part, size, number in (
            (1, 7, 100), (1, 65_535, 1), (3, 7, 300), (255, 256, 100), (1015, 1017, 100), (1016, 7, 300),
            (1016, 1016, 100), (1016, 1017, 100), (1016, 65_542, 3)):
        carries(number, size, part=part)


def blocks():
    """Segments of 145 packets, and submissions of more than a segment."""
    for part, numbers, slots in (1016, (1, 2, 3, 4, 63, 64, 65, 144, 145, 146, 1000), 1), (14, (200, 201), 64):
        with Link(blocking=1, ready_slots=slots, part=part, limit=255, queue_slots=65_535) as link:
            link.opens("init_unlock")
            for number in numbers:
                packets = [command(7, count) for count in range(number)]
                link.submits(63, b"".join(packets), packets)
            link.carries()


def maps():
    """Each MAP, with only it closed and with only it open."""
    for map in range(64):
        for open_, shut, bits in (map, map ^ 1, 1 << map), (map ^ 1, map, ALL_MAPS ^ 1 << map):
            with Link(maps=bits) as link:
                link.opens("init_without_check")
                link.submits(open_, command(9))
                refuses("ClosedMap", link.submit, shut, command(9))
                link.carries()


def refuses(name, call, *values):
    try:
        call(*values)
    except sc.LinkFault as fault:
        assert fault.name == name, fault
    else:
        raise AssertionError("it is not refused")


def identifiers_and_slots():
    for scid, vcid, tm_vcid, length, slots, timer, bits in (
            (0, 0, 0, 16, 1, 1, ALL_MAPS), (1023, 63, 7, 2048, 64, 65_535, ALL_MAPS), (1, 2, 0, 19, 64, 10, 2**48 - 1)):
        carries(48, 7, scid=scid, vcid=vcid, tm_vcid=tm_vcid, frame_length=length, ready_slots=slots, bypass_slots=slots,
                timer=timer, maps=bits, max_packet=7)


def initiations():
    """Each initiation, from each number that it may set."""
    with Link(limit=255) as link:
        for vr in range(256):
            for name, *value in ("init_set_vr", vr), ("init_without_check",), ("init_with_check",), ("init_unlock",):
                link.opens(name, *value)
                link.submits(4, command(20))
                link.carries()
                link.ends()


def frames_on_their_way():
    with Link(bypass_slots=64, limit=255, queue_slots=65_535) as link:
        link.opens("init_without_check")
        for count in range(200):
            link.submits(0, command(100, count))
            link.bypass(63, command(100, count))
        assert link.sends(500) == 327
        for _ in range(200):
            link.report()
        assert link.each(link.down_deliver) == 200
        assert link.each(link.up_deliver) == 327
        link.carries()


def packets_that_are_ready():
    with Link() as link:
        link.opens("init_set_vr", 200)
        for count in range(64):
            link.submits(0, command(600, count))
        assert (link.sends(100), link.each(link.up_deliver), link.takes()) == (64, 64, 64)
        link.carries()


SIZES = 7, 8, 9, 22, 255, 256, 500, 501, 1015, 1016


def brings(link, state):
    """Brings the sender into a state: with a frame that is asked for again in S2, and a full buffer besides in S3."""
    if state == sc.State.S4:
        link.begins("init_with_check")
    elif state == sc.State.S5:
        link.begins("init_unlock")
    elif state != sc.State.S6:
        link.opens("init_unlock")
        link.submits(4, command(7))
        for is_lost in [True, False][:state - sc.State.S1]:
            link.submits(4, command(7))
            link.sends(2)
            if is_lost:
                link.up_lose()
            link.each(link.up_deliver)
            link.report()
            link.each(link.down_deliver)
    assert link.state == state


def bypass_in_each_state():
    for state in sc.State:
        with Link(bypass_slots=64, ready_slots=1) as link:
            brings(link, state)
            for size in SIZES:
                link.bypass(63, command(size, size))
            link.sends(100)
            link.each(link.up_deliver)
            for size in SIZES:
                assert link.take_bypass() == (63, command(size, size))


# ---- Both nodes: telemetry, and a spacecraft that is configured otherwise. ----


def comes_down(length, size, number):
    """As many packets of a size are queued at once, and come down whole."""
    with sc.Ground(frame_length=length) as ground, sc.Spacecraft(frame_length=length) as board:
        sent = [measurement(size, count) for count in range(number)]
        for it in sent:
            board.telemetry(it)
        finished = 0
        while finished < number:
            finished += ground.telemetry(board.telemetry_frame()).packets
        assert list(ground.packets()) == sent


def lengths_of_frames_and_packets():
    for length, size, number in (
            (16, 7, 300), (16, 65_542, 1), (19, 7, 300), (20, 9, 300), (64, 300, 300), (2047, 2035, 100), (2048, 7, 3000),
            (2048, 2036, 100), (2048, 65_542, 5)):
        comes_down(length, size, number)


def packets_that_one_frame_finishes():
    """2,036 octets hold 290 packets of 7, and the beginning of one more."""
    with sc.Ground(frame_length=2048) as ground, sc.Spacecraft(frame_length=2048) as board:
        for count in range(600):
            board.telemetry(measurement(7, count))
        assert [ground.telemetry(board.telemetry_frame()).packets for _ in range(4)] == [290, 291, 19, 0]
        assert list(ground.packets()) == [measurement(7, count) for count in range(600)]


def packets_queued_within_an_idle_packet():
    """Each packet is queued where the frame before it ended within an idle packet, with each rest that this may have."""
    for length, size in (16, 7), (17, 7), (18, 8), (19, 8), (20, 9), (21, 9):
        with sc.Ground(frame_length=length) as ground, sc.Spacecraft(frame_length=length) as board:
            for count in range(200):
                board.telemetry(measurement(size, count))
                for _ in range(4):
                    ground.telemetry(board.telemetry_frame())
                assert list(ground.packets()) == [measurement(size, count)]


NARROW = {"maps": 1 | 1 << 63, "max_packet": 3000}


def goes_up(ground, board, causes):
    """As many frames go up, each accepted: why its octets are dropped, where they are."""
    for cause in causes:
        received = board.receive(ground.pull())
        assert (received.verdict, received.ready, received.dropped) == (sc.Verdict.ACCEPTED, 0, cause), received
    ground.clcw(board.control_word.encode())
    assert ground.outstanding == 0


def what_is_dropped():
    """On closed MAPs, and of a packet that is too long: the third segment goes past 3,000 octets."""
    with sc.Ground() as ground, sc.Spacecraft(**NARROW) as board:
        ground.init_without_check()
        for map in range(1, 63):
            for size, number in (1016, 1), (1017, 2):
                ground.submit(map, command(size, map))
                goes_up(ground, board, ["ClosedMap"] * number)
            ground.bypass(map, command(1016, map))
            assert not board.receive(ground.pull()).kept
        for count in range(300):
            for size, causes in (3001, [None, None, "TooLong"]), (3049, [None, None, "TooLong", "NoBeginning"]):
                ground.submit(63, command(size, count))
                goes_up(ground, board, causes)
            ground.submit(63, command(3000, count))
            for frame in ground.frames():
                board.receive(frame)
            assert board.take() == (63, command(3000, count))
            ground.clcw(board.control_word.encode())


def what_is_refused():
    with sc.Ground(**NARROW) as ground:
        ground.init_without_check()
        for call in ground.submit, ground.bypass:
            for map in range(1, 63):
                refuses("ClosedMap", call, map, command(7))
            refuses("TooLong", call, 63, command(3001))


# ---- Anything. ----


def happens(link, chance, commands, telemetry):
    """An event, whatever it answers, but for want of memory."""
    number, map, value = chance.randrange(400), chance.randrange(64), chance.randrange(256)
    directives = [link.init_without_check] * 4 + [
        link.init_with_check, link.init_unlock, lambda: link.init_set_vr(value), lambda: link.set_vs(value),
        lambda: link.set_window(value), lambda: link.set_limit(value | 128), lambda: link.set_timer(value), link.terminate]
    for below, event in (
            (60, lambda: link.submit(map, chance.choice(commands))), (80, lambda: link.bypass(map, chance.choice(commands))),
            (85, chance.choice(directives)), (160, link.send), (235, link.up_deliver), (240, link.up_lose),
            (243, lambda: link.up_damage(b"")), (280, link.report), (320, link.down_deliver), (324, link.down_lose),
            (327, lambda: link.down_damage(b"")), (330, link.tick), (370, link.take), (380, link.take_bypass),
            (400, lambda: link.telemetry(telemetry))):
        if number < below:
            try:
                event()
            except sc.Fault as fault:
                assert fault.name != "Memory", fault
            return


def anything(seeds, **config):
    """Runs of events, and after each a session that carries all, though the receiver may be locked."""
    commands = [command(size, size) for size in (7, 8, 40, 1016, 1017, 5000)]
    for seed in seeds:
        chance = random.Random(seed)
        with Link(**config) as link:
            for _ in range(5):
                for _ in range(4000):
                    happens(link, chance, commands, measurement(100, 1))
                link.ends()
                link.each(link.up_deliver)
                link.each(link.down_deliver)
                while link.take():
                    pass
                link.set_limit(255)
                link.init_unlock()
                link.sends(1)
                link.each(link.up_deliver)
                link.ends()
                link.opens("init_set_vr", 250)
                for octets in commands:
                    link.submits(0, octets)
                    link.submits(63, octets)
                link.carries()


def anything_at_the_least():
    anything([1], scid=0, vcid=0, width=2, window=1, part=1, ready_slots=1, bypass_slots=1, queue_slots=65_535, frame_length=16)


def anything_at_the_greatest():
    anything([2], scid=1023, vcid=63, tm_vcid=7, bypass_slots=64, frame_length=2048, blocking=1)


def anything_between():
    anything(range(3, 8), width=128, window=64, part=100, ready_slots=5)


def main():
    status = 0
    for test in (
            a_thousand_submissions, submissions_one_at_a_time, windows, packets_and_segments, blocks, maps,
            identifiers_and_slots, initiations, frames_on_their_way, packets_that_are_ready, bypass_in_each_state,
            lengths_of_frames_and_packets, packets_that_one_frame_finishes, packets_queued_within_an_idle_packet,
            what_is_dropped, what_is_refused, anything_at_the_least, anything_at_the_greatest, anything_between):
        verdict = "passed"
        try:
            test()
        except (AssertionError, sc.Fault):
            traceback.print_exc(limit=-2, file=sys.stdout)
            verdict, status = "failed", 1
        print(f"the ends of the ranges, {test.__name__.replace('_', ' ')}: {verdict}")
    return status


if __name__ == "__main__":
    sys.exit(main())
