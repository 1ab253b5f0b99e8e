"""Signal handlers that raise in the middle of calls, or make calls of their own, thousands of times: nothing is lost, and
nothing is doubled."""
import os
import random
import signal
import sys

from wanted import says

INTERRUPTS = 1000  # of each call
COMMAND = bytes.fromhex("1005c0000000aa")


class Alarm(Exception):
    pass


class Alarms:
    """A timer that fires at random moments of a call. Its handler raises while the package runs. (What Python does
    between the return of a call and the next statement of its caller is the caller's.)"""

    def __init__(self, it, chance):
        self.folder, self.chance, self.count, self.is_on = os.path.dirname(it.__file__), chance, 0, False

    def __enter__(self):
        self.before = signal.signal(signal.SIGALRM, self.raises)
        return self

    def __exit__(self, *_):
        self.is_on = False
        signal.setitimer(signal.ITIMER_REAL, 0)
        signal.signal(signal.SIGALRM, self.before)

    def set(self):
        signal.setitimer(signal.ITIMER_REAL, 1e-6 + self.chance.random() * 60e-6)

    def raises(self, _, frame):
        while frame and self.is_on:
            if frame.f_code.co_filename.startswith(self.folder):
                self.count += 1
                raise Alarm
            frame = frame.f_back
        if self.is_on:
            self.set()

    def once(self, call, *words):
        """What a call answers, or None if it was interrupted."""
        self.is_on = True
        self.set()
        try:
            return call(*words)
        except Alarm:
            return None
        finally:
            self.is_on = False

    def through(self, call):
        """What a call answers that is made again whenever it is interrupted."""
        while True:
            count, answer = self.count, self.once(call)
            if count == self.count:
                return answer

    def all_of(self, call, count):
        return [self.through(call) for _ in range(count)]


def commands(it, count):
    return [it.Packet(apid=5, count=k, kind=1).encode(b"\xaa") for k in range(count)]


def a_ground(it, packets=(), **config):
    ground = it.Ground(**config)
    ground.init_without_check()
    for packet in packets:
        ground.submit(4, packet)
    return ground


def what_is_taken_comes_once(it, alarms):
    """Frames, packets on board and telemetry, of nodes beside those whose calls are not interrupted."""
    packets = commands(it, 60)
    with a_ground(it, packets) as ground, a_ground(it, packets) as other, it.Spacecraft(bypass_slots=64) as board:
        for packet in packets:
            ground.bypass(4, packet), other.bypass(4, packet)
        frames = [ground.pull() for _ in range(121)]
        assert frames[-1] is None and alarms.all_of(other.pull, 121) == frames
        for octets in frames[:-1]:
            board.receive(octets)
        assert alarms.all_of(board.take, 61) == [*((4, packet) for packet in packets), None]
        assert alarms.all_of(board.take_bypass, 61) == [*((4, packet) for packet in packets), None]
        sent = [it.Packet(apid=6, count=k).encode(b"\xbb") for k in range(60)]
        for packet in sent:
            board.telemetry(packet)
        for k, octets in enumerate(alarms.all_of(board.telemetry_frame, 12)):
            assert ground.telemetry(octets).gap == (0 if k else None)
        assert alarms.all_of(ground.take_telemetry, 61) == [*sent, None]


def interrupted_calls_lose_nothing(it):
    if sys.version_info < (3, 11):  # where a handler may run between any two steps, so before a `return` too
        return
    with Alarms(it, random.Random(1)) as alarms:
        while alarms.count < 5 * INTERRUPTS:
            what_is_taken_comes_once(it, alarms)


def interrupted_submissions_are_counted(it):
    """A submission that was interrupted is submitted again if `submitted` does not count it."""
    packets = commands(it, 60)
    with Alarms(it, random.Random(2)) as alarms:
        while alarms.count < INTERRUPTS:
            with a_ground(it) as ground, it.Spacecraft() as board:
                for number, packet in enumerate(packets):
                    while ground.submitted == number:
                        assert alarms.once(ground.submit, 4, packet) in (number, None)
                for octets in ground.frames():
                    board.receive(octets)
                assert [taken.packet for taken in board.packets()] == packets


def what_is_left_of_a_call(it):
    """What an interrupted call took is returned by the next one; but a frame is lost where a session begins, as on the
    link, and what a closed node had is gone."""
    def interrupted(call):
        give_back, it._nodes._give_back = it._nodes._give_back, lambda _: 1 / 0
        try:
            says(ZeroDivisionError, "", call)
        finally:
            it._nodes._give_back = give_back

    with a_ground(it, [COMMAND]) as ground, it.Spacecraft() as board:
        interrupted(ground.pull)
        assert board.receive(ground.pull()).kind == it.Arrived.AD
        interrupted(board.take)
        assert (board.ready, board.take(), board.take()) == (0, (4, COMMAND), None)
    for begin in (lambda it: it.resume(0), lambda it: it.init_unlock(), lambda it: it.init_set_vr(0), lambda it: it.set_vs(0)):
        with a_ground(it, [COMMAND]) as ground:
            interrupted(ground.pull)
            assert ground.vs == 1
            ground.terminate(), begin(ground)
            assert it.TcFrame.decode(ground.pull() or it.TcFrame(kind=2).encode())[0].kind == it.Kind.BC
    ground = a_ground(it, [COMMAND])
    interrupted(ground.pull)
    ground.close()
    says(ValueError, "the ground is closed", ground.pull)


def a_handler_that_calls(it):
    """A handler that submits and takes itself: each submission has a number of its own, and each packet comes once."""
    packets, calls, rounds = commands(it, 60), 0, 0
    while calls <= 600:  # (on a machine that is busy a handler runs less often)
        rounds += 1
        assert rounds < 6000
        with it.Spacecraft() as board, a_ground(it, queue_slots=60000) as ground, a_ground(it, packets) as other:
            for octets in other.frames():
                board.receive(octets)
            numbers, taken = [], []

            def both(*_):
                numbers.append(ground.submit(4, COMMAND))
                taken.append(board.take())

            def handler(*_):
                nonlocal calls
                calls += 1
                both()
                signal.setitimer(signal.ITIMER_REAL, 40e-6)

            before = signal.signal(signal.SIGALRM, handler)
            signal.setitimer(signal.ITIMER_REAL, 40e-6)
            for _ in range(61):
                both()
            signal.signal(signal.SIGALRM, lambda *_: None)
            signal.setitimer(signal.ITIMER_REAL, 0)
            signal.signal(signal.SIGALRM, before)
            assert sorted(numbers) == [*range(ground.submitted)]
            assert sorted(one.packet for one in taken if one) == packets


TESTS = (what_is_left_of_a_call, interrupted_calls_lose_nothing, interrupted_submissions_are_counted, a_handler_that_calls)
