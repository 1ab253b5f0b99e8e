"""Recovers after alerts and resets (docs/CONTROL.md, "After an alert", "After a reset") over random links, until
SESSIONS sessions have begun: `recipe.py SESSIONS`. Frames are delayed and lost; in some runs they overtake each other,
and in some the spacecraft restarts. In some the ground is lost at times, and another continues from its record, or from
an older one (docs/CONTROL.md, "The ground fails over"). On board each packet must be the next one expected on its MAP:
none twice, and none left out that was stated to be on board. recipe.c and recipe.rs do the same, and write the same
lines. A second argument removes a step, and the fault is found. With `early` the program believes the first CLCW after
an alert, whenever that was made, and begins a session by it even if the ground refuses. With `numbers` it uses only the
numbers of the ground and of the CLCW, whatever the alert states, and whether or not the spacecraft has restarted."""
import bisect
import collections
import sys

import sedgechisel as sc

SESSIONS, IS_EARLY, BY_NUMBERS = int(sys.argv[1]), sys.argv[2:] == ["early"], sys.argv[2:] == ["numbers"]
PACKETS, SLOWEST, LONGEST, LONGEST_RUN = 12, 4, 30, 600
# What the spacecraft says of itself in a packet of each telemetry frame: how often it was started, the packets that are
# on board, and of these those that were taken.
Board = collections.namedtuple("Board", "starts whole taken")
# A frame of the spacecraft's own channel whose number is in neither window: by it a receiver begins in Lockout, so that
# no report of it is believed.
LOCKING = sc.TcFrame(scid=1, vcid=2, kind=sc.Kind.AD, n=128, flags=sc.Segment.ALONE, map=0).encode(b"\0")
state = begun = alerts = taken_in_all = ticks = 0


def draw(below):
    global state
    state = (state * 1664525 + 1013904223) % 2**32
    return (state >> 16) % below


def wrong(what):
    print(f"after {begun} sessions: {what}")
    sys.exit(1)


class Way:
    """One direction: frames arrive within `delay` ticks, in order unless it swaps them, or are lost."""

    def __init__(self, delay):
        self.delay, self.losses, self.swaps = delay, draw(5), draw(6) == 0
        self.last, self.frames = 0, []

    def send(self, now, frame):
        soonest = now + 1 + draw(self.delay)
        self.last = soonest if self.swaps else max(self.last, soonest)
        if draw(10) >= self.losses:
            self.frames.insert(bisect.bisect([it[0] for it in self.frames], self.last), (self.last, frame))

    def arrived(self, now):
        while self.frames and self.frames[0][0] <= now:
            yield self.frames.pop(0)[1]


class Run:
    """Two new nodes over a link, and packets that are wanted on board."""

    def __init__(self):
        window = 1 + draw(8)
        width, limit = 2 * window + 2 * draw(4), 1 + draw(4)
        part = LONGEST if BY_NUMBERS else 4 + draw(24)
        ready = 1 + draw(4)
        self.delay = 1 + draw(SLOWEST)
        timer = 2 * self.delay + 1 + draw(3)
        self.config = sc.Config(width=width, window=window, limit=limit, timer=timer, part=part, ready_slots=ready,
                                queue_slots=500, frame_length=32)
        self.up, self.down = Way(self.delay), Way(self.delay)
        self.pause = 1 + draw(3)
        self.restarts = draw(3) == 0
        self.fails, self.is_late = draw(3) == 0, draw(3) == 0
        self.packets = []
        for k in range(PACKETS):
            map_, length = 4 + draw(2), 1 + draw(24)
            octets = bytes([0x10, 5, 0xC0, k, 0, length - 1]) + bytes([k]) * length
            self.packets.append((map_, octets))
        self.ground, self.spacecraft = sc.Ground(self.config), sc.Spacecraft(self.config)
        # whether a session has begun; whether a condition was broken since, so that nothing is known of it; the tick
        # from which nothing has gone up; packets submitted, and of them those that earlier sessions have brought on
        # board; how often the spacecraft was started, and what of that has come; packets taken
        self.has_begun = self.is_broken = False
        # what is kept of the ground, in some runs seldom; whether the ground was opened at such a record
        self.stored, self.is_old = self.ground.kept, False
        self.quiet, self.submitted, self.done = -99, 0, 0
        self.starts, self.heard_of, self.taken = 0, Board(0, 0, 0), {4: 0, 5: 0}

    def take(self):
        """Takes a packet on board, which has to be the next of its MAP; whether there was one."""
        global taken_in_all
        if (packet := self.spacecraft.take()) is None:
            return False
        map_, octets = packet
        wanted = [it[1] for it in self.packets if it[0] == map_]
        if wanted[self.taken[map_]:][:1] != [octets]:
            wrong("a packet came that is not the next one")
        self.taken[map_] += 1
        taken_in_all += 1
        return True

    def restart(self):
        """The spacecraft restarts: what was not taken is gone. It begins in Lockout."""
        self.spacecraft.close()
        self.spacecraft = sc.Spacecraft(self.config)
        assert self.spacecraft.receive(LOCKING).verdict == sc.Verdict.OUTSIDE
        self.starts += 1

    def store(self):
        """What is kept of the ground; in some runs an older record stays."""
        if not self.is_late or draw(8) == 0:
            self.stored = self.ground.kept

    def fail_over(self, now):
        """The ground is lost, and another goes on; a round trip has to go by from now on."""
        self.ground.close()
        self.ground = sc.Ground(self.config, kept=self.stored)
        self.is_old, self.quiet = self.is_late, now

    def report(self, now):
        """The next telemetry frame: a report, and beside it what the spacecraft says of itself."""
        taken = sum(self.taken.values())
        it = Board(self.starts, taken + self.spacecraft.ready, taken)
        self.spacecraft.telemetry(bytes([0, 1, 0xC0, 0, 0, 2, *it]))
        self.down.send(now, self.spacecraft.telemetry_frame())

    def begin_first(self, value):
        """Begins a session by an initiation, where nothing is known of one before. Where frames overtake each other no
        number is chosen, since a report of the one before might come later."""
        how = draw(4)
        if how == 0 and not self.down.swaps:
            self.ground.init_set_vr(draw(256))
        else:
            self.ground.set_vs(value)
            self.ground.init_with_check() if how == 1 else self.ground.init_unlock()

    def resume(self, value, board):
        """Begins the next session where the last one has got to."""
        known = self.ground.known_on_board(value)
        if self.is_old and (known is None or self.done + known != board.whole):  # the second way
            self.begin_first(value)
            self.done = board.whole
            return
        try:
            whole = self.ground.resume(value)
        except sc.LinkFault:
            if not IS_EARLY:
                wrong("nothing is known of how far the session has come")
            self.begin_first(value)
            return
        assert whole == known
        self.done += whole
        if not IS_EARLY and self.done != board.whole:
            wrong("it is not what the spacecraft says")

    def begin(self, value, board):
        """Begins a session by a report, and by what the spacecraft said of itself beside it."""
        global begun
        if BY_NUMBERS:  # each packet is one segment
            self.done += self.ground.acknowledged_whole + (self.ground.accepted_beyond(value) or 0)
            self.begin_first(value)
        elif self.is_broken or not self.has_begun:
            self.begin_first(value)
            self.done = board.whole
        else:
            self.resume(value, board)
        self.has_begun, self.is_broken, self.is_old, self.submitted = True, False, False, self.done
        begun += 1
        if begun % 1000 == 0:
            print(f"{begun} sessions: {alerts} alerts, {taken_in_all} packets, {ticks} ticks")

    def see(self, alert):
        """An alert that shows a broken condition: nothing is known of the session from then on."""
        global alerts
        alerts += alert != 0
        if not alert.shows_a_broken_condition:
            return
        self.is_broken = True
        try:
            self.ground.resume(self.ground.nn)
        except sc.LinkFault:
            return
        wrong("it resumes after such an alert")

    def take_telemetry(self, now):
        """What the spacecraft says of itself. Where it was started again, the session ends, and nothing is known of it;
        a round trip has to go by from now on."""
        board = Board(*self.ground.take_telemetry()[6:])
        if board.starts > self.heard_of.starts and not BY_NUMBERS:
            self.is_broken, self.quiet = True, now
            if self.ground.state != sc.State.S6:
                self.ground.terminate()
        if (board.starts, board.taken) > (self.heard_of.starts, self.heard_of.taken):
            self.heard_of = board
        return board

    def hear(self, frame, now):
        heard = self.ground.telemetry(frame)
        self.see(heard.alert)
        board = self.take_telemetry(now)
        if heard.alert or self.ground.state != sc.State.S6 or heard.report != sc.Report.USED:
            return
        if IS_EARLY or now - self.quiet > 2 * self.delay:
            self.begin(self.ground.clcw_in(frame).value, board)

    def tick(self, now):
        global alerts
        for frame in self.up.arrived(now):
            self.spacecraft.receive(frame)
        while draw(self.pause) == 0 and self.take():
            pass
        if self.restarts and draw(60) == 0:
            self.restart()
        if self.fails and draw(60) == 0:
            self.fail_over(now)
        self.report(now)
        for frame in self.down.arrived(now):
            self.hear(frame, now)
            self.store()
        alerts += self.ground.tick() != 0
        if draw(50) == 0 and self.ground.state != sc.State.S6:
            self.ground.terminate()
            alerts += 1
        if self.ground.state != sc.State.S6:
            self.submit_and_send(now)

    def submit_and_send(self, now):
        while self.submitted < PACKETS:
            self.ground.submit(*self.packets[self.submitted])
            self.submitted += 1
        while (frame := self.ground.pull()) is not None:
            self.quiet = now
            self.store()
            self.up.send(now, frame)

    def play(self):
        """Goes on until all packets were taken, as the spacecraft says, as long as a run may be. What was said to be on
        board has come then, unless the spacecraft has restarted and not said so yet, or the ground is at an old
        record."""
        global ticks
        with self.ground, self.spacecraft:
            now = 0
            while now < LONGEST_RUN and self.heard_of.taken < PACKETS and begun < SESSIONS:
                ticks += 1
                self.tick(now)
                now += 1
            while self.take():
                pass
            is_known = not self.is_broken and not self.is_old and self.starts == self.heard_of.starts
            done = self.done + self.ground.acknowledged_whole if is_known else self.heard_of.taken
            if sum(self.taken.values()) < done:
                wrong("a packet that was said to be on board did not come")


while begun < SESSIONS:
    Run().play()
