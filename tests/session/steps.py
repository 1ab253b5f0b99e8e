"""Follows docs/CONTROL.md, "The steps", with a board that does what docs/FLIGHT.md, "Restarts", requires, over random
links, until SESSIONS sessions have begun: `steps.py SESSIONS`. The board has a node, or uses the core. Frames are
delayed and lost. In some runs the board restarts, at any point of its work, also during a write, or a copy of its
record is damaged then, or both. In some it is restarted on purpose. In some the ground leaves out a command, or submits
one twice. In some the ground is lost, and another continues from its record, or with nothing. Each command must be
executed once and in order on its MAP, except those about which the board states that nothing is known, and none may be
left out. No alert may show a broken condition in a session in which nothing restarted. A second argument, one of
`FAULTS`, leaves out a step, and the fault is found; `steps.py faults` prints these arguments."""
import collections
import sys

import sedgechisel as sc

FAULTS = {
    "silence": "a session begins by the first CLCW that comes",
    "later": "telemetry is believed that was made before the CLCW",
    "ready": "telemetry is believed that says that packets wait to be taken",
    "numbers": "the ground's numbers are believed, whatever telemetry says",
    "second": "commands are submitted as soon as the session has begun",
    "acknowledged": "what was acknowledged counts as executed after a restart",
    "end": "the program ends as soon as all is acknowledged",
    "lockout": "the board begins with its receiver Open",
    "before": "the board does not write which command it begins",
    "waiting": "the board does not say which commands it has on board",
    "mark": "the board goes on with numbers that it kept for another start",
    "order": "the board restarts on purpose some time after the order came",
    "copies": "the board keeps one copy of its record",
    "mended": "a start leaves the second copy as it is until it writes both",
    "turn": "the board executes a command that is not the next one of its MAP",
}
if sys.argv[1:] == ["faults"]:
    sys.exit(print(*FAULTS))
SESSIONS, WITHOUT = int(sys.argv[1]), sys.argv[2] if len(sys.argv) > 2 else ""
# How many commands a run has; on board the places for those that were taken, and for those of which nothing is known;
# and the most ticks of a run.
COMMANDS, MAPS, PLACES, UNKNOWN, LONGEST = 12, (4, 5), 3, 2, 20000
SILENT, OPENING, OPEN = "silent", "opening", "open"
# A frame of the spacecraft's own channel whose number is in neither window.
LOCKING = sc.TcFrame(scid=1, vcid=2, kind=sc.Kind.AD, n=128, flags=sc.Segment.ALONE, map=0).encode(b"\0")
state, begun = 4, 0
counts = collections.Counter()


def draw(below):
    global state
    state = (state * 1664525 + 1013904223) % 2**32
    return (state >> 16) % below


def wrong(what):
    print(f"after {begun} sessions: {what}")
    sys.exit(1)


class Restart(Exception):
    """The board has restarted, in the middle of its work."""


class Lost(Exception):
    """The ground is lost, in the middle of its work."""


class Way:
    """One direction: frames arrive within `delay` ticks, in order, or are lost."""

    def __init__(self, delay):
        self.delay, self.losses, self.last, self.frames = delay, draw(5), 0, collections.deque()

    def send(self, now, frame):
        self.last = max(self.last, now + 1 + draw(self.delay))
        if draw(10) >= self.losses:
            self.frames.append((self.last, frame))

    def arrived(self, now):
        while self.frames and self.frames[0][0] <= now:
            yield self.frames.popleft()[1]


# ---- On board. ----

# The record that a board keeps over restarts: how often it has begun; of each MAP the number of the last command that
# was executed or given up; the command that it has begun; those of which nothing is known; and for a start on purpose
# the count before it, and the numbers of the receiver.
Record = collections.namedtuple("Record", "starts last begun unknown mark")
# What it says: its record, the commands in its own list, and how many packets wait to be taken into it.
# (`starts` are those that truly were: by them alerts are judged.)
Said = collections.namedtuple("Said", "record waiting ready starts")
# Orders, which come past the sequence control: a restart; a record for a board that has none; and a decision about a
# command of which nothing was known.
RESTART = "restart"
Recording = collections.namedtuple("Recording", "starts last")
Decided = collections.namedtuple("Decided", "command")


class Memory:
    """Two copies of the record, each with a check: None where that is wrong."""

    def __init__(self):
        self.copies = [None] * (1 if WITHOUT == "copies" else 2)

    def write(self, record, may_restart):
        """One copy after the other, but for one that has it. A restart spoils the one that is being written."""
        for at in range(len(self.copies)):
            if self.copies[at] != record:
                self.copies[at] = None
                may_restart()
                self.copies[at] = record

    def read(self, may_restart):
        """The first copy whose check is right, since the second one is never newer, once the other one has it too."""
        record = next((it for it in self.copies if it), None)
        if record and WITHOUT != "mended":
            self.write(record, may_restart)
        return record


class Core:
    """A receiver over the core, with what a board uses of a `Spacecraft`. What it accepts goes to the board's own list
    at once, and nothing waits elsewhere."""

    ready = 0

    def __init__(self, board, kept=sc.KeptNumbers()):
        config, self.waiting, self.bypassed = board.run.config, board.waiting, []
        self.farm = sc.Farm(config.width, kept.vr)
        self.farm.farm_b = kept.farm_b
        self.maps = {map: sc.Map(config.max_packet) for map in MAPS}
        self.builder = sc.TmBuilder(config.scid, config.tm_vcid, config.frame_length)
        self.builder._builder.next_count = kept.vc_count  # a field of the struct in C
        self.vcid, self.telemetry = config.vcid, self.builder.queue

    def receive(self, octets):
        frame, data = sc.TcFrame.decode(octets)
        verdict = None
        if frame.kind == sc.Kind.AD:
            verdict = self.farm.ad(frame.n, len(self.waiting) < PLACES)
            if verdict == sc.Verdict.ACCEPTED:
                packets = self.maps[frame.map].take(frame.flags, data).packets
                self.waiting.extend((frame.map, packet[6]) for packet in packets)
        elif frame.kind == sc.Kind.BD:
            self.farm.bd()
            self.bypassed.append(sc.OnMap(frame.map, data))
        elif frame.command == sc.Command.UNLOCK:
            self.farm.unlock()
        else:
            self.farm.set_vr(frame.vr)
        return sc.Received(sc.Arrived.AD, verdict=verdict)

    def take(self):
        return None

    def take_bypass(self):
        return self.bypassed.pop(0) if self.bypassed else None

    def released(self):
        self.farm.released()

    def telemetry_frame(self):
        return self.builder.build(self.farm.control_word(self.vcid).encode())

    @property
    def kept_numbers(self):
        count = self.builder._builder.next_count
        return sc.KeptNumbers(self.farm.vr, self.farm.farm_b, count, count)

    def close(self):
        pass


class Board:
    """The spacecraft's receiver, a node or over the core, and its program. `memory` alone is kept over restarts."""

    def __init__(self, run):
        self.run, self.memory, self.record = run, Memory(), None
        self.executed, self.given_up = [], set()  # what truly was executed, and what a start gave up
        self.waiting, self.due = [], None
        self.node = self.opened(sc.KeptNumbers(248 + draw(8), 0, 0, 0))

    def opened(self, kept=sc.KeptNumbers()):
        return Core(self, kept) if self.run.has_core else sc.Spacecraft(self.run.config, kept=kept)

    def start(self):
        """Begins, in Lockout unless the start is on purpose, and counts it before it takes a frame. Of a command that
        was begun nothing is known, and the next one is that after it."""
        self.waiting, self.due = [], None
        self.record = record = self.memory.read(self.may_restart)
        self.run.starts += 1
        self.node.close()
        mark = record and record.mark
        if mark and (mark[0] == record.starts or WITHOUT == "mark"):
            self.node = self.opened(mark[1])
        else:
            self.node = self.opened()
            if WITHOUT != "lockout":
                assert self.node.receive(LOCKING).verdict == sc.Verdict.OUTSIDE
        if record:
            unknown, last = record.unknown, record.last
            if record.begun:
                unknown, last = unknown + (record.begun,), self.passed(record.begun)
                self.given_up.add(record.begun)
            self.keep(Record(record.starts + 1, last, None, unknown, mark))
            counts["unknown"] += len(unknown) - len(record.unknown)

    def keep(self, record):
        self.memory.write(record, self.may_restart)
        self.record = record

    def passed(self, command):
        return {**self.record.last, command[0]: command[1]}

    def is_next(self, command):
        """Whether a command is the next one of its MAP; if it is not, the board executes none."""
        is_it = command[1] == self.record.last[command[0]] + 1
        if not is_it and not self.run.makes_mistakes:
            wrong(f"{command} is not the next one on board")
        return is_it or WITHOUT == "turn"

    def has_place(self):
        return len(self.record.unknown) < UNKNOWN

    def may_restart(self):
        """In some runs it restarts for some time, most often while the command that begins a session is on its way."""
        is_near = self.run.now - self.run.begun_at < self.run.round_trip // 2
        if self.run.restarts and self.run.now < 2000 and draw(4 if is_near else 250) == 0:
            raise Restart

    def take(self):
        """Takes what has come into the board's own list, as far as there is room."""
        while len(self.waiting) < PLACES and (taken := self.node.take()):
            self.waiting.append((taken[0], taken[1][6]))
            self.may_restart()

    def execute(self):
        """The next command: its number is written, then it is executed, and then that is written."""
        command = self.waiting[0]
        if WITHOUT != "before":
            self.keep(self.record._replace(begun=command))
        self.may_restart()
        if not {(command[0], n) for n in range(1, command[1])} <= {*self.executed} | self.given_up:
            wrong(f"{command} is executed before its turn")
        if command in self.executed:
            wrong(f"{command} is executed again")
        self.executed.append(command)
        self.may_restart()
        self.keep(self.record._replace(begun=None, last=self.passed(command)))
        self.waiting.pop(0)
        if self.run.has_core:
            self.node.released()

    def obey(self, order):
        """Carries an order out as it comes. A board without a record obeys the one that brings it alone."""
        if isinstance(order, Recording):
            if not self.record:
                self.keep(Record(order.starts, order.last, None, (), None))
        elif not self.record:
            return
        elif isinstance(order, Decided):
            left = tuple(it for it in self.record.unknown if it != order.command)
            self.keep(self.record._replace(unknown=left))
        elif WITHOUT == "order":
            self.due = 1 + draw(40)
        else:
            self.ends()

    def ends(self):
        """A restart on purpose: the numbers are the last that is asked of the node."""
        self.keep(self.record._replace(mark=(self.record.starts, self.node.kept_numbers)))
        counts["on purpose"] += 1
        raise Restart

    def turn(self, frames):
        """What comes, what is executed, and a telemetry frame."""
        for frame in frames:
            self.node.receive(frame)
            self.may_restart()
            if packet := self.node.take_bypass():
                self.obey(self.run.in_packet(packet[1]))
        if self.due is not None:
            self.due -= 1
            if self.due == 0:
                self.ends()
        if self.record:
            self.take()
            while self.waiting and self.has_place() and draw(self.run.pause) == 0:
                if self.is_next(self.waiting[0]):
                    self.execute()
                else:
                    counts["dropped"] += 1
                    self.waiting.pop(0)
                    if self.run.has_core:
                        self.node.released()
                self.take()
        self.may_restart()
        if draw(3):
            waiting = () if WITHOUT == "waiting" else tuple(self.waiting)
            self.node.telemetry(self.run.packet(0, Said(self.record, waiting, self.node.ready, self.run.starts)))
        return self.node.telemetry_frame()

    def true_last(self):
        """What a person finds out who looks at what was executed."""
        done = {*self.executed} | self.given_up
        return {map: max([n for at, n in done if at == map], default=0) for map in MAPS}


# ---- On the ground. ----


class Program:
    """The program, with a ground at what was kept of another one, or a new one."""

    def __init__(self, run, now, kept=None):
        self.run = run
        # what the sessions before brought on board; the commands of the session, each at the number of its submission;
        # and the boot count that it began with
        ground, self.before, self.session, self.begun_with = kept or (None, frozenset(), (), None)
        self.ground = sc.Ground(run.config, kept=ground)
        # whether the session that ended says what is on board; the boot count that was seen last; the tick from which
        # the silence counts; a CLCW that was made after it; whether one after the second wait shows that the session
        # has begun
        self.is_known, self.seen = kept is not None, self.begun_with
        self.phase, self.quiet, self.word, self.is_set = SILENT, now, None, False
        self.has_disagreed = self.is_to_restart = False
        self.orders, self.said = [], None
        self.store()

    def store(self):
        """What is kept of the ground and of the session, in one write."""
        self.kept = None if self.begun_with is None else (
            self.ground.kept, self.before, self.session, self.begun_with)

    def stops(self, now, is_known):
        """Back to the silence."""
        if self.ground.state != sc.State.S6:
            self.ground.terminate()
        self.phase, self.word, self.is_set, self.is_known = SILENT, None, False, self.is_known and is_known
        self.quiet = now

    def sees(self, alert, now):
        """An alert, after which nothing is known of the session where it shows a broken condition."""
        if not alert:
            return
        counts[alert.name] += 1
        if alert.shows_a_broken_condition and self.run.starts == self.run.starts_of_session:
            wrong(f"{alert.name}, and no condition was broken")
        self.stops(now, not alert.shows_a_broken_condition)

    def hears(self, frame, now):
        heard = self.ground.telemetry(frame)
        self.sees(heard.alert, now)
        for packet in self.ground.packets():
            self.looks(self.run.in_packet(packet), now)
        if heard.report == sc.Report.USED:
            self.reads(heard.word, now)

    def reads(self, word, now):
        """A CLCW: the first one that comes after the silence has the value, and the first one after the second wait
        shows whether the session has begun; in S5 its command may come again."""
        is_late = now - self.quiet > self.run.round_trip
        if self.phase == SILENT:
            if (is_late or WITHOUT == "silence") and (not word.wait or WITHOUT == "ready"):
                self.word = self.word or word
            if self.word and WITHOUT == "later" and self.said and self.said.record:
                self.begins_where_good(self.said)
        elif self.phase == OPENING and is_late:
            self.is_set = word.value == self.ground.vs and not (word.lockout or word.wait or word.retransmit)
            if not self.is_set and self.ground.state != sc.State.S5:
                self.stops(now, True)

    def looks(self, said, now):
        """What the board says of itself, in a later frame than the CLCW that it is looked at after."""
        count = said.record and said.record.starts
        if self.seen != count and WITHOUT != "numbers":
            self.ground.forget_telemetry()
            self.stops(now, False)
        self.seen, self.said = count, said
        if count is None:
            self.orders = [Recording(self.run.highest + 100, self.run.board.true_last())] * (draw(20) == 0)
            return
        self.run.highest = max(self.run.highest, count)
        on_board, is_late = self.on_board(said), now - self.quiet > self.run.round_trip
        if self.phase == OPEN or said.ready:  # a full list of these holds up what waits
            self.orders = [Decided(it) for it in said.record.unknown if draw(20) == 0]
        if self.phase == SILENT and self.word:
            self.begins_where_good(said)
        elif self.phase == OPENING and is_late and self.is_set:
            self.phase = OPEN
        elif self.phase == OPEN and self.ground.state == sc.State.S1 and self.ground.submitted == len(self.session):
            if self.ground.outstanding == 0:
                is_named = len(on_board) == COMMANDS
                self.run.is_done = is_named and not said.waiting or WITHOUT == "end"
                if not (is_named or said.ready or self.run.is_done):
                    self.stops(now, False)

    def begins_where_good(self, said):
        """Begins a session; or orders a restart on purpose, once or several times, after which the silence begins
        anew."""
        if said.ready and WITHOUT != "ready":
            return
        if self.is_to_restart and not said.waiting:
            self.is_to_restart, self.word, self.orders = False, None, [RESTART] * (1 + draw(3))
        else:
            self.begins(said, self.on_board(said))
        self.sends(self.run.now)  # before another report is heard

    def on_board(self, said):
        """The commands that are executed or given up, or on board."""
        return frozenset({(map, n) for map in MAPS for n in range(1, said.record.last[map] + 1)} | {*said.waiting})

    def begins(self, said, on_board):
        """The next session: the first way where the one that ended says what is on board, and telemetry agrees."""
        global begun
        value = self.word.value
        is_same = self.begun_with == said.record.starts or WITHOUT == "numbers"
        known = self.ground.known_on_board(value) if self.is_known and is_same else None
        if self.word.lockout or self.ground.vs == self.ground.nn != value or draw(8) == 0:
            known = None
        if known is None:
            self.before = on_board
            if WITHOUT == "acknowledged":
                self.before |= {*self.session[:self.ground.acknowledged_whole]}
            self.begins_by(value)
        elif self.before | {*self.session[:known]} != on_board and WITHOUT != "numbers":
            if not self.has_disagreed:
                self.has_disagreed, self.word = True, None
                return
            self.before = on_board
            self.begins_by(value)
        else:
            if self.ground.resume(value) != known:
                wrong("resume counts otherwise")
            self.before |= {*self.session[:known]}
            counts["resumed"] += 1
        self.session = self.chosen([it for it in self.run.commands if it not in self.before])
        self.phase = OPEN if WITHOUT == "second" else OPENING
        self.begun_with, self.word, self.is_known = said.record.starts, None, True
        self.is_set = self.has_disagreed = False
        self.run.starts_of_session, self.run.begun_at = said.starts, self.run.now
        begun += 1

    def chosen(self, commands):
        """The commands of a session. In some runs one is left out by mistake, or is there twice."""
        if self.run.makes_mistakes and commands and self.run.now < 2000 and draw(2) == 0:
            at = draw(len(commands))
            commands[at:at + 1] = commands[at:at + 1] * (2 * draw(2))
        return tuple(commands)

    def begins_by(self, value):
        if not self.word.lockout and draw(2):
            self.ground.init_set_vr(248 + draw(8))
        else:
            self.ground.set_vs(value)
            self.ground.init_unlock()

    def sends(self, now):
        """Pulls what there is to send, but in silence orders alone."""
        for order in self.orders:
            self.ground.bypass(MAPS[0], self.run.packet(16, order))
        self.orders = []
        if self.phase == OPEN:
            for map, number in self.session[self.ground.submitted:]:
                self.ground.submit(map, bytes([0x10, 5, 0xC0, 0, 0, 23, number]) + bytes(23))
        if self.phase == SILENT and not self.ground.bypassed:
            return
        while (frame := self.ground.pull()) is not None:
            self.quiet, self.word = now, None
            self.store()
            if self.run.loses_grounds and draw(300) == 0:
                raise Lost
            self.run.up.send(now, frame)


# ---- The link between them. ----


class Run:
    """A board and a program over a link, until all commands are executed."""

    def __init__(self):
        window = 1 + draw(10)
        delay = 1 + draw(4)
        self.round_trip = 2 * delay
        self.config = sc.Config(
            width=2 * window + 2 * draw(4), window=window, limit=1 + draw(4), timer=2 * delay + 1 + draw(3),
            part=(40, 8 + draw(20))[draw(2)], ready_slots=1 + draw(4), queue_slots=500, frame_length=32)
        self.up, self.down, self.pause = Way(delay), Way(delay), (1, 2, 4, 30)[draw(4)]
        self.patience = (3, 10, 80)[draw(3)]
        self.restarts, self.loses_records, self.spoils = draw(2) == 0, draw(2) == 0, draw(2) == 0
        self.has_core, self.makes_mistakes = draw(2) == 0, draw(8) == 0 and WITHOUT in ("", "turn")
        self.restarts_on_purpose, self.loses_grounds = draw(2) == 0, draw(2) == 0
        self.commands = [(map, n) for n in range(1, COMMANDS // len(MAPS) + 1) for map in MAPS]
        self.said, self.starts, self.starts_of_session, self.highest, self.is_done = [], 0, 0, 0, False
        self.now, self.begun_at = 0, -99
        self.board = Board(self)
        self.program = Program(self, 0)

    def packet(self, kind, it):
        """A packet of telemetry (0) or an order (16), which has the number of what it says."""
        self.said.append(it)
        return bytes([kind, 1, 0xC0, 0, 0, 1, *divmod(len(self.said) - 1, 256)])

    def in_packet(self, packet):
        return self.said[packet[6] * 256 + packet[7]]

    def fails_over(self, now):
        """The ground is lost; another goes on at what was kept of it, or with nothing."""
        counts["grounds lost"] += 1
        kept = self.program.kept if draw(3) else None
        self.program.ground.close()
        self.program = Program(self, now, kept)

    def flies(self, now):
        """A turn on board, or a restart in the middle of it, which loses what else arrives then."""
        frames = list(self.up.arrived(now))
        try:
            self.down.send(now, self.board.turn(frames))
        except Restart:
            self.restart()

    def restart(self):
        """In some runs the record is lost, or one of two good copies is spoiled. A start may end in a restart too."""
        counts["restarts"] += 1
        copies = self.board.memory.copies
        if self.loses_records and draw(8) == 0:
            copies[:] = [None] * len(copies)
            counts["records lost"] += 1
        elif self.spoils and all(copies) and draw(2) == 0:
            copies[draw(len(copies))] = None
            counts["copies spoiled"] += 1
        elif not any(copies) and self.board.record and not self.loses_records:
            wrong("the record is lost")
        try:
            self.board.start()
        except Restart:
            self.restart()

    def tick(self, now):
        self.flies(now)
        try:
            self.goes_on(list(self.down.arrived(now)), now)
        except Lost:
            self.fails_over(now)

    def goes_on(self, frames, now):
        """A turn on the ground. In some runs it gives a session up for no reason, most often at first."""
        program = self.program
        for frame in frames:
            program.hears(frame, now)
            program.store()
        program.sees(program.ground.tick(), now)
        if program.phase == OPEN and draw(self.patience if now < 500 else 80) == 0:
            program.is_to_restart = self.restarts_on_purpose and draw(2) == 0
            program.stops(now, True)
        program.sends(now)

    def play(self):
        """Until telemetry says that all commands are executed, and nothing is outstanding."""
        while not self.is_done and begun < SESSIONS:
            if self.now == LONGEST:
                wrong("a run does not end")
            self.tick(self.now)
            self.now += 1
        if self.is_done and {*self.board.executed} | self.board.given_up != {*self.commands}:
            wrong("a command is left out")
        self.program.ground.close()
        self.board.node.close()


while begun < SESSIONS:
    Run().play()
print(f"{begun} sessions:", ", ".join(f"{counts[it]} {it}" for it in sorted(counts)))
