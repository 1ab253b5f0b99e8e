"""Commands that are executed at most once and in order on board, over restarts: octets from struct and zlib."""
import random
import struct
import zlib

from wanted import does_not_fit, refuses, says

H = 0x8A3B0C5D


def sealed(octets):
    return octets + struct.pack(">I", zlib.crc32(octets))


def fields(boot, last, known, history, begun):
    return struct.pack(">IIQIB", boot, last, known, history, begun)


def place(*values):
    return sealed(fields(*values)) * 2


def packet(apid, count, data):
    return sealed(struct.pack(">HHH", 0x1000 + apid, 0xC000 + count, len(data) + 3) + data)


def command(number, content=b"\1\2\3"):
    return packet(5, 44, struct.pack(">I", number) + content)


def order(kind, boot, last=0, mark=0):
    return packet(6, 45, struct.pack(">BIII", kind, boot, last, mark))


def status(kind, values, waiting):
    return sealed(bytes([kind]) + fields(*values) + bytes([waiting]))


def acts(it, board, kind, octets=b"", number=0, content=b""):
    action = board.next()
    assert action == it.Action(kind, octets, number, content) and type(action.kind) is it.ActionKind, action
    board.done(action)


def writes(it, board, octets):
    acts(it, board, it.ActionKind.WRITE_FIRST, octets)
    acts(it, board, it.ActionKind.WRITE_SECOND, octets)


def a_command_on_board(it):
    after, next_one = zlib.crc32(command(301)[-4:], H), command(301)
    board = it.Executor(b"", place(6, 300, 1, H, 0), 5)
    refuses(it.LogFault, 3, "Starting", board.offer, next_one)
    assert board.status() == status(2, (0, 0, 0, 0, 0), 0)
    acts(it, board, it.ActionKind.WRITE_FIRST, place(6, 300, 1, H, 0))
    assert board.status() == status(1, (0, 0, 0, 0, 0), 0)
    writes(it, board, place(7, 300, 1, H, 0))
    assert board.next().kind is board.next().kind is it.ActionKind.NOTHING
    board.done(board.next())
    refuses(it.LogFault, 1, "Layout", board.offer, next_one[:-1])
    refuses(it.LogFault, 2, "Check", board.offer, next_one[:-1] + b"\0")
    refuses(it.LogFault, 7, "Ahead", board.offer, command(302))
    assert board.offer(bytearray(next_one)) == b"\1\2\3"
    refuses(it.LogFault, 4, "Busy", board.offer, next_one)
    writes(it, board, place(7, 300, 1, after, 1))
    assert board.status(1000) == status(0, (7, 300, 1, after, 1), 255)
    acts(it, board, it.ActionKind.EXECUTE, number=301, content=b"\1\2\3")
    writes(it, board, place(7, 301, 3, after, 0))
    refuses(it.LogFault, 6, "Behind", board.offer, next_one)
    refuses(it.LogFault, 8, "OtherBoot", board.obey, order(1, 8))
    refuses(it.LogFault, 9, "NotLost", board.obey, order(2, 8, 301, 5))
    board.obey(order(1, 7))
    acts(it, board, it.ActionKind.RESTART)


def the_rule_of_actions(it):
    """No action is requested before the one before it is done, and none is done that was not requested."""
    board = it.Executor(place(6, 300, 1, H, 1), b"", 5)
    action = board.next()
    says(RuntimeError, "next before done: WRITE_SECOND", board.next)
    says(RuntimeError, "this is not the action", board.done, it.Action(*action))
    board.done(action)
    says(RuntimeError, "this is not the action", board.done, action)
    writes(it, board, place(7, 301, 2, H, 0))


def a_lost_record(it):
    torn = place(6, 300, 1, H, 0)[:-1] + b"\0"
    board = it.Executor(torn, bytes(50), 0x12345678)
    assert board.next().kind is it.ActionKind.NOTHING
    lost = it.BoardStatus(it.StatusKind.LOST, 0, 0, 0, 0, False, 0x12345678, 3)
    assert it.BoardStatus.decode(board.status(3)) == lost
    refuses(it.LogFault, 5, "Lost", board.offer, command(301))
    refuses(it.LogFault, 10, "OtherMark", board.obey, order(2, 65543, 301, 5))
    board.obey(order(2, 65543, 301, 0x12345678))
    writes(it, board, place(65543, 301, 0, 0, 0))
    assert it.new_record() == place(0, 0, 0, 0, 0)
    does_not_fit(it.Executor, b"", b"", 2**32)


def commands_from_the_ground(it):
    found = it.BoardStatus.decode(status(0, (7, 300, 2**64 - 3, H, 1), 9))
    assert found == it.BoardStatus(it.StatusKind.SAYS, 7, 300, 2**64 - 3, H, True, 0, 9)
    assert type(found.kind) is it.StatusKind and found.begun is True
    refuses(it.LogFault, 1, "Layout", it.BoardStatus.decode, b"")
    refuses(it.LogFault, 2, "Check", it.BoardStatus.decode, bytes(27))
    assert it.command_packet(5, 44, 301, b"\1\2\3") == command(301)
    assert len(it.command_packet(5, 44, 301, bytes(65528))) == 65542
    refuses(it.LogFault, 11, "FieldRange", it.command_packet, 5, 44, 0, b"")
    refuses(it.LogFault, 11, "FieldRange", it.command_packet, 2048, 44, 1, b"")
    assert it.restart_order(6, 45, 7) == order(1, 7)
    assert it.rebuild_order(6, 45, 0x12345678, 65543, 301) == order(2, 65543, 301, 0x12345678)
    refuses(it.LogFault, 11, "FieldRange", it.restart_order, 6, 16384, 7)
    does_not_fit(it.rebuild_order, 6, 45, 2**32, 0, 0)
    assert it.history_after(H, command(301)) == zlib.crc32(command(301)[-4:], H)
    assert it.history_after(0, b"12") == zlib.crc32(b"12") and it.history_after(0, b"") == 0
    does_not_fit(it.history_after, 2**32, b"")


def members(it):
    """The kinds of the actions and of the statuses of a board that executes a command and restarts."""
    board, actions, statuses = it.Executor(place(6, 300, 1, H, 0), b"", 5), [], []
    for given in (None, command(301), order(1, 7)):
        if given:
            (board.offer if given[1] == 5 else board.obey)(given)
        while not actions or actions[-1] is not it.ActionKind.RESTART:
            action = board.next()
            actions.append(action.kind)
            statuses.append(it.BoardStatus.decode(board.status()).kind)
            board.done(action)
            if action.kind is it.ActionKind.NOTHING:
                break
    statuses.append(it.BoardStatus.decode(it.Executor(b"", b"", 5).status()).kind)
    return actions + statuses


def longest(it):
    """Each call with the longest octets and the largest numbers."""
    most, content = 2**32 - 1, bytes(range(256)) * 255 + bytes(248)
    board = it.Executor(place(most, most - 1, 2**64 - 1, most, 0), place(0, 0, 0, 0, 0), most)
    acts(it, board, it.ActionKind.WRITE_SECOND, place(most, most - 1, 2**64 - 1, most, 0))
    writes(it, board, place(0, most - 1, 2**64 - 1, most, 0))
    octets = it.command_packet(2047, 16383, most, content)
    assert len(octets) == 65542 and octets == packet(2047, 16383, struct.pack(">I", most) + content)
    assert board.offer(octets) == content
    history = it.history_after(most, octets)
    assert history == zlib.crc32(octets[-4:], most)
    writes(it, board, place(0, most - 1, 2**64 - 1, history, 1))
    acts(it, board, it.ActionKind.EXECUTE, number=most, content=content)
    writes(it, board, place(0, most, 2**64 - 1, history, 0))
    told = it.BoardStatus.decode(board.status(2**64 - 1))
    assert told == it.BoardStatus(it.StatusKind.SAYS, 0, most, 2**64 - 1, history, False, 0, 255)
    refuses(it.LogFault, 6, "Behind", board.offer, octets)
    board.obey(it.restart_order(2047, 16383, 0))
    lost = it.Executor(bytes(50), it.new_record()[:49], most)
    lost.obey(it.rebuild_order(2047, 16383, most, most, most))
    writes(it, lost, place(most, most, 0, 0, 0))


class Session:
    """A board that restarts at any moment, also in the middle of an action, and a ground that sends each number once or
    several times, also out of turn and damaged."""

    def __init__(self, it, chance):
        self.it, self.chance = it, chance
        self.places, self.sent, self.brought = [it.new_record(), it.new_record()], {}, 0
        self.executed, self.whole, self.told = [], set(), 0
        self.restarts()

    def restarts(self):
        self.board = self.it.Executor(*self.places, self.chance.randrange(2**32))

    def step(self):
        action = self.board.next()
        if action.kind is self.it.ActionKind.NOTHING:
            self.receives(self.hears())
        elif self.chance.random() < 0.06:
            self.breaks_off(action)
            self.restarts()
        else:
            self.does(action)
            self.board.done(action)
            self.hears()

    def does(self, action):
        if action.kind is self.it.ActionKind.EXECUTE:
            assert action.content == self.sent[action.number][10:-4]
            self.executed.append(action.number)
            self.whole.add(action.number)
        else:
            self.places[action.kind - 1] = action.octets

    def breaks_off(self, action):
        if action.kind is self.it.ActionKind.EXECUTE:
            self.executed += [action.number] * self.chance.randrange(2)
        else:
            place, done = action.kind - 1, self.chance.randrange(51)
            self.places[place] = action.octets[:done] + self.places[place][done:]
            if self.chance.random() < 0.1:
                self.places[1 - place] = bytes(50)

    def hears(self):
        """What the status states is so: the history is that of the packets up to the last, and of the begun one."""
        status = self.it.BoardStatus.decode(self.board.status())
        if status.kind is self.it.StatusKind.SAYS:
            history = 0
            for number in range(self.brought + 1, status.last + status.begun + 1):
                history = zlib.crc32(self.sent[number][-4:], history)
            assert status.history == history
            known = {status.last - k for k in range(64) if status.known >> k & 1}
            assert known <= self.whole
            self.told += 1
        return status

    def receives(self, status):
        if status.kind is self.it.StatusKind.LOST:
            self.brought = max(self.sent, default=0)
            self.board.obey(self.it.rebuild_order(6, 1, status.mark, status.boot, self.brought))
            return
        number = max(1, status.last + self.chance.choice((-1, 0, 1, 1, 1, 2)))
        octets = self.sent.setdefault(number, command(number, self.chance.randbytes(self.chance.randrange(9))))
        octets = octets[:-1] + bytes([octets[-1] ^ (self.chance.random() < 0.1)])
        try:
            assert self.board.offer(octets) == octets[10:-4] and number == status.last + 1
        except self.it.LogFault:
            assert number != status.last + 1 or octets != self.sent[number]


def random_sessions(it):
    """Whatever happens, commands are executed in order and at most once, and each status states what is so."""
    chance, executed, told = random.Random(5), 0, 0
    for _ in range(200):
        session = Session(it, chance)
        for _ in range(300):
            session.step()
        assert session.executed == sorted({*session.executed})
        executed, told = executed + len(session.executed), told + session.told
    assert executed > 2000 and told > 10000, (executed, told)


TESTS = (a_command_on_board, the_rule_of_actions, a_lost_record, commands_from_the_ground, random_sessions)
