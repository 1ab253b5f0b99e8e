"""Lines for a node: those that lead to each cell of its table, and random ones."""
from itertools import accumulate

from frames import AD, ALONE, BC, BD, CONTINUING, FIRST, LAST, Clcw, clcw, packet, tc_frame, with_fecf
from farm import Builder

WORDS = ("", "bogus", "show ", "send  ", " take", "init", "init set 256", "config width 10", "vs -1", "window 01",
         "clcw 010800", "frame 0", "telemetry GG", "submit 256 -", "take\r")


BEGINNINGS = ("", "# a note\xff", "config scid 65543", "config maps 18446744073709551616", "config foo 1",
              "config width", "config limit 07", "config limit 300\nsend\nconfig limit 3",
              "config width 9\ntake\nconfig width 254", "bogus", "report GG",
              "config window 2\nconfig width 2\nshow\nconfig width 254\nconfig window 127")


def hexed(octets):
    return octets.hex() or "-"


# ---- The lines of each cell: what leads to a state, and what happens there ----

SPACECRAFT = ["config width 10", "config window 5", "config ready_slots 1"]
GROUND = ["config width 10", "config window 3", "config timer 3", "config limit 3"]
COMMAND, TELEMETRY = packet(5, b"\xAA"), packet(5, b"\xAA", 0)


def frame(config, kind, n=0, data=bytes([ALONE << 6 | 4]) + COMMAND):
    return f"frame {tc_frame(config['scid'], config['vcid'], kind, n % 256, data).hex()}"


def report(value, flags=0, vcid=2):
    """A control word; the flags are lockout, wait and retransmit, as the bits of a number."""
    return clcw(Clcw(vcid, flags >> 2, flags >> 1 & 1, flags & 1, 0, value % 256)).hex()


def spacecraft_ways(config):
    """Lines that lead to each state of FARM-1 with each of its flags, the buffer free and full."""
    begin = [*SPACECRAFT, frame(config, BC, 0, b"\x82\0\xFE")]
    first, second, ahead, outside = (frame(config, AD, n) for n in (254, 255, 1, 126))
    for full in ([], [first], [first, second]):
        for then in ([], [ahead], [outside], [ahead, outside], [outside, "take"]):
            yield begin + full + then


def spacecraft_events(node):
    config, vr = node.config, node.farm.vr
    yield from (frame(config, AD, vr + ahead) for ahead in (0, 1, 4, 251, 255, 5, 128, 250))
    yield from (frame(config, BD), frame(config, BC, 0, b"\0"), frame(config, BC, 0, b"\x82\0\x4D"))
    yield from ("frame 300108070000FFFF", "take", "report", "send")


#: What shows the rest of a state after an event.
SPACECRAFT_AFTER = [["show", "report", "take", "takebypass", "show", "send"]]


def ground_ways(config):
    """Lines that lead to each state of FOP-1, with units that wait, are sent and are due, and with each count."""
    submit, none = f"submit 4 {COMMAND.hex()}", "init none"
    sent = [none, submit, "send", submit, "send"]
    repeat, wait = (f"clcw {report(254, flags, config['vcid'])}" for flags in (1, 3))
    ways = [[], [none], sent, [*sent, submit, "send"], [*sent, *["tick"] * 3], [*sent, *["tick"] * 3, "send"],
            [*sent, "terminate"], [*sent, repeat, "terminate"], [*sent, repeat], [*sent, repeat, "send"],
            [*sent, repeat, "send", "send"], [*sent, wait], [*sent, repeat, wait], ["init check"], ["init unlock"],
            ["init unlock", "send"], ["init set 7"], ["init set 7", "send"]]
    for way in ways:
        for then in ([], [submit], ["limit 1"], ["limit 2"], ["tick"] * 2, ["tick", "tick", "limit 1"],
                     [submit, "limit 2"]):
            yield [*GROUND, "vs 254", *way, *then]


def ground_events(node):
    nn, vs, vcid = node.fop.nn, node.fop.vs, node.config["vcid"]
    values = dict.fromkeys(it % 256 for it in (nn, vs, nn + 1, nn - 1, vs + 1))
    yield from (f"clcw {report(value, flags, vcid)}" for value in values for flags in range(8))
    yield from ("tick", "send", f"submit 4 {COMMAND.hex()}", "init none", "init check", "init unlock", "init set 77",
                "terminate", "vs 77", "window 5", "window 6", "window 0", "timer 9", "timer 0", "limit 9", "limit 0",
                "clcw 81082000", f"resume {vs}", f"bypass 4 {COMMAND.hex()}")


SENDS, TICKS = ["send"] * 3, ["tick"] * 4
GROUND_AFTER = [["show", *SENDS, "show", *TICKS, "show", *SENDS, *TICKS, "show"],
                ["show", *TICKS, "show", *SENDS, *TICKS, "show", *SENDS, *TICKS, "show"]]


# ---- Random lines ----


def odd_begin(chance):
    """Lines that come before a node is made: they are skipped, unreadable, or answered by a field out of its range."""
    return "\n".join(chance.sample(BEGINNINGS, 3)).split("\n") if chance.random() < 0.2 else []


def random_config(chance):
    half = chance.choice((1, 2, 3, 5, 8, 127, chance.randint(1, 127), chance.randint(1, 127)))
    fields = {"width": 2 * half, "window": chance.choice((half, half, half, 1, chance.randint(1, half))),
              "limit": chance.choice((1, 2, 3, 3, 5, 255)), "timer": chance.choice((1, 2, 3, 5, 20)),
              "part": chance.choice((1, 7, 9, 20, 1016)), "max_packet": chance.choice((7, 30, *(65542,) * 4)),
              "maps": chance.choice((2**64 - 1, 2**64 - 1, 0b10110)), "ready_slots": chance.choice((1, 2, 4, 64)),
              "bypass_slots": chance.choice((1, 2, 4)), "queue_slots": chance.choice((1, 5, 20, 1000, 1000)),
              "frame_length": chance.choice((16, 19, 20, 32, 64, 100)),
              "blocking": chance.randint(0, 1), "scid": chance.choice((1, 1023)), "vcid": chance.choice((2, 63)),
              "tm_vcid": chance.choice((0, 7))}
    names = [name for name in fields if name == "width" or name == "window" or chance.random() < 0.8]
    return [f"config {name} {fields[name]}" for name in names]


def weighed(weights):
    """What is chosen from, and the sums of its weights."""
    return list(weights), list(accumulate(weights.values()))


class Lines:
    """Random lines for a node, which go by what the model of it is at."""

    def __init__(self, chance, node):
        self.chance, self.node, self.config = chance, node, node.config

    def next(self):
        call = self.way_on() if self.chance.random() < 0.25 else None
        call = call or self.chance.choices(self.CALLS, cum_weights=self.WEIGHTS)[0]
        return call if isinstance(call, str) else call(self)

    def way_on(self):
        """What leads out of a state in which little happens, or None."""

    def map(self):
        return self.chance.choice((1, 1, 1, 2, 2, 4, 0, 63))

    def packet(self, kind=1):
        """A packet, now and then an idle one, one of the other type, or what is none."""
        chance = self.chance
        sizes = (1, 1, 2, chance.randint(1, 12), chance.randint(1, 60))
        octets = packet(chance.choice((5, 6, 300)), chance.randbytes(chance.choice(sizes)), kind, chance.randint(0, 9))
        if chance.random() < 0.96:
            return octets
        return chance.choice((packet(2047, b"\x55" * 3, kind), octets[:-1], octets + b"\0", packet(5, b"\0", 1 - kind),
                              b"", b"\xF0" + octets[1:], b"\x1F\xFF" + octets[2:], octets + octets))

    def unreadable(self):
        return self.chance.choice(WORDS)

    def damaged(self, octets):
        """The octets, some of them otherwise; with a sound FECF half of the time."""
        octets = bytearray(octets)
        for _ in range(self.chance.randint(1, 2)):
            octets[self.chance.randrange(len(octets))] ^= 1 << self.chance.randrange(8)
        if self.chance.random() < 0.2:
            octets = octets[:self.chance.randrange(len(octets))]
        return with_fecf(bytes(octets[:-2])) if self.chance.random() < 0.5 else bytes(octets)


class SpacecraftLines(Lines):
    def frame(self, kind, n, data):
        config = self.config
        data = data if self.chance.random() < 0.995 else data[:kind != BC]
        octets = tc_frame(config["scid"], config["vcid"], kind, n % 256, data)
        return f"frame {hexed(self.damaged(octets) if self.chance.random() < 0.03 else octets)}"

    def segment(self):
        chance, flags = self.chance, self.chance.choice((ALONE, ALONE, FIRST, CONTINUING, LAST))
        octets = self.packet()
        if flags == ALONE and self.config["blocking"] and chance.random() < 0.5:
            octets += self.packet()
        if flags != ALONE and len(octets) > 1:
            cut = len(octets) // 2
            octets = octets[:cut] if flags == FIRST else octets[cut:]
        return bytes([flags << 6 | self.map()]) + (octets or b"\0")

    def ad(self):
        chance, half = self.chance, self.node.farm.half
        ahead = chance.choice((0, 1, half - 1, 256 - half, 255)) if chance.random() < 0.3 else 0
        if chance.random() < 0.03:
            ahead = chance.choice((half, 255 - half, chance.randint(0, 255)))
        return self.frame(AD, self.node.farm.vr + ahead, self.segment())

    def long(self):
        """The next segment of a packet that is cut in three."""
        whole = packet(9, bytes(range(20)))
        part = [whole[:9], whole[9:18], whole[18:]][self.step % 3]
        flags, self.step = (FIRST, CONTINUING, LAST)[self.step % 3], self.step + 1
        return self.frame(AD, self.node.farm.vr, bytes([flags << 6 | 1]) + part)

    step = 0

    def bd(self):
        return self.frame(BD, 0, self.segment())

    def unlock(self):
        return self.frame(BC, 0, b"\0")

    def set_vr(self):
        return self.frame(BC, 0, bytes([0x82, 0, self.chance.randint(0, 255)]))

    def foreign(self):
        return f"frame {tc_frame(self.config['scid'] ^ 1, self.config['vcid'], BC, 0, bytes(1)).hex()}"

    def telemetry(self):
        return f"telemetry {hexed(self.packet(0))}"

    def way_on(self):
        return {"Open": None, "Wait": "take", "Lockout": SpacecraftLines.unlock}[self.node.farm.state]

    CALLS, WEIGHTS = weighed({ad: 40, long: 12, bd: 8, unlock: 2, set_vr: 3, foreign: 1, "take": 12, "takebypass": 3,
                              telemetry: 5, "send": 5, "report": 2, Lines.unreadable: 1})


class GroundLines(Lines):
    def __init__(self, chance, node):
        super().__init__(chance, node)
        self.builder, self.silent = None, 0

    def submit(self):
        octets = self.packet()
        if self.config["blocking"] and self.chance.random() < 0.4:
            octets += self.packet() + self.packet()
        return f"submit {self.map()} {hexed(octets)}"

    def bypass(self):
        return f"bypass {self.map()} {hexed(self.packet())}"

    def initiate(self):
        number = self.chance.randint(0, 255)
        return self.chance.choice(("init none", "init check", "init unlock", f"init set {number}"))

    def way_on(self):
        return GroundLines.initiate if self.node.fop.state == 6 else None

    def next(self):
        """Now and then for a while nothing is sent, so that the timer runs on."""
        if self.silent:
            self.silent -= 1
            return "tick" if self.chance.random() < 0.7 else self.clcw()
        if self.chance.random() < 0.04:
            self.silent = self.chance.randint(1, 2 * self.node.fop.timer if self.node.made else 1) % 15
        return super().next()

    def directive(self):
        chance = self.chance
        value = chance.choice((0, 1, 2, 3, 200, chance.randint(0, 255)))
        return chance.choice((f"window {value}", f"limit {value}", f"timer {value % 8}", "terminate", f"vs {value}",
                              self.initiate()))

    def word(self):
        """A report, which mostly is one that a receiver may make."""
        chance, fop = self.chance, self.node.fop
        some = (fop.vs - fop.nn) % 256
        value = fop.nn + chance.choice((0, some, *(chance.randint(0, some) for _ in range(4))))
        flags = chance.choices((0, 1, 3), (50, 30, 20))[0]
        if (value - fop.nn) % 256 == some:
            flags = 0
        elif value == fop.nn and fop.state in (2, 3):
            flags |= 1
        if chance.random() < 0.05:
            value, flags = chance.choice((value, chance.randint(0, 255))), chance.randint(0, 7)
        vcid = self.config["vcid"] if chance.random() < 0.98 else 5
        octets = int(report(value, flags, vcid), 16)
        if chance.random() < 0.01:
            octets ^= 1 << chance.randrange(32)
        return octets.to_bytes(4, "big")

    def clcw(self):
        return f"clcw {self.word().hex()}"

    def telemetry(self):
        self.builder = self.builder or Builder(self.config)
        if self.chance.random() < 0.5:
            self.builder.queue.append(self.packet(0))
        frame = self.builder.frame(self.word())
        if self.chance.random() < 0.05:
            frame = self.builder.frame(self.word())
        return f"telemetry {hexed(self.damaged(frame) if self.chance.random() < 0.05 else frame)}"

    def resume(self):
        fop = self.node.fop
        value = fop.nn + self.chance.randint(0, (fop.vs - fop.nn) % 256 + 1)
        return f"resume {value % 256}" if fop.state == 6 or self.chance.random() < 0.1 else "send"

    CALLS, WEIGHTS = weighed({submit: 26, "send": 44, clcw: 9, telemetry: 6, "tick": 6, bypass: 2, directive: 2,
                              "take": 3, resume: 3, Lines.unreadable: 1})
