"""A ground with asyncio on bare CLCWs, with a front end on a loopback socket and a spacecraft behind it. Both ways are
slow and lose frames; for a while the link is dark, and once the spacecraft restarts. Each command is executed once,
in order: each session begins by the six steps of docs/CONTROL.md, "The steps". CLCWs and housekeeping arrive in one
ordered stream, so housekeeping that arrives after a CLCW was made after it. If they arrive by two paths, a program must
learn this in another way.
Run it by PYTHONPATH=DIR/lib/python python3 python/examples/asyncio_ground.py."""
import asyncio
import collections
import random
import struct

import sedgechisel as sc

TICK, REPORT, DELAY = 0.010, 0.005, 0.015  # in seconds: the ground's clock, the time between CLCWs, the delay
ROUND_TRIP = 25  # in ticks, and longer than the longest one
COMMANDS, MAP = 300, 4
config = sc.Config(scid=42, window=20, limit=3, timer=12)
chance = random.Random(7)

# What arrives on the ground: a letter, then a CLCW or housekeeping. Housekeeping states how often the spacecraft has
# restarted, and how many commands it has executed.
WORD, HOUSEKEEPING, SAID = b"C", b"H", struct.Struct(">II")


# ---- The ground. ----


class Station:
    """A ground at the streams of a front end."""

    def __init__(self, ground, reader, writer, commands):
        self.ground, self.reader, self.writer, self.commands = ground, reader, writer, commands
        self.first = 0  # the command that is submission 0 of this session
        self.silence = 0  # the ticks since a frame was pulled
        self.stopped = True  # nothing is pulled until a session begins
        self.is_set = False  # whether a CLCW has shown, with the session's command on board, that V(R) is V(S)
        self.is_open = False  # whether no restart was seen since then either: nothing is submitted before
        self.is_known = False  # whether the session that ended shows what is on board
        self.word = None  # a CLCW that was made when nothing was in transit on the uplink
        self.has_disagreed = False  # whether telemetry did not agree with what such a CLCW shows to be on board
        self.boots, self.executed = None, 0
        self.alerts, self.done = set(), asyncio.Event()

    def stops(self, is_known):
        self.stopped, self.is_known, self.word, self.silence = True, self.is_known and is_known, None, 0
        self.is_set = self.is_open = False

    def gives_up(self, alert):
        if alert:
            self.alerts.add(alert)
            self.stops(not alert.shows_a_broken_condition)

    def hears_word(self, octets):
        heard = self.ground.clcw(octets)
        self.gives_up(heard.alert)
        if heard.report != sc.Report.USED or self.silence <= ROUND_TRIP:
            return
        word = heard.word
        if not self.stopped:
            self.is_set = word.value == self.ground.vs and not (word.lockout or word.wait or word.retransmit)
        elif word.wait:
            self.silence = 0  # CLCWs made before the wait flag is cleared show something else
        else:
            self.word, self.is_known = word, self.is_known and not word.lockout

    def hears_housekeeping(self, boots, executed):
        if self.boots != boots:  # the spacecraft has restarted, or nothing was heard of it before
            if self.ground.state != sc.State.S6:
                self.ground.terminate()
            self.stops(False)
        self.boots, self.executed = boots, executed
        if self.word:  # the CLCW arrived before this, with no restart in between
            self.begins(self.word.value)
        elif self.is_set:  # nor has it restarted since the session's command arrived
            self.is_open = True
        if executed == len(self.commands):
            self.done.set()

    def begins(self, value):
        """Begins the next session. If the last one does not show what is on board, the spacecraft's telemetry does. If
        it does, both agree, because the spacecraft has executed all that was ready."""
        known = self.ground.known_on_board(value) if self.is_known else None
        if self.ground.vs == self.ground.nn != value:
            known = None  # nothing was unacknowledged, and V(R) is another number
        if known is None:
            self.first = self.executed
            self.ground.set_vs(value)
            self.ground.init_unlock()
        elif self.first + known == self.executed:
            self.first += self.ground.resume(value)
        elif self.has_disagreed:
            raise SystemExit("telemetry does not agree: a person decides")
        else:
            self.has_disagreed = True
            return self.stops(True)
        self.stopped, self.is_known, self.word, self.has_disagreed = False, True, None, False

    async def sends(self):
        if not self.stopped:
            if self.is_open:
                for packet in self.commands[self.first + self.ground.submitted:][:20 - self.ground.unsent]:
                    self.ground.submit(MAP, packet)
            for frame in self.ground.frames():
                self.writer.write(frame)
                self.silence = 0
        await self.writer.drain()

    async def hears(self):
        while True:
            if await self.reader.readexactly(1) == WORD:
                self.hears_word(await self.reader.readexactly(4))
            else:
                self.hears_housekeeping(*SAID.unpack(await self.reader.readexactly(SAID.size)))
            await self.sends()

    async def ticks(self):
        while True:
            await asyncio.sleep(TICK)
            self.silence += 1
            self.gives_up(self.ground.tick())
            await self.sends()


# ---- The front end and the spacecraft. ----


class Way:
    """A direction of the link: what is sent arrives later, in order, or is lost."""

    def __init__(self, loop, deliver):
        self.loop, self.deliver, self.queue, self.last, self.is_dark = loop, deliver, collections.deque(), 0, False

    def send(self, octets):
        if not self.is_dark and chance.random() > 0.03:
            self.last = max(self.last, self.loop.time() + DELAY * chance.uniform(1, 2))
            self.queue.append(octets)
            self.loop.call_at(self.last, lambda: self.deliver(self.queue.popleft()))


class FrontEnd:
    """What a ground sees of the link: both directions, and the spacecraft with the commands that it executed."""

    def __init__(self, reader, writer):
        self.reader, self.writer = reader, writer
        self.spacecraft, self.boots, self.executed = sc.Spacecraft(config), 0, []
        loop = asyncio.get_running_loop()
        self.up, self.down = Way(loop, lambda frame: self.spacecraft.receive(frame)), Way(loop, writer.write)

    def restart(self):
        """Opens a new node, with nothing of the old one. It begins in Lockout, so that its CLCWs are not believed."""
        self.spacecraft.close()
        self.spacecraft, self.boots = sc.Spacecraft(config), self.boots + 1
        outside = sc.TcFrame(scid=42, vcid=2, n=128, flags=sc.Segment.ALONE, map=MAP)
        self.spacecraft.receive(outside.encode(b"."))

    async def flies(self):
        dark, turn = 120, 0  # for how many CLCWs the link will be dark
        while True:
            await asyncio.sleep(REPORT)
            for _, packet in self.spacecraft.packets():
                self.executed.append(sc.Packet.decode(packet)[0].count)
                if self.boots == 0 and len(self.executed) == 2 * COMMANDS // 3:
                    self.restart()
                    break
            is_dark = dark > 0 and len(self.executed) >= COMMANDS // 3
            self.up.is_dark = self.down.is_dark = is_dark
            dark, turn = dark - is_dark, turn + 1
            self.down.send(WORD + self.spacecraft.control_word.encode())
            if turn % 10 == 0:  # what was ready is executed
                self.down.send(HOUSEKEEPING + SAID.pack(self.boots, len(self.executed)))

    async def carries(self):
        while True:
            head = await self.reader.readexactly(5)
            self.up.send(head + await self.reader.readexactly(sc.TcFrame.declared(head) - len(head)))


async def main():
    joined = asyncio.get_running_loop().create_future()
    server = await asyncio.start_server(lambda *ends: joined.set_result(FrontEnd(*ends)), "127.0.0.1", 0)
    reader, writer = await asyncio.open_connection(*server.sockets[0].getsockname())
    commands = [sc.Packet(apid=5, count=k, kind=sc.PacketKind.TELECOMMAND).encode(b"command") for k in range(COMMANDS)]
    with sc.Ground(config) as ground:
        station, front = Station(ground, reader, writer, commands), await joined
        tasks = [asyncio.ensure_future(it) for it in (
            station.hears(), station.ticks(), station.done.wait(), front.carries(), front.flies())]
        ended, others = await asyncio.wait(tasks, return_when=asyncio.FIRST_COMPLETED)
        for task in others:
            task.cancel()
        await asyncio.gather(*others, return_exceptions=True)
        writer.close(), front.writer.close(), server.close()
        for task in ended:
            task.result()
    for alert in sorted(station.alerts):
        is_broken = alert.shows_a_broken_condition
        print(f"alert {alert.word}:", "begin anew, by telemetry" if is_broken else "go on by resume")
    once = "each once, in order" if front.executed == [*range(COMMANDS)] else front.executed
    print(f"{len(front.executed)} commands are executed: {once}")


asyncio.run(main())
