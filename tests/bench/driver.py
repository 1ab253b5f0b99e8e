#!/usr/bin/env python3
"""Runs each cell of a table and random events against a program that answers the lines of a node, compared with the
model:

    driver.py --node spacecraft|ground --against "COMMAND" [--link [--book] [--fixed FIELD=N,..]] [--events N] ..

COMMAND is a program that answers lines on standard input, as `tctool spacecraft` does (docs/TCTOOL.md, "One node, line
by line"); with --link it needs to know no more than what crosses the link (docs/BENCH.md). The model is farm.py or
fop.py. A difference is shown with its cell, as the line of tables/farm.csv or tables/fop.csv, both answers, and as few
lines as suffice to show one. The last line is 'N events, C of D cells, E differences', and the status is 0 only
where nothing differs."""
import argparse
import random
import shlex
import subprocess
import sys
import threading
from collections import Counter

sys.dont_write_bytecode = True
import cells  # noqa: E402
import events  # noqa: E402
from farm import Spacecraft  # noqa: E402
from fop import Ground  # noqa: E402
from frames import Fault  # noqa: E402
from link import AFTER, Link, Whole  # noqa: E402

PIECE, EVENTS_A_RUN, CELL_PLAYS = 8192, 1000, 2
PATIENCE = 60  # the seconds that a program may take for each answer


class Program:
    """A program that is given lines, and answers each."""

    def __init__(self, command):
        self.process = subprocess.Popen(command, stdin=subprocess.PIPE, stdout=subprocess.PIPE)

    def soon(self, call, *given):
        """Returns what a call of its pipes returns. Kills the program if that takes longer than PATIENCE."""
        timer = threading.Timer(PATIENCE, self.process.kill)
        timer.start()
        try:
            return call(*given)
        finally:
            timer.cancel()

    def give(self, lines):
        self.process.stdin.write("".join(f"{it}\n" for it in lines).encode("latin-1"))
        self.process.stdin.flush()

    def answers(self, lines, count):
        """Its answers to lines, so many; fewer if it ends, or if one answer takes longer than PATIENCE."""
        got = []
        try:
            self.soon(self.give, lines)
            while len(got) < count and (line := self.soon(self.process.stdout.readline)):
                got.append(line.decode("latin-1").rstrip("\n"))
        except BrokenPipeError:
            pass
        return got

    def close(self):
        """How it ends once there are no more lines: what else it writes, and its status."""
        try:
            self.process.stdin.close()
        except BrokenPipeError:
            pass
        with self.process.stdout:
            more = self.soon(self.process.stdout.read).decode("latin-1")
        return f"{more!r} and status {self.soon(self.process.wait)}"


def ending(node):
    return f"'' and status {0 if node.good else 1}"


class Play:
    """A program and the model of a node side by side, from their start on."""

    def __init__(self, bench):
        self.bench, self.node = bench, bench.model()
        self.program = Program(bench.command)
        self.lines, self.waiting, self.octets, self.same = [], [], 0, True
        self.last = None  # the cell of the last event, which a `show` or a `report` after it shows

    def line(self, line):
        """Gives a line to the model, and later to the program; whether all is the same so far. Where only what crosses
        the link is compared, the control command goes at once, as in the book."""
        if not self.bench.speaks.fits(self.node, line):
            return True
        same = self.give(line)
        return self.line("send") if same and self.bench.is_due(self.node) and line != "send" else same

    def give(self, line):
        self.bench.watch.cell = None
        answer = self.node.answer(line)
        cell = self.bench.watch.cell
        if line not in ("show", "report") or not self.last:
            self.last = cell
        self.waiting.append((line, answer, cell, self.last))
        self.octets += len(line) + 1
        return self.octets < PIECE or self.compare()

    def compare(self):
        """Gives the lines that wait to the program."""
        wanted = [it for it in self.waiting if it[1] is not None]
        got = self.program.answers([it[0] for it in self.waiting], len(wanted))
        got += ["(no answer)"] * (len(wanted) - len(got))
        at = 0
        for line, answer, cell, shown in self.waiting:
            self.lines.append(line)
            if answer is not None:
                if self.bench.compared(got[at]) != self.bench.compared(answer):
                    self.waiting, self.same = [], False
                    self.bench.differs(self.lines, shown, got[at], answer)
                    return False
                at += 1
                if cell:
                    self.bench.met.add(cell.line)
        self.waiting, self.octets = [], 0
        return True

    def close(self):
        """Ends both, with the last lines compared, and the status."""
        if self.waiting:
            self.compare()
        got, wanted = self.program.close(), ending(self.node)
        if self.same and got != wanted and not self.bench.link:
            self.bench.differs(self.lines, None, got, wanted)


class Bench:
    """What is played, against which program, and what came of it."""

    def __init__(self, node, command, speaks, most, whole):
        self.most, self.whole, self.differing = most, whole, []
        self.speaks, self.compared, self.link = speaks, speaks.compared, isinstance(speaks, Link)
        self.command, self.ground = shlex.split(command), node == "ground"
        self.watch = cells.watch_fop() if self.ground else cells.watch_farm()
        self.watch.book = self.link and speaks.book
        self.differences, self.events, self.met = 0, 0, set()
        self.tried = None  # the cell that is played, where only what crosses the link is compared

    def is_due(self, node):
        return self.link and self.ground and node.made and node.fop.due

    def model(self):
        node, watch = (Ground if self.ground else Spacecraft)(), self.watch
        node.book, begin = watch.book, node.begin
        if self.link:
            node.config.update(self.speaks.model)

        def begins(config):
            begin(config)
            watch.of(node.fop if self.ground else node.farm)
        node.begin = begins
        return node

    def differs(self, lines, cell, got, wanted):
        """Shows a difference with few lines, the first one of each cell; ends the program after the most of these."""
        self.differences += 1
        cell = self.tried or cell
        if cell not in self.differing:
            self.differing.append(cell)
            print(f"difference {self.differences}, at line {len(lines)} since the start"
                  f"{f': {self.watch.name}, {cell}' if cell else ''}")
            print(f"    the program: {got}\n    the model:   {wanted}", flush=True)
            lines = list(lines) if self.whole else shortened(self.is_different, list(lines))
            print("    the lines since the start:" if self.whole else "    fewer lines that show one:")
            print(*self.shown(lines), sep="\n", flush=True)
            if len(self.differing) == self.most:
                sys.exit(self.summary())

    def shown(self, lines):
        """Lines as they are shown; where only what crosses the link is compared, a difference may come after its
        event, so each has its cell."""
        for line, _, cell in self.walk(lines)[1]:
            yield f"        {line}{f'    ({cell})' if self.link and cell else ''}"

    def walk(self, lines):
        """The model after lines, and what is given of them to a program, with the model's answers and the cells."""
        node, given = self.model(), []
        for line in lines:
            while line is not None and self.speaks.fits(node, line):
                self.watch.cell = None
                given.append((line, node.answer(line), self.watch.cell))
                line = "send" if self.is_due(node) and line != "send" else None
        return node, given

    def summary(self):
        """Writes what came of it all; the status."""
        wrong = dict.fromkeys(self.watch.wrong)
        for it in wrong:
            print(f"    {it}")
        for it in self.watch.cells.values():
            if it.line not in self.met and not self.differences:
                print(f"    not met: {it}")
        differences = self.differences + len(wrong)
        print(f"{self.events} events, {len(self.met)} of {len(self.watch.cells)} cells, {differences} differences")
        return 1 if differences else 0

    def is_different(self, lines):
        """Whether the program and the model differ in their answers to these lines, or in the status after them."""
        node, given = self.walk(lines)
        wanted = [answer for _, answer, _ in given if answer is not None]
        if self.link and any(it.startswith("config out of range") for it in wanted):
            return False  # the program has its configuration built in, and does not see these lines
        program = Program(self.command)
        got = program.answers([line for line, _, _ in given], len(wanted))
        end, differs = program.close(), [*map(self.compared, got)] != [*map(self.compared, wanted)]
        return differs or not self.link and end != ending(node)

    def play_cells(self):
        """Plays each way to a state with each event there that comes to a cell that was not played often enough."""
        ways, happens, after = (
            (events.ground_ways, events.ground_events, events.GROUND_AFTER) if self.ground
            else (events.spacecraft_ways, events.spacecraft_events, events.SPACECRAFT_AFTER))
        after = AFTER["ground" if self.ground else "spacecraft"] if self.link else after
        played = Counter()
        for way in ways(self.model().config):
            for event in happens(self.walk(way)[0]):
                cell = self.cell_of(way, event)
                if cell and played[cell.line] < (1 if self.link else CELL_PLAYS):
                    played[cell.line] += 1
                    self.tried = cell if self.link else None
                    for then in after:
                        self.play([*way, event, *then])
        self.tried = None

    def try_hidden(self):
        """Has the model alone do what no line shows: a frame in Wait although a buffer is free, and units that FOP-1
        refuses since one waits or it is in S6."""
        for way in (events.ground_ways if self.ground else events.spacecraft_ways)(self.model().config):
            node = self.model()
            for line in [*way, "show"]:
                node.answer(line)
            if not self.ground:
                node.farm.ad(node.farm.vr, True)
            for _ in range(2 * self.ground):
                try:
                    node.fop.submit(b"")
                except Fault:
                    pass
        self.watch.wrong += [f"the model never came to {it}" for it in self.watch.cells.values()
                             if it.line not in self.watch.seen]

    def cell_of(self, way, event):
        """The cell of an event after a way."""
        node, _ = self.walk(way)
        self.watch.cell = None
        if self.speaks.fits(node, event):
            node.answer(event)
        return self.watch.cell

    def play(self, lines):
        play = Play(self)
        for line in lines:
            if not play.line(line):
                break
        self.events += 1
        play.close()

    def play_random(self, count, chance):
        """Plays random events, some at a time from a new start."""
        first, looks = (("tick", "send") if self.ground else ("report", "report")) if self.link else ("show", "show")
        while count > 0:
            play = Play(self)
            begin = [] if self.link else events.odd_begin(chance)
            for line in [*begin, *events.random_config(chance), first]:
                play.line(line)
            source = (events.GroundLines if self.ground else events.SpacecraftLines)(chance, play.node)
            for _ in range(min(count, EVENTS_A_RUN)):
                count -= 1
                self.events += 1
                line = source.next()
                while not self.speaks.fits(play.node, line):
                    line = source.next()
                if not (play.line(line) and (looks == "send" or play.line(looks))):
                    break
            play.close()


def shortened(differs, lines):
    """Fewer of these lines, which differ still."""
    size = len(lines) // 2
    while size:
        at = 0
        while at + size < len(lines):
            fewer = lines[:at] + lines[at + size:]
            if differs(fewer):
                lines = fewer
            else:
                at += size
        size //= 2
    return lines


def main():
    words = argparse.ArgumentParser(description=__doc__, formatter_class=argparse.RawDescriptionHelpFormatter)
    words.add_argument("--against", required=True, metavar="COMMAND")
    words.add_argument("--node", required=True, choices=("spacecraft", "ground"))
    words.add_argument("--events", type=int, default=20000, metavar="N", help="random events, by default 20,000")
    words.add_argument("--seed", type=int, default=1, metavar="S", help="by default 1")
    words.add_argument("--most", type=int, default=5, metavar="D",
                       help="ends after D differences are shown, one of each cell; by default 5")
    words.add_argument("--no-cells", action="store_true", help="plays random events alone")
    words.add_argument("--ignore", default="", metavar="FIELDS",
                       help="fields of `show` that are not compared, as count,timer,due")
    words.add_argument("--whole", action="store_true", help="shows all lines up to a difference, and not fewer")
    words.add_argument("--link", action="store_true", help="compares only what crosses the link")
    words.add_argument("--book", action="store_true", help="with --link: the model does what the book does, where "
                       'docs/PROFILE.md, "The profile and the books", says otherwise')
    words.add_argument("--fixed", default="", metavar="FIELD=N,..",
                       help="with --link: managed parameters that the program has and is not given")
    given = words.parse_args()
    if not given.link and (given.book or given.fixed):
        words.error("--book and --fixed need --link")
    fixed = {field: int(number) for field, _, number in (it.partition("=") for it in given.fixed.split(",") if it)}
    speaks = Link(given.node, given.book, fixed) if given.link else Whole(given.ignore.split(","))
    cells.Cell.by_book = given.book
    bench = Bench(given.node, given.against, speaks, given.most, given.whole)
    if not given.no_cells:
        bench.play_cells()
        if not given.link:
            bench.try_hidden()
    bench.play_random(given.events, random.Random(given.seed))
    return bench.summary()


if __name__ == "__main__":
    sys.exit(main())
