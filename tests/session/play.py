#!/usr/bin/env python3
"""Runs a script of the simulated link with the package sedgechisel, and writes the lines of `tctool sim`:
`play.py link` with its simulated link; `play.py nodes` with its two nodes and a link that is here, without the lines of
`show`. The script is standard input, and was written by tests/session/script, so every line of it is readable."""
import argparse
import sys
from collections import deque

WORDS = argparse.ArgumentParser(description=__doc__, formatter_class=argparse.RawDescriptionHelpFormatter)
WORDS.add_argument("kind", choices=("link", "nodes"), help="the simulated link, or two nodes")
KIND = WORDS.parse_args().kind

import sedgechisel as sc  # noqa: E402
from sedgechisel._script import Player, clcw_text, digits_of, heard_text, octets_of, received_text  # noqa: E402

LINK = {7: "NothingInTransit", 8: "NotDetectable"}


class Nodes(Player):
    """The two nodes, and lists of the frames on their way."""

    def __init__(self, config):
        self.ground, self.spacecraft, self.length = sc.Ground(config), sc.Spacecraft(config), config.frame_length
        self.up, self.down = deque(), deque()

    def on_send(self):
        frame = self.ground.pull()
        if frame is None:
            return "nothing"
        self.up.append(frame)
        return f"sent {digits_of(frame)}"

    def on_report(self):
        word, frame = self.spacecraft.control_word, self.spacecraft.telemetry_frame()
        self.down.append(frame)
        return f"report {digits_of(word.encode())}"

    def on_up(self, how, digits="-"):
        return self.moves(self.up, how, octets_of(digits), sc.TcFrame.decode,
                          lambda octets: received_text(self.spacecraft.receive(octets)))

    def on_down(self, how, digits="-"):
        if how == "clcw":
            return self.moves(self.down, how, b"", None, lambda octets: clcw_text(self.ground.clcw(octets[-6:-2])))
        return self.moves(self.down, how, octets_of(digits), lambda octets: sc.TmFrame.decode(octets, self.length),
                          lambda octets: heard_text(self.ground.telemetry(octets)))

    def moves(self, way, how, octets, decode, arrive):
        if not way:
            return f"refused 7 {LINK[7]}"
        if how == "damage" and is_read(decode, octets):
            return f"refused 8 {LINK[8]}"
        frame = way.popleft()
        if how == "lose":
            return "lost"
        return arrive(octets if how == "damage" else frame)


def is_read(decode, octets):
    try:
        decode(octets)
        return True
    except sc.Fault:
        return False


def main(kind):
    config, session = sc.Config(), None
    for line in sys.stdin:
        words = line.split()
        if words[:1] == ["config"]:
            setattr(config, words[1], int(words[2]))
        elif words and (words != ["show"] or kind is Player):
            session = session or kind(config)
            print(session.answer(line.rstrip("\n")))


main({"nodes": Nodes, "link": Player}[KIND])
