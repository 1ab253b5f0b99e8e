#!/usr/bin/env python3
"""Runs a session of a FOP-1 with the FARM-1 of another program, by commands: `session.py GROUND SPACECRAFT [FIELD=N
..]`."""
import argparse

WORDS = argparse.ArgumentParser(description=__doc__, formatter_class=argparse.RawDescriptionHelpFormatter)
WORDS.add_argument("ground", metavar="GROUND", help="the command that starts the FOP-1")
WORDS.add_argument("spacecraft", metavar="SPACECRAFT", help="the command that starts the FARM-1")
WORDS.add_argument("fields", nargs="*", metavar="FIELD=N", help="a managed parameter")
WORDS.parse_args()

# docs/BENCH.md shows the rest.
import subprocess
import sys

def start(command, fields):
    node = subprocess.Popen(command.split(), stdin=subprocess.PIPE, stdout=subprocess.PIPE, text=True)

    def ask(line):
        print(line, file=node.stdin, flush=True)
        if not line or line.startswith(("#", "config ")):
            return None  # nothing answers such a line
        return node.stdout.readline().rstrip("\n")

    for field in fields:
        ask(f"config {field.replace('=', ' ')}")
    if not ask("show").startswith("state="):
        sys.exit(f"{command}: a field is unreadable or out of its range")
    return ask

ground, spacecraft = (start(it, sys.argv[3:]) for it in sys.argv[1:3])
ground("init unlock")
for k in range(3):
    ground(f"submit 4 1005C0000000A{k}")
frames = 0
while "outstanding=0" not in ground("show") or not frames:
    while (answer := ground("send")) != "nothing":
        frames += 1
        lost = frames == 3
        print(answer, "is lost" if lost else spacecraft(answer.replace("sent", "frame")))
    print(ground(spacecraft("report").replace("report", "clcw")), ground("show"))
while (answer := spacecraft("take")) != "nothing":
    print(answer)
