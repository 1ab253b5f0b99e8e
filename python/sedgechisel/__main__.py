"""The command of the package: `python -m sedgechisel ladder FILE [DOWN]`."""
from __future__ import annotations

import argparse
import sys
from os import path
from typing import NoReturn

from . import _captures, _ladder, _script
from ._faults import Fault

_ABOUT = """Write to standard output, as SVG, the ladder of a script of the simulated link, or of a pair of captures. A
capture has no times, so each CLCW is drawn as early as it can follow from the frames. At most 1,000 rows are drawn."""


def _words() -> argparse.Namespace:
    """Returns the arguments."""
    words = argparse.ArgumentParser(prog="python -m sedgechisel")
    ladder = words.add_subparsers(dest="command", required=True).add_parser(
        "ladder", help="draw a script or a pair of captures as SVG", description=_ABOUT)
    ladder.add_argument("file", metavar="FILE", help="a script, or with DOWN a capture of telecommand frames")
    ladder.add_argument("down", metavar="DOWN", nargs="?",
                        help="a capture of CLCWs, or with --length of telemetry frames")
    ladder.add_argument("--check", action="store_true", help="telecommand frames end with their FECF")
    ladder.add_argument("--length", type=int, metavar="N", help="octets of a telemetry frame")
    ladder.add_argument("--scid", type=int, metavar="N", help="only frames of this spacecraft")
    ladder.add_argument("--vcid", type=int, metavar="N", help="only frames of this virtual channel, and CLCWs on it")
    ladder.add_argument("--from", dest="first", type=int, default=1, metavar="ROW", help="the first row; default 1")
    given = words.parse_args()
    options = [it for it in ("check", "length", "scid", "vcid") if getattr(given, it) not in (None, False)]
    if given.down is None and options:
        ladder.error(f"--{options[0]} is for a pair of captures")
    if given.first < 1:
        ladder.error("--from: rows are counted from 1")
    return given


def _stop(status: int, said: object) -> NoReturn:
    print(f"sedgechisel: {said}", file=sys.stderr)
    sys.exit(status)


def _octets(file: str) -> bytes:
    try:
        with open(file, "rb") as it:
            return it.read()
    except OSError as error:
        _stop(3, f"cannot read {file}: {error.strerror}")


def _drawn(given: argparse.Namespace) -> str:
    """Returns the ladder that the arguments request."""
    name, octets, first = path.basename(given.file), _octets(given.file), given.first - 1
    if given.down is not None:
        records = _captures.records_of(octets, _octets(given.down), checked=given.check, length=given.length,
                                       scid=given.scid, vcid=given.vcid)
        return _ladder.captures(f"{name} and {path.basename(given.down)}", records, first)
    try:
        events = _script.play(octets.decode())
    except UnicodeDecodeError:
        _stop(1, f"{given.file} is not text, so it is not a script; two captures are drawn by ladder UP DOWN")
    except (ValueError, Fault) as error:
        _stop(1, f"{given.file}: {error}")
    return _ladder.session(name, events, _captures.name_of, first)


def _main() -> None:
    given = _words()
    try:
        drawn = _drawn(given)
    except (ValueError, OverflowError) as error:
        _stop(2, error)
    try:
        sys.stdout.write(drawn)
        sys.stdout.flush()
    except OSError as error:
        _stop(3, f"cannot write: {error.strerror}")


if __name__ == "__main__":
    _main()
