"""Helpers of the tools that make files: the managed parameters of nodes/specs/Parameters.antt, and how a made file is
written or compared."""
import argparse
import difflib
import re

from items import text_of


class Refused(Exception):
    """What the files lack."""


def parameter_rows():
    """The managed parameters of the table: of each its name, and its least, greatest and default value."""
    number = r"(\d+|\(2 \^ 64 - 1\))"
    rows = re.findall(rf'^row_of \w+ = row \(codes "(\w+)"\) {number} {number} {number}$',
                      text_of("crates/nodes/specs/Parameters.antt"), re.M)
    return [(name, *(int(it) if it.isdigit() else 2**64 - 1 for it in bounds)) for name, *bounds in rows]


def parameters():
    """The same in words: of each its name, its range and its default."""
    ranges = {"width": "even, {:,} to {:,}", "window": "{:,} to width/2", "maps": "any 64 bits"}
    return [(name, ranges.get(name, "{:,} to {:,}").format(least, most),
             "all ones" if default >> 63 else f"{default:,}") for name, least, most, default in parameter_rows()]


def is_check(about):
    """Whether the one argument of a tool that makes files, --check, is given; the tool's head is its help."""
    words = argparse.ArgumentParser(description=about, formatter_class=argparse.RawDescriptionHelpFormatter)
    words.add_argument("--check", action="store_true", help="compare, and write nothing")
    return words.parse_args().check


def finish(tool, files, checks):
    """Writes what differs; or compares, with a line for each file that ends in 'passed' or 'failed'."""
    well = True
    for file, text in files.items():
        there = text_of(file)
        if checks:
            wrong = list(difflib.unified_diff(there.splitlines(), text.splitlines(), file, tool, lineterm="", n=0))
            for it in wrong[:40]:
                print(f"    {it}")
            print(f"{file}: as {tool} makes it: {'failed' if wrong else 'passed'}", flush=True)
            well = well and not wrong
        elif there != text:
            with open(file, "w", encoding="utf-8") as it:
                it.write(text)
    return 0 if well else 1
