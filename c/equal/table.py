"""The table of docs/REVIEW.md of what is checked of each call of the core, for `c/check_equal --table`: each call of
the header, in its order. It is made of the header, c/equal/checks.txt and the fuzz targets, so no call can be missing."""
import re

HEADER, NODES = "c/include/sedgechisel.h", "c/include/sedgechisel_nodes.h"
CALL = re.compile(r"^(?:SEDGE_CHECK )?(?:\w+|struct \w+) \*?(sedge_\w+)\(", re.M)
TARGETS = ("core", "telemetry", "nodes")
HEAD = """| Calls | Inputs checked | Equal to the second statement | Orders of octets | Fuzz target |
|---|---|---|---|---|
"""
# What a compiler of C alone looks at: c/equal/fecf.c and c/equal/names.c.
BY_COMPILER = {"sedge_check": "every octet, 0 to 2,046 octets (by linearity)", "sedge_version": "its one answer"}
WORDS = re.compile(r"sedge_\w+_name$|sedge_alert_\w+$")


def text_of(path):
    with open(path, encoding="utf-8") as file:
        return file.read()


def calls_of(header):
    """The calls of a header, but for what it defines itself."""
    return CALL.findall(text_of(header))


def fuzzed(call):
    """The fuzz targets that make a call."""
    return [it for it in TARGETS if re.search(rf"\b{call}\(", text_of(f"c/fuzz/{it}.c"))]


def looked_at(call, checks):
    """What is looked at of a call, for which inputs, and for which orders of octets."""
    own = [it for it in checks if call in it.calls]
    if call in BY_COMPILER:
        return [(BY_COMPILER[call], "equal", "the machine's")]
    if WORDS.match(call):
        return [("every number", "equal", "the machine's")]
    return [(it.inputs, it.kind, "both" if it.order == "both" else "little-endian") for it in own]


def cells(call, checks):
    """What a row says of a call."""
    found = looked_at(call, checks)
    inputs = "; ".join(dict.fromkeys(it[0] for it in found)) or "none"
    kinds = {"equal": "yes", "safe": "no"}
    equal = ", ".join(dict.fromkeys(kinds[it[1]] for it in found))
    orders = ", ".join(dict.fromkeys(it[2] for it in found))
    return f"{inputs} | {equal} | {orders} | {', '.join(fuzzed(call)) or 'no'} |\n"


def table(checks):
    """Calls that follow one another and have the same of all have one row."""
    rows = []
    for call in calls_of(HEADER):
        own = cells(call, checks)
        if rows and rows[-1][1] == own:
            rows[-1][0].append(f"`{call}`")
        else:
            rows.append(([f"`{call}`"], own))
    left = [f"`{it}`" for it in calls_of(NODES) if not fuzzed(it)]
    nodes = f"| each call of `sedgechisel_nodes.h` | none | | | nodes, except for {', '.join(left) or 'none'} |\n"
    return HEAD + "".join(f"| {', '.join(names)} | {own}" for names, own in rows) + nodes
