"""Finds the source of a function of an object by the function's name there, for tools/portable_c."""
import functools
import os
import re

# What stands before the name of a call that a program makes, in the name of the function that it hands its parameters to.
EXPORT = "rattle::export "


@functools.lru_cache(None)
def functions_in(file):
    """The functions of a file: of each its name, the types that its `impl` or trait names, or None outside, and its line."""
    own, found = [None], []
    with open(file, encoding="utf-8") as lines:
        for number, line in enumerate(lines, 1):
            if re.match(r"impl\b|(pub )?trait\b", line):
                own = re.findall(r"\b[A-Z]\w*", line.partition("requires")[0])
            elif line.startswith("}"):
                own = [None]
            if it := re.match(r"\s*(pub(\([\w ]+\))? )?(const |unsafe )*(extern \"C\" )?fn (?P<name>\w+)", line):
                found.append((it["name"], own, number))
    return found


def files_below(crate):
    """The files of a crate's code."""
    return sorted(f"{folder}/{it}" for folder, _, files in os.walk(f"crates/{crate}/src") for it in files if it.endswith(".rt"))


def files_of(crate, modules):
    """The files in which a function of these modules may stand, the likeliest first."""
    for count in range(len(modules), -1, -1):
        at = "/".join([f"crates/{crate}/src", *modules[:count]])
        yield from (it for it in (f"{at}.rt", f"{at}/mod.rt", f"{at}/lib.rt", f"{at}/main.rt") if os.path.isfile(it))


def line_in(file, kind, name):
    """The line of a function in a file, of the type of this name or of none; None where it does not stand there once."""
    found = [number for it, own, number in functions_in(file) if it == name and kind in own]
    return found[0] if len(found) == 1 else None


@functools.lru_cache(None)
def place_of(name, crate):
    """The file and line of a function, as FILE:LINE, or None where it is not one of the repository's or is not found once;
    a call that a program makes is looked for in this crate."""
    if name.startswith(EXPORT) or "::" not in name:
        crate, parts = crate, [name.removeprefix(EXPORT)]
    else:
        crate, *parts = re.sub(r"::<.*", "", name).split("::")
    if not parts or not os.path.isdir(f"crates/{crate}") or not all(re.fullmatch(r"\w+", it) for it in parts) or "fn" in parts:
        return None
    *modules, own = parts
    kind = modules.pop() if modules and modules[-1][0].isupper() else None
    for files in (files_of(crate, modules), files_below(crate)):
        found = [f"{it}:{line}" for it in files if (line := line_in(it, kind, own))]
        if found and (kind is None or len(found) == 1):
            return found[0] if modules or len(found) == 1 else None
    return None


def rule_at(place):
    """The rule that a comment right before a function says it is, as `report 6`; None where there is none."""
    file, _, line = place.rpartition(":")
    with open(file, encoding="utf-8") as it:
        before = it.read().split("\n")[int(line) - 2]
    found = re.match(r"\s*// Rule (\d+): ", before)
    return f"{os.path.basename(file)[:-3]} {found[1]}" if found else None
