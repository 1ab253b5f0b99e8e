"""Reads files of entries: rows (rows/README.md), and the wrong bodies and controls of `wrong_bodies/` and `controls/`.

An entry begins with `## NAME: ` (for a wrong body `## CRATE/NAME: `) and a sentence, which may continue on the next
line. The entry's other lines follow, and then an empty line before the next entry. An edit has lines `file:`, `old:` (a
text that occurs in that file once) and `new:`, as in a file of `must-fail/`. `python3 tools/entries.py FOLDER [CRATE
[NAME ..] ..]` writes wrong bodies as such files, for tools/wrong_bodies."""
import glob
import os
import re
import sys


def entries(path):
    """The name of each entry of a file, what it says, and its lines."""
    with open(path, encoding="utf-8", newline="\n") as file:
        before, *texts = re.split(r"^## ", file.read(), flags=re.M)
    names = set()
    for at, text in enumerate(texts, 1):
        text = text.removesuffix("\n")
        head, *lines = (text if at == len(texts) else text.removesuffix("\n")).split("\n")
        if not head.endswith("."):
            head, lines = " ".join([head, *lines[:1]]), lines[1:]
        name, _, says = head.partition(": ")
        if before or name in names or not re.fullmatch(r"(\w+/)?\w+", name) or not says.endswith("."):
            raise ValueError(f"{path}: an entry has no name of its own, or no sentence: {head}")
        names.add(name)
        yield name, says, lines


def puts(lines):
    """What an edit puts in: a file, the text that goes (None where the file is new), and the one that comes."""
    file, old = None, None
    for line in lines:
        key, _, value = line.partition(": ")
        if key == "file":
            file, old = value, None
        elif key == "old":
            old = value
        elif key == "new":
            yield file, old, value
            old = None


def wrong_bodies(root="."):
    """The wrong bodies that the gate leaves out: the lines of each by its crate and its name, which stand as CRATE/NAME."""
    crates = {}
    for path in sorted(glob.glob(f"{root}/wrong_bodies/*.edits")):
        for name, _, lines in entries(path):
            crate, _, name = name.partition("/")
            crates.setdefault(crate, {})[name] = lines
    return crates


def main(folder, *words):
    """Writes a file CRATE/NAME.edit for each wrong body of these crates, or for those named after their crate."""
    every, crates = wrong_bodies(), {}
    for word in words or every:
        if word in every:
            crates[word] = named = []
        elif crates:
            named.append(word)
        else:
            return f"tools/wrong_bodies: wrong_bodies/ has none of a crate {word}"
    for crate, named in crates.items():
        for name in named or every[crate]:
            if name not in every[crate]:
                return f"tools/wrong_bodies: wrong_bodies/ has no {name} of {crate}"
            os.makedirs(f"{folder}/{crate}", exist_ok=True)
            with open(f"{folder}/{crate}/{name}.edit", "w", encoding="utf-8") as file:
                file.write("\n".join([*every[crate][name], ""]))
    return None


if __name__ == "__main__":
    sys.exit(main(*sys.argv[1:]))
