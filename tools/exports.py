"""Reads from the sources the calls that the libraries for C export, and the structs that these take, for
tools/bindings."""
import functools
import glob
import re
import typing

from items import closing, end_of, signature_of, split_outside, text_of

EXPORT = re.compile(r'pub extern "C" fn (\w+)')
# What C calls a parameter or a field whose name in the sources has another meaning there (`data` and `record` are words
# of definitions, `farm` and `fop` the machines that fields describe), or is that of a call.
RENAMED = {"payload": "data", "receiver": "farm", "sender": "fop", "record_number": "record", "is_open": "open",
           "place": "where"}
# The structs whose octets are characters in C.
WORDS = ("Text", "Advice")
NUMBERS = ("u8", "u16", "u32", "u64", "usize")


class Parameter(typing.NamedTuple):
    """A parameter: its name, its type, and its form: a value, read or written behind a pointer, or octets that are."""

    name: str
    type: str
    form: str

    def flat(self, is_one):
        """As C has it, where octets are a pointer and their number, or the room for them if they are written."""
        if "octets" not in self.form:
            return [self]
        own = {"octets": "count", "packet": "count"}.get(self.name)
        room = "room" if is_one else f"{self.name}_room"
        count = own or (room if self.form == "written octets" else f"{self.name}_count")
        return [self, Parameter(count, "usize", "count")]


class Export(typing.NamedTuple):
    """A call: its name, the lines of its doc comment, its parameters, the type of what it returns, if anything, and
    whether that has to be used."""

    name: str
    docs: list
    parameters: list
    answer: str
    is_checked: bool

    def flat(self):
        is_one = sum(it.form == "written octets" for it in self.parameters) < 2
        return [it for one in self.parameters for it in one.flat(is_one)]


class Field(typing.NamedTuple):
    """A field: its name, its type (`octets` for their address), how many there are in a row (0 for one alone), and its
    note."""

    name: str
    type: str
    count: int
    note: str


class Struct(typing.NamedTuple):
    """A struct: its name in the sources, the one that C has, and the lines of its fields."""

    name: str
    own: str
    lines: list

    def is_handle(self):
        """Whether it holds one address alone."""
        return any("*mut u8" in it for it in self.lines)

    def fields(self):
        """The fields as C has them; octets are their address and their number."""
        docs = []
        for line in self.lines:
            found = re.fullmatch(r"    pub (\w+): (?:&'a )?\[?(\w+)(?:; (\d+))?\]?,", line)
            if line.startswith("    ///"):
                docs.append(line[7:].strip())
            elif found:
                name, kind, note = RENAMED.get(found[1], found[1]), found[2], " ".join(docs)
                kind = "octets" if "&'a" in line else "char" if self.name in WORDS else struct_names().get(kind, kind)
                yield Field(name, kind, int(found[3] or 0), note)
                if kind == "octets":
                    yield Field("count", "usize", 0, "The number of octets.")
                docs = []


def camel(name):
    return "".join(it.capitalize() for it in name.split("_"))


def snake(name):
    return re.sub(r"(?<=[a-z])(?=[A-Z])", "_", name).lower()


def lines_before(lines, at):
    """The lines of the doc comment and of the attributes before an item."""
    begin = at
    while lines[begin - 1].startswith(("///", "#[")):
        begin -= 1
    return lines[begin:at]


def docs_before(lines, at):
    """The lines of the doc comment before an item, without their marks."""
    return [it[3:].removeprefix(" ") for it in lines_before(lines, at) if it.startswith("///")]


@functools.cache
def structs():
    """The structs of the sources that are laid out as in C, of which the doc comment says what C calls them (`struct
    sedge_farm`), if it is not their own name."""
    found = []
    for file in sorted(glob.glob("crates/*/src/**/*.rt", recursive=True)):
        lines = text_of(file).splitlines()
        for at, line in enumerate(lines):
            name = re.match(r"pub struct (\w+)(?:<'a>)? \{", line)
            if name and "#[repr(C)]" in lines[max(at - 3, 0) : at]:
                said = re.search(r"`struct sedge_(\w+)`", " ".join(docs_before(lines, at)))
                own = said[1] if said else snake(name[1])
                found.append(Struct(name[1], own, lines[at + 1 : lines.index("}", at)]))
    return found


@functools.cache
def struct_names():
    """What C calls each struct; and the number that holds flags."""
    flags = "".join(text_of(it) for it in glob.glob("crates/*/src/flags.rt"))
    return {**{it.name: it.own for it in structs()}, **dict(re.findall(r"^pub struct (\w+)\((u\d+)\);", flags, re.M))}


def handles():
    """What C calls the structs that hold one address alone."""
    return {it.own for it in structs() if it.is_handle()}


def parameter_of(text):
    name, _, kind = text.strip().partition(": ")
    form = "written" if kind.startswith("&mut ") else "read" if kind.startswith("&") else "value"
    kind = re.sub(r"^&(mut )?|<'_>$", "", kind)
    if kind == "[u8]":
        kind, form = "u8", f"{form} octets"
    return Parameter(RENAMED.get(name, name), struct_names().get(kind, kind), form)


def exports_of(crate):
    """The exports of a library, by their names. (The allocator is no parameter in C.)"""
    found = {}
    for file in sorted(glob.glob(f"crates/{crate}/src/**/*.rt", recursive=True)):
        lines = text_of(file).splitlines()
        for at in [at for at, it in enumerate(lines) if EXPORT.match(it)]:
            signature, _ = signature_of(lines[at : end_of(lines, at, "fn") + 1])
            begin = signature.index("(")
            end = closing(signature, begin)
            given = [it.strip() for it in split_outside(signature[begin + 1 : end])]
            parameters = [parameter_of(it) for it in given if it and it != "alloc: Global"]
            answer = signature[end + 1 :].replace("->", "").strip()
            name = EXPORT.match(lines[at])[1].removeprefix("sedge_")
            is_checked = "#[must_use]" in lines_before(lines, at)
            answer = struct_names().get(answer, answer)
            found[name] = Export(name, docs_before(lines, at), parameters, answer, is_checked)
    return found
