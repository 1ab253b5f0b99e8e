"""Reads the structs and the calls of a C header, with the struct layout of wasm64 or of another processor, given the
octets of its addresses, for tools/portable_c, c/tools/random_calls and web/bindings."""
import os
import re
import typing

POINTER = "pointer"
SIZES = {"uint8_t": 1, "char": 1, "bool": 1, "uint16_t": 2, "uint32_t": 4, "uint64_t": 8, "size_t": 8, POINTER: 8}


class Field(typing.NamedTuple):
    """A field: its name, its type, its place in the struct, and how many there are in a row, 0 for one alone."""

    name: str
    type: str
    at: int
    count: int


class Parameter(typing.NamedTuple):
    name: str
    type: str
    is_pointer: bool
    is_const: bool


class Header:
    """`structs` has each struct's fields, size and alignment, those of a header that it includes too; `calls` has each
    call's result, name and parameters."""

    def __init__(self, path, address=8):
        self.sizes = {**SIZES, "size_t": address, POINTER: address}
        with open(path, encoding="utf-8") as file:
            text = re.sub(r"/\*.*?\*/|^SEDGE_CHECK ", "", file.read(), flags=re.S | re.M)
        self.version = ".".join(re.findall(r"#define SEDGE_VERSION_\w+ (\d+)", text))
        self.structs, self.calls = {}, []
        for it in re.findall(r'^#include "(.*)"$', text, re.M):
            below = Header(os.path.join(os.path.dirname(path), it), address)
            self.version, self.structs = below.version, dict(below.structs)
        text = re.sub(r"^#.*$", "", text, flags=re.M)
        for name, body in re.findall(r"struct (\w+) \{(.*?)\};", text, flags=re.S):
            self.structs[name] = self.layout(body)
        text = re.sub(r"(struct|enum) \w+ \{.*?\};", "", text, flags=re.S)
        for result, name, given in re.findall(r"^((?:struct )?\w+) (\w+)\((.*?)\);", text, flags=re.M | re.S):
            given = [" ".join(it.split()) for it in given.split(",")]
            self.calls.append((result, name, [self.parameter(it) for it in given if it != "void"]))

    @staticmethod
    def parameter(text):
        it = re.fullmatch(r"(const )?((?:struct )?\w+) (\*?)(\w+)", text)
        return Parameter(it[4], it[2], bool(it[3]), bool(it[1]))

    def layout(self, body):
        at, most, fields = 0, 1, []
        for text in filter(None, (it.strip() for it in body.split(";"))):
            it = re.fullmatch(r"(?:const )?((?:struct )?\w+) (\*?)(\w+)(?:\[(\d+)\])?", text)
            of, name, count = POINTER if it[2] else it[1], it[3], int(it[4] or 0)
            size = self.sizes.get(of)
            _, size, align = self.structs[of[7:]] if of.startswith("struct ") else (None, size, size)
            at = -(-at // align) * align
            fields.append(Field(name, of, at, count))
            at += size * max(count, 1)
            most = max(most, align)
        return fields, -(-at // most) * most, most

    def is_octets(self, name):
        """Whether a type has octets alone, so that it is the same everywhere."""
        if name.startswith("struct "):
            return all(self.is_octets(it.type) for it in self.structs[name[7:]][0])
        return SIZES[name] == 1
