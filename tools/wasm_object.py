"""Reads the functions, constants, symbols and relocations of a relocatable WebAssembly object with 64-bit addresses, as
the tool conventions for WebAssembly describe them (linking, version 2). For tools/portable_c.

It refuses what the libraries do not contain: calls by pointer, constants that contain addresses and something else, and
writable data."""
import typing

TYPE_SECTION, IMPORTS, FUNCTIONS, ELEMENTS, CODE, DATA = 1, 2, 3, 9, 10, 11
IS_LOCAL, IS_UNDEFINED, IS_NAMED = 0x02, 0x10, 0x40
# The relocations of an address of a constant, as numbers of 64 bits in code, without and with a sign, and in data; and
# those with an addend.
ADDRESSES, WITH_ADDEND = (14, 15, 16), (3, 4, 5, 8, 9, 11, 14, 15, 16, 22, 23, 25)
# How the names of segments begin that hold constants alone.
CONSTANTS = (".rodata", ".data.rel.ro")


class Refused(Exception):
    """What tools/portable_c does not translate, and where it stands."""


class Reader:
    def __init__(self, data, at=0, end=None):
        self.data, self.at, self.end = data, at, len(data) if end is None else end

    def octet(self):
        self.at += 1
        return self.data[self.at - 1]

    def octets(self, count):
        self.at += count
        return self.data[self.at - count : self.at]

    def leb(self):
        """A number in groups of 7 bits, the lowest first, and the bits that it took."""
        value = bits = 0
        while True:
            it = self.octet()
            value |= (it & 127) << bits
            bits += 7
            if it < 128:
                return value, bits

    def unsigned(self):
        return self.leb()[0]

    def signed(self):
        value, bits = self.leb()
        return value - (1 << bits) if value >> (bits - 1) else value

    def name(self):
        return self.octets(self.unsigned()).decode()

    def several(self, read):
        return [read() for _ in range(self.unsigned())]


class Function(typing.NamedTuple):
    """A function: its name, the types of its parameters and of its result, and from where to where its code is."""

    name: str
    params: list
    results: list
    begin: int = 0
    end: int = 0


class Object:
    """`is_program`: constants that hold addresses have `rooms`, which a program fills when it begins; a library has only
    tables, of addresses alone."""

    def __init__(self, data, is_program=False):
        self.is_program, self.rooms = is_program, {}
        self.data, self.types, self.imports, self.own_types, self.bodies = data, [], [], [], []
        self.globals, self.segments, self.segment_names, self.symbols, self.relocations = [], [], [], [], {}
        self.places, self.aligned, self.tables, self.starts, index, r = [], [], {}, {}, 0, Reader(data, 8)
        reads = {
            TYPE_SECTION: self.read_types,
            IMPORTS: lambda s: s.several(lambda: self.read_import(s)),
            FUNCTIONS: lambda s: self.own_types.extend(s.several(s.unsigned)),
            ELEMENTS: self.refuse_elements,
            CODE: lambda s: s.several(lambda: self.read_body(s)),
            DATA: lambda s: s.several(lambda: self.read_segment(s)),
            0: self.read_custom,
        }
        while r.at < r.end:
            kind, size = r.octet(), r.unsigned()
            self.starts[index] = (kind, r.at)
            reads.get(kind, lambda _: None)(Reader(data, r.at, r.at + size))
            r.at += size
            index += 1
        self.functions = self.named_functions()
        self.tables = {k: it for k, it in enumerate(map(self.table, range(len(self.segments)))) if it}
        for name in self.segment_names:
            if not name.startswith(CONSTANTS):
                raise Refused(f"the object: its data {name} are no constants")

    def read_types(self, s):
        for _ in range(s.unsigned()):
            s.octet()
            self.types.append((s.several(s.octet), s.several(s.octet)))

    def read_import(self, s):
        _, name, kind = s.name(), s.name(), s.octet()
        if kind == 0:
            self.imports.append((name, s.unsigned()))
        elif kind == 3:
            s.octets(2)
            self.globals.append(name)
        else:
            if kind == 1:
                s.octet()
            if s.unsigned() & 1:
                s.unsigned()
            s.unsigned()

    @staticmethod
    def refuse_elements(_):
        raise Refused("the object: a function is called by its address")

    def read_body(self, s):
        size = s.unsigned()
        self.bodies.append((s.at, s.at + size))
        s.at += size

    def read_segment(self, s):
        if s.unsigned() != 0:
            raise Refused("the object: a constant has no place")
        s.octet(), s.signed(), s.octet()
        size = s.unsigned()
        self.places.append(s.at)
        self.segments.append(s.octets(size))

    def read_custom(self, s):
        name = s.name()
        if name == "linking":
            self.read_linking(s)
        elif name in ("reloc.CODE", "reloc.DATA"):
            _, start = self.starts[s.unsigned()]
            for _ in range(s.unsigned()):
                kind, offset, symbol = s.octet(), s.unsigned(), s.unsigned()
                self.relocations[start + offset] = (kind, symbol, s.signed() if kind in WITH_ADDEND else 0)

    def read_linking(self, s):
        s.unsigned()
        while s.at < s.end:
            kind, size = s.octet(), s.unsigned()
            part = Reader(self.data, s.at, s.at + size)
            if kind == 8:
                self.symbols = part.several(lambda: self.read_symbol(part))
            elif kind == 5:
                found = part.several(lambda: (part.name(), part.unsigned(), part.unsigned()))
                self.segment_names, self.aligned = [it[0] for it in found], [it[1] > 0 for it in found]
            s.at += size

    @staticmethod
    def read_symbol(s):
        """A symbol: its kind, whether it is seen from without, its name, and its index; of constants the place too."""
        kind, flags = s.octet(), s.unsigned()
        is_outer, name, index, offset = not flags & IS_LOCAL, "", 0, 0
        if kind == 1:
            name = s.name()
            if not flags & IS_UNDEFINED:
                index, offset, _ = s.unsigned(), s.unsigned(), s.unsigned()
        else:
            index = s.unsigned()
            if kind != 3 and (not flags & IS_UNDEFINED or flags & IS_NAMED):
                name = s.name()
        return kind, is_outer, name, index, offset

    def named_functions(self):
        """All functions by their index: those that are imported, and then the object's own."""
        names = {index: name for kind, _, name, index, _ in self.symbols if kind == 0 and name}
        found = [Function(name, *self.types[kind]) for name, kind in self.imports]
        for k, (kind, body) in enumerate(zip(self.own_types, self.bodies)):
            name = names[len(self.imports) + k]
            if len(self.types[kind][1]) > 1:
                raise Refused(f"{name}: it returns several values")
            found.append(Function(name, *self.types[kind], *body))
        return found

    def outer(self):
        """The names that a program may call."""
        functions = [it for it in self.symbols if it[0] == 0 and it[3] >= len(self.imports)]
        return {name for _, is_outer, name, _, _ in functions if is_outer}

    def called_at(self, place):
        """The function whose number stands at a place of the code."""
        return self.functions[self.symbols[self.relocations[place][1]][3]]

    def constant_at(self, place):
        """The segment of the constant whose address stands at a place of the code, and the place in it; or None."""
        if place not in self.relocations:
            return None
        kind, symbol, addend = self.relocations[place]
        if kind not in ADDRESSES or self.symbols[symbol][0] != 1:
            raise Refused("an address that is not that of a constant")
        return self.symbols[symbol][3], self.symbols[symbol][4] + addend

    def table(self, segment):
        """The constants whose addresses a constant holds, one after another, and nothing else; or None if it holds
        none."""
        begin, size = self.places[segment], len(self.segments[segment])
        if not any(it in self.relocations for it in range(begin, begin + size)):
            return None
        if self.is_program:
            places = [it for it in range(begin, begin + size) if it in self.relocations]
            self.rooms[segment] = [(it - begin, *self.constant_at(it)) for it in places]
            return None
        found = [self.constant_at(it) for it in range(begin, begin + size, 8)]
        if None in found or size % 8 != 0:
            raise Refused("the object: a constant holds an address beside something else")
        return found
