"""Writes a function of WebAssembly as C statements, for tools/portable_c.

A value on the machine's stack is an expression; it is put into a variable first where something is written on which it
depends. A frame on the stack in memory is an array of the function, from an address that 16 divides, as it does that of
each frame where the code was compiled. LLVM writes `|` for `+` where it knows that no bit meets another, so:

- the size of a frame is a multiple of 16, and `|` takes an address in a frame and a constant below 16, nothing else;
  its lowest bits may be copied, since they are known alike here;
- an address of a constant meets `+`, `-` and comparisons alone, and where LLVM aligned the constant, so that it knows
  bits of the address, this is never put into memory, from where it could come back unseen;
- nothing is written at such an address, and a table of them is read alone, each address whole.

What breaks a rule, or is not known here, is refused with the name of the function."""
import collections
import copy
import functools
import itertools
import re
import struct
import textwrap

from c_flow import Node, shown, simplified, texts
from c_variables import shortened, with_own_variables
from wasm_object import Reader, Refused

I32, I64, F64 = 0x7F, 0x7E, 0x7C
C_TYPES, BITS = {I32: "uint32_t", I64: "uint64_t", F64: "double"}, {I32: 32, I64: 64}
# What an address is derived from: a constant that LLVM aligned, another constant, the frame, the stack pointer, or a
# room (tools/wasm_object.py), which is aligned here too.
CONSTANT, TEXT, FRAME, POINTER, ROOM = "constant", "text", "frame", "pointer", "room"
# The most octets of a frame.
MOST_OF_LIBRARY, MOST_OF_PROGRAM = 2**16, 2**20
# What stands for a place in a table of addresses, where no text may have it; and why.
TABLE, MISREAD = "\0", "a table of addresses is used as octets"
END, RETURN = 0x0B, 0x0F
# What a variable is set to by what has no other effect and reads no variable.
SET_ALONE = r"(?:0x[0-9a-f]+|\d+)U?(?:LL)?|aligned\(frame_octets\)"
# How the code asks whether the stack has room for its frame, and the answer: an array of the function has.
ENOUGH = {("<s", 16): 0, (">s", 15): 1}

OPERATIONS = ["+", "-", "*", None, "/", None, "%", "&", "|", "^", "<<", ">>s", ">>", "rotl", "rotr"]
COMPARISONS = ["==", "!=", "<s", "<", ">s", ">", "<=s", "<=", ">=s", ">="]
CONTRARY = {"==": "!=", "!=": "==", "<": ">=", ">=": "<", ">": "<=", "<=": ">"}
BINARY = {first + k: (it, t) for first, t in ((0x6A, I32), (0x7C, I64)) for k, it in enumerate(OPERATIONS) if it}
COMPARE = {first + k: (it, t) for first, t in ((0x46, I32), (0x51, I64)) for k, it in enumerate(COMPARISONS)}
# Of each read: the type of its value, the bits, and whether they have a sign; of each write the bits.
READ = {0x28: (I32, 32, 0), 0x2C: (I32, 8, 1), 0x2D: (I32, 8, 0), 0x2E: (I32, 16, 1), 0x2F: (I32, 16, 0)}
READ |= {0x29: (I64, 64, 0), 0x30: (I64, 8, 1), 0x31: (I64, 8, 0), 0x32: (I64, 16, 1), 0x33: (I64, 16, 0)}
READ |= {0x34: (I64, 32, 1), 0x35: (I64, 32, 0)}
WRITE = {0x36: 32, 0x37: 64, 0x3A: 8, 0x3B: 16, 0x3C: 8, 0x3D: 16, 0x3E: 32}
# The numbers that are made longer, with the sign of so many bits.
EXTEND = {0xAC: (I64, 32), 0xC0: (I32, 8), 0xC1: (I32, 16), 0xC2: (I64, 8), 0xC3: (I64, 16), 0xC4: (I64, 32)}
# What counts the bits of a number: the highest that are 0, the lowest, and all that are 1.
COUNTS = {first + k: (it, t) for first, t in ((0x67, I32), (0x79, I64)) for k, it in enumerate(("clz", "ctz", "ones"))}
# Arithmetic and comparisons of numbers with a fraction.
FRACTIONS = {0xA0: "+", 0xA1: "-", 0xA2: "*", 0xA3: "/"}
COMPARE_FRACTIONS = {0x61: "==", 0x62: "!=", 0x63: "<", 0x64: ">", 0x65: "<=", 0x66: ">="}
# How many numbers follow an instruction, where these are read over.
OPERANDS = dict.fromkeys([0x0C, 0x0D, 0x10, *range(0x20, 0x25), 0x41, 0x42], 1) | dict.fromkeys(range(0x28, 0x3F), 2)
NOTHING = frozenset()


class Value:
    """A value on the stack: an expression, with what it depends on."""

    def __init__(
        self, text, kind, *of, tight=False, number=None, contrary=None, reads=False, name=None, derived=NOTHING
    ):
        self.text, self.kind, self.number, self.contrary = text, kind, number, contrary
        self.derived = frozenset(it for it in derived if isinstance(it, str))
        self.origin = derived
        self.is_bottom, self.entry, self.between, self.above = False, None, None, None
        self.is_tight = tight or number is not None
        self.names = frozenset().union({name} if name else (), *(it.names for it in of))
        self.reads = reads or any(it.reads for it in of)

    def is_settled(self):
        """Whether nothing that is written later changes it: a number, or a variable that is set once."""
        return self.number is not None or self.is_tight and not self.names and not self.reads and not self.contrary

    def given(self):
        """The parameters of calls, each as the call and its name, from whose addresses it may be derived."""
        return self.origin - self.derived

    def is_packed(self):
        """Whether it may be several numbers in a variable that holds an address of the frame on another way: of an
        address in a variable no octets are taken."""
        return self.derived == {FRAME} and self.names == {self.text}

    def operand(self):
        if self.contrary:
            return f"(uint32_t)({self.text})"
        return self.text if self.is_tight else f"({self.text})"

    def plain(self):
        """The text where C itself makes the type fit: a small number without its type."""
        return spelled(self.number) if self.number is not None and self.number < 2**31 else self.text

    def test(self):
        """A condition, and its contrary."""
        return (self.text, self.contrary) if self.contrary else (f"{self.operand()} != 0", f"{self.operand()} == 0")


def spelled(number):
    return str(number) if number < 1000 else f"{number:#x}"


def number_of(number, kind):
    number &= 2 ** BITS[kind] - 1
    after = "U" if kind == I32 else "ULL"
    if number > 2 ** BITS[kind] - 4096:
        return Value(f"~{2 ** BITS[kind] - 1 - number}{after}", kind, number=number)
    return Value(spelled(number) + after, kind, number=number)


def left_of(value):
    """The text of the first part of a sum: another sum needs no parentheses there."""
    return value.text if re.fullmatch(r"[\w() ,+-]+", value.text) and not value.contrary else value.operand()


class Block:
    """A block of the code that is open: where its statements were to go, and the variables that get its results."""

    def __init__(self, kind, label, height, types=(), results=(), before=None, test=None):
        self.kind, self.label, self.height, self.types, self.results = kind, label, height, types, results
        self.before, self.test, self.then, self.entry, self.arrived = before, test, None, {}, {}


def united(a, b):
    """What variables are derived from, where two ways meet."""
    return {name: a.get(name, NOTHING) | b.get(name, NOTHING) for name in {**a, **b}}


class Translation:
    """A function in C. `now` has what each variable is derived from at the place that is read."""

    def __init__(self, program, function, names):
        self.program, self.name, self.function = program, function.name, function
        self.reader = Reader(program.object.data, function.begin, function.end)
        self.items, self.temporary, self.labels, self.frame, self.constants = [], 0, 0, 0, []
        self.locals = list(zip(names, function.params))
        self.kinds = {}
        for _ in range(self.reader.unsigned()):
            count, kind = self.reader.unsigned(), self.reader.octet()
            self.locals += [(f"v{len(self.locals) + k}", kind) for k in range(count)]
        # Its statements and its name where they are not its own (tools/c_checks.py).
        self.ready = self.own_name = None
        self.stack, self.open = [], [Block("function", None, 0, results=function.results)]
        self.now = {name: self.known(name) for name in names}
        # The variables that hold the lowest address of the frame, whichever way the code has taken.
        self.bottoms = NOTHING
        # The copies that a test of overlap stood before: to where, from where, and the number of octets.
        self.unseen = set()
        try:
            self.run()
            for to, source, count in self.unseen:
                raise Refused(f"{to} - {source} is compared with {count}, and no such copy follows")
        except Refused as why:
            raise Refused(f"{self.name}: {why}") from None

    # ---- What is written, and what that does to the values on the stack. ----

    def fresh(self, kind):
        self.temporary += 1
        self.kinds[f"t{self.temporary}"] = kind
        return f"t{self.temporary}"

    def settled(self, value):
        """A value that no later statement changes."""
        if value.is_settled():
            return value
        name = self.fresh(value.kind)
        self.items.append(f"{name} = {value.plain()};")
        return Value(name, value.kind, tight=True, derived=value.origin)

    def settle(self, which):
        self.stack = [self.settled(it) if which(it) else it for it in self.stack]

    def settle_reads(self):
        self.settle(lambda it: it.reads)

    def push(self, *how, **more):
        self.stack.append(Value(*how, **more))

    def pop(self, count):
        values = self.stack[len(self.stack) - count :]
        del self.stack[len(self.stack) - count :]
        return values

    def learn(self, name, derived):
        """Keeps what a variable is derived from, which what was translated before may not have known."""
        self.program.learn((self.name, name), derived)

    def known(self, name):
        return self.program.known.get((self.name, name), NOTHING)

    # ---- Blocks and branches. ----

    def run(self):
        r = self.reader
        while r.at < r.end:
            if self.take(r.octet()):
                self.skip()

    def skip(self):
        """Reads over what is never reached, to the end of the block or to its other half."""
        r, depth = self.reader, 0
        while True:
            op = r.octet()
            if op in (2, 3, 4):
                self.block_types()
                depth += 1
            elif depth == 0 and op == 5:
                return self.otherwise(False)
            elif op == END and depth == 0:
                return self.end(False)
            elif op == END:
                depth -= 1
            elif op == 0x0E:
                r.several(r.unsigned), r.unsigned()
            elif op == 0x44:
                r.octets(8)
            elif op == 0xFC:
                for _ in range(2 if r.unsigned() == 10 else 1):
                    r.unsigned()
            else:
                for _ in range(OPERANDS.get(op, 0)):
                    r.signed()

    def block_types(self):
        r = self.reader
        it = r.signed()
        if it >= 0:
            raise Refused("a block that takes values")
        return [] if it == -64 else [it + 128]

    def begin(self, kind, test=None):
        self.settle(lambda it: not it.is_settled())
        types = self.block_types()
        self.labels += 1
        results = [self.fresh(it) for it in types] if kind != "loop" else []
        self.open.append(Block(kind, f"l{self.labels}", len(self.stack), types, results, self.items, test))
        self.open[-1].entry, self.items = self.now, []
        if kind == "loop":
            self.bottoms = NOTHING
            again = {name: self.known(f"l{self.labels} {name}") for name, _ in self.locals}
            self.now = united(self.now, again)

    def give_results(self, block):
        """The statements that hand on the values that a block is left with."""
        values = self.stack[len(self.stack) - len(block.results) :]
        for name, it in zip(block.results, values):
            self.learn(name, it.origin)
        return [f"{name} = {it.plain()};" for name, it in zip(block.results, values)]

    def otherwise(self, is_reached):
        block = self.open[-1]
        if is_reached:
            self.items += self.give_results(block)
            block.arrived = united(block.arrived, self.now)
        del self.stack[block.height :]
        block.then, self.items, self.now, self.bottoms = self.items, [], block.entry, NOTHING

    def end(self, is_reached):
        block = self.open.pop()
        if block.kind == "function":
            self.items += self.returned(True) if is_reached else []
            return
        if is_reached:
            self.items += self.give_results(block)
            block.arrived = united(block.arrived, self.now)
        if block.kind == "if" and block.then is None:
            block.arrived = united(block.arrived, block.entry)
        self.now, self.bottoms = block.arrived, NOTHING
        left = [self.settled(it) for it in self.stack[block.height :]] if block.kind == "loop" else []
        del self.stack[block.height :]
        inner, self.items = self.items, block.before
        if block.kind == "if":
            parts = [inner, []] if block.then is None else [block.then, inner]
            inner = [Node("if", parts, test=block.test)]
        self.items.append(Node("loop" if block.kind == "loop" else "block", [inner], block.label))
        if block.kind == "loop":
            self.stack += left or [number_of(0, it) for it in block.types]
        for name, kind in zip(block.results, block.types):
            self.push(name, kind, tight=True, derived=self.known(name))

    def returned(self, always=False):
        if not self.function.results:
            return ["return;"]
        value = self.stack[-1]
        self.learn("result", value.origin)
        return [f"return {self.from_call(value) if always else value.plain()};"]

    def branch(self, depth):
        """The statements of a way to the end of a block, or to the beginning of a loop."""
        block = self.open[-1 - depth]
        if block.kind == "function":
            return self.returned()
        if block.kind == "loop":
            for name, derived in self.now.items():
                self.learn(f"{block.label} {name}", derived)
        else:
            block.arrived = united(block.arrived, self.now)
        return [*self.give_results(block), Node("goto", label=block.label)]

    def branch_if(self):
        """Takes a branch on a condition; true where it is always taken."""
        (value,), depth = self.pop(1), self.reader.unsigned()
        if value.number is not None:
            self.items += self.branch(depth) if value.number else []
            return value.number != 0
        results = self.open[-1 - depth].results
        kept = [self.settled(it) for it in self.pop(len(results))]
        self.stack += kept
        self.items.append(Node("if", [self.branch(depth), []], test=value.test()))
        return False

    def branch_table(self):
        r, (value,) = self.reader, self.pop(1)
        targets, last = r.several(r.unsigned), r.unsigned()
        places = [it for it in dict.fromkeys(targets) if it != last]
        text, first = (value.plain(), 0) if value.above is None else value.above
        keys = [[k + first for k, it in enumerate(targets) if it == place] for place in places]
        parts = [self.branch(it) for it in [*places, last]]
        self.items.append(Node("switch", parts, test=(text, None), keys=keys))

    # ---- Instructions. ----

    def take(self, op):
        """Takes an instruction; true where nothing after it in its block is reached."""
        r = self.reader
        if op in (2, 3, 4):
            self.begin({2: "block", 3: "loop", 4: "if"}[op], self.pop(1)[0].test() if op == 4 else None)
        elif op == 5:
            self.otherwise(True)
        elif op == END:
            self.end(True)
        elif op == 0x0D:
            return self.branch_if()
        elif op == 0x00:
            self.items.append("UNREACHABLE;")
        elif op == 0x0C:
            self.items += self.branch(r.unsigned())
        elif op == 0x0E:
            self.branch_table()
        elif op == RETURN:
            self.items += self.returned(True)
        else:
            self.take_value(op)
        return op in (0x00, 0x0C, 0x0E, RETURN)

    @functools.cached_property
    def alone(self):
        """The instructions that stand in no table, and what each does."""
        found = {0x01: lambda: None, 0x10: self.call, 0x1A: lambda: self.pop(1), 0x1B: self.select}
        found |= {0x20: self.get, 0x21: self.set, 0x22: self.tee, 0x23: self.get_pointer, 0x24: self.set_pointer}
        found |= {0x41: lambda: self.constant(I32), 0x42: lambda: self.constant(I64), 0xFC: self.move_octets}
        found |= {0x45: self.is_zero, 0x50: self.is_zero, 0xA7: lambda: self.cast(I32), 0xAD: lambda: self.cast(I64)}
        return found

    def take_value(self, op):
        r = self.reader
        if op in self.alone:
            self.alone[op]()
        elif op in READ:
            self.read(*READ[op])
        elif op in WRITE:
            self.write(WRITE[op])
        elif op in BINARY:
            (sign, kind), (a, b) = BINARY[op], self.pop(2)
            self.binary(sign, kind, a, b)
            if sign == "-" and self.are_apart(a, b):
                self.stack[-1].between = a.text, b.text
        elif op in COMPARE:
            self.compare(*COMPARE[op], *self.pop(2))
        elif op in COUNTS:
            (value,), (name, kind) = self.pop(1), COUNTS[op]
            self.no_address(value)
            self.push(f"{name}{BITS[kind]}({value.plain()})", kind, value, tight=True)
        elif op in EXTEND:
            kind, bits = EXTEND[op]
            (value,) = self.pop(1)
            self.no_address(value)
            self.push(f"extend{BITS[kind]}({value.plain()}, {1 << (bits - 1):#x})", kind, value, tight=True)
        elif not self.program.object.is_program or not self.fraction(op):
            raise Refused(f"the instruction {op:#04x} at {r.at - 1} is not known")

    def fraction(self, op):
        """Takes an instruction about numbers with a fraction, if it is one."""
        if op == 0x44:
            (number,) = struct.unpack("<d", self.reader.octets(8))
            text = number.hex().replace("inf", "(double)INFINITY").replace("nan", "(double)NAN")
            self.push(f"({text})" if text[0] == "-" else text, F64, tight=True)
        elif op in FRACTIONS:
            a, b = self.pop(2)
            self.shorten(Value(f"{a.operand()} {FRACTIONS[op]} {b.operand()}", F64, a, b))
        elif op in COMPARE_FRACTIONS:
            a, b = self.pop(2)
            text = f"{a.operand()} {COMPARE_FRACTIONS[op]} {b.operand()}"
            self.push(text, I32, a, b, contrary=f"!({text})")
        elif op == 0xBA:
            (value,) = self.pop(1)
            self.no_address(value)
            self.push(f"(double){value.operand()}", F64, value, tight=True)
        elif op == 0x2B:
            (base,) = self.pop(1)
            self.push(f"get_fraction({self.place(base)})", F64, base, tight=True, reads=True)
        elif op == 0x39:
            base, value = self.pop(2)
            place = self.place(base, True)
            self.settle_reads()
            self.items.append(f"put_fraction({place}, {value.plain()});")
        else:
            return False
        return True

    def call(self):
        place = self.reader.at
        self.reader.unsigned()
        callee = self.program.object.called_at(place)
        given = self.pop(len(callee.params))
        self.settle_reads()
        for k, it in enumerate(given):
            self.program.learn((callee.name, self.program.parameters(callee)[k]), it.origin)
            if callee.end == 0:
                self.program.read |= it.given()
                for own in it.given():
                    self.program.use(own, None)
        text = f"{self.program.name_of(callee)}({', '.join(it.plain() for it in given)})"
        if not callee.results:
            self.items.append(f"{text};")
            return
        name = self.fresh(callee.results[0])
        self.items.append(f"{name} = {text};")
        derived = self.program.known.get((callee.name, "result"), NOTHING)
        self.push(name, callee.results[0], tight=True, derived=derived)

    def from_call(self, value):
        """A value's text. The call whose result it is, just before, is taken off and stands for it."""
        last = self.items[-1] if self.items else None
        if value.text in self.kinds and isinstance(last, str) and last.startswith(f"{value.text} = "):
            return self.items.pop()[len(value.text) + 3 : -1]
        return value.plain()

    def select(self):
        a, b, test = self.pop(3)
        text = f"({test.test()[0]}) ? {a.operand()} : {b.operand()}"
        self.shorten(Value(text, a.kind, a, b, test, derived=a.origin | b.origin))

    def shorten(self, value):
        """Pushes a value, by way of a variable where its text is long."""
        self.stack.append(self.settled(value) if len(value.text) > 100 else value)

    def get(self):
        name, kind = self.locals[self.reader.unsigned()]
        self.push(name, kind, tight=True, name=name, derived=self.now.get(name, NOTHING))
        self.stack[-1].is_bottom = name in self.bottoms

    def set(self):
        name, _ = self.locals[self.reader.unsigned()]
        (value,) = self.pop(1)
        self.settle(lambda it: name in it.names)
        self.now = {**self.now, name: value.origin}
        self.bottoms = self.bottoms - {name} | ({name} if value.is_bottom else NOTHING)
        # (what keeps the stack pointer can only set it again, which is nothing here)
        if value.text != name and POINTER not in value.derived:
            self.items.append(f"{name} = {self.from_call(value)};")

    def tee(self):
        at = self.reader.at
        self.set()
        self.reader.at = at
        self.get()

    def get_pointer(self):
        self.reader.unsigned()
        self.push("stack", I64, derived=frozenset([POINTER]))
        self.stack[-1].is_bottom = True

    def set_pointer(self):
        self.reader.unsigned()
        (value,) = self.pop(1)
        if not value.derived or value.derived - {FRAME, POINTER}:
            raise Refused("the stack pointer is set to what is not derived from it")

    def constant(self, kind):
        place = self.reader.at
        number, found = self.reader.signed(), self.program.object.constant_at(place)
        if found and found[0] in self.program.object.tables:
            self.stack.append(self.entry(*found))
        elif found:
            self.push(self.address_of(found), kind, tight=True, derived=self.derived_from(found[0]))
        else:
            self.stack.append(number_of(number, kind))

    def address_of(self, found):
        segment, offset = found
        if segment in self.program.object.tables:
            raise Refused(MISREAD)
        name = self.constant_named(segment)
        if segment in self.program.object.rooms:
            name, of = f"aligned({name})", abs(offset)
            return f"({name} {'-' if offset < 0 else '+'} {of})" if offset else name
        if offset < 0:
            return f"(address({name}) - {-offset})"
        return f"address({name} + {offset})" if offset else f"address({name})"

    def derived_from(self, segment):
        if segment in self.program.object.rooms:
            return frozenset([ROOM])
        return frozenset([CONSTANT if self.program.object.aligned[segment] else TEXT])

    def constant_named(self, segment):
        if segment not in self.constants:
            self.constants.append(segment)
        return self.program.constant_name(segment)

    def place(self, base, is_written=False):
        """The address of a read or a write."""
        self.reader.unsigned()
        place = self.reader.at
        offset, found = self.reader.unsigned(), self.program.object.constant_at(place)
        if POINTER in base.derived:
            raise Refused("memory at the stack pointer itself is used")
        if not is_written:
            self.program.read |= base.given()
        if is_written and (found or base.derived & {CONSTANT, TEXT, ROOM}):
            raise Refused("a constant is written")
        if found:
            return self.address_of(found) if base.number == 0 else f"{left_of(base)} + {self.address_of(found)}"
        return f"{left_of(base)} + {offset}" if offset else base.plain()

    def entry(self, segment, offset, index=None):
        """A place in a table of addresses: so many octets from its beginning, and an index times 8 more. It is read
        alone; a text with its own is refused."""
        more = index.number if index and index.number is not None else 0
        index = None if index and index.number is not None else index
        if (offset + more) % 8 != 0 or index and index.derived:
            raise Refused(MISREAD)
        value = Value(TABLE, I64, *[index] * bool(index), derived=frozenset([CONSTANT]))
        value.entry = segment, offset + more, index
        return value

    def read_address(self, base):
        """Reads an address from a table of them, where the instruction does so: true then. A place there has 8 octets;
        here it has those of an address."""
        at = self.reader.at
        self.reader.unsigned()
        found, offset = self.program.object.constant_at(self.reader.at), self.reader.unsigned()
        if found and found[0] in self.program.object.tables:
            base, offset = self.entry(*found, base), 0
        elif found or not base.entry:
            self.reader.at = at
            return False
        segment, begin, index = base.entry
        begin = (begin + offset) // 8
        text = f"{index.operand()} / 8" + f" + {begin}" * (begin > 0) if index else str(begin)
        derived = frozenset().union(*(self.derived_from(it) for it, _ in self.program.object.tables[segment]))
        self.push(f"address({self.constant_named(segment)}[{text}])", I64, base, tight=True, derived=derived)
        return True

    def whole(self, base, bits):
        """How the functions are named that read and write so many bits here: in the machine's own order where what the
        address is derived from is one parameter, of a type that has numbers of so many bits alone."""
        given = base.given()
        for it in given:
            self.program.use(it, bits if given == {it} and not base.derived else None)
        return "own" if self.program.header and given and all(map(self.program.is_own, given)) else ""

    def read(self, kind, bits, has_sign):
        (base,) = self.pop(1)
        if bits == 64 and self.read_address(base):
            return
        text = f"{self.whole(base, bits) or 'get'}{bits}({self.place(base)})"
        if has_sign:
            text = f"extend{BITS[kind]}({text}, {1 << (bits - 1):#x})"
        elif kind == I64 and bits < 64:
            text = f"(uint64_t){text}"
        self.push(text, kind, base, tight=True, reads=True)

    def write(self, bits):
        base, value = self.pop(2)
        if CONSTANT in value.derived:
            raise Refused("an address of a constant that is aligned is put into memory")
        self.program.read |= value.given()
        for it in value.given():
            self.program.use(it, None)
        place = self.place(base, True)
        self.settle_reads()
        text = value.plain() if value.number is None else number_of(value.number & (2**bits - 1), value.kind).plain()
        if value.kind == I64 and bits < 64 and value.number is None:
            text = f"(uint32_t){value.operand()}"
        own = self.whole(base, bits)
        self.items.append(f"put{own and '_' + own}{bits}({place}, {text});")

    def move_octets(self):
        how = self.reader.unsigned()
        if how not in (10, 11):
            raise Refused(f"the instruction 0xfc {how} is not known")
        for _ in range(2 if how == 10 else 1):
            self.reader.unsigned()
        given = self.pop(3)
        if given[0].derived & {CONSTANT, TEXT, ROOM}:
            raise Refused("a constant is written")
        self.program.read |= given[1].given()
        for it in given[0].given() | given[1].given():
            # (octets that are all the same are a number in any order)
            if how == 10:
                self.program.use(it, None)
        self.unseen.discard(tuple(it.text for it in given))
        self.settle_reads()
        self.items.append(f"{'copy' if how == 10 else 'fill'}({', '.join(it.plain() for it in given)});")

    def cast(self, kind):
        (value,) = self.pop(1)
        if value.derived != {FRAME} or kind != I32:
            self.no_address(value)
        derived = NOTHING if value.is_packed() else value.origin
        self.push(f"({C_TYPES[kind]}){value.operand()}", kind, value, tight=True, derived=derived)

    @staticmethod
    def no_address(*values):
        if any(it.derived for it in values):
            raise Refused("an address of the frame or of a constant is taken apart")

    def is_zero(self):
        (value,) = self.pop(1)
        text, contrary = value.test()
        self.push(contrary, I32, value, contrary=text)

    def compare(self, sign, kind, a, b):
        if a.is_bottom and (sign, b.number) in ENOUGH:
            return self.stack.append(number_of(ENOUGH[sign, b.number], I32))
        if POINTER in a.derived | b.derived:
            raise Refused("the stack pointer is compared")
        if a.between and b.names and sign in ("<", ">="):
            return self.apart(a, b, sign)
        # (a difference of two addresses is none)
        is_address = any(it.derived == {FRAME} and " - " not in it.text for it in (a, b))
        if is_address and sign not in ("==", "!=") and not (a.number is b.number is None):
            raise Refused(f"an address of the frame is compared by {sign} with a number: {a.text} {sign} {b.text}")
        x, y = self.operands(a, b)
        if sign.endswith("s"):
            half = 2 ** (BITS[kind] - 1)
            bound = {"<s": 0, ">=s": 0, ">s": -1, "<=s": -1}[sign]
            if b.number == bound % 2 ** BITS[kind]:
                # Whether it is negative.
                sign, y = (">" if sign[0] == "<" else "<="), number_of(half - 1, kind).text
            else:
                x, sign = f"ordered{BITS[kind]}({a.plain()})", sign[:-1]
                y = f"ordered{BITS[kind]}({b.plain()})" if b.number is None else number_of(b.number ^ half, kind).text
        self.push(f"{x} {sign} {y}", I32, a, b, contrary=f"{x} {CONTRARY[sign]} {y}")

    def apart(self, a, b, sign):
        """Takes a test of overlap: whether what is written, so many octets from an address on, begins in what is copied
        there. One of the two is what a call was given to write to, or the function's own, and the other something else
        that it was given: these overlap nowhere (sedgechisel.h), so the loop of LLVM's for such octets goes. The copy
        that the test stood before has to follow."""
        self.unseen.add((*a.between, b.text))
        self.stack.append(number_of(int(sign == ">="), I32))

    def are_apart(self, a, b):
        """Whether two addresses are known to be derived from different parameters of the calls, or from the frame."""
        known = a.origin, b.origin
        is_known = all(it and not it & {CONSTANT, TEXT, ROOM, POINTER} for it in known)
        return self.program.header and is_known and not known[0] & known[1]

    @staticmethod
    def operands(a, b):
        return (
            a.plain() if a.number is not None and b.number is None else a.operand(),
            b.plain() if b.number is not None and a.number is None else b.operand(),
        )

    def binary(self, sign, kind, a, b):
        derived, given = a.derived | b.derived, a.given() | b.given()
        if POINTER in derived:
            return self.frame_address(sign, a, b)
        if a.entry or b.entry:
            (segment, offset, index), other = (a.entry, b) if a.entry else (b.entry, a)
            if sign != "+" or index:
                raise Refused(MISREAD)
            return self.stack.append(self.entry(segment, offset, other))
        if a.is_packed() and b.number and sign in "&>>":
            derived = NOTHING
        is_within = derived == {FRAME} and sign == "|" and not b.derived and (b.number or 16) < 16
        if derived and sign not in "+-" and not is_within:
            raise Refused(f"an address of the frame or of a constant meets {sign}")
        bits, (x, y) = BITS[kind], self.operands(a, b)
        if a.contrary and b.contrary and sign in "&|":
            sign = sign * 2
            text = f"{self.joined(a.text)} {sign} {self.joined(b.text)}"
            return self.shorten(Value(text, kind, a, b, contrary=f"!({text})"))
        if sign == "+" and b.text == f"({a.text} == 0) ? 0x1000ULL : 0ULL":
            text = f"some({a.text})"
            return self.push(text, kind, a, tight=True, derived=derived | given)
        if sign == "+" and b.number is not None and b.number > 2**bits - 2**16:
            less = 2**bits - b.number
            text = f"{left_of(a)} - {spelled(less)}"
            self.shorten(Value(text, kind, a, b, derived=derived | given))
            if self.program.header and self.stack[-1].text == text:
                self.stack[-1].above = a.plain(), less
            return None
        elif sign in "+-":
            text = f"{x if a.number is not None else left_of(a)} {sign} {y}"
        elif sign == "^" and b.number == 2**bits - 1:
            return self.push(f"~{a.operand()}", kind, a, tight=True)
        elif sign in ("<<", ">>"):
            text = f"{a.operand()} {sign} " + (str(b.number % bits) if b.number is not None else f"({y} & {bits - 1})")
        elif sign == "rotr":
            count = str(-b.number % bits) if b.number is not None else f"({bits} - ({y} & {bits - 1})) & {bits - 1}"
            return self.push(f"rotl{bits}({a.plain()}, {count})", kind, a, b, tight=True)
        elif sign in (">>s", "rotl"):
            count = str(b.number % bits) if b.number is not None else f"{y} & {bits - 1}"
            text = f"{'sar' if sign == '>>s' else 'rotl'}{bits}({a.plain()}, {count})"
            return self.push(text, kind, a, b, tight=True)
        else:
            text = f"{x} {sign} {y}"
        return self.shorten(Value(text, kind, a, b, derived=derived | given))

    @staticmethod
    def joined(text):
        return f"({text})" if "&&" in text or "||" in text else text

    def frame_address(self, sign, a, b):
        size = b.number if sign == "-" else 2**64 - b.number if sign == "+" and b.number else None
        most = MOST_OF_PROGRAM if self.program.object.is_program else MOST_OF_LIBRARY
        if a.derived != {POINTER} or not size or size % 16 != 0 or size > most or self.frame not in (0, size):
            raise Refused("the stack pointer is not moved by a multiple of 16")
        self.frame = size
        self.push("aligned(frame_octets)", I64, tight=True, derived=frozenset([FRAME]))
        self.stack[-1].is_bottom = True

    # ---- The text. ----

    def signature(self):
        result = C_TYPES[self.function.results[0]] if self.function.results else "void"
        names = ", ".join(f"{C_TYPES[kind]} {name}" for name, kind in self.locals[: len(self.function.params)])
        return f"static {result} {self.own_name or self.program.name_of(self.function)}({names or 'void'})"

    def params(self):
        return [name for name, _ in self.locals[: len(self.function.params)]]

    def names(self):
        """What each variable of the machine's holds before the function begins."""
        kinds = {**dict(self.locals), **self.kinds}
        return {**dict.fromkeys(kinds, "zero"), **dict.fromkeys(self.kinds, ""), **dict.fromkeys(self.params(), "argument")}

    def shortened(self, items=None):
        """The function's statements, or others, without those that a reader does not need."""
        items = simplified(self.items if items is None else items)
        return shortened(items, self.names(), self.program.fields(self.function))

    def beginning(self, items, name, parameter):
        """A function of its own of these statements, the beginning of this one, which is given one of its parameters."""
        made, kind = copy.copy(self), dict(self.locals)[parameter]
        made.ready, made.own_name, made.function = items, name, self.function._replace(params=[kind])
        made.locals = [(parameter, kind), *self.locals[len(self.function.params) :]]
        return made

    def lines(self, items=None):
        """The function's lines; those of other statements than its own where these are given."""
        params, kinds = self.params(), {**dict(self.locals), **self.kinds}
        if self.program.header:
            items = self.ready if items is None and self.ready else self.shortened(items)
            fields = self.program.fields(self.function)
            items, found = with_own_variables(items, self.names(), self.program.taken, fields)
            items, kinds = simplified(items), {name: (kinds[was], is_zero) for name, (was, is_zero) in found.items()}
        else:
            items = simplified(self.items if items is None else items)
            kinds = {name: (kind, name not in self.kinds) for name, kind in kinds.items() if name not in params}
        body = self.finished(shown(items, 1))
        if any(TABLE in it for it in body):
            raise Refused(f"{self.name}: {MISREAD}")
        used = set(re.findall(r"\w+", "\n".join(body)))
        body = [*(f"    (void){it};" for it in params if it not in used), *body]
        lines = [*wrapped(self.signature()), "{"]
        if any("frame_octets" in it for it in body):
            lines.append(f"    unsigned char frame_octets[{self.frame} + 15];")
        for kind in (I32, I64, F64):
            its = [f"{name}@=@0" if is_zero else name for name, (own, is_zero) in kinds.items() if own == kind and name in used]
            declared = wrapped(f"    {C_TYPES[kind]} {', '.join(its)};") if its else []
            lines += [it.replace("@", " ") for it in declared]
        return [*lines, *(line for it in body for line in wrapped(it)), "}"]

    def only_with(self, table, octets):
        """The lines of the function without what uses a table from so many octets on: conditions by which the source
        takes several octets at once, where it takes one at a time after them."""
        items = simplified(self.items)
        beyond = [it for it in items if isinstance(it, Node) and farthest([it], table) >= octets]
        left = [it for it in items if it not in beyond]
        if not beyond or farthest(left, table) >= octets or any(it.kind != "if" or it.parts[1] for it in beyond):
            raise Refused(f"{self.name}: what uses {table} from {octets} on is no condition of its own")
        return self.lines(left)

    def finished(self, body):
        """The lines of a body as they are written."""
        if self.program.header:
            return self.program.with_names(self.function, body)
        return with_fillings(self.without_unread(without_kept(body)))

    def without_unread(self, body):
        """A body in which no variable is set to a number, or to where the frame is, that nothing reads."""
        text = "\n".join(body)
        for name, _ in self.locals:
            if not re.search(rf"^ *(?!{name} = )\S.*\b{name}\b|^ *{name} = .*\b{name}\b", text, re.M):
                text = re.sub(rf"^ *{name} = ({SET_ALONE});\n", "", text, flags=re.M)
        return text.split("\n")


def farthest(items, table):
    """The last place in a table that the statements use."""
    places = (int(it) for text in texts(items) for it in re.findall(rf"\b{table} \+ (\d+)", text))
    return max(places, default=0)


def without_kept(body):
    """A body in which the result of a call is not kept where nothing uses it, as before what is never reached."""
    counts = collections.Counter(re.findall(r"\bt\d+\b", "\n".join(body)))
    kept = re.compile(r"^( *)(t\d+) = (\w+\(.*\);)$")
    counts.subtract(it[2] for it in map(kept.match, body) if it)
    return [kept.sub(lambda it: it[0] if counts[it[2]] else it[1] + it[3], line) for line in body]


ZEROS = re.compile(r"( *)(?:put(\d+)|fill)\((\w+)(?: \+ (\d\w*))?, 0(?:, (\d\w*))?\);")


def with_fillings(body):
    """A body in which zeros that are put side by side, one statement after another, are one filling."""
    found = []
    for where, lines in itertools.groupby(body, lambda line: (it := ZEROS.fullmatch(line)) and (it[1], it[3])):
        if where is None:
            found += lines
            continue
        rooms = []
        for it in map(ZEROS.fullmatch, lines):
            at = int(it[4] or "0", 0)
            rooms.append((at, at + (int(it[2]) // 8 if it[2] else int(it[5], 0))))
        for at, end in joined(sorted(rooms)):
            how, more = (f"put{8 * (end - at)}", "") if end - at in (1, 2, 4, 8) else ("fill", f", {spelled(end - at)}")
            place = f"{where[1]} + {spelled(at)}" if at else where[1]
            found.append(f"{where[0]}{how}({place}, 0{more});")
    return found


def joined(rooms):
    """Places in order, of which those that touch are one."""
    found = []
    for at, end in rooms:
        if found and at <= found[-1][1]:
            found[-1] = (found[-1][0], max(end, found[-1][1]))
        else:
            found.append((at, end))
    return found


def wrapped(text, width=118):
    """A statement in lines that end at a blank."""
    indent = text[: len(text) - len(text.lstrip())]
    return textwrap.wrap(text, width, subsequent_indent=indent + "    ", break_long_words=False, break_on_hyphens=False)
