"""Moves the checks of a struct that several calls of a library make into one function, for tools/portable_c.

LLVM copies the checks of a struct into each call that is given the struct. A check is a set of conditions on the octets
of the struct: if all of them hold, the call returns SEDGE_DAMAGED before it has changed anything. A call returns that
exactly if one of its checks holds, or if it finds something else. So a function that makes checks may stand before the
first one, and what they lead to in the call is never reached then. The function is the beginning of a call that makes
those checks alone which all the calls make. Checks are compared as expressions of what is in memory; one that cannot be
read, or that depends on more than the struct, stays where it is."""
import ast
import re
import typing

from c_flow import Node, leaves, size, texts
from c_variables import CALLED, SET, ways_out

DAMAGED, UNREACHABLE = re.compile(r"return (?:255U?|~0U & 255);"), "UNREACHABLE;"
WRITES = re.compile(r"(?:put|copy|fill|UNREACHABLE)")
# The fewest checks for which there is a function, and the fewest calls.
CHECKS, CALLS = 4, 3
# What is of the struct alone, beside its own name. The ways to where more than that is known, and the most that are kept.
OWN, UNKNOWN, MOST = r"get\d+|extend32|uint\d+_t|where", [frozenset(["Name(id='other')"])], 100


class Return(str):
    """A statement that returns SEDGE_DAMAGED, which is this one and not another with the same text."""

    __hash__ = object.__hash__

    def __eq__(self, other):
        return self is other


def marked(items):
    """The statements with each such return as one of its own."""
    found = []
    for it in items:
        if isinstance(it, Node):
            it, parts = Node(it.kind, it.parts, it.label, it.test, it.keys), it.parts
            it.parts = [marked(part) for part in parts]
        found.append(Return(it) if isinstance(it, str) and DAMAGED.fullmatch(it) else it)
    return found


def parsed(text):
    """An expression as a tree. C and Python write these alike, but for types; what is written otherwise is None."""
    text = re.sub(r"\b(0x[0-9a-f]+|\d+)U?(?:LL)?\b", r"\1", text)
    text = re.sub(r"\((u?int\d+_t)\)", r"\1 @ ", text).replace("&&", " and ").replace("||", " or ")
    try:
        return ast.parse(text.strip(), mode="eval").body
    except SyntaxError:
        return None


class Held(ast.NodeTransformer):
    """Puts what variables hold into an expression."""

    def __init__(self, held):
        self.held = held

    def visit_Name(self, it):
        return self.held.get(it.id, it)


def ways(test):
    """The ways in which a test holds, each as the conditions that hold then."""
    if not isinstance(test, ast.BoolOp):
        return [frozenset([ast.dump(test)])]
    parts = [ways(it) for it in test.values]
    if isinstance(test.op, ast.Or):
        return [way for part in parts for way in part]
    found = [frozenset()]
    for part in parts:
        found = [one | other for one in found for other in part]
    return found


def where(test, cases):
    """A value that depends on a test: of each case its number, or None, and the value then."""
    return ast.Call(ast.Name("where"), [test, *(ast.Tuple([ast.Constant(key), value]) for key, value in cases)], [])


def refuses(items):
    """Whether the statements do nothing but return SEDGE_DAMAGED."""
    parts = [part for it in items if isinstance(it, Node) for part in it.parts]
    plain = [it for it in items if isinstance(it, str)]
    is_plain = all(isinstance(it, Return) or SET.match(it) and not CALLED.search(it) for it in plain)
    is_if = all(it.kind == "if" for it in items if isinstance(it, Node))
    return leaves(items) and is_plain and is_if and all(refuses(part) or not part for part in parts)


class Checks:
    """The checks of the struct at a parameter. `sites` has of each return of SEDGE_DAMAGED its checks, each as the
    conditions that hold together; `all` has those of all."""

    def __init__(self, items, first, name):
        self.name, self.sites = name, {}
        before = self.walk(items[:first], {}, [frozenset()])
        if before:
            self.walk(items[first:], before[0], [frozenset()])
        self.all = frozenset().union(*self.sites.values())

    def is_own(self, condition):
        names = re.findall(r"Name\(id='(\w+)'", condition)
        return all(re.fullmatch(f"{self.name}|{OWN}", it) for it in names)

    @staticmethod
    def value(text, held):
        it = parsed(text)
        return Held(held).visit(it) if it else ast.Name("other")

    def walk(self, items, held, path):
        """Goes through statements that are reached with these values, and on one of the ways of `path`; the values and
        the ways after them, or None where that is not reached."""
        for it in items:
            if isinstance(it, Return):
                if all(self.is_own(condition) for way in path for condition in way):
                    self.sites[it] = frozenset(path)
                return None
            if isinstance(it, str):
                if leaves([it]):
                    return None
                to = SET.match(it)
                if to:
                    held = {**held, to[1]: self.value(to[2], held)}
                if CALLED.search(it) or WRITES.match(it):
                    path = UNKNOWN
            elif it.kind == "goto":
                return None
            elif it.kind == "if":
                held, path = self.walk_if(it, held, path) or (None, None)
            elif it.kind == "switch":
                held, path = self.walk_switch(it, held, path) or (None, None)
            elif it.kind == "block":
                held, path = self.walk(it.parts[0], held, path) or ({}, path)
                path = UNKNOWN
            else:
                held, path = {}, UNKNOWN
            if path is None:
                return None
        return held, path

    def walk_if(self, it, held, path):
        tests = [ways(self.value(text, held)) for text in it.test]
        its = [[way | more for way in path for more in test] for test in tests]
        its = [own if len(own) <= MOST else UNKNOWN for own in its]
        ends = [self.walk(part, held, own) for part, own in zip(it.parts, its)]
        test = self.value(it.test[0], held)
        return self.joined(test, [(0, ends[0]), (1, ends[1])], it.parts, its, path)

    def walk_switch(self, it, held, path):
        test = self.value(it.test[0], held)
        keys = [*map(tuple, it.keys), ("not", *(key for own in it.keys for key in own))]
        its = [[way | {f"{ast.dump(test)} is {key}"} for way in path] for key in keys]
        ends = [self.walk(part, held, own) for part, own in zip(it.parts, its)]
        return self.joined(test, [*zip(map(str, keys), ends)], it.parts, its, path)

    def joined(self, test, ends, parts, its, path):
        """What is known where ways meet again. The ways are those before, if all others have returned SEDGE_DAMAGED."""
        left = [(key, end) for key, end in ends if end]
        if not left:
            return None
        is_whole = all(end[1] == own if end else refuses(part) for (_, end), part, own in zip(ends, parts, its))
        if not is_whole:
            path = left[0][1][1] if len(left) == 1 else UNKNOWN
        names = set.intersection(*(set(end[0]) for _, end in left))
        held = {}
        for name in names:
            values = {ast.dump(end[0][name]) for _, end in left}
            first = left[0][1][0][name]
            held[name] = first if len(values) == 1 else where(test, [(key, end[0][name]) for key, end in left])
        return held, path


def opened(items):
    """The statements of the block with which others begin, if it has the first return of SEDGE_DAMAGED; and how many
    statements stand before that."""
    for k, it in enumerate(items):
        if any(isinstance(text, Return) for text in texts([it])):
            return opened(it.parts[0]) if isinstance(it, Node) and it.kind == "block" else (items, after_last(items[:k]))
    return items, len(items)


def after_last(items):
    """The number of statements up to the last that does more than set a variable."""
    more = [k for k, it in enumerate(items) if isinstance(it, Node) or not SET.match(it) or CALLED.search(it)]
    return more[-1] + 1 if more else 0


class Call:
    """A call that is given a struct at a parameter, with its statements and its checks of the struct."""

    def __init__(self, translation, parameter):
        self.translation, self.parameter = translation, parameter
        self.items = marked(translation.ready)
        self.begin, self.first = opened(self.items)
        self.checks = Checks(self.begin, self.first, parameter.name)

    def alone(self, common):
        """The beginning of the call, if it does nothing but make these checks, or None."""
        its = [k for k, it in enumerate(self.begin) if any(isinstance(text, Return) for text in texts([it]))]
        begin = self.begin[: its[-1] + 1]
        plain = [it for it in texts(begin) if not isinstance(it, Return)]
        is_plain = not any(leaves([it]) or CALLED.search(it) or WRITES.match(it) for it in plain)
        made = {it for it in texts(begin) if isinstance(it, Return)}
        is_all = made <= self.checks.sites.keys() and self.checks.all == common
        return begin if is_plain and is_all and not ways_out(begin) and its[-1] + 1 < len(self.begin) else None

    def changed(self, common, called):
        """The statements with this call of a function in the place of these checks."""
        return self.without(self.items, common, (f"{called} != SEDGE_OK", f"{called} == SEDGE_OK"))

    def without(self, items, common, test):
        """The statements without what these checks find, and with a test that finds it before them."""
        found = []
        for k, it in enumerate(items):
            if items is self.begin and k == self.first:
                found.append(Node("if", [["return 255;"], []], test=test))
            if isinstance(it, Node):
                found += pruned(it.with_parts([self.without(part, common, test) for part in it.parts]))
            elif isinstance(it, Return):
                found = never([*found, UNREACHABLE]) if self.checks.sites.get(it, {None}) <= common else [*found, str(it)]
            else:
                found.append(it)
        return found


def never(items):
    """Statements at whose end nothing is reached, without those that lead nowhere else."""
    *before, last = items
    if not before or isinstance(before[-1], str):
        is_idle = before and SET.match(before[-1]) and not CALLED.search(before[-1])
        return never([*before[:-1], last]) if is_idle else items
    *before, it = before
    if it.kind not in ("if", "switch"):
        return items
    return [*before, *pruned(it.with_parts([part if leaves(part) else never([*part, last]) for part in it.parts]))]


def pruned(it):
    """A condition or a switch without its parts that are never reached, if the others are the same; others as they are."""
    if it.kind not in ("if", "switch"):
        return [it]
    reached = [part for part in it.parts if part != [UNREACHABLE]]
    if all(is_same(part, reached[0]) for part in reached):
        return reached[0] if reached else [UNREACHABLE]
    if it.kind == "if":
        return [it]
    keys, parts = [], []
    for own, part in zip(it.keys, it.parts):
        at = next((k for k, other in enumerate(parts) if is_same(part, other)), None)
        if at is not None:
            keys[at] = [*keys[at], *own]
        elif not is_same(part, it.parts[-1]):
            keys, parts = [*keys, own], [*parts, part]
    return [Node("switch", [*parts, it.parts[-1]], it.label, it.test, keys)]


def tidied(items, translation):
    """The statements of a function without what nothing needs any more, and without conditions on which nothing hangs."""
    def each(items):
        return [one for it in items for one in (pruned(it.with_parts([*map(each, it.parts)])) if isinstance(it, Node) else [it])]

    before = 0
    while before != size(items):
        before, items = size(items), translation.shortened(each(items))
    return items


def is_same(a, b):
    """Whether statements do the same, as far as is seen at once."""
    ways = [(x, y) for x, y in zip(a, b) if isinstance(x, Node) and isinstance(y, Node)]
    are_same = all(x.kind == y.kind == "goto" and x.label == y.label for x, y in ways)
    return len(a) == len(b) and are_same and all(x == y or (x, y) in ways for x, y in zip(a, b))


class Function(typing.NamedTuple):
    """A function that checks a struct, and the calls that it does so for."""

    struct: str
    translation: object
    calls: list


def with_functions(translations, structs):
    """Changes those of the functions that make the same checks of a struct; `structs` has the parameters of a function
    that point to a struct. The functions that make the checks."""
    found, calls = [], {}
    for it in translations:
        for own in structs(it.function):
            it.ready = it.ready or it.shortened()
            call = Call(it, own)
            if len(call.checks.all) >= CHECKS:
                calls.setdefault((own.name, own.type), []).append(call)
    for its in calls.values():
        common, own = frozenset.intersection(*(it.checks.all for it in its)), its[0].parameter
        first = next((it for it in its if it.alone(common)), None)
        if len(its) >= CALLS and len(common) >= CHECKS and first:
            struct = own.type.removeprefix("struct ")
            begin = [*map(plain, first.alone(common)), "return SEDGE_OK;"]
            made = first.translation.beginning(begin, f"check_{struct}", own.name)
            found.append(Function(struct, made, [it.translation for it in its]))
            for it in its:
                changed = Call(it.translation, own).changed(common, f"check_{struct}({own.name})")
                it.translation.ready = tidied(changed, it.translation)
    return found


def plain(it):
    """A statement with its returns as any others."""
    return it.with_parts([[*map(plain, part)] for part in it.parts]) if isinstance(it, Node) else str(it)
