"""Makes the statements of a C function from loops and conditions, and from jumps to labels where these do not suffice,
for tools/portable_c. A statement that contains no other is its text."""
import re


NONE = frozenset()
# How deep statements may stand in one another where a way to a label is what puts them there.
MOST_DEEP = 5
# How long what stands after a switch may be where it is put into it.
MOST_LONG = 30


class Node:
    """A statement that holds others, in `parts`, or a way to a label.

    goto: to `label`. if: its `test` is a condition and its contrary, its parts are both halves. switch: a part for each
    of `keys`, and the last for all other numbers. block: `label` stands at its end. loop: `label` stands at its
    beginning, and it is left at its end. for, while and do: the part goes on for ever, or while `test` holds, which
    stands before it or after it; `label` stands at its beginning."""

    def __init__(self, kind, parts=(), label=None, test=None, keys=()):
        self.kind, self.parts, self.label, self.test, self.keys = kind, parts, label, test, keys

    def with_parts(self, parts):
        return Node(self.kind, parts, self.label, self.test, self.keys)


def way_to(label):
    return Node("goto", label=label)


def is_way(it, label):
    return isinstance(it, Node) and it.kind == "goto" and it.label == label


def ends_by(items, label):
    return bool(items) and is_way(items[-1], label)


def uses(items, label):
    """The number of ways to a label."""
    return sum(is_way(it, label) + sum(uses(part, label) for part in it.parts) for it in items if isinstance(it, Node))


def height(items):
    """How deep statements stand in one another."""
    return max((1 + max(map(height, it.parts), default=0) for it in items if isinstance(it, Node)), default=0)


def texts(items):
    """The texts of the statements, and of the tests of those that hold others."""
    for it in items:
        if isinstance(it, str):
            yield it
            continue
        yield from filter(None, it.test or ())
        for part in it.parts:
            yield from texts(part)


def size(items):
    return sum(1 + sum(map(size, it.parts)) if isinstance(it, Node) else 1 for it in items)


def replaced(items, label, others):
    """The statements with others in the place of each way to a label."""
    found = []
    for it in items:
        if is_way(it, label):
            found += others
        elif isinstance(it, Node):
            found.append(it.with_parts([replaced(part, label, others) for part in it.parts]))
        else:
            found.append(it)
    return found


def is_within_loop(items, label):
    """Whether a way to a label stands in a loop."""
    return any(
        uses([it], label) if it.kind in ("loop", "for", "while", "do") else any(is_within_loop(part, label) for part in it.parts)
        for it in items
        if isinstance(it, Node)
    )


def leaves(items):
    """Whether what stands after the statements is not reached from their end."""
    if not items:
        return False
    it = items[-1]
    if isinstance(it, str):
        return it.startswith("return") or it == "UNREACHABLE;"
    if it.kind == "block":
        return leaves(it.parts[0]) and not uses(it.parts[0], it.label)
    return it.kind in ("goto", "for") or it.kind in ("if", "switch") and all(leaves(part) for part in it.parts)


def short_end(items):
    """The few statements that end the function, where the statements begin with such."""
    for count in range(1, 4):
        if not all(isinstance(it, str) for it in items[:count]):
            return None
        if leaves(items[:count]):
            return items[:count]
    return None


class Flow:
    """Makes the statements of a function anew; `most` is how deep the halves of conditions may stand in one another."""

    def __init__(self):
        self.labels = 0

    def simplified(self, items, follows=None):
        """The same statements with fewer ways to labels; `follows` is the label that stands right after them."""
        found = []
        for it in reversed(items):
            found = self.before(it, found, follows)
        return found

    def before(self, it, rest, follows):
        """A statement before others, which are simplified."""
        if isinstance(it, str):
            return [it] if leaves([it]) else [it, *rest]
        if it.kind == "goto":
            return [] if not rest and it.label == follows else [it]
        after = follows if not rest else None
        if it.kind == "if":
            then, other = (self.simplified(part, after) for part in it.parts)
            return condition(it.test, then, other, rest, follows)
        if it.kind == "switch":
            parts = [self.simplified(part, after) for part in it.parts]
            going = [part for part in parts if not leaves(part)]
            if len(going) == 1 and 0 < size(rest) < MOST_LONG and (leaves(rest) or follows):
                # (what stands after it is reached from one of its parts alone)
                parts, rest = [self.simplified([*part, *rest] if part is going[0] else part, follows) for part in parts], []
            return [it.with_parts(parts), *rest]
        if it.kind == "block":
            return self.block(it, rest, follows)
        return self.loop(it, rest, after)

    def block(self, it, rest, follows):
        """A block's statements, with its label only where a way to it is left.

        The rest takes the place of a way to the label where it is short and ends the function, or is reached by this
        way alone."""
        (inner,), label = it.parts, it.label
        if not rest and follows:
            return self.simplified(replaced(inner, label, [way_to(follows)]), follows)
        end = short_end(rest)
        if end and len(end) == 1:
            inner = replaced(inner, label, end)
        inner = self.simplified(inner, label)
        if end:
            inner = replaced(inner, label, end)
        count = uses(inner, label)
        if count == 1 and leaves(inner) and (leaves(rest) or follows) and not is_within_loop(inner, label):
            there = rest if leaves(rest) else [*rest, way_to(follows)]
            return self.simplified(replaced(inner, label, there), follows)
        if count:
            return [Node("block", [inner], label), *rest]
        if leaves(inner):
            return inner
        if inner and isinstance(inner[-1], Node) and inner[-1].kind == "if":
            last = inner[-1]
            return [*inner[:-1], *condition(last.test, *last.parts, rest, follows)]
        return [*inner, *rest]

    def loop(self, it, rest, after):
        """A loop. What is left of it stands after it where it is reached from its end alone."""
        if it.kind != "loop":
            return [it.with_parts([self.simplified(it.parts[0], it.label if it.kind != "do" else None)]), *rest]
        name = after or self.fresh()
        body, end = self.simplified([*it.parts[0], way_to(name)], it.label), []
        first, last = (body[k] if body and isinstance(body[k], Node) and body[k].kind == "if" else None for k in (0, -1))
        kind, test = "for", None
        if last and not last.parts[1] and leaves(last.parts[0]) and not uses(body[:-1], it.label):
            (*end, way), inner = last.parts[0], body[:-1]
            end = last.parts[0] if not is_way(way, name) else end
            if not uses(last.parts[0], it.label) and (not end or not uses(inner, name)):
                kind, test, body = "do", last.test[::-1], inner
        if kind == "for" and first and ends_by(first.parts[0], name) and len(first.parts[0]) == 1 and not first.parts[1]:
            kind, test, body = "while", first.test[::-1], body[1:]
        whole = [Node(kind, [body], it.label, test), *(end if kind == "do" else [])]
        if after:
            return whole
        whole = [Node("block", [whole], name)] if uses(whole, name) else whole
        return whole if leaves(whole) else [*whole, *rest]

    def fresh(self):
        self.labels += 1
        return f"after{self.labels}"


def condition(test, then, other, rest, follows):
    """An `if` with what stands after it: the half that leaves goes before the other, which is part of neither then."""
    if not then and not other:
        return rest
    if not then:
        test, then, other = test[::-1], other, then
    if rest and leaves(then) and leaves(other) and other:
        rest = []
    if other and leaves(then):
        # (what is left stands after it)
        rest, other = ([*other, *rest] if not leaves(other) else other), []
    elif other and leaves(other):
        test, then, rest, other = test[::-1], other, [*then, *rest], []
    if not other and rest and leaves(then):
        if follows and ends_by(then, follows) and height(rest) < MOST_DEEP:
            if leaves(rest) and not is_within_loop(rest, follows):
                return [*condition(test[::-1], rest, [], [], None), *then[:-1]]
            return [Node("if", [then[:-1], rest], test=test)] if then[:-1] else condition(test[::-1], rest, [], [], None)
        if leaves(rest) and size(then) > size(rest) + 3:
            test, then, rest = test[::-1], rest, then
    return joined(Node("if", [then, other], test=test), rest)


def joined(it, rest):
    """An `if` before others, as one with that which stands in it alone, or with the next where both do the same."""
    then, other = it.parts
    if not other and len(then) == 1 and isinstance(then[0], Node) and then[0].kind == "if" and not then[0].parts[1]:
        return [Node("if", then[0].parts, test=both(it.test, then[0].test)), *rest]
    if not other and len(then) == 1 and rest and isinstance(rest[0], Node) and rest[0].kind == "if":
        (others, none), one = rest[0].parts, then[0]
        is_same = len(others) == 1 and (one == others[0] or isinstance(one, Node) and one.kind == "goto" and is_way(others[0], one.label))
        if is_same and not none:
            test = both(it.test[::-1], rest[0].test[::-1])[::-1]
            if len(test[0]) < 160:
                return [Node("if", [then, []], test=test), *rest[1:]]
    return [it, *rest]


def both(a, b):
    """Two tests, each with its contrary, as one which holds where both do."""
    return (
        " && ".join(f"({it})" if "||" in it or "?" in it else it for it in (a[0], b[0])),
        " || ".join(f"({it})" if "&&" in it or "?" in it else it for it in (a[1], b[1])),
    )


def simplified(items):
    return Flow().simplified(items)


class Text:
    """The lines of statements. A way to what stands after the innermost loop or switch is `break`, and one to the
    beginning of the innermost loop `continue`; the labels of all others are kept, and stand."""

    def __init__(self):
        self.labels = set()

    def shown(self, items, indent, ends=NONE, out=NONE, again=None):
        """`ends` has the labels that stand right after the statements, `out` those after the innermost loop or switch,
        and `again` is that at the beginning of the innermost loop."""
        lines, space = [], "    " * indent
        for k, it in enumerate(items):
            after = ends if k == len(items) - 1 else NONE
            if isinstance(it, str):
                lines.append(space + it)
            elif it.kind == "goto":
                lines += [f"{space}{self.way(it.label, out, again)}"] * (it.label not in after)
            elif it.kind == "block":
                lines += self.shown(it.parts[0], indent, after | {it.label}, out, again)
                lines += [f"{space[4:]}{it.label}:;"] * (it.label in self.labels)
            elif it.kind == "if":
                lines += self.shown_if(it, indent, after, out, again)
            elif it.kind == "switch":
                lines += self.shown_switch(it, indent, after, again)
            else:
                lines += self.shown_loop(it, indent, after)
        return lines

    def way(self, label, out, again):
        if label == again:
            return "continue;"
        if label in out:
            return "break;"
        self.labels.add(label)
        return f"goto {label};"

    def shown_if(self, it, indent, ends, out, again):
        space, (then, other) = "    " * indent, it.parts
        inner = self.shown(then, indent + 1, ends, out, again)
        if len(then) == 1 and not other and (isinstance(then[0], str) or then[0].kind == "goto"):
            return [f"{space}if ({it.test[0]}) {inner[0].lstrip()}" if inner else f"{space}(void)({it.test[0]});"]
        lines = [f"{space}if ({it.test[0]}) {{", *inner]
        if len(other) == 1 and isinstance(other[0], Node) and other[0].kind == "if":
            first, *more = self.shown(other, indent, ends, out, again)
            return [*lines, f"{space}}} else {first.lstrip()}", *more]
        lines += [f"{space}}} else {{", *self.shown(other, indent + 1, ends, out, again)] if other else []
        return [*lines, f"{space}}}"]

    def shown_switch(self, it, indent, ends, again):
        space = "    " * indent
        lines = [f"{space}switch ({it.test[0]}) {{"]
        for keys, part in zip([*it.keys, None], it.parts):
            lines += [f"{space}case {key}:" for key in keys] if keys else [f"{space}default:"]
            lines += self.shown(part, indent + 1, NONE, ends, again)
            lines += [f"{space}    break;"] * (not leaves(part))
        return [*lines, f"{space}}}"]

    def shown_loop(self, it, indent, ends):
        space = "    " * indent
        # (in a `do` a `continue` goes to its test)
        begin = it.label if it.kind != "do" else None
        lines = self.shown(it.parts[0], indent + 1, frozenset([begin]), ends, begin)
        lines = [f"{space}{it.label}:;"] * (it.label in self.labels) + lines
        if it.kind == "do":
            return [f"{space}do {{", *lines, f"{space}}} while ({it.test[0]});"]
        return [f"{space}while ({it.test[0]}) {{" if it.kind == "while" else f"{space}for (;;) {{", *lines, f"{space}}}"]


def shown(items, indent):
    """The lines of the statements."""
    return Text().shown(items, indent)
