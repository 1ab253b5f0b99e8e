"""Gives each value of a C function its own variable, and omits what is written and never read, for tools/portable_c.

LLVM keeps unrelated values in one variable of the machine, or in a parameter. Here two writes of a variable share a
name only if they can reach the same read. A parameter is never written, nor is what is read from a field of a struct:
what becomes of either has a variable of its own. Nothing is set again to what it holds. The statements are those of
tools/c_flow.py."""
import itertools
import re

from c_flow import Node, leaves, replaced

# Functions that only reckon or read: where nothing reads the result, the statement goes.
PURE = r"get\d+|own\d+|get_fraction|extend\d+|ordered\d+|sar\d+|rotl\d+|clz\d+|ctz\d+|ones\d+|address|aligned|some"
CALLED = re.compile(rf"\b(?!(?:{PURE})\()[a-z]\w*\(")
SET = re.compile(r"(\w+) = (.*);$", re.S)
# A choice of a number, and of another one or by a further choice.
CHOICE = re.compile(r"\(([^?]*)\) \? (~?\d+)U : (?:\((\(.*)\)|(~?\d+U))")
# How a value is read from a field, or put into one.
READ, PUT = re.compile(r"get\d+\((\w+)(?: \+ (\d+))?\)"), re.compile(r"put\d+\((\w+)(?: \+ (\d+))?, (\w+)\);")


class Statement:
    """A statement that holds no other, or the test of one: its text, the variable that it sets, with the values that this
    may have before, which of the values of each variable it may read, and whether it may be reached."""

    def __init__(self, text, names, is_test=False):
        self.text, self.reads, self.is_reached, self.before = text, {}, False, frozenset()
        self.to = SET.match(text)[1] if not is_test and SET.match(text) and SET.match(text)[1] in names else None
        self.used = set(self.words(text if self.to is None else SET.match(text)[2])) & names.keys()

    @staticmethod
    def words(text):
        return re.findall(r"(?<!\.)\b[a-z]\w*\b(?!\()", text)


class Ways:
    """Goes through the statements along each way, with what is known of each variable, until nothing new is learnt.
    `after` has what is known after a statement, and `united` what is known where two ways meet."""

    def __init__(self, items, begin):
        self.items, self.ways, self.has_moved = items, {}, True
        while self.has_moved:
            self.has_moved = False
            self.follow(self.items, begin)

    def arrive(self, label, state):
        was = self.ways.get(label)
        now = self.united(was, state)
        if now != was:
            self.ways[label], self.has_moved = now, True

    def follow(self, items, state):
        """What each variable may hold after the statements, or None where that is not reached."""
        for it in items:
            if state is None:
                return None
            if isinstance(it, Statement):
                state = self.after(it, state)
            elif it.kind == "goto":
                self.arrive(it.label, state)
                state = None
            elif it.kind in ("if", "switch"):
                for test in filter(None, it.test):
                    self.after(test, state)
                ends = [self.follow(part, state) for part in it.parts]
                state = None
                for end in ends:
                    state = self.united(state, end)
            elif it.kind == "block":
                state = self.united(self.follow(it.parts[0], state), self.ways.get(it.label))
            else:
                state = self.follow_loop(it, self.united(state, self.ways.get(it.label)))
        return state

    def follow_loop(self, it, state):
        """The same of a loop, whose test stands before its part or after it, or which has none."""
        tests = [test for test in it.test or () if test]
        for test in tests if it.kind == "while" else ():
            self.after(test, state)
        end = self.follow(it.parts[0], state)
        for test in tests if it.kind == "do" and end is not None else ():
            self.after(test, end)
        if end is not None:
            self.arrive(it.label, end)
        return {"while": state, "do": end}.get(it.kind)


class Held(Ways):
    """What each variable holds whichever way the code has taken, where that is known as an expression of variables
    alone. `again` has the statements that set a variable to what it holds."""

    def __init__(self, items):
        self.again = set()
        super().__init__(items, {})

    def after(self, it, state):
        self.again.discard(it)
        if it.to is None:
            return None if leaves([it.text]) else state
        text = SET.match(it.text)[2]
        if state.get(it.to) == text:
            self.again.add(it)
            return state
        state = {name: held for name, held in state.items() if name != it.to and it.to not in it.words(held)}
        is_known = it.to not in it.used and not re.search(r"\w\(", text)
        return {**state, it.to: text} if is_known else state

    @staticmethod
    def united(a, b):
        if a is None or b is None:
            return a if b is None else b
        return {name: held for name, held in a.items() if b.get(name) == held}


class Variables(Ways):
    """The values of a function's variables. `names` has for each variable what it holds before the function begins:
    its argument, zero, or nothing. `fields` has the name of the field at a place of a parameter; `parted` the variables
    that `apart` has added, each with the one that it was."""

    def __init__(self, items, names, fields, parted=()):
        self.names, self.fields, self.parted = names, fields, dict(parted)
        super().__init__(self.taken(items), {name: frozenset([(name, it)] if it else []) for name, it in names.items()})
        self.statements = list(self.all(self.items))

    def anew(self):
        return Variables(self.text(self.items), self.names, self.fields, self.parted)

    def taken(self, items):
        """The statements as such, the tests of others in their Node's `test`."""
        found = []
        for it in items:
            if isinstance(it, str):
                found.append(Statement(it, self.names))
                continue
            made = it.with_parts([self.taken(part) for part in it.parts])
            made.test = it.test and tuple(text and Statement(text, self.names, True) for text in it.test)
            found.append(made)
        return found

    def all(self, items):
        for it in items:
            if isinstance(it, Statement):
                yield it
                continue
            yield from filter(None, it.test or ())
            for part in it.parts:
                yield from self.all(part)

    @staticmethod
    def after(it, state):
        it.is_reached = True
        for name in it.used:
            it.reads[name] = it.reads.get(name, frozenset()) | state[name]
        if it.to:
            it.before = state[it.to]
            return {**state, it.to: frozenset([(it.to, it)])}
        return None if leaves([it.text]) else state

    @staticmethod
    def united(a, b):
        if a is None or b is None:
            return a if b is None else b
        return a if a == b else {name: a[name] | b[name] for name in a}

    # ---- What is known, and what is never read. ----

    def with_numbers(self):
        """Puts the number in the place of a variable that is returned, where it is set to this one whichever way the
        code has taken."""
        for it in self.statements:
            of = re.fullmatch(r"return (\w+)( & 255)?;", it.text)
            values = it.reads.get(of[1], ()) if of else ()
            texts = {SET.match(other.text)[2] if isinstance(other, Statement) else other for _, other in values}
            if len(texts) == 1 and (number := re.fullmatch(r"(0x[0-9a-f]+|\d+)U?", texts.pop())):
                it.text, it.reads = f"return {int(number[1], 0) & 255 if of[2] else number[1]};", {}

    def without_dead(self):
        """Takes off what sets a variable that nothing reads then; true where there was such."""
        read = set().union(*(values for it in self.statements for values in it.reads.values()))
        dead = {it for it in self.statements if it.to and it.is_reached and (it.to, it) not in read}
        gone = set()
        for it in dead:
            text = SET.match(it.text)[2]
            if not CALLED.search(text):
                gone.add(it)
            elif re.fullmatch(r"[a-z]\w*\(.*\)", text, re.S):
                it.text, it.to = f"{text};", None
        self.items = self.without(self.items, gone)
        return bool(gone)

    def without_again(self):
        """Takes off what sets a variable to what it holds by the same name; true where there was such."""
        again, groups = Held(self.items).again, self.joined()
        own = {value: k for k, values in enumerate(groups) for value in values}
        gone = {it for it in again if {own.get(value) for value in it.before} == {own[it.to, it]}}
        self.items = self.without(self.items, gone)
        return bool(gone)

    def without(self, items, gone):
        found = []
        for it in items:
            if isinstance(it, Node):
                made = it.with_parts([self.without(part, gone) for part in it.parts])
                made.test = it.test
                found.append(made)
            elif it not in gone:
                found.append(it)
        return found

    # ---- Names. ----

    def joined(self):
        """The values that share a name, as lists in the order of the text, each of one variable."""
        own = {}

        def root(value):
            while own.setdefault(value, value) != value:
                value = own[value]
            return value

        for it in self.statements:
            if it.to:
                root((it.to, it))
            for values in it.reads.values():
                for other in values:
                    own[root(other)] = root(next(iter(values)))
        order = {(it.to, it): k for k, it in enumerate(self.statements) if it.to}
        found = {}
        for value in sorted(own, key=lambda it: order.get(it, -1)):
            found.setdefault(root(value), []).append(value)
        return list(found.values())

    def field(self, it, found):
        """The field that a statement reads or puts at a place, or None. The address is that of a parameter itself, and
        not of what its variable holds later."""
        is_given = found and it.reads.get(found[1]) == {(found[1], "argument")}
        return self.fields.get((found[1], int(found[2] or 0))) if is_given else None

    def field_read(self, it):
        """The field that a statement sets its variable to, or None."""
        return self.field(it, READ.fullmatch(SET.match(it.text)[2]))

    def field_of(self, values, reads):
        """A name for values after the field that they are read from; with `new_`, after the one that they are put into;
        with `_now`, after the one that they are copied from, where they may be something else; or as an answer of a call
        that is given fields. Or None."""
        was, set_by = values[0][0], [it for _, it in values if isinstance(it, Statement)]
        read_by = [it for value in values for it in reads.get(value, []) if not it.to]
        put = [(it, PUT.fullmatch(it.text)) for it in read_by]
        for found, wanted in (
            ({self.field_read(it) for it in set_by}, "{}"),
            ({self.field(it, at) for it, at in put if at and at[3] == was}, "new_{}"),
            ({self.field_copied(it) for it in self.own_copies(set_by)}, "{}_now"),
        ):
            if found - {None}:
                return wanted.format(*(found - {None})) if len(found - {None}) == 1 else None
        return "answer" if self.fields and {it.text for it in read_by} & {f"return {was};", f"return {was} & 255;"} else None

    def field_copied(self, it):
        """The field whose value a statement copies from the variable that it was read to, or None."""
        values = [*it.reads.get(SET.match(it.text)[2], ())]
        return self.field_read(values[0][1]) if len(values) == 1 and isinstance(values[0][1], Statement) else None

    def own_copies(self, statements):
        """Those of the statements that copy a value to the variable that it shared before `apart`; or all of them, if
        they do nothing but copy."""
        own = [it for it in statements if self.parted.get(SET.match(it.text)[2]) == it.to]
        return own or statements * all(re.fullmatch(r"\w+", SET.match(it.text)[2]) for it in statements)

    def apart(self, taken):
        """The same with a variable of its own for what is read from a field, where other values have its name."""
        parts = {}
        for values in self.joined():
            fields = {value: isinstance(value[1], Statement) and self.field_read(value[1]) or None for value in values}
            if len({*fields.values()}) > 1 and (values[0][0], "argument") not in fields:
                used = {*taken, *self.names, *parts.values()}
                own = {it: fresh(f"{values[0][0]}_{it}", used) for it in {*fields.values()} - {None}}
                parts.update((value, own[it]) for value, it in fields.items() if it)
        items, names = self.with_copies(self.items, parts), {**self.names, **dict.fromkeys(parts.values(), "")}
        for it in self.statements:
            own = {name: self.part(values, parts) or name for name, values in it.reads.items()}
            self.replace(it, parts.get((it.to, it), it.to), own)
        return Variables(self.text(items), names, self.fields, {own: name for (name, _), own in parts.items()})

    @staticmethod
    def part(values, parts):
        """The variable of its own that all these values have, or None."""
        found = {parts.get(value) for value in values}
        return found.pop() if len(found) == 1 else None

    def with_copies(self, items, parts):
        """The statements with those that copy values from their own variables, each as late as it may stand."""
        found, left = [], []
        for it in items:
            found += [f"{value[0]} = {parts[value]};" for value in left if not self.passes(it, value, parts)]
            left = [value for value in left if self.passes(it, value, parts)]
            if isinstance(it, Statement):
                left += [(it.to, it)] * ((it.to, it) in parts)
                found.append(it)
            else:
                found.append(it.with_parts([self.with_copies(part, parts) for part in it.parts]))
                found[-1].test = it.test
        return [*found, *(f"{value[0]} = {parts[value]};" for value in left)]

    def passes(self, it, value, parts):
        """Whether a copy of a value may as well stand after a statement as before it."""
        name, own = value[0], parts[value]
        inner = list(self.all([it]))
        is_met = any(one.to == name or self.part(one.reads.get(name, [value]), parts) != own for one in inner)
        return not is_met and not ways_out([it])

    def named(self, taken):
        """Gives each group of values its name. `taken` may be none of the new names. The statements, the variables that
        are declared, each with the variable that it was, and whether it begins as 0."""
        groups, used, names = self.joined(), set(taken) | self.names.keys(), {}
        reads = {}
        for it in self.statements:
            for values in it.reads.values():
                for value in values:
                    reads.setdefault(value, []).append(it)
        variables, first, begin = {}, set(), []
        for values in groups:
            was, is_argument = values[0][0], any(it == "argument" for _, it in values)
            if is_argument and len(values) == 1:
                name = was
            else:
                wanted = f"{was}_now" if is_argument else self.field_of(values, reads)
                is_free = was not in first and self.names[was] != "argument"
                name = fresh(wanted, used) if wanted else was if is_free else fresh("v", used)
                variables[name] = self.parted.get(was, was), any(it == "zero" for _, it in values)
                first |= {was} if name == was else set()
                begin += [f"{name} = {was};"] * is_argument
            names.update(dict.fromkeys(values, name))
            used.add(name)
        for it in self.statements:
            now = {name: names[next(iter(values))] for name, values in it.reads.items() if values}
            self.replace(it, names.get((it.to, it)), now)
        return [*begin, *self.text(self.items)], variables

    @staticmethod
    def replace(it, to, now):
        """Gives the variables of a statement other names: the one that it sets, and those that it reads."""
        head, text = ("", it.text) if it.to is None else (f"{to} = ", it.text[len(it.to) + 3 :])
        it.text = head + re.sub(r"(?<!\.)\b[a-z]\w*\b(?!\()", lambda word: now.get(word[0], word[0]), text)

    def text(self, items):
        found = []
        for it in items:
            if not isinstance(it, Node):
                found.append(it if isinstance(it, str) else it.text)
                continue
            made = it.with_parts([self.text(part) for part in it.parts])
            made.test = it.test and tuple(test and test.text for test in it.test)
            found.append(made)
        return found


def ways_out(items):
    """The labels outside of the statements to which ways in them lead."""
    found = set()
    for it in items:
        if isinstance(it, Node):
            inner = set().union(*map(ways_out, it.parts))
            found |= {it.label} if it.kind == "goto" else inner - {it.label}
    return found


def one_by_one(items):
    """The statements with a condition for each number of a choice among several ones that is returned."""
    found = []
    for it in items:
        found += [it.with_parts([*map(one_by_one, it.parts)])] if isinstance(it, Node) else choices(it)
    return found


def choices(text):
    of, found = re.fullmatch(r"return \((.*\?.*\?.*)\) & 255;", text), []
    rest = of and of[1]
    while rest and (it := CHOICE.fullmatch(rest)):
        found.append(Node("if", [[f"return {octet(it[2])};"], []], test=(it[1], f"!({it[1]})")))
        rest = it[3] or it[4]
    last = rest and re.fullmatch(r"(~?\d+)U", rest)
    return [*found, f"return {octet(last[1])};"] if last else [text]


def octet(text):
    number = int(text.strip("~"))
    return (~number if text[0] == "~" else number) & 255


def fresh(wanted, used):
    """A name that is not used: the one wanted, or with a number after it."""
    names = itertools.chain([] if wanted == "v" else [wanted], (f"{wanted}{'' if wanted == 'v' else '_'}{k}" for k in itertools.count(2)))
    return next(it for it in names if it not in used)


def shortened(items, names, fields):
    """The statements without what is never read, and without what sets a variable to what it holds."""
    found = Variables(one_by_one(items), names, fields)
    found.with_numbers()
    while found.without_dead() or found.without_again():
        found = found.anew()
    return straight(found.text(found.items))


def straight(items):
    """The statements with no way to where only another way stands."""
    found = []
    for it in reversed(items):
        if isinstance(it, Node):
            it = it.with_parts([*map(straight, it.parts)])
            if it.kind == "block" and found and isinstance(found[0], Node) and found[0].kind == "goto":
                it = it.with_parts([replaced(it.parts[0], it.label, found[:1])])
        found.insert(0, it)
    return found


def with_own_variables(items, names, taken, fields):
    """The statements, shortened, with a variable for each value, as Variables.named gives them."""
    found = Variables(items, names, fields).apart(taken)
    while found.without_dead():
        found = found.anew()
    return found.named(taken)
