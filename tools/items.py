"""Reads the public items of the libraries from their sources, for tools/calls."""
import glob
import os
import re


def text_of(file):
    with open(file, encoding="utf-8") as it:
        return it.read()


class Item:
    """A public item: its kind and name, the `impl` that it stands in, its note, attributes, lines and clauses."""

    def __init__(self, kind, name, owner, docs, marks, lines):
        self.kind, self.name, self.owner, self.marks, self.lines = kind, name, owner, marks, lines
        last = next((at for at, it in enumerate(docs) if re.match(r"(Faults|Memory|Cost): ", it)), len(docs))
        parts = re.split(r"(?:^|(?<=\.) )(Faults|Memory|Cost): ", " ".join(docs[last:]))
        self.said = {key: value.strip().rstrip(".") for key, value in zip(parts[1::2], parts[2::2])}
        self.note = " ".join(it for it in docs[:last] if it)
        self.signature, self.clauses = (signature_of(lines) if kind == "fn" else ("", []))
        # (a call that takes nothing and returns nothing can only state a theorem)
        self.is_law = not owner and re.fullmatch(r"fn \w+(<.*>)?\(\)", self.signature) is not None

    def type_name(self):
        return type_of(self.owner) if self.owner else ""

    def called(self):
        """The call as a table names it: its owner, its name and its arguments."""
        inside = self.signature[self.signature.index("(") + 1 : closing(self.signature, self.signature.index("("))]
        names = [re.match(r"_?(?:mut )?(.*?):", it.strip()) for it in split_outside(inside)]
        owner = f"{self.type_name()}::" if self.owner else ""
        return f"{owner}{self.name}({', '.join(it[1].lstrip('_') for it in names if it)})"


def closing(text, at):
    """The place of the bracket that closes the one at a place."""
    depth = 0
    for place in range(at, len(text)):
        depth += {"(": 1, ")": -1}.get(text[place], 0)
        if depth == 0:
            return place
    return len(text)


def split_outside(text):
    """The parts of a text between commas that stand in no brackets."""
    parts, depth = [""], 0
    for at, one in enumerate(text):
        depth += one in "([{<"
        depth -= one in ")]}" or (one == ">" and text[at - 1] != "-")
        if one == "," and depth == 0:
            parts.append("")
        else:
            parts[-1] += one
    return parts


def type_of(owner):
    """The type of `impl<..> Type<..>`, `impl Trait for Type` or `trait Type`."""
    rest = re.sub(r"^(impl|trait) ?", "", owner)
    if rest.startswith("<"):
        rest = rest[rest.index("> ") + 2 :]
    return re.match(r"\w+", re.sub(r"^.* for ", "", rest))[0]


def signature_of(lines):
    """The signature of a function on one line, and its clauses, each on one line."""
    begun = len(lines[0]) - len(lines[0].lstrip())
    parts, clauses = [], []
    for line in lines:
        said = line.strip()
        if said.startswith("//") or said in ("", "{", "{}"):
            continue
        if re.match(r"(requires|ensures)\b", said) and len(line) - len(line.lstrip()) == begun + 4:
            clauses.append(said)
        elif clauses:
            clauses[-1] += f" {said}"
        else:
            parts.append(said)
    text = re.sub(r"^pub ", "", " ".join(parts))
    text = re.sub(r",? \)", ")", re.sub(r"\( ", "(", text))
    return re.sub(r"[ ;]*\{?\}?;?$", "", text), [it.rstrip(";") for it in clauses]


def end_of(lines, at, kind):
    """The line at which the item that begins at a line ends, before a function's body."""
    indent = re.match(r" *", lines[at])[0]
    for place in range(at, len(lines)):
        line = lines[place]
        is_own = place == at or re.match(rf"{indent}[^ ]", line)
        if is_own and line.endswith((";", "}", "{") if kind == "fn" else (";", "}")):
            return place
        if kind == "fn" and line.endswith("};"):
            return place
    return len(lines) - 1


def items_of(file):
    """The public items of a source, and the `impl` lines of traits."""
    lines = text_of(file).splitlines()
    docs, marks, owner, at = [], [], "", 0
    while at < len(lines):
        line = lines[at]
        said = line.strip()
        found = re.match(r"( *)(pub )?(?:const )?(fn|struct|enum|trait|type|const) (\w+)", line)
        in_trait = owner.startswith("trait") and found and len(found[1]) == 4
        if said.startswith("///"):
            docs.append(said[3:].strip())
        elif said.startswith("#["):
            marks.append(said)
        elif re.match(r"impl\b", line):
            owner = line.rstrip(" {")
            yield Item("impl", type_of(owner), owner, [], [], [line])
        elif found and (found[2] or in_trait) and (in_trait or len(found[1]) == (4 if owner else 0)):
            end = end_of(lines, at, found[3])
            if found[3] == "trait":
                owner, end = line.replace("pub ", "").rstrip(" {"), at
            if not (owner.startswith("impl") and " for " in owner):
                yield Item(found[3], found[4], owner, docs, marks, lines[at : end + 1])
            at = end
        if not said.startswith(("///", "#[")):
            docs, marks = [], []
        if line.startswith("}"):
            owner = ""
        at += 1


def cited_names(text, crates):
    """The definitions of this repository that a source's clauses may cite."""
    found = re.findall(r"ghost use Rattle\.(\w+)\.specs\.[\w.]+\.\{([^}]*)\}", text)
    return {name.strip() for crate, names in found if crate in crates for name in names.split(",")}


class Crate:
    """A library: what it says of itself, and what it hands out by its `pub use` lines, in the order of its files."""

    def __init__(self, name, crates):
        lib = text_of(f"crates/{name}/src/lib.rt")
        self.name = name
        self.docs = "\n".join(it[3:].strip() for it in lib.splitlines() if it.startswith("//!")).split("\n\n")
        self.uses = []
        self.borrowed = {}
        for use in re.findall(r"^pub use ([^;]*);", lib, re.M):
            path, _, names = use.partition("::")
            names = re.findall(r"\w+", names)
            if path in crates:
                self.borrowed[path] = self.borrowed.get(path, []) + names
            else:
                self.uses += [(path, it) for it in names]
        self.items, self.owned = {}, {}
        if self.uses:
            self.read(crates)

    def read(self, crates):
        base = f"crates/{self.name}/src/"
        self.files = sorted(it for it in glob.glob(f"{base}**/*.rt", recursive=True) if "tests" not in it)
        for file in self.files:
            cited = cited_names(text_of(file), crates)
            module = file[len(base) : -3].split("/")[0]
            for item in items_of(file):
                words = re.findall(r"\w+", " ".join(item.clauses))
                item.cites = [it for it in dict.fromkeys(words) if it in cited and not re.search(r"(_view|View)$", it)]
                if item.owner and item.kind != "trait":
                    self.owned.setdefault(item.type_name(), []).append(item)
                elif (module, item.name) in self.uses:
                    self.items[item.name] = item

    def calls(self):
        """The calls that a table has, those of no type first; `number` and `name` of faults are said once for all."""
        yield from [it for it in self.items.values() if it.kind == "fn"]
        for name, item in self.items.items():
            said_once = ("number", "name") if is_fault(item) else ()
            yield from [it for it in self.owned.get(name, []) if it.kind == "fn" and it.name not in said_once]

    def public(self):
        """Each item that is handed out, with the public items of its `impl`s."""
        for name, item in self.items.items():
            yield item
            yield from [it for it in self.owned.get(name, []) if it.kind != "impl"]


def is_fault(item):
    return item.name.endswith("Fault") or any(re.search(r"\bError\b", it) for it in item.marks if it.startswith("#[derive"))


def libraries():
    """The libraries that hand something out, each after those that it uses; none that static libraries alone use."""
    lines = [it.partition(":") for it in text_of("crates.txt").splitlines() if it and not it.startswith("#")]
    uses = {head.split()[0]: rest.split() for head, _, rest in lines}
    static = {head.split()[0] for head, _, _ in lines if "staticlib" in head.split()}
    ordered = []

    def put(name):
        for below in uses[name]:
            if below in uses and below not in ordered:
                put(below)
        ordered.extend([name] if name not in ordered else [])

    for name in uses:
        put(name)
    for name in ordered:
        users = {it for it, below in uses.items() if name in below}
        if os.path.isfile(f"crates/{name}/src/lib.rt") and name not in static and not (users and users <= static):
            crate = Crate(name, uses)
            if crate.uses:
                yield crate
