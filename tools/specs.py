"""Reads the definitions of specs/, the types of src/ and the contracts of public calls, with what each of them cites,
for tools/definitions."""
import functools
import glob
import os
import re
import textwrap

from items import end_of, text_of, type_of

TOKEN = re.compile(r"(?<![\w.'])[^\W\d][\w']*(?:\.[^\W\d][\w'-]*)*")
CALL = re.compile(r'( *)pub (?:const )?(?:unsafe )?(?:extern "C" )?fn (\w+)')
TYPE = re.compile(r"(?:pub(?:\(crate\))? )?(struct|enum|trait|type) (\w+)")
BEGINS = re.compile(r"( *)(?:(?:pub|abbrev|unfoldable|record|data) )+([^\s:({]+)|( *)([\w']+) : ")
IMPORT = re.compile(r"^\s*(?:ghost |pub )?use ([\w.]+)(?:\.\{([^}]*)\}| as (\w+));?$", re.M)
# the name of a field in `record { name = ..; }`
LABEL = re.compile(r"([{;]\s*)[\w']+\s+=(?=\s)")
# words of the language, and what no file declares
BUILT_IN = set(
    "abbrev data elim else if in let module pub record suc then tt unfoldable where zero λ 𝓛 Type Unit _".split()
)


@functools.cache
def crates():
    """Each crate with those that it uses, the lowest first."""
    lines = [it.partition(":") for it in text_of("crates.txt").splitlines() if it and not it.startswith("#")]
    return {head.split()[0]: rest.split() for head, _, rest in lines}


def sources_of(crate):
    return sorted(glob.glob(f"crates/{crate}/src/**/*.rt", recursive=True))


def first_two(token):
    return (token.split(".") + [""])[:2]


def level_of(line):
    return len(line) - len(line.lstrip())


def is_module(line):
    return line.strip().startswith("module ")


def bound_in(text):
    """The names that a term binds."""
    groups = re.findall(r"[({]([\w' ]+) :|λ ([\w' ]+)\.|\blet (\w+)", text)
    return {name for group in groups for names in group for name in names.split()}


class Definition:
    """What stands in one place: its lines, and the headings above it in its file. Of what stands in Rust also the code,
    which names types, and the terms of its clauses."""

    def __init__(self, scope, name, lines, above=(), code="", terms=None):
        self.scope, self.name, self.lines, self.above, self.code, self.terms = scope, name, lines, above, code, terms
        self.is_tie = re.search(r"(Fields|Lent)\.antt$", scope.file) is not None
        # of a type that contracts see as a value: how its fields give that value
        self.inside = None

    def parts(self):
        """Each text that cites, with the names in it that stand for no definition."""
        if self.terms is not None:
            terms = re.sub(r"(requires|ensures)\*? ?\w* ?\{", "{", re.sub(r"//.*", "", self.terms))
            own = r"(\w+):(?!:)|[<,] ?(\w+)(?=[:,>])|(?:ghost|const) (\w+)"
            ignored = {"self", "result", "Self"} | {it for names in re.findall(own, self.code) for it in names}
            parts = [("", LABEL.sub(r"\1", terms))]
        else:
            text = "\n".join(re.sub(r'--.*$|"[^"]*"', "", it) for it in self.lines)
            is_type = re.match(r"\s*pub (record|data)\b", text)
            ignored = set(re.findall(r"^\s+(?:pub )?([\w']+) :", text, re.M)) if is_type else set()
            modules = "\n".join(it for it in self.above if is_module(it)) + "\n"
            begun = " " * level_of(next(it for it in self.lines if not it.strip().startswith("--")))
            own = re.split(rf"\n(?={begun}{re.escape(self.name)}(?: |$))", LABEL.sub(r"\1", text))
            parts = [("", modules + own[0])] + [(re.split(r"\s=\s", it)[0], modules + it) for it in own[1:]]
        for head, part in parts:
            taken = {it for it in TOKEN.findall(head) if it[0].islower() or not self.scope.look(*first_two(it))}
            yield part, ignored | taken | bound_in(part) | BUILT_IN

    @functools.cached_property
    def named(self):
        """What each name in it stands for: a definition, the place of one outside this repository, or nothing."""
        code = re.findall(r"\b[A-Z]\w*", re.sub(r"//.*", "", self.code))
        found = {it: self.scope.rust(it) for it in code if self.scope.rust(it)}
        for text, ignored in self.parts():
            tokens = [first_two(it) for it in TOKEN.findall(text)]
            found.update({".".join(it).rstrip("."): self.scope.look(*it) for it in tokens if it[0] not in ignored})
        return found

    @property
    def cites(self):
        """The definitions that it cites, in their order."""
        return [it for it in dict.fromkeys(self.named.values()) if isinstance(it, Definition) and it is not self]


class Scope:
    """A file or an `impl`, with the names that it brings in: for terms, and in Rust for types."""

    def __init__(self, file, text, above=None):
        self.file, self.crate = file, file.split("/")[1]
        self.own, self.uses = (above.own, above.uses) if above else ({}, {})
        self.handed = set()
        self.names, self.aliases = (dict(above.names), dict(above.aliases)) if above else ({}, {})
        brought = {name: {it} for name, it in self.names.items()}
        for module, names, alias in IMPORT.findall(text):
            if alias:
                self.aliases[alias] = module
            for name in re.split(r",\s*", names) if names else []:
                old, _, new = name.strip().partition(" as ")
                brought.setdefault(new or old, set()).add((module, old))
                self.names[new or old] = (module, old)
        self.twice = [name for name, places in brought.items() if len(places) > 1]

    def look(self, first, second):
        """The definition that a name stands for, or the place of one outside this repository."""
        if first in self.aliases:
            return find(self.aliases[first], second)
        if first in self.own:
            return self.own[first]
        if first in self.names:
            return find(*self.names[first])
        own = self.file.endswith(".rt") and constant(self.file, first)
        return self.rust(first) or own or (first in self.uses and ("Rust", first))

    def rust(self, name):
        """The type that a name stands for in Rust, where it is one of this repository."""
        if isinstance(self, Spec):
            return None
        path = self.uses.get(name, [self.crate, name])
        crate = self.crate if path[0] in ("crate", "self", "super") else path[0]
        return type_in(crate, path[-1]) if crate in crates() else None


def find(module, name):
    """The definition of a name of a module; of one outside this repository the module and the name."""
    _, crate, kind, *path = (module.split(".") + ["", ""])[: max(4, module.count(".") + 1)]
    if crate not in crates() or kind == "proofs":
        return module.removeprefix("Rattle."), name
    if path[0] in ("declared", "contracts"):
        own = [it for it in path[1:] if not it.startswith("The")]
        made = type_in(crate, own[-1]) or constant(f"crates/{crate}/src/{'/'.join(own)}.rt", name)
        return made.inside if made and "TheInside" in path else made
    scope = spec(f"crates/{crate}/specs/{'/'.join(path)}.antt")
    return scope.own.get(name) or (find(*scope.names[name]) if name in scope.handed else None)


class Spec(Scope):
    """A file of specs/: its head, its definitions, and the lines that were not understood."""

    def __init__(self, file):
        # (the parameters of a module may go on in further lines)
        text = re.sub(r"^ *module [^\n]*(?:\n +[({][^\n]*)* where$", lambda it: re.sub(r"\n +", " ", it[0]), text_of(file), flags=re.M)
        super().__init__(file, text)
        self.handed = set(TOKEN.findall(" ".join(re.findall(r"^pub use .*", text, re.M))))
        self.head, self.unread, self.own = [], [], {}
        self.comments, self.above, self.current = [], [], None
        for line in text.splitlines():
            self.read(line, line.strip())

    def read(self, line, said):
        begun, level = BEGINS.match(line), level_of(line)
        is_new = self.current is None or level <= self.level
        if not said:
            self.put_above(self.comments)
            self.current = None
        elif IMPORT.match(line):
            self.head, self.comments = self.head + self.comments, []
        elif is_module(line):
            self.put_above(self.comments + [line])
        elif said.startswith("--") and is_new:
            self.comments.append(line)
        elif begun and is_new and (self.current is None or begun[2]):
            self.above = [it for it in self.above if not is_module(it) or level_of(it) < level]
            self.current = Definition(self, begun[2] or begun[4], self.comments + [line], tuple(self.above))
            self.is_data, self.level, self.comments = " data " in f" {line}", level, []
            self.own[self.current.name] = self.current
        elif self.current is not None:
            self.current.lines += self.comments + [line]
            self.comments = []
            made = re.match(r"\s+(\w+) : ", line)
            if made and self.is_data:
                self.own.setdefault(made[1], self.current)
        else:
            self.unread.append(line)

    def put_above(self, lines):
        """A heading takes the place of those that are no higher."""
        if lines:
            is_high = lines[0].startswith("-- ----")
            kept = [it for it in self.above if is_module(it) or it.startswith("-- ----") and not is_high]
            ends = is_module(lines[-1])
            self.above = [it for it in kept if not (ends and is_module(it) and level_of(it) >= level_of(lines[-1]))]
            self.above += lines
        self.comments = []


@functools.cache
def spec(file):
    return Spec(file) if os.path.isfile(file) else Scope(file, "")


@functools.cache
def rust_file(file):
    """A file of src/: the names that it brings in, for terms and in Rust."""
    text = text_of(file)
    scope = Scope(file, "\n".join(it for it in text.splitlines() if it.startswith("ghost use")))
    for path, names in re.findall(r"^(?:pub(?:\(crate\))? )?use ([\w:]+?)(?:::\{([^}]*)\})?;", text, re.M):
        first = path.split("::")[0]
        for name in re.findall(r"\w+(?: as \w+)?", names or path.split("::")[-1]):
            scope.uses[name.split(" as ")[-1]] = (first, name.split(" as ")[0])
    return scope


@functools.cache
def constant(file, name):
    text = text_of(file) if os.path.isfile(file) else ""
    line = re.search(rf"^(?:pub )?(?:const|static) {name}\b.*$", text, re.M)
    return line and Definition(rust_file(file), name, [line[0] + (" .. ]" if line[0].endswith("[") else "")], terms="")


@functools.cache
def types_of(crate):
    """The types and traits of a crate, private ones too, by their names: the file, the notes and the lines of each."""
    found = {}
    for file in sources_of(crate):
        lines, notes = text_of(file).splitlines(), []
        for at, line in enumerate(lines):
            begun = TYPE.match(line)
            if begun:
                end = next(it for it in range(at, len(lines)) if re.match(r"\}|.*[;}]$", lines[it]) and (
                    it == at or lines[it].startswith("}")))
                found.setdefault(begun[2], (file, notes, lines[at : end + 1]))
            notes = notes + [line] if line.startswith("//") else notes if line.startswith("#[") else []
    return found


@functools.cache
def type_in(crate, name):
    """A type of a crate, or one that it hands on."""
    if name not in types_of(crate):
        below = [it for it in crates()[crate] if it in crates() and name in types_of(it)]
        return type_in(below[0], name) if below else None
    file, notes, lines = types_of(crate)[name]
    scope, lines = rust_file(file), short(lines)
    model = re.search(rf"^impl(?:<.*>)? Model for {name}\b.*?^}}", text_of(file), re.M | re.S)
    if model:
        return with_model(Scope(file, model[0], scope), name, notes, lines, model[0])
    is_trait = TYPE.match(lines[0])[1] == "trait"
    terms = "\n".join(re.findall(r"\{ (.*?) \}", "\n".join(lines), re.S)) if is_trait else ""
    return Definition(scope, name, notes + lines, code="\n".join(lines), terms=terms)


def with_model(scope, name, notes, lines, model):
    """A type that contracts see as a value, where its `Model` says so. How its fields give the value is apart."""
    value = re.search(r"ghost Value = \{ (.*?) \};", model, re.S)
    seen = [it for it in lines if re.match(r"    (pub|ghost) |[^ ]", it)]
    seen = [f"{seen[0]} .. }}"] if len(seen) == 2 and len(lines) > 2 else seen
    said = [f"// Contracts speak of its value, which is of type {value[1]}."] if value else []
    made = Definition(scope, name, notes + seen + said, code="\n".join(seen), terms=value[1] if value else "")
    ghosts = [it for it in model.splitlines() if it and "ghost use" not in it]
    terms = re.sub(r"ghost \w+ =", "", "\n".join(ghosts[1:]))
    made.inside = Definition(scope, name, lines + ["", *ghosts], code="\n".join(lines), terms=terms)
    made.inside.is_tie = True
    return made


def short(lines):
    """The lines of a type, each with what is said of it at its end."""
    shown, note = [], ""
    for line in lines:
        said = line.strip()
        if said.startswith("//"):
            note = f"{note} {said.lstrip('/ ')}".strip()
        elif said and not said.startswith(("#[", "ghost use")):
            whole = f"{line}  // {note}" if note else line
            indent = " " * level_of(line)
            notes = textwrap.wrap(note, 110, initial_indent=f"{indent}// ", subsequent_indent=f"{indent}// ")
            shown += [whole] if len(whole) <= 112 else notes + [line]
            note = ""
    return shown


def calls_of(file):
    """The public calls of a source, each with its contract as it stands there."""
    lines, owner, scope, notes, block, at = text_of(file).splitlines(), "", rust_file(file), [], "", 0
    while at < len(lines):
        line = lines[at]
        if re.match(r"(?:pub )?(impl|trait)\b", line):
            owner = line.replace("pub ", "").rstrip(" {")
            block = "\n".join(lines[at:]).partition("\n}")[0]
            scope = Scope(file, block, rust_file(file))
        found = CALL.match(line) or (owner.startswith("trait") and re.match(r"(    )fn (\w+)", line))
        if found:
            end = end_of(lines, at, "fn")
            shown = [it for it in lines[at : end + 1] if it.strip() not in ("{", "{}")]
            begun = next((it for it, one in enumerate(shown) if re.match(r"\s*(requires|ensures)\b", one)), len(shown))
            code = [owner, *shown[:begun]] + (re.findall(r"(?:ghost|const) \w+", block) if "trait " in owner else [])
            made = Definition(scope, found[2], notes + shown, code="\n".join(code), terms="\n".join(shown[begun:]))
            yield f"{file.split('/')[1]}::{type_of(owner) + '::' if owner else ''}{found[2]}", made
            at = end
        notes = notes + [line] if line.strip().startswith("///") else notes if line.strip().startswith("#[") else []
        if line.startswith("}"):
            owner, scope = "", rust_file(file)
        at += 1


def contracts():
    """Each public call by its name, of all crates but tests and examples."""
    files = [file for crate in crates() if not re.search(r"_tests$|^example_", crate) for file in sources_of(crate)]
    return {name: call for file in files for name, call in calls_of(file)}
