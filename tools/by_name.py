"""Makes the parts of the bindings that follow the names of directives, events and managed parameters, for
tools/bindings. For C, these are the `static inline` calls that call one export with fixed values; they replace those in
the header. For Python and Rust, they are the methods of the directives, with the header's comment on each, and the
configuration of a node."""
import re
import textwrap
import typing

from exports import camel, snake, structs
from items import text_of
from made import Refused, parameter_rows, parameters
from meanings import enumerations, meanings

INLINE = re.compile(r"^static inline [\w ]+ \*?sedge_(\w+)\(", re.M)


class Row(typing.NamedTuple):
    """A call: its name, the one that serves, the parameters that get values, and these values."""

    name: str
    serving: str
    given: list
    values: list


def variants(file, name):
    """The variants of an enumeration of the sources, each as C has it, and what it holds."""
    body = re.search(rf"^pub enum {name}(?:<'a>)? \{{\n(.*?)^\}}", text_of(file), re.M | re.S)[1]
    return [(snake(own), holds) for own, holds in re.findall(r"^    (\w+)(?:\((.*)\))?,$", body, re.M)]


def rows():
    """Each directive is one call with its number and its value; of the events each is one with its kind, but for that
    of a directive: those with octets, then those that have nothing."""
    found = []
    for own, holds in variants("crates/cop1/src/vocabulary.rt", "Directive"):
        value = f"uint{holds[1:]}_t {own.split('_')[-1]}" if holds else "0"
        found += [Row(f"{it}_{own}", f"{it}_directive", ["directive", "value"], [f"SEDGE_{own.upper()}", value])
                  for it in ("fop", "ground", "sim")]
    events = variants("crates/nodes/src/event.rt", "Event")
    for own, holds in [it for it in events if "[u8]" in it[1]] + [it for it in events if not it[1]]:
        values = [f"SEDGE_EVENT_{own.upper()}", "uint8_t map" if holds.startswith("u8, ") else "0"]
        found.append(Row(f"sim_{own}", "sim_octets_event" if holds else "sim_event", ["kind", "map"], values))
    return found


def numbers_astray(headers):
    """What is wrong with the numbers of directives and events in the headers, beside what the sources make of them."""
    known = enumerations(headers)
    for enum, mark, file in (("directive", "SEDGE_", "c_words/src/directives.rt"),
                             ("event_kind", "SEDGE_EVENT_", "sedgechisel_nodes/src/sim/events.rt")):
        arms = re.findall(r"^        (\d+)(?: if \w+)? => Some\(\w+::(\w+)", text_of(f"crates/{file}"), re.M)
        if known[enum] != {mark + snake(name).upper(): number for number, name in arms}:
            yield f"sedge_{enum} has other names and numbers than crates/{file}"


def signature(text, name):
    """What a call of a header answers, and its parameters; or nothing, where it has none of this name."""
    found = re.search(rf"^(?:static inline )?([\w ]+?) sedge_{name}\(([^)]*)\)", text, re.M)
    return found and (found[1], [" ".join(it.split()) for it in found[2].split(",")])


def inline(row, answer, parameters, columns):
    """The function of a row."""
    taken, handed = [], []
    for it in parameters:
        own = re.search(r"\w+$", it)[0]
        value = row.values[row.given.index(own)] if own in row.given else it
        handed.append(re.search(r"\w+$", value)[0])
        taken += [value] if " " in value else []
    head = f"static inline {answer} sedge_{row.name}("
    lines = textwrap.wrap(", ".join(it.replace(" ", "\0") for it in taken), columns - len(head) - 3)
    shown = f"{head}{(chr(10) + ' ' * len(head)).join(lines)}) {{".replace("\0", " ")
    return f"{shown}\n    return sedge_{row.serving}({', '.join(handed)});\n}}"


def with_inlines(text, columns):
    """A header with these calls anew: in each part that has some of them, after what stands before the first one."""
    parts = text.split("\n\n")
    known = rows()
    for at, part in enumerate(parts):
        there = set(INLINE.findall(part))
        serving = {it.serving for it in known if it.name in there and signature(text, it.serving)}
        made = [inline(it, *signature(text, it.serving), columns) for it in known if it.serving in serving]
        if made:
            first = min(it.start() for it in INLINE.finditer(part) if it[1] in {one.name for one in known})
            parts[at] = part[:first] + "\n".join(made)
    return "\n\n".join(parts)


# ---- The methods of the directives. ----

WIDE = 120


class Directive(typing.NamedTuple):
    """A directive: its name, the bits and the name of its value or none, what it does, and when it is refused."""

    name: str
    bits: str
    value: str
    does: str
    refused: str
    fault: str


def directives(headers):
    """The directives of the sources, with the notes of the header: what each does, then `; SEDGE_COP_.. ..`."""
    numbers = enumerations(headers)["cop_fault"]
    notes = meanings(headers)["directive"].values()
    for (name, holds), note in zip(variants("crates/cop1/src/vocabulary.rt", "Directive"), notes, strict=True):
        value = name.split("_")[-1] if holds else ""
        does, fault, when = re.fullmatch(r"(.*); (SEDGE_COP_\w+) (.*)", note).groups()
        does = re.sub(r"\bvalue\b", f"`{value}`", does)
        yield Directive(name, holds[1:], value, does, f"{numbers[fault]} NAME {when}",
                        camel(fault.removeprefix("SEDGE_COP_").lower()))


def in_place(place, made, text):
    """A text with what is made in the first place of this kind, which it has."""
    text, count = re.subn(place, made, text, count=1, flags=re.M | re.S)
    if count == 0:
        raise Refused(f"there is no place for what is made: {place}")
    return text


def comment_lines(text, indent, mark=""):
    lines = textwrap.wrap(text, WIDE - len(indent) - len(mark), break_on_hyphens=False)
    return "".join(f"{indent}{mark}{it}\n" for it in lines)


def rust_directives(text, headers):
    """The macro of the crate with its methods anew."""
    made, mark, indent = [], "/// ", " " * 8
    for it in directives(headers):
        fault = f"[`{it.fault}`](CopFault::{it.fault})"
        taken = f", {it.value}: u{it.bits}" if it.value else ""
        given = {"8": f"{it.value}.into()", "16": it.value}.get(it.bits, "0")
        made.append(
            comment_lines(f"The directive (232.1-B-2, 5.2.4) to {it.does}.", indent, mark)
            + "".join(f"{indent}{line}\n" for line in ("///", "/// # Errors", "///"))
            + comment_lines(f"Refused with {it.refused.replace('NAME', fault)}.", indent, mark)
            + f"{indent}pub fn {it.name}(&mut self{taken}) -> Result<(), CopFault> {{\n"
            + f"{indent}    self.direct($crate::directives::SEDGE_{it.name.upper()}, {given})\n{indent}}}\n")
    return in_place(r"(?<=^    \(\) => \{\n)        /// .*?(?=^    \};$)", lambda _: "\n".join(made), text)


def python_directives(text, headers):
    """The class of the package with its methods anew."""
    made = []
    for it in directives(headers):
        said = f'"""Directive: {it.does}; CopFault {it.refused.replace("NAME", it.fault)}."""'
        taken = f", {it.value}: int" if it.value else ""
        given = [f'"{it.name}"', *([f'"{it.value}"', it.value] if it.value else []), *["c_uint16"] * (it.bits == "16")]
        made.append(f"    def {it.name}(self{taken}) -> None:\n" + comment_lines(said, " " * 8)
                    + f"        self._direct({', '.join(given)})\n")
    return in_place(r"(?<=\n\n)    def init_\w+\(self.*?(?=^\S)", lambda _: "\n".join(made) + "\n\n", text)


# ---- The managed parameters. ----


def noted_parameters():
    """The managed parameters of the table, each with its note of the sources, which is a sentence."""
    notes = {it.name: it.note for one in structs() if one.own == "config" for it in one.fields()}
    return [(*row, notes[row[0]]) for row in parameter_rows()]


def with_list(text, before, made, after):
    """A text with this in place of what stands between two others."""
    return in_place(rf"({before}).*?(?={after})", lambda it: it[1] + made, text)


def rust_config(text):
    """The module of the crate with its configuration anew."""
    rows = noted_parameters()
    bits = {name: "bool" if most == 1 else f"u{next(it for it in (8, 16, 32, 64) if most < 1 << it)}"
            for name, _, most, *_ in rows}
    values = {name: {"bool": str(bool(default)).lower(), "u64": "u64::MAX"}.get(bits[name], str(default))
              for name, _, _, default, _ in rows}
    wide = {name: name if bits[name] in ("u32", "u64") else f"{name}.into()" for name, *_ in rows}
    whether = r"^1 where (.*), 0 to 1; default 0", r"Whether \1; by default not"
    notes = {name: re.sub(*whether, note) for name, *_, note in rows}
    fields = "".join(f"{comment_lines(notes[it], '    ', '/// ')}    pub {it}: {bits[it]},\n" for it in notes)
    numbers = "".join(f"        /// `{it}`.\n        {camel(it)} = {at},\n" for at, it in enumerate(bits, 1))
    names = "".join(f'            "{it}",\n' for it in bits)
    spans = "".join(f'            "{span}",\n' for _, span, _ in parameters())
    defaults = "".join(f"            {it}: {values[it]},\n" for it in values)
    raw = "".join(f"    pub {it}: {'u64' if bits[it] == 'u64' else 'u32'},\n" for it in bits)
    handed = "".join(f"            {it}: self.{wide[it]},\n" for it in wide)
    made = (
        (r"    Parameter \{\n", numbers, r"    \}\n\}"),
        (r"const NAMES: ", f"[&str; {len(rows)}] = [\n{names}", r"        \];"),
        (r"const RANGES: ", f"[&str; {len(rows)}] = [\n{spans}", r"        \];"),
        (r"pub struct Config \{\n", fields, r"\}"),
        (r"fn default\(\) -> Self \{\n        Self \{\n", defaults, r"        \}\n    \}"),
        (r"pub struct Raw \{\n", raw, r"\}"),
        (r"        Raw \{\n", handed, r"        \}\n    \}"),
    )
    for before, lines, after in made:
        text = with_list(text, before, lines, after)
    return text


def python_config(text):
    """The module of the package with its configuration anew."""
    rows = noted_parameters()
    names = [name for name, *_ in rows]
    notes = "".join(textwrap.fill(f"- `{name}`: {note[:1].lower()}{note[1:-1]}", WIDE, initial_indent="    ",
                                  subsequent_indent="      ", break_on_hyphens=False) + "\n" for name, *_, note in rows)
    given = ", ".join(f"{name}: int = {'2**64 - 1' if default >> 63 else default}".replace(" ", "\0")
                      for name, _, _, default, _ in rows)
    taken = "".join(f"            {it}\n" for it in textwrap.wrap(given, WIDE - 20)).replace("\0", " ").rstrip()
    handed = "\n                         ".join(textwrap.wrap(", ".join(names), WIDE - 26))
    made = (
        (r"`Config\(window=4, timer=3\)` sets two of them:\n\n", notes.rstrip(), '"""'),
        (r"    _fields_ = \[[^\]]*\]\n", "".join(f"    {it}: int\n" for it in names) + "\n", "    def __init__"),
        (r"            self, \*, ", taken.lstrip(), r"\) -> None:"),
        (r"        super\(\).__init__\(", handed, r"\)\n"),
    )
    begun, mark, config = text.partition("class Config(_Struct):")
    for before, lines, after in made:
        config = with_list(config, before, lines, after)
    return begun + mark + with_fields(config, names)


def python_parameters(text):
    """Another module of the package with the fields of the configuration anew."""
    return with_fields(text, [name for name, *_ in noted_parameters()])


def with_fields(text, names):
    """The fields of the configuration as the nodes take them, and the numbers of its faults."""
    given = textwrap.wrap(", ".join(f"{it}: Optional[int] = None".replace(" ", "\0") for it in names), WIDE - 20)
    taken = "".join(f"            {it}\n" for it in given).replace("\0", " ").rstrip()
    nodes = r"(            self, config: Optional\[Config\] = None, \*,(?: kept: [^\n]*,)?\n).*?(?=\) -> None:)"
    text = re.sub(nodes, lambda it: it[1] + taken, text, flags=re.S)
    numbers = "\n         ".join(textwrap.wrap(", ".join(it.upper() for it in names), WIDE - 12))
    return re.sub(r"(class ConfigFault\(.*?        \().*?\) = range\(1, \d+\)",
                  lambda it: f"{it[1]}{numbers}) = range(1, {len(names) + 1})", text, count=1, flags=re.S)


def parameter_numbers(text):
    """The header with the numbers of the parameters anew, and with the cases of the call that sets one by its number."""
    names = [name for name, *_ in parameter_rows()]
    marks = ["NO_PARAMETER", *(f"PARAMETER_{it.upper()}" for it in names)]
    lines = ",\n".join(f"    SEDGE_{it} = {at}" for at, it in enumerate(marks))
    text = with_list(text, r"\nenum sedge_parameter \{\n", f"{lines}\n", r"\};")
    wide = {it.name for one in structs() if one.own == "config" for it in one.fields() if it.type == "u64"}
    cases = "".join(f"    case SEDGE_PARAMETER_{it.upper()}: {'wide' if it in wide else 'field'} = &config->{it}; break;\n"
                    for it in names)
    return with_list(text, r"sedge_config_set\([^}]*?switch \(number\) \{\n", cases, "    default:")

