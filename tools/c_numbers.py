"""Replaces numbers in the statements of a call by their names in the headers, for tools/portable_c."""
import functools
import itertools
import re

from exports import exports_of, structs
from items import text_of
from meanings import answer_names, enumerations, field_names

HEADERS = ("c/include/sedgechisel.h", "c/include/sedgechisel_nodes.h")


@functools.cache
def headers():
    return "".join(map(text_of, HEADERS))


@functools.cache
def answers():
    """Of each call the names of the numbers that it answers."""
    core, nodes = (answer_names(headers(), list(exports_of(it).values())) for it in ("sedgechisel", "sedgechisel_nodes"))
    for names in nodes.values():
        own = {number: name for number, name in names.items() if name != "SEDGE_OK"}
        names.update({0: "SEDGE_NODE_OK", 255: "SEDGE_NODE_NONE", **own})
    return {f"sedge_{call}": names for call, names in {**core, **nodes}.items()}


@functools.cache
def known_by_name(name):
    """The names of the numbers of the enumeration of this name."""
    return {int(number, 0): it for it, number in enumerations(headers()).get(name, {}).items()}


@functools.cache
def bits():
    """Of each field of a struct whose bits have names these, by the struct and the field."""
    found = re.findall(r"as bits of sedge_(\w+)\.(\w+)[^/]*\*/\nenum sedge_(\w+) \{", headers())
    return {(struct, field): known_by_name(name) for struct, field, name in found}


@functools.cache
def enumerated():
    """Of each field of a struct that holds a number of an enumeration their names, by the struct and the field."""
    return field_names(headers(), structs())


def replaced(text, before, names, after=""):
    """The text with the name of a number that stands between two patterns, where it has one."""

    def named(it):
        number = int(it["number"], 0)
        return f"{it['before']}{names[number]}{it['after']}" if number in names else it[0]

    number = r"(?P<number>0x[0-9a-f]+|\d+)U?"
    return re.sub(rf"(?P<before>{before}){number}(?P<after>{after})(?![\w.])", named, text, flags=re.M)


def replaced_arms(text, before, names):
    """The same of a number, or of those of a choice, from a pattern to the end of a statement."""
    test = rf"{before}\([^?]*\) \? "
    text = replaced(text, before, names, ";")
    text = replaced(text, test, names, r" : [^?:]+;")
    return replaced(text, rf"{test}[^?:]+ : ", names, ";")


def only_answered(text):
    """The variables that are only answered, or are put into such a one."""
    found = set(re.findall(r"\breturn ([a-z]\w*)(?: & 255)?;", text))
    found |= {it for it in re.findall(r" = ([a-z]\w*);", text)}
    while True:
        kept = "|".join(sorted(found)) or "return"
        spent = re.compile(rf"\breturn (?:{kept})(?: & 255)?;|\b(?:{kept}) = (?:{kept});|\b(?:{kept}) = ")
        left = found - set(re.findall(r"\b[a-z]\w*\b", spent.sub("", text)))
        if left == found:
            return found
        found = left


def with_answers(call, body):
    """The statements of a call with the names of the numbers that it answers, and of those that a variable has which is
    only answered."""
    text, names = "\n".join(body), answers().get(call, {})
    text = re.sub(r"\breturn (\d+)U & 255U;", r"return \1;", text)
    text = replaced_arms(text, r"\breturn ", names)
    for it in only_answered(text) if names else ():
        text = replaced_arms(text, rf"\b{it} = ", names)
    return text.split("\n")


def with_whole(text, field, names):
    """The text with the name of what a field of an octet is, as a comment where so much less than the field is compared
    with a number."""
    for less, own, count in re.findall(rf"^ +(\w+) = ({field}(?:_\d+)?) - (\d+);$", text, re.M):

        def named(it, count=int(count)):
            name = names.get(int(it[1]) + count)
            return f"{it[0]} /* {name} */" if name else it[0]

        is_octet = re.search(rf"^ +{own} = get8\(", text, re.M)
        if is_octet and all(len(re.findall(rf"^ *{it} = ", text, re.M)) == 1 for it in (less, own)):
            text = re.sub(rf"\({less} & 255\) [!=]= (\d+)\b", named, text)
    return text


def with_fields(fields, body):
    """The statements with the names of the numbers of these fields, each with its names: in a variable that is named
    after it, and where one is read or put."""
    text = "\n".join(body)
    for field, names in fields.items():
        text = with_whole(text, field, names)
        own = rf"(?:new_)?{field}(?:_now)?(?:_\d+)?"
        text = replaced_arms(text, rf"^ +{own} = ", names)
        text = replaced(text, rf"(?<![\w.]){own} [=!]= |/\* {field} \*/\) [=!]= ", names)
        text = replaced(text, rf"/\* {field} \*/, ", names, r"\)")
        for it in reversed([*re.finditer(rf"^( +)switch \({own}(?: & 255)?\) \{{\n.*?^\1\}}", text, re.M | re.S)]):
            cases = replaced(it[0], rf"^{it[1]}case ", names, ":")
            text = text[: it.start()] + cases + text[it.end() :]
    return text.split("\n")


def masks(names):
    """The numbers that have some of these bits alone, each with their names."""
    parts = (its for count in range(1, len(names) + 1) for its in itertools.combinations(names, count))
    return {sum(its): " | ".join(names[it] for it in its) for its in parts}


def with_bits(fields, body):
    """The statements with the names of the bits of these fields, each with its names: where one is looked at in such a
    field or in a variable that is named after it, and in what is put there."""
    text = "\n".join(body)
    for field, names in fields.items():
        own = rf"\b(?:{field}(?:_\d+)?|get8\([^()]*/\* {field} \*/\)) & "
        its = {number: f"({it})" if "|" in it else it for number, it in masks(names).items()}
        text = replaced(text, own, its)
        text = replaced(text, rf"{own}[\w| ()]+\) [!=]= ", its)
        put = re.compile(rf"\bput8\([^()]*/\* {field} \*/, .*;")
        text = put.sub(lambda it, its=its: replaced(it[0], r"[?:] ", its), text)
    return text.split("\n")
