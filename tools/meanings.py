"""Reads what the numbers of the headers' enumerations mean, writes it for C, Rust and Python, and checks that each
answer belongs to one enumeration, for tools/bindings."""
import os
import re
import textwrap

from exports import camel, snake
from made import Refused, parameters

COLUMNS = 120
# An enumeration that has another name in Rust and Python, and the first of the numbers that all kinds of calls share.
RENAMED = {"link_fault": "node_status"}
SHARED = 252


ENUMERATION = re.compile(r"^enum sedge_(\w+) \{(.*?)^\};", re.M | re.S)
CONSTANTS = re.compile(r"(?<=\n#ifndef __cplusplus\n)(?:#define SEDGE_\w+ \(\(uint\d+_t\)\w+\)\n)*(?=#endif\n)")


def enumerations(headers):
    """Each enumeration, with its numbers by their names."""
    text = re.sub(r"/\*.*?\*/", "", headers, flags=re.S)
    return {name: dict(re.findall(r"(SEDGE_\w+) = (\w+)", body)) for name, body in ENUMERATION.findall(text)}


def with_constants(header):
    """A header with each number of its enumerations as a constant anew, of the least type that has them all."""
    lines = ""
    for numbers in enumerations(header).values():
        bits = 8 if max(int(it, 0) for it in numbers.values()) < 256 else 16
        lines += "".join(f"#define {name} ((uint{bits}_t){number})\n" for name, number in numbers.items())
    return CONSTANTS.sub(lines, header)


def returned_words(call):
    """The words of what a comment says of the answer."""
    said = re.search(r"\b[Rr]eturns (.*)", " ".join(call.docs))
    return re.findall(r"\w+", said[1]) if said else []


def answers_astray(headers, calls):
    """What is wrong with the numbers that the comments of calls name: each is of an enumeration, and those that a call
    returns are of one, besides those that all calls share."""
    known = enumerations(headers)
    of = {name: own for own, numbers in known.items() for name in numbers}
    shared = {"SEDGE_NODE_NONE", *known["status"]}
    wrong = []
    for call in calls:
        named, words = set(re.findall(r"SEDGE_\w+", " ".join(call.docs))), returned_words(call)
        wrong += [f"sedge_{call.name}: there is no {it}" for it in sorted(named - {*of})]
        found = {of[it] for it in words if it in of and it not in shared}
        found |= {it[6:] for it in words if it[:6] == "sedge_" and it[6:] in known}
        if call.answer == "u8" and not (words and len(found) < 2):
            wrong.append(f"sedge_{call.name} returns numbers of {sorted(found)}")
    return wrong


def answers_of(headers, calls):
    """Of each call that returns a number of an enumeration the numbers that its comment names, and 0."""
    known = {own: {int(it, 0) for it in numbers.values()} for own, numbers in enumerations(headers).items()}
    known |= {name[6:]: {int(it, 0)} for numbers in enumerations(headers).values() for name, it in numbers.items()}
    by_name = {it.name: it for it in calls}

    def numbers(call):
        said, found = " ".join(returned_words(call)), {0}
        for ranges, own in re.findall(r"((?:\d+ to \d+ and )*\d+ to \d+) of sedge_(\w+)", said):
            for first, last in re.findall(r"(\d+) to (\d+)", ranges):
                found |= {it for it in known[own] if int(first) <= it <= int(last)}
        for own in re.findall(r"(?<!\d of )\b(?:sedge|SEDGE)_(\w+)", said):
            found |= known.get(own, set())
        for own in re.findall(r"what sedge_(\w+) does", said):
            found |= numbers(by_name[own])
        return found

    return {it.name: numbers(it) for it in calls if it.answer == "u8"}


def answer_names(headers, calls):
    """Of each such call its numbers, with the name of each in the enumeration that its comment names, or in the one that
    all kinds of calls share."""
    known, by_name, found = enumerations(headers), {it.name: it for it in calls}, {}
    own_of = {name: own for own, numbers in known.items() for name in numbers}
    for name, numbers in answers_of(headers, calls).items():
        words = returned_words(by_name[name])
        words += [it for other in words if other[6:] in by_name for it in returned_words(by_name[other[6:]])]
        own = {own_of.get(it, it[6:]) for it in words if it in own_of or it[6:] in known} - {"status"}
        its = {int(number, 0): name for it in [*sorted(own)[:1], "status"] for name, number in reversed(known[it].items())}
        its |= {int(number, 0): name for it in sorted(own)[:1] for name, number in known[it].items()}
        found[name] = {number: its[number] for number in sorted(numbers) if number in its}
    return found


def checks_astray(headers, calls):
    """The calls that lack `#[must_use]`: their number says more than that a struct is damaged or that a handle holds
    none, which is one number."""
    numbers, damaged = answers_of(headers, calls), int(enumerations(headers)["status"]["SEDGE_DAMAGED"], 0)
    for call in calls:
        if numbers.get(call.name, set()) - {0, damaged} and not call.is_checked:
            yield f"sedge_{call.name} lacks #[must_use]"


def fields_of_enumerations(headers, structs):
    """Of each struct the fields that hold a number of an enumeration, with its numbers, and 0 where there is none."""
    for (struct, field), names in field_names(headers, structs).items():
        yield struct, field, set(names) | (set() if field in ("kind", "state") else {0})


def field_names(headers, structs):
    """Of each such field the names of its numbers, by the struct and the field."""
    known = enumerations(headers)
    found = {}
    for struct in structs:
        for field in struct.fields():
            it = re.search(r"(?:^|[:,] )[Oo]f `sedge_(\w+)`", field.note)
            if it and it[1] in known:
                found[struct.own, field.name] = {int(number, 0): name for name, number in known[it[1]].items()}
    return found


def meanings(headers):
    """Of each enumeration its numbers with their notes, without those that name a call or an enumeration of C."""
    found = {}
    for name, body in re.findall(r"^enum sedge_(\w+) \{(.*?)^\};", headers, re.M | re.S):
        notes = re.findall(r"= (\w+),?\s*/\*(.*?)\*/", body, re.S)
        said = {int(number, 0): " ".join(re.sub(r"\n\s*\*", " ", note).split()) for number, note in notes}
        found[name] = {number: note for number, note in said.items() if "sedge_" not in note}
    return found


def on_board(headers):
    """The events of the simulated link on board, as their notes say: of each its name and its number."""
    notes = meanings(headers)["event_kind"]
    return {name.removeprefix("SEDGE_EVENT_"): int(it) for name, it in enumerations(headers)["event_kind"].items()
            if re.search("on board|spacecraft", notes[int(it)])}


def meaning(known, name, number):
    """What a number of an enumeration means, as its class or its enum has the name."""
    own = snake(name)
    number = int(number)
    of = "status" if number > SHARED and name.endswith("Fault") else RENAMED.get(own, own)
    return known.get(of, {}).get(number)


def sentence(note):
    return f"{note[:1].upper()}{note[1:]}."


def rust_text(indent, head, text):
    """A text after its name and its number, on several lines where it is long."""
    lines = textwrap.wrap(text, COLUMNS - len(indent) - 4, initial_indent=" " * (len(head) + 2), break_on_hyphens=False)
    return f'{indent}{head} "' + f" \\\n{indent}    ".join([lines[0].lstrip(), *lines[1:]]) + '";\n'


def rust_meanings(text, known):
    """A module of the crate with the texts of its reasons and the notes of its numbers anew."""
    def anew(block):
        def reason(it):
            said = meaning(known, block[3], it[2])
            return rust_text(" " * 8, f"{it[1]} = {it[2]},", said) if said else it[0]

        def number(it):
            said = meaning(known, block[3], it[3])
            lines = textwrap.wrap(sentence(said), COLUMNS - 12, break_on_hyphens=False) if said else []
            return "".join([*(f"        /// {line}\n" for line in lines), it[2]]) if said else it[0]

        if block[2] == "numbers":
            return re.sub(r"((?:        /// .*\n)+)(        \w+ = (\d+),\n)", number, block[0])
        return re.sub(r'        (\w+) = (\d+), "[^"]*";\n', reason, block[0])

    blocks = re.compile(r"^((numbers|reasons|faults)! \{\n(?:    ///.*\n)*    (\w+) \{\n)(?:.*\n)*?\}\n", re.M)
    return blocks.sub(anew, text)


# What a text is of a number that its enumeration does not have, where it is not that of a sedge_status.
UNKNOWN = {it: '"?"' for it in ("status", "link_fault", "parameter")}
UNKNOWN["sim_fault"] = UNKNOWN["ledger_fault"] = f'number < {SHARED} ? "?" : sedge_link_fault_text(number)'
TEXTS = re.compile(r"^(static inline const char \*sedge_(\w+)_text\(uint8_t number\) \{\n).*?^\}", re.M | re.S)


def c_text(number, text):
    """The case of a number, whose text is on several lines where it is long."""
    head = f"    case {number}: return "
    lines = textwrap.wrap(text, COLUMNS - len(head) - 4, break_on_hyphens=False)
    return head + f'\n{" " * len(head)}'.join([*(f'"{it} "' for it in lines[:-1]), f'"{lines[-1]}"']) + ";\n"


def c_texts(text, headers):
    """The header of texts with each text anew: the number, the name, and what they mean. It has one for each enumeration of
    faults."""
    known, enums = meanings(headers), enumerations(headers)
    lost = [it for it in enums if it.endswith("_fault") and f"*sedge_{it}_text(" not in text]
    if lost:
        raise Refused(f"sedgechisel_faults.h lacks sedge_{lost[0]}_text")

    def texts(kind):
        if kind == "parameter":
            return {k: f"{name}: its range is {span}" for k, (name, span, _) in enumerate(parameters(), 1)}
        names = {int(number, 0): name for name, number in enums[kind].items()}
        shared = len(os.path.commonprefix([*names.values()]).rpartition("_")[0]) + 1
        return {k: f"{camel(names[k][shared:].lower())}: {said}" for k, said in known[kind].items()}

    def anew(it):
        cases = "".join(c_text(k, f"{k} {said}") for k, said in texts(RENAMED.get(it[2], it[2])).items())
        rest = UNKNOWN.get(it[2], "sedge_status_text(number)")
        return f"{it[1]}    switch (number) {{\n{cases}    default: return {rest};\n    }}\n}}"

    return TEXTS.sub(anew, text)


def python_text(head, text):
    *lines, last = textwrap.wrap(text, COLUMNS - len(head) - 3, break_on_hyphens=False)
    return head + f"\n{' ' * len(head)}".join([*(f'"{it} "' for it in lines), f'"{last}"'])


def python_meanings(text, known):
    """A module of the package with the meanings of its faults anew."""
    shared = re.compile(r'^(_\w+ = \{(25\d): )"[^"]*"\}', re.M)
    text = shared.sub(lambda it: python_text(it[1], known["status"][int(it[2])]) + "}", text)

    def anew(block):
        def one(it):
            said = meaning(known, block[1], it[2])
            return f"{python_text(it[1], said)},\n" if said else it[0]

        return re.sub(r'^(        (\d+): )(?:"[^"]*"\s*)+,\n', one, block[0], flags=re.M)

    return re.sub(r"^class (\w+)\(Fault\):\n(?:(?!class ).*\n)*", anew, text, flags=re.M)
