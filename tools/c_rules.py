"""Writes the rules of docs/PROFILE.md next to the branches of FOP-1 and FARM-1 in portable C, for tools/portable_c.
`tools/c_rules.py --check FILE` finds the rules again, and checks that the comments of the file match them.

A branch is labelled with the rules of the rows of tables/fop.csv, or the events of tables/farm.csv, whose calls take
it. A run finds them: each branch of the calls below is marked in a copy of the library, and the programs that write
these tables (c/tools/fop_table.c, farm_table.c) record which marks each row passes, over all rules in each state with
many numbers. A branch has no comment if it only refuses a damaged struct, or takes the same rules as the branch around
it."""
import os
import re
import subprocess
import sys
import tempfile

from wasm_code import wrapped

# The table of each call, and what its comments begin with: the subject of the rules, or E of an event.
TABLES = {
    "fop": {
        "fop_clcw": "report",
        "fop_tick": "tick",
        "fop_submit": "submission",
        "fop_directive": "directive",
        "fop_next": "pull",
    },
    "farm": dict.fromkeys(("farm_ad", "farm_unlock", "farm_set_vr"), "E"),
}
FUNCTION = re.compile(r"^static [^\n]*\bsedge_(\w+)_at\([^;{]*\)\n\{\n(.*?)^\}\n", re.M | re.S)
# A line that begins a branch, one that ends a block, and a statement that leaves.
OPENS, LABEL, CASE = re.compile(r" {4,}.*\{$"), re.compile(r"l\d+:;$"), re.compile(r" +(case \w+|default):$")
ONE = re.compile(r" +if \(.*;$")
COMMENT = re.compile(r"\s+/\* (?:(?:report|tick|submission|directive|pull) \d[\d, to]*|E\d[\dE, to]*) \*/$", re.M)
# What stands before the library where branches are marked: the marks that were passed, each once.
MARKING = """enum { MARKS = COUNT };
static unsigned char is_passed[MARKS];
static int passed[MARKS], many;
#define MARK(it) (void)(is_passed[it] || (is_passed[it] = 1, passed[many++] = (it)))
"""
# How long such a program runs at most: a second or two, but for one that goes on for ever.
SECONDS = 100
# A blank in a comment, at which no line is broken.
BLANK = "\xa0"


class Line:
    """A statement, on one line or several: its text on one, and the mark of the branch that it begins, if any;
    `after` is the mark of what follows an `if`, at the first statement that does."""

    def __init__(self, rows):
        self.rows, self.text = rows, " ".join([rows[0], *(it.strip() for it in rows[1:])])
        self.mark = self.after = None
        self.indent = len(self.text) - len(self.text.lstrip())

    def marked(self):
        """The statement with its marks."""
        text = self.text
        if self.mark is not None:
            text = f"{text} MARK({self.mark});" if not ONE.match(text) else one_marked(text, self.mark)
        return f"MARK({self.after}); {text}" if self.after is not None else text

    def with_comment(self, said):
        return wrapped(f"{self.text} {f'/* {said} */'.replace(' ', BLANK)}")


def one_marked(text, mark):
    """A condition with one statement, whose mark stands before that."""
    at, depth = text.index("(") + 1, 1
    while depth:
        depth += {"(": 1, ")": -1}.get(text[at], 0)
        at += 1
    return f"{text[:at]} {{ MARK({mark}); {text[at:]} }}"


def lines_of(body):
    """The statements of a function's body."""
    rows, found = [], []
    for row in body.splitlines():
        rows.append(row)
        if row.endswith(("{", "}", ";", ":")):
            found.append(Line(rows))
            rows = []
    return found


def mark_all(lines, first):
    """Gives each branch a mark, from a number on; the next number."""
    follows = False
    for k, it in enumerate(lines):
        text = it.text.strip()
        if follows and not text.startswith(("}", "case ", "default:")) and not LABEL.match(it.text):
            it.after, first = first, first + 1
        opens = OPENS.match(it.text) and not text.startswith("switch")
        is_last_case = CASE.match(it.text) and not CASE.match(lines[k + 1].text)
        if opens or is_last_case or LABEL.match(it.text) or ONE.match(it.text):
            it.mark, first = first, first + 1
        follows = bool(ONE.match(it.text)) or text == "}"
    return first


def ranges(numbers):
    """Numbers as pairs of a first one and a last one."""
    found = []
    for it in sorted(numbers):
        if found and it == found[-1][1] + 1:
            found[-1][1] = it
        else:
            found.append([it, it])
    return found


def in_words(subject, numbers):
    """Rules in words, as `report 1 to 3, 5` or `E3, E4`."""
    own, its = "E" if subject == "E" else "", []
    for first, last in ranges(numbers):
        its.append(f"{own}{first}")
        if first < last:
            its[-1] += f"{' to' if last > first + 1 else ','} {own}{last}"
    return f"{'' if own else f'{subject} '}{', '.join(its)}"


def commented(lines, subject, taken):
    """The lines of a body with their comments; `taken` has the rules of each mark, 0 for a row without a rule."""
    whole = frozenset().union(*(taken.get(mark, ()) for it in lines for mark in (it.mark, it.after)))
    # (the rules of each block around this one, by its indent; what follows an `if` in it has one less)
    around, found = [(0, whole)], []
    for it in lines:
        said, text = None, it.text.strip()
        level = it.indent if not CASE.match(it.text) else it.indent + 1
        while len(around) > 1 and (around[-1][0] >= level or LABEL.match(it.text)):
            around.pop()
        base = around[-1][1]
        if it.after is not None:
            now = taken.get(it.after, frozenset())
            if now and now != base and not ONE.match(it.text) and it.mark is None and not text.startswith("switch"):
                said = now
            base = now or base
            around.append((level - 1, base))
        if it.mark is not None:
            now = taken.get(it.mark, frozenset())
            said = now if now and now != base else None
            if not ONE.match(it.text):
                around.append((level, now or base))
        found += it.with_comment(in_words(subject, said)) if said and 0 not in said else it.rows
    return found


def rules_taken(text, bodies, count):
    """The rules that pass each mark, by the subject and the mark."""
    found = {}
    with tempfile.TemporaryDirectory() as room:
        marked = os.path.join(room, "marked.c")
        for call, lines in bodies.items():
            rows = [it.marked() for it in lines]
            text = FUNCTION.sub(lambda it, call=call, rows=rows: with_body(it, call, rows), text)
        with open(marked, "w", encoding="utf-8") as out:
            out.write(MARKING.replace("COUNT", str(count)) + text)
        for table in TABLES:
            program, words = os.path.join(room, table), ("cc", "-std=gnu99", "-O1", "-w", "-Ic/include")
            subprocess.run([*words, f'-DMARKED="{marked}"', f"c/tools/{table}_table.c", "-o", program], check=True)
            ran = subprocess.run([program], stdout=subprocess.PIPE, text=True, check=True, timeout=SECONDS).stdout
            for line in ran.splitlines():
                mark, subject, rule = line.split(",")
                found.setdefault((subject, int(mark)), set()).add(int(rule))
    return found


def with_body(it, call, rows):
    """A function with these lines as its body, if it is this call."""
    return it[0] if it[1] != call else it[0][: it.start(2) - it.start()] + "".join(f"{own}\n" for own in rows) + "}\n"


def with_rules(text):
    """The library's text with the comments, whether it has some or not."""
    text = COMMENT.sub("", text)
    subjects = {call: subject for its in TABLES.values() for call, subject in its.items()}
    bodies, count = {}, 0
    for it in FUNCTION.finditer(text):
        if it[1] in subjects:
            bodies[it[1]] = lines_of(it[2])
            count = mark_all(bodies[it[1]], count)
    taken = rules_taken(text, bodies, count)
    for call, lines in bodies.items():
        subject = subjects[call]
        its = {mark: frozenset(rules) for (own, mark), rules in taken.items() if own == subject}
        rows = [row.replace(BLANK, " ") for row in commented(lines, subject, its)]
        text = FUNCTION.sub(lambda it, call=call, rows=rows: with_body(it, call, rows), text)
    return text


def main():
    with open(sys.argv[2], encoding="utf-8") as it:
        text = it.read()
    is_same = bool(COMMENT.search(text)) and with_rules(text) == text
    print(f"The rules next to the branches of {sys.argv[2]}, found again: {'passed' if is_same else 'failed'}")
    return not is_same


if __name__ == "__main__":
    sys.exit(main())
