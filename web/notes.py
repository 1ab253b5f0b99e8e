"""Writes the comments of the headers as JSDoc, for web/bindings: those of calls and fields unchanged, and those of
methods, getters, directives and events in the words of the classes of web/nodes.mjs, web/simulated.mjs,
web/executor.mjs and web/commanding.mjs."""
import re
import textwrap

from by_name import directives
from exports import camel, exports_of, structs
from items import text_of
from meanings import meanings

WIDE = 120
LIBRARIES = ("sedgechisel", "sedgechisel_nodes")
HEADERS = ("c/include/sedgechisel.h", "c/include/sedgechisel_nodes.h")
# Of each class the beginning of its calls, its structs that are read, and what begins its events.
CLASSES = {
    "Ground": ("ground", ("ground_reading",)),
    "Spacecraft": ("spacecraft", ("spacecraft_reading",)),
    "Link": ("sim", ("sim_reading", "ground_reading", "spacecraft_reading")),
    "Executor": ("log", ()),
    "Commander": ("commander", ("commander_reading",)),
}
FAULTS = {"NODE": "LinkFault", "TM": "TelemetryFault", "SIM": "SimFault", "COP": "CopFault", "LEDGER": "LedgerFault"}
# A getter that has another name than its field.
RENAMED = {("Spacecraft", "mode"): "state", ("Commander", "isWorth"): "worth"}
# What the note of a field says, and what a getter says, which stands by itself.
FIELD_SAID = (
    (r"^([Tt]he (?:.*? state|state of .*?)), of sedge_\w+", r"\1"),
    (r"^[Tt]he session (?=began|had)", "whether the session "),
    (r"^[Aa] CLCW (?=has taken)", "whether a CLCW "),
    (r"^1 if (.*?)[,;] otherwise 0\b", r"whether \1"),
)
# What C says, and what a class says: octets and numbers are returned, a fault is thrown, and null is nothing.
SAID = (
    (r", of sedge_log_action(?=\.)", ""),
    (r" For a write, out receives .*? for any other action\.", ""),
    (r" (?:Writes nothing and returns|Returns 0, or the first of) SEDGE_WRONG_COUNT[^.]*\.", ""),
    (r"returned, with its number, is complete", "returned last is complete"),
    (r"Returns 0; or it changes nothing and returns SEDGE_DAMAGED, or else SEDGE_ABSENT if .*",
     "Throws an Error, and changes nothing, if this is another action."),
    (r"and writes where (the mission's octets) are in them\. Keep [^.]*\.", r"and returns \1 in them."),
    (r"Returns 0, or else drops the packet, changes (?:and writes )?nothing, and [^:]* of sedge_log_fault:",
     "Throws LogFault, and changes nothing, for any other packet, which is dropped:"),
    (r"SEDGE_LOG_(\w+)", r"\1"),
    (r"as sedge_ground_(telemetry|clcw) does\.", r"as `Ground.\1` does."),
    (r", of sedge_progress,", ""),
    (r"sedge_commander_take_telemetry", "`next`"),
    (r" A frame is written to the beginning of out, [^.]*\.", ""),
    (r"the first that applies of SEDGE_LEDGER_ROOM(?: \([^)]*\))? and ", ""),
    (r", and their number(?=;)", ""),
    (r" If worth of [^.]* is room enough\.", ""),
    (r", SEDGE_LEDGER_MEMORY and SEDGE_LEDGER_ROOM", " and SEDGE_LEDGER_MEMORY"),
    (r"(\w+), (the \w+), and the number of its octets", r"\1 and \2"),
    (r", and the number of its octets, which is frame_length", ": `frameLength` octets"),
    (r"it and the number of its octets, or 0 octets if", "it, or null if"),
    (r"; or writes only 0 to count if", ", or null if"),
    (r", of sedge_alert, SEDGE_NO_ALERT for none", ", or null for none"),
    (r"(?<!commander )\b(W|w)rites\b", lambda it: {"W": "Returns", "w": "returns"}[it[1]]),
    (r" or SEDGE_NODE_ROOM(?=\.)", ""),
    (r"returns SEDGE_NODE_NOT_KNOWN \(10\)", "throws LinkFault 10 (NotKnown)"),
    (r"Returns 0,? or (?=[^.]*(?:SEDGE_(?:NODE_MEMORY|LEDGER_MEMORY|TM_)|of sedge_node_status))", "Throws "),
    (r"(\d to \d) of sedge_node_status", r"LinkFault \1"),
    (r" ?Returns 0\.", ""),
)
ABSENT = r"Returns 0, or SEDGE_(?:NODE|LEDGER)_ABSENT(?= if| where)"
# What the note of an event says, and what a method says; FRAME is the first frame in transit.
EVENT_SAID = (
    (r"^it is lost", "FRAME is lost"),
    (r"^these octets arrive instead, and do not form a valid frame",
     "these octets, which must not form a valid frame, arrive instead of FRAME"),
)


def call_notes():
    """The comment of each call, as one text."""
    return {f"sedge_{name}": " ".join(it.docs) for crate in LIBRARIES for name, it in exports_of(crate).items()}


def field_notes():
    """The note of each field of each struct."""
    return {(f"sedge_{one.own}", it.name): it.note for one in structs() for it in one.fields() if it.note}


def js(name):
    """A name of C as JavaScript has it."""
    return camel(name)[:1].lower() + camel(name)[1:]


def numbered(known):
    """What replaces a constant of a fault: its class, number and name."""
    def put(it):
        number = known.get(it[0])
        return f"{FAULTS[it[1]]} {number} ({camel(it[2].lower())})" if number is not None else it[0]

    return put


def replaced(text, phrases, found):
    """The text with these phrases replaced; those that it contains are added to a set."""
    for words, other in phrases:
        text, count = re.subn(words, other, text)
        found |= {words} if count else set()
    return text


def translated(text, known, is_nullable, found):
    """A comment in the words of a class; it says null of what may be absent, and nothing where a method throws then."""
    text = replaced(text.replace("`", ""), SAID, found)
    text = re.sub(ABSENT, "Returns null", text) if is_nullable else re.sub(rf" ?{ABSENT}[^.]*\.", "", text)
    text = re.sub(r"SEDGE_(NODE|TM|SIM|COP|LEDGER)_(\w+)", numbered(known), text)
    text = re.sub(
        r"sedge_(ground|spacecraft)_open_kept\b", lambda it: f"`new {it[1].capitalize()}(config, kept)`", text)
    text = re.sub(r"sedge_(?:ground|spacecraft|sim|log|commander)_(\w+)", lambda it: f"`{js(it[1])}`", text)
    return " ".join(text.split())


def sentence(note):
    return f"{note[:1].upper()}{note[1:].rstrip('.')}."


class Notes:
    """The texts of the classes, by class and member."""

    def __init__(self, known):
        self.known, self.calls, self.fields = known, call_notes(), field_notes()
        self.found = set()
        headers = "".join(text_of(it) for it in HEADERS)
        events = meanings(headers)["event_kind"]
        self.events = {name.removeprefix("SEDGE_EVENT_"): events[number] for name, number in known.items()
                       if name.startswith("SEDGE_EVENT_")}
        self.directives = {js(it.name): f"Directive: {it.does}. Throws CopFault {it.refused.replace('NAME', f'({it.fault})')}."
                           for it in directives(headers)}

    def field_note(self, owner, member, note):
        """The note of a field as a getter has it; nothing where it names only an enumeration, or is another node's."""
        if note.startswith(("of sedge_", "Of sedge_")) or (owner, member) == ("Link", "mode"):
            return None
        note = replaced(note, FIELD_SAID, self.found)
        return sentence(translated(note, self.known, False, self.found))

    def event_note(self, note, name):
        """What happens by an event, as a sentence."""
        note = replaced(re.sub(r": (?:map|octets|directive|value).*", "", note), EVENT_SAID, self.found)
        return sentence(note.replace("FRAME", f"the first frame in transit on the {name.split('_')[0].lower()}link"))

    def missed(self):
        """The phrases that no comment contains any more, so that they replace nothing."""
        return [words for words, _ in (*FIELD_SAID, *SAID, *EVENT_SAID) if words not in self.found]

    def of(self, owner, member, is_getter, is_nullable):
        """The text of a member; nothing where it has its own."""
        if owner == "Directing":
            return self.directives.get(member)
        beginning, readings = CLASSES.get(owner, ("", ()))
        name = re.sub(r"[A-Z]", lambda it: f"_{it[0].lower()}", RENAMED.get((owner, member), member))
        note = next((self.fields[key] for it in readings if (key := (f"sedge_{it}", name)) in self.fields), "")
        if is_getter and note:
            return self.field_note(owner, member, note.replace("`", ""))
        if is_getter and owner == "Link":
            return None
        if owner == "Link" and name.upper() in self.events:
            return self.event_note(self.events[name.upper()], name)
        call = self.calls.get(f"sedge_{beginning}_{name}")
        return call and translated(call, self.known, is_nullable, self.found)


def block(indent, lines):
    return f"{indent}/**\n" + "".join(f"{indent} * {it}".rstrip() + "\n" for it in lines) + f"{indent} */\n"


def jsdoc(indent, text):
    """A comment of this text, in one line where it fits."""
    if len(indent) + len(text) + 7 <= WIDE:
        return f"{indent}/** {text} */\n"
    return block(indent, textwrap.wrap(text, WIDE - len(indent) - 3, break_on_hyphens=False))


def with_notes(text, notes):
    """A module with the comments of its members anew."""
    owner = ""

    def anew(it):
        nonlocal owner
        if it["owner"]:
            owner = it["owner"]
            return it[0]
        tags = re.findall(r"@.*(?:\n +\* (?!@|/).*)*", it["doc"])
        said = notes.of(owner, it["name"], bool(it["get"]), any("null" in tag for tag in tags))
        if not said:
            return it[0]
        tags = [re.sub(r"\s*\*?\s*$", "", line.strip().removeprefix("* ")) for tag in tags for line in tag.split("\n")]
        wrapped = [*textwrap.wrap(said, WIDE - 7, break_on_hyphens=False), *tags]
        made = block(" " * 4, wrapped) if tags else jsdoc(" " * 4, said)
        return f"{made}    {it['get'] or ''}{it['name']}("

    member = r"    /\*\*(?P<doc>(?:(?!\*/)[\s\S])*)\*/\n    (?P<get>get )?(?P<name>[a-z]\w*)\("
    return re.sub(rf"^(?:export class (?P<owner>\w+) |{member})", anew, text, flags=re.M)
