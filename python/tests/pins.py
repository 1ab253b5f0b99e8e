"""The package beside the headers for C: its calls and its enumerations; and each method beside the calls that it makes,
by its text. (tools/bindings writes the types of calls, and the fields of structs.)"""
import ast
import enum
import os
import re

TOP = os.path.dirname(os.path.dirname(os.path.dirname(os.path.realpath(__file__))))
MODULES = ("_faults", "_calls", "_nodes", "_spacecraft", "_link", "_log", "_commanding")

# Calls that only tell how many octets are next, which the package does not ask: it gives room for the most; and the
# defaults, which the signature of Config has (python/check compares them).
NOT_CALLED = {"sedge_ground_next", "sedge_ground_next_telemetry", "sedge_spacecraft_next",
              "sedge_spacecraft_next_bypass", "sedge_commander_next_telemetry", "sedge_config_default"}

# The kinds of nodes.
HANDLES = ("ground", "spacecraft", "sim", "commander")

# Each enumeration with its enum in the headers, and the members that have another name there. (Arrived has the kinds of
# both, sedge_received_kind and sedge_heard_kind.)
ENUMS = {"Verdict": "verdict", "Mode": "farm_mode", "Alert": "alert", "Next": "next", "Kind": "tc_kind",
         "Segment": "segment_flags", "Command": "command", "PacketKind": "packet_kind", "Flags": "clcw_flags",
         "State": "fop_state", "Control": "control", "Begun": "begun", "SequenceFlags": "sequence_flags",
         "Report": "heard_report", "ActionKind": "log_action", "StatusKind": "log_status_kind",
         "CommanderActionKind": "commander_action_kind", "Progress": "progress"}
MEMBERS = {"SEDGE_NO_ALERT": "NONE"}


def text_of(file):
    with open(f"{TOP}/{file}", encoding="utf-8") as it:
        return it.read()


def header():
    text = text_of("c/include/sedgechisel.h") + text_of("c/include/sedgechisel_nodes.h")
    return re.sub(r"/\*.*?\*/", "", text, flags=re.S)


def modules_of(it):
    return [getattr(it, name) for name in MODULES]


# ---- Calls. ----


def calls_of_the_headers(it):
    """Each call of the headers is called."""
    bound = {name for library in (it._library.FIRST, it._library.NODES) for name in vars(library)
             if name.startswith("sedge_")}
    wanted = {*re.findall(r"^(?!static )(?:SEDGE_CHECK )?[a-z][\w ]* (sedge_\w+)\(", header(), re.M)} - NOT_CALLED
    assert bound == wanted and len(wanted) > 70, bound ^ wanted


def made_of(call):
    """The name of the C call that a call makes."""
    if not getattr(call, "__closure__", None):
        return call.__name__
    kept = dict(zip(call.__code__.co_freevars, (cell.cell_contents for cell in call.__closure__)))
    return kept["call"].__name__


def is_call(value):
    return hasattr(value, "argtypes") or getattr(value, "__qualname__", "") == "call_of.<locals>.checked"


def named_calls(it):
    """The calls that the modules keep: a variable has one each."""
    for module in modules_of(it):
        for name, value in vars(module).items():
            if is_call(value):
                yield f"{module.__name__}.{name}", value


def calls_by_their_names(it):
    """A variable has the call of its own name."""
    known = dict(named_calls(it))
    for where, call in known.items():
        name = made_of(call)
        own = where.rpartition("._")[2]
        assert name == f"sedge_{own}", f"{where} is {name}"
    for kind, prefix in zip((it.Ground, it.Spacecraft, it.Link, it.Commander), HANDLES):
        assert made_of(kind._opens) == f"sedge_{prefix}_open" and made_of(kind._closes) == f"sedge_{prefix}_close"
    assert len(known) > 70


# ---- Enumerations. ----


def enumerations_of_the_headers(it):
    """Each enumeration has the members of its enum, with their numbers."""
    bodies = dict(re.findall(r"^enum sedge_(\w+) \{(.*?)^\};", header(), re.M | re.S))
    classes = {name: kind for name, kind in vars(it).items() if isinstance(kind, enum.EnumMeta)}
    assert {*classes} == {*ENUMS, "Arrived"}
    for name, own in ENUMS.items():
        numbers = {case: int(number, 0) for case, number in re.findall(r"(SEDGE_\w+) = (\w+)", bodies[own])}
        members = {case: member.value for case, member in classes[name].__members__.items()}
        assert sorted(members.values()) == sorted(numbers.values()), name
        for case, number in numbers.items():
            member = classes[name](number).name
            assert MEMBERS.get(case) == member or is_name_of(member, case), f"{name}.{member} is {case}"
    cases = [case.removeprefix("SEDGE_").partition("_") for own in ("received_kind", "heard_kind")
             for case in re.findall(r"SEDGE_\w+", bodies[own])]
    members = ["TM" if (of, case) == ("HEARD", "FRAME") else case for of, _, case in cases]
    assert [member.name for member in it.Arrived] == [*dict.fromkeys(members)]
    for known, own, before in ((it._calls._DIRECTIVES, "directive", "SEDGE"),
                               (it._link._EVENTS, "event_kind", "SEDGE_EVENT")):
        numbers = {case: int(number) for case, number in re.findall(r"(SEDGE_\w+) = (\d+)", bodies[own])}
        assert {f"{before}_{name.upper()}": number for name, number in known.items()} == numbers, own
    pointers = dict(re.findall(r"SEDGE_POINTER_(\w+) = (\d+)", bodies["pointer"]))
    assert pointers == {"ONLY_IDLE": str(it.ONLY_IDLE), "NO_START": str(it.NO_START)}


def is_name_of(member, case):
    return f"_{case}".replace("_", "").endswith(member.replace("_", ""))


# ---- Methods. ----

# The calls of each class have this prefix, and those of no class none.
PREFIXES = {"Clcw": "clcw", "Farm": "farm", "Fop": "fop", "TcFrame": "tc", "Packet": "packet", "TmFrame": "tm",
            "TmBuilder": "tm_builder", "TmExtractor": "tm_extractor", "Map": "map", "Config": "config",
            "Ground": "ground", "Spacecraft": "spacecraft", "Link": "sim", "Directives": "directive", "GapCheck": "gap_check",
            "Executor": "log", "Commander": "commander"}
# Methods that make other calls than the one of their own name, and what these are.
OTHERS = {
    "GapCheck.__init__": "gap_check_open", "Spacecraft._open": "spacecraft_open_kept config_fault",
    "Ground._open": "ground_open_kept config_fault",
    "Commander._open": "commander_open", "Commander._made": "commander_next commander_unstored commander_take_telemetry",
    "Commander._tells": "commander_told", "Commander._calls_of": "commander_stored commander_told",
    "Commander._read": "commander_read", "Commander.ground": "commander_read_ground",
    "Executor.__init__": "log_start", "new_record": "log_new_record", "BoardStatus.decode": "log_status_decode",
    "command_packet": "log_command_encode", "_order": "log_order_encode", "history_after": "log_history_after",
    "Farm.__init__": "farm_open", "Farm.mode": "farm_state", "Fop.__init__": "fop_open",
    "TmBuilder.__init__": "tm_builder_open", "TmExtractor._taken": "tm_extractor_frame tm_packet",
    "TmExtractor.take_all": "tm_extractor_frames",
    "_frames_in": "tc_frames",
    "segments": "map_count map_count map_segment", "_parts_of": "map_packet",
    "Alert.word": "alert_word", "Alert.shows_a_broken_condition": "alert_shows_broken_condition",
    "Alert.advice": "alert_advice", "Verdict.word": "verdict_word", "Map.take": "map_take dropped_word",
    "_Received.value": "dropped_word", "Handle.__init__": "config_fault",
    "Ground._submitted": "ground_submit ground_read", "Ground._read": "ground_read", "Ground._direct": "ground_directive", "Fop._direct": "fop_directive",
    "Spacecraft._read": "spacecraft_read", "Link._read": "sim_read", "Link._event": "sim_step",
    "Link._read_ground": "sim_ground_read", "Link._read_spacecraft": "sim_spacecraft_read",
    "Link._direct": "sim_directive",
    "Link._octets": "sim_octets",
    "Link._entries": "sim_count sim_entry_length sim_entry",
    "Link.submissions": "sim_submissions sim_submission_length sim_submission",
}
# Methods that make no call themselves, and what they make it by.
BY = {
    "Link.submitted": "_entries _SUBMITTED", "Link.delivered": "_entries _DELIVERED", "Link.sent": "_entries _SENT",
    "Link.accepted": "_entries _ACCEPTED",
    **{f"Ground.{name}": f"_read {name}" for name in ("state", "vs", "nn", "outstanding", "unsent", "due", "bypassed",
                                                      "ticks", "count", "frame_length", "submitted", "sent_whole",
                                                      "acknowledged_whole")},
    "Ground._shown": "_read state vs nn", "Spacecraft._shown": "_read state value", "Spacecraft.mode": "_read state",
    **{f"Spacecraft.{name}": f"_read {name}" for name in ("frame_length", "ready", "bypassed")},
    "Spacecraft.control_word": "_read status vcid flags farm_b value",
    "Spacecraft.kept_numbers": "_read value farm_b mc_count vc_count",
    **{f"Link.{name}": f"_read {name}" for name in ("state", "outstanding", "acknowledged", "begun", "clean", "idle",
                                                    "confirmed")},
    "Link._shown": "_read state outstanding acknowledged",
    "Commander.below": "_read below", "Commander.highest": "_read highest", "Commander.is_worth": "_read worth",
    "Commander._shown": "_read highest below",
    **{f"Link.{name}": f"_read_ground {name}" for name in ("vs", "nn", "unsent", "due", "ticks", "count")},
    "Link.bypass_unsent": "_read_ground bypassed", "Link.bypass_ready": "_read_spacecraft bypassed",
    "Link.mode": "_read_spacecraft state", "Link.ready": "_read_spacecraft ready",
    "Link.control_word": "_read_spacecraft status vcid flags farm_b value",
    "Ground.frames": "iter pull", "Ground.packets": "iter take_telemetry", "Spacecraft.packets": "iter take",
    "Spacecraft.bypass_packets": "iter take_bypass",
}
# Methods that make none at all.
NONE = {"TmFrame.__init__", "TmFrame.ocf", "TmBuilder.waiting", "TmExtractor.__init__", "TmExtractor.dropped",
        "TmExtractor._begun", "TmExtractor.take", "TcFrame.decode_all", "Ground.telemetry_all", "Map.__init__",
        "Clcw.__init__", "TcFrame.__init__", "Packet.__init__", "Config.__init__", "Ground.__init__",
        "Commander.__init__", "Commander.close", "Commander.good", "Commander.next", "Commander.done", "Commander._whole",
        "Spacecraft.__init__", "Ground.submit", "Ground.try_submit", "Link._taken", "Directives._direct"}
# Methods that read a struct, of which another one gives a field.
READS = ("_read", "_read_ground", "_read_spacecraft")
# What a method keeps for itself, wherever it does.
KEPT = {"room", "longest", "blocking", "kept"}
# What a method gives by its fields.
PARTED = {"Executor.done action", "Commander.done action"}
# What methods for many frames keep: the channel whose frames they look at.
CHANNEL = {f"{name} {one}" for name in ("TcFrame.decode_all", "TmExtractor.take_all") for one in ("scid", "vcid")}


def functions(module):
    """Each function of a module and of its classes, by its name."""
    for node in ast.parse(text_of(f"python/sedgechisel/{module}.py")).body:
        if isinstance(node, ast.FunctionDef):
            yield node.name, node
        elif isinstance(node, ast.ClassDef):
            yield from ((f"{node.name}.{one.name}", one) for one in node.body if isinstance(one, ast.FunctionDef))


def calls_in(function, known):
    """The calls that a function makes, in the order of its text: those that a module keeps, and those of which the
    name is given (`_event`, `_direct`, `_taken`)."""
    for node in ast.walk(function):
        if isinstance(node, ast.Name) and node.id.lstrip("_") in known and node.id[0] == "_":
            yield node.lineno, node.col_offset, node.id[1:], None
        if isinstance(node, ast.Call) and isinstance(node.func, ast.Attribute):
            given = [one.value for one in node.args if isinstance(one, ast.Constant) and isinstance(one.value, str)]
            if node.func.attr in ("_event", "_taken") and given:
                yield node.lineno, node.col_offset, f"sim_{given[0]}", given[0]
            elif node.func.attr == "_direct" and given:
                yield node.lineno, node.col_offset, f"directive_{given[0]}", given[0]


def reads_in(function):
    """What a function makes its call by: `_entries` and the record, one of READS and the fields that it reads, or
    `iter` and the method."""
    found = []
    for node in ast.walk(function):
        if isinstance(node, ast.Call) and getattr(node.func, "attr", "") in ("_entries", *READS):
            found += [node.func.attr, *(one.id for one in node.args[:1])]
        if isinstance(node, ast.Call) and getattr(node.func, "id", "") == "iter":
            found += ["iter", *(one.attr for one in node.args[:1])]
    read = [node for node in ast.walk(function) if isinstance(node, ast.Attribute)
            and (isinstance(node.value, ast.Call) or getattr(node.value, "id", "") in ("it", "read"))]
    fields = {node.attr: (node.lineno, node.col_offset) for node in read}
    return " ".join(found + sorted((it for it in fields if it not in ("_entries", "name", *READS)), key=fields.get))


def methods_and_their_calls(it):
    """Each method makes the call of its own name, or those that stand above."""
    known = {where.rpartition("._")[2].partition("[")[0] for where, _ in named_calls(it)} | {
        "alert_word", "verdict_word", "dropped_word"}
    seen = set()
    for name, function in ((name, one) for module in MODULES[1:] for name, one in functions(module)):
        made = " ".join(call for *_, call, _ in sorted(calls_in(function, known), key=lambda it: it[:2]))
        owner, _, own = name.rpartition(".")
        prefix = "directive" if own in it._calls._DIRECTIVES else PREFIXES.get(owner)
        default = f"{prefix}_{own}" if prefix else own
        others = ("Handle", "_Struct", "_Part", "_Heard", "_Renamed", "_Hand", "KeptGround", "KeptNumbers", "Mission")
        if owner in others or (not owner and default not in known):
            assert made == OTHERS.get(name, ""), f"{name} calls {made}"
        elif name in BY:
            assert reads_in(function) == BY[name] and not made, f"{name} reads {reads_in(function)}"
        else:
            wanted = "" if name in NONE else OTHERS.get(name, default)
            if name == "Link.send":
                assert "self._octets(self._event(" in ast.unparse(function)
            assert made == wanted, f"{name} calls {made}, and not {wanted}"
        seen.add(name)
    assert {*OTHERS, *BY, *NONE} <= seen, {*OTHERS, *BY, *NONE} - seen


def methods_and_their_arguments(it):
    """Each method gives each of its arguments to its call, in order, octets with their number; and a constructor gives
    the fields in theirs."""
    for name, function in ((name, one) for module in MODULES[1:] for name, one in functions(module)):
        owner, _, own = name.rpartition(".")
        if owner not in PREFIXES and owner or own.startswith("_") and own != "__init__":
            continue
        given = (*function.args.args, *function.args.kwonlyargs)
        # (A node gives the fields of its configuration by `_fields_of`, all at once.)
        others = ("self", "cls", *(it.Config._kinds if owner in ("Ground", "Spacecraft", "Commander") and own == "__init__" else ()))
        parameters = [one.arg for one in given if one.arg not in others and f"{name} {one.arg}" not in PARTED]
        octets = [one for one in parameters if one in ("octets", "data", "packet", "packets", "ocf")
                  and name not in ("TmFrame.__init__", "TmFrame.ocf")]
        text = " ".join(ast.unparse(statement) for statement in function.body
                        if not isinstance(getattr(statement, "value", None), ast.Constant))
        places = []
        for one in parameters:
            given = (rf"(?<![\w.\"'=]){one}, len\({one}\)|octets_of\('{one}', {one}\)" if one in octets
                     else rf"(?<=[(, ]){one}(?=[,)])(?! *=)|self\.{one} = {one}|bool\({one}\)")
            found = [match.start() for match in re.finditer(given, text)]
            assert found, f"{name} does not give {one}: {text}"
            places += [found[-1]] if one not in KEPT and f"{name} {one}" not in CHANNEL else []
        assert places == sorted(places), f"{name} gives {parameters} in another order: {text}"
        if own == "__init__" and hasattr(getattr(it, owner, None), "_fields_") and owner not in ("Farm", "Fop"):
            fields = [field.lstrip("_") for field, _ in getattr(it, owner)._fields_]
            assert sorted(parameters) == sorted(fields), name
            first = re.search(r"super\(\).__init__\((.*?)\)", text)[1].split(", ")
            assert first + (["ocf"] if owner == "TmFrame" else []) == fields, f"{name}: {first}"


TESTS = (calls_of_the_headers, calls_by_their_names, enumerations_of_the_headers, methods_and_their_calls,
         methods_and_their_arguments)
