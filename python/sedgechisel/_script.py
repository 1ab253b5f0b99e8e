"""Scripts of the simulated link (docs/TCTOOL.md): reads them, and answers their lines in the words of `tctool sim`."""
from __future__ import annotations

import re
from typing import Any, Callable, List, Optional, Tuple

from ._calls import Alert, Command
from ._faults import Fault
from ._link import Begun, Link
from ._nodes import Arrived, Config, Heard, Received, Report
from ._spacecraft import OnMap

_NUMBER, _OCTETS = "(?:0|[1-9][0-9]{0,19})", "(?:-|(?:[0-9A-Fa-f]{2})+)"
_LINE = re.compile("|".join((
    f"(?:submit|bypass) ({_NUMBER}) {_OCTETS}", f"(?:telemetry|up damage|down damage) {_OCTETS}",
    f"(?:init set|vs|window|limit|timer|resume) ({_NUMBER})", "init (?:none|check|unlock)", "up (?:deliver|lose)",
    "down (?:deliver|clcw|lose)", "terminate|send|report|tick|take|takebypass|show")))
_MOST = {"timer": 65535}
_CONFIG = re.compile(f"config ([a-z_]+) ({_NUMBER})")
_MOST_OF_FIELDS = {"maps": 2**64 - 1}


def _is_event(line: str) -> bool:
    found = _LINE.fullmatch(line)
    return found is not None and int(found[1] or found[2] or 0) <= _MOST.get(line.split(" ")[0], 255)


def read_script(text: str) -> Tuple[Config, List[str]]:
    """Returns the configuration and the lines of events. Raises ValueError if a line is unreadable, with its number."""
    config = Config()
    events: List[str] = []
    for number, line in enumerate(text.split("\n"), 1):
        if not line or line.startswith("#"):
            continue
        field = None if events else _CONFIG.fullmatch(line)
        if field and field[1] in Config._kinds and int(field[2]) <= _MOST_OF_FIELDS.get(field[1], 65542):
            setattr(config, field[1], int(field[2]))
        elif _is_event(line):
            events.append(line)
        else:
            raise ValueError(f"line {number} is unreadable: {ascii(line[:30])}{'..' if len(line) > 30 else ''}")
    return config, events


def octets_of(digits: str) -> bytes:
    """Returns the octets of hexadecimal digits; `-` for none."""
    return b"" if digits == "-" else bytes.fromhex(digits)


def digits_of(octets: bytes) -> str:
    """Returns octets as hexadecimal digits."""
    return octets.hex().upper()


def alert_text(alert: Alert) -> str:
    """Returns the answer to an event that may raise an alert."""
    return "ok" if alert == Alert.NONE else f"alert {alert.word}"


def fault_text(kind: str, fault: Any) -> str:
    """Returns the answer that names a fault."""
    return f"{kind} {fault.number} {fault.name}"


def packet_text(taken: Optional[OnMap]) -> str:
    """Returns the answer to a line that takes a packet on board."""
    return "nothing" if taken is None else f"packet {taken.map} {digits_of(taken.packet)}"


def received_text(it: Received) -> str:
    """Returns the answer to a frame that arrived on board."""
    if it.kind == Arrived.INVALID:
        return fault_text("invalid", it.fault)
    if it.kind == Arrived.AD and it.verdict is not None:
        ready = " ready" * (it.ready > 0) + f" {it.ready}" * (it.ready > 1)
        return f"AD {it.n} {it.verdict.word}{ready}{f' dropped {it.dropped}' if it.dropped else ''}"
    if it.kind == Arrived.BD:
        return "BD kept" if it.kept else "BD dropped"
    if it.kind == Arrived.BC:
        return f"BC set {it.vr}" if it.command == Command.SET_VR else "BC unlock"
    return "foreign"


def heard_text(it: Heard) -> str:
    """Returns the answer to a telemetry frame that arrived on the ground."""
    if it.kind == Arrived.INVALID:
        return fault_text("invalid", it.fault)
    if it.kind == Arrived.FOREIGN:
        return "foreign"
    alert = "" if it.alert == Alert.NONE else f" {alert_text(it.alert)}"
    return f"gap={'-' if it.gap is None else it.gap} packets={it.packets}{alert}"


def clcw_text(it: Heard) -> str:
    """Returns the answer to a CLCW that arrived on the ground by itself."""
    if it.report == Report.USED:
        return alert_text(it.alert)
    return "foreign" if it.word_fault is None else fault_text("invalid", it.word_fault)


class Player:
    """A simulated link that answers the lines of a script. A subclass may have other objects as the two nodes."""

    ground: Any
    spacecraft: Any

    def __init__(self, config: Config) -> None:
        self.ground = self.spacecraft = self.link = Link(config)

    def answer(self, line: str) -> str:
        """Returns the answer to a line that `read_script` returns."""
        word, *rest = line.split(" ")
        answers: Callable[..., Optional[str]] = getattr(self, f"on_{word}")
        try:
            return answers(*rest) or "ok"
        except Fault as fault:
            return fault_text("refused", fault)

    def on_submit(self, map: str, digits: str) -> None:
        self.ground.submit(int(map), octets_of(digits))

    def on_bypass(self, map: str, digits: str) -> None:
        self.ground.bypass(int(map), octets_of(digits))

    def on_telemetry(self, digits: str) -> None:
        self.spacecraft.telemetry(octets_of(digits))

    def on_init(self, how: str, number: str = "") -> None:
        names = {"none": "without_check", "check": "with_check", "unlock": "unlock", "set": "set_vr"}
        getattr(self.ground, f"init_{names[how]}")(*([int(number)] if number else []))

    def on_terminate(self) -> str:
        self.ground.terminate()
        return alert_text(Alert.TERMINATED)

    def on_vs(self, number: str) -> None:
        self.ground.set_vs(int(number))

    def on_window(self, number: str) -> None:
        self.ground.set_window(int(number))

    def on_limit(self, number: str) -> None:
        self.ground.set_limit(int(number))

    def on_timer(self, number: str) -> None:
        self.ground.set_timer(int(number))

    def on_resume(self, value: str) -> str:
        return f"resumed {self.ground.resume(int(value))}"

    def on_tick(self) -> str:
        return alert_text(self.ground.tick())

    def on_take(self) -> str:
        return packet_text(self.spacecraft.take())

    def on_takebypass(self) -> str:
        return packet_text(self.spacecraft.take_bypass())

    def on_send(self) -> str:
        frame = self.link.send()
        return "nothing" if frame is None else f"sent {digits_of(frame)}"

    def on_report(self) -> str:
        return f"report {digits_of(self.link.report().encode())}"

    def on_up(self, how: str, digits: str = "-") -> str:
        if how == "lose":
            self.link.up_lose()
            return "lost"
        return received_text(self.link.up_damage(octets_of(digits)) if how == "damage" else self.link.up_deliver())

    def on_down(self, how: str, digits: str = "-") -> str:
        if how == "lose":
            self.link.down_lose()
            return "lost"
        if how == "clcw":
            return clcw_text(self.link.down_clcw())
        return heard_text(self.link.down_damage(octets_of(digits)) if how == "damage" else self.link.down_deliver())

    def on_show(self) -> str:
        link = self.link
        clean = "none" if link.begun == Begun.NOT else "yes" if link.clean else "no"
        submitted, delivered = (sum(len(of(map)) for map in range(64)) for of in (link.submitted, link.delivered))
        return (f"clean={clean} state={link.state.name} submitted={submitted} delivered={delivered} "
                f"sent={len(link.sent)} accepted={len(link.accepted)} acknowledged={link.acknowledged} "
                f"outstanding={link.outstanding}")


def play(text: str) -> List[Tuple[str, str]]:
    """Returns the lines of a script that are answered, each with its answer. Raises ValueError if a line is unreadable,
    and ConfigFault if a managed parameter is out of range."""
    config, events = read_script(text)
    player = Player(config)
    return [(line, player.answer(line)) for line in events]
