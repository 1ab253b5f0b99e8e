"""The faults with which the libraries refuse calls: their kinds, and what each number means. `tools/bindings` writes
the meanings, as the C headers state them."""
from __future__ import annotations

import ctypes
from ctypes import c_char, c_uint8
from typing import Any, Callable, ClassVar, Dict, Tuple, Type

from ._library import FIRST, NODES, Numbers, call_of

_SHARED = {253: "Absent", 254: "WrongCount", 255: "Damaged"}
_WRONG_COUNT = {254: "not the number of octets that the call needs"}
_DAMAGED = {255: "a struct has a value that no sender, receiver or MAP can have, or one outside its enumeration"}


class Text(ctypes.Structure):
    _fields_ = [("text", c_char * 20)]


def word_of(kind: str, library: ctypes.PyDLL = FIRST) -> Callable[[int], str]:
    """Returns a function from numbers of one kind to the words that tctool prints for them."""
    name = call_of(library, kind + "_name", Text, ("number", c_uint8))
    return lambda number: str(name(number).text.decode())


class Fault(Exception):
    """The reason why the library refuses a call: its `number` and `name`, as in the C headers, and its `meaning`. Its
    text contains all three. Faults of one kind are equal if their numbers are equal. The `number` is a member of the
    enumeration `Number` of its class, as in `fault.number is LinkFault.Number.QUEUE_FULL`."""

    class Number(Numbers):
        """The numbers of one kind of faults, by name."""

    number: int
    name: str
    meaning: str
    _word: Any = staticmethod(lambda number: "?")
    _meanings: ClassVar[Dict[int, str]] = {}

    def __init__(self, number: int) -> None:
        self.number, self.name, self.meaning = number, self._name_of(number), self._meanings.get(number, "?")
        if number in self._meanings:
            self.number = self.Number(number)
        super().__init__(f"{number} {self.name}: {self.meaning}")

    def __init_subclass__(cls) -> None:
        numbers = (f"- {number} {cls._name_of(number)}: {meaning}" for number, meaning in cls._meanings.items())
        cls.__doc__ = "\n".join((f"{cls.__doc__}\n", *numbers))

    def __reduce__(self) -> Tuple[Type[Fault], Tuple[int]]:
        return type(self), (int(self.number),)

    def __eq__(self, other: object) -> bool:
        return isinstance(other, Fault) and (type(other), other.number) == (type(self), self.number)

    def __hash__(self) -> int:
        return hash((type(self), self.number))

    @classmethod
    def _name_of(cls, number: int) -> str:
        return _SHARED.get(number) or str(cls._word(number))

    @classmethod
    def _look_at(cls, number: int) -> None:
        if number:
            raise cls(number)


class CheckFault(Fault):
    """Fewer than two octets have no check (FECF)."""

    class Number(Numbers):
        WRONG_COUNT = 254

    _meanings = _WRONG_COUNT


class ClcwFault(Fault):
    """Why a CLCW is refused (232.0-B-4)."""

    class Number(Numbers):
        KIND, VERSION, COP, SPARE, RANGE, WRONG_COUNT, DAMAGED = *range(1, 6), 254, 255

    _word = staticmethod(word_of("clcw_fault"))
    _meanings = {
        1: "the control word type is not 0 (4.2.1.2)",
        2: "the version number is not 00 (4.2.1.3)",
        3: "the COP in effect is not 01, COP-1 (4.2.1.5)",
        4: "a spare bit is not 0",
        5: "a field is too large for its bits, or a flag bit has no name",
        **_WRONG_COUNT, **_DAMAGED,
    }


class CopFault(Fault):
    """Why a call of a receiver or a sender is refused."""

    class Number(Numbers):
        WIDTH, WINDOW, LIMIT, TIMER, NOT_OPEN, BUSY, WRONG_STATE, DAMAGED = *range(1, 5), *range(6, 9), 255

    _word = staticmethod(word_of("cop_fault"))
    _meanings = {
        1: "the window width is not an even number from 2 to 254",
        2: "the sender's window K is not from 1 to half the width",
        3: "the transmission limit is 0",
        4: "the timer's value is 0",
        6: "the sender is in its state S6",
        7: "a unit is already waiting",
        8: "the directive is not allowed in the sender's state",
        **_DAMAGED,
    }


class TcFault(Fault):
    """Why a telecommand frame is refused (232.0-B-4)."""

    class Number(Numbers):
        (SHORT, VERSION, RESERVED_TYPE, SPARE, LENGTH, CHECK, BYPASS_NUMBER, EMPTY_DATA, COMMAND, ROOM, FIELD_RANGE,
         DAMAGED) = *range(1, 12), 255

    _word = staticmethod(word_of("tc_fault"))
    _meanings = {
        1: "fewer than the 5 octets of the header",
        2: "the version number is not 00 (4.1.2.2)",
        3: "the control command flag without the bypass flag (4.1.2.3)",
        4: "the spare bits are not 00 (4.1.2.4)",
        5: "the declared total is not the number of octets, or is too small (4.1.2.7)",
        6: "the last two octets are not the check of those before them (4.1.4)",
        7: "a frame with the bypass flag has a number other than 0 (4.1.2.8)",
        8: "no octet in the data field, or only a segment header",
        9: "the data of a control frame are neither Unlock nor Set V(R) (4.1.3.3)",
        10: "there is too little room for the frame",
        11: "a field out of range, no data, or more than 1,024 octets",
        **_DAMAGED,
    }


class PacketFault(Fault):
    """Why a space packet is refused (133.0-B-2)."""

    class Number(Numbers):
        TRUNCATED, VERSION, IDLE_WITH_SECONDARY, ROOM, FIELD_RANGE, DAMAGED = *range(1, 6), 255

    _word = staticmethod(word_of("packet_fault"))
    _meanings = {
        1: "fewer than the 6 octets of the header, or fewer than it declares",
        2: "the version number is not 000 (4.1.3.2)",
        3: "an idle packet with a secondary header (4.1.3.3.3)",
        4: "there is too little room for the packet",
        5: "a field out of range, no data or more than 65,536 octets of them, or an idle packet with a secondary "
           "header",
        **_DAMAGED,
    }


class TmFault(Fault):
    """Why a telemetry frame is refused (132.0-B-3)."""

    class Number(Numbers):
        (LENGTH, VERSION, CHECK, STATUS, POINTER, NO_OCF, MEMORY, NOT_A_PACKET, ROOM, FIELD_RANGE,
         WRONG_COUNT) = *range(1, 11), 254

    _word = staticmethod(word_of("tm_fault"))
    _meanings = {
        1: "not as many octets as length, or a length outside 16 to 2,048",
        2: "the version number is not 00 (4.1.2.2)",
        3: "the last two octets are not the check of those before them (4.1.6)",
        4: "a flag of the data field status is 1, or its identifier is not 11 (4.1.2.7)",
        5: "a first header pointer at or after the data field's end (4.1.2.7.6)",
        6: "the frame declares no operational control field (4.1.2.4)",
        7: "out of memory for what would be kept",
        8: "not exactly one packet, or an idle packet",
        9: "there is too little room for the frame",
        10: "a field out of range, a pointer after the data, not 4 to 2,036 octets of data, or a length outside 16 to "
            "2,048",
        **_WRONG_COUNT,
    }


class TelemetryFault(TmFault):
    """Why a packet is not queued on board as telemetry, by two of the numbers of a TmFault."""

    _meanings = {it: TmFault._meanings[it] for it in (7, 8)}


class MapFault(Fault):
    """Why octets are not cut into segments, or a call of a MAP is refused."""

    class Number(Numbers):
        NOT_A_PACKET, TOO_LONG, DAMAGED = 1, 2, 255

    _word = staticmethod(word_of("map_fault"))
    _meanings = {
        1: "not exactly one packet, or with blocking not one or more whole packets",
        2: "a packet has more octets than max_packet",
        **_DAMAGED,
    }


class LogFault(Fault):
    """Why a board does not take a packet, why a record or a status is not read, or why a packet is not written."""

    class Number(Numbers):
        (LAYOUT, CHECK, STARTING, BUSY, LOST, BEHIND, AHEAD, OTHER_BOOT, NOT_LOST, OTHER_MARK, FIELD_RANGE,
         ROOM) = range(1, 13)

    _word = staticmethod(word_of("log_fault"))
    _meanings = {
        1: "not exactly one packet of this layout, or not the layout's number of octets",
        2: "the check does not hold, or a field has a value that the layout does not allow",
        3: "the board has started, and a copy of its record is being repaired",
        4: "the record is being written, a command is being executed, or a restart is due",
        5: "the board has lost its record",
        6: "a command with this number was executed or passed over",
        7: "the command's number is above the next one",
        8: "the order is for a different boot count",
        9: "the order brings a record, but the board still has its own",
        10: "the order brings a record for another loss",
        11: "a field is out of range, or the data are too long",
        12: "the output is too short for the packet",
    }


class LinkFault(Fault):
    """Why a node refuses a call."""

    class Number(Numbers):
        NOT_OPEN, CLOSED_MAP, NOT_COMMAND, TOO_LONG, QUEUE_FULL, MEMORY, NOT_KNOWN = *range(1, 7), 10

    _word = staticmethod(word_of("link_fault", NODES))
    _meanings = {
        1: "the sender is in its state Initial (S6)",
        2: "the MAP is not open",
        3: "the octets are not command packets, or are more of them than one call takes",
        4: "a packet has more octets than it may have",
        5: "the queue has too few free slots for the units",
        6: "out of memory",
        10: "nothing is known of how far the session has come",
    }


class LedgerFault(Fault):
    """Why a commander refuses a call."""

    class Number(Numbers):
        (LAYOUT, CHECK, FIELD_RANGE, TOO_LONG, NO_NUMBER, NOT_LOST, NO_BOOT, OWING, MEMORY) = range(1, 10)

    _word = staticmethod(word_of("ledger_fault", NODES))
    _meanings = {
        1: "not the number of octets of a status",
        2: "the check of a status does not hold, or a field has a value that the layout does not allow",
        3: "a MAP is not open, an APID or a sequence count is out of range, or the octets are too many for a packet",
        4: "the packet would be longer than the configured maximum",
        5: "all numbers have been given",
        6: "the board has not lost its record",
        7: "no boot count is left for an order that brings a record",
        8: "something must be stored or reported first",
        9: "out of memory",
    }


class SimFault(Fault):
    """Why an event does not take place on a simulated link."""

    class Number(Numbers):
        MEMORY, NOTHING_IN_TRANSIT, NOT_DETECTABLE = range(6, 9)

    _word = staticmethod(word_of("sim_fault", NODES))
    _meanings = {
        6: "out of memory",
        7: "no frame is in transit in this direction",
        8: "the receiver's decoder would accept the octets of the damaged frame",
    }
