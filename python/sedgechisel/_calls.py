"""The calls of libsedgechisel, over numbers and octets: codecs, machines, packets in segments, and packets in telemetry
frames."""
from __future__ import annotations

import ctypes
from ctypes import POINTER, c_bool, c_char, c_char_p, c_size_t, c_uint8, c_uint16, c_uint32
from enum import IntEnum
from itertools import chain, compress, repeat
from operator import attrgetter
from struct import Struct
from sys import byteorder
from threading import RLock
from typing import (
    Any, Callable, Dict, Iterable, Iterator, List, NamedTuple, Optional, Sequence, Tuple, Type, TypeVar, Union)

from ._faults import (
    CheckFault, ClcwFault, CopFault, Fault, MapFault, PacketFault, TcFault, Text, TmFault, word_of as _word_of)
from ._library import (
    FIRST, Bits as _Bits, Numbers as _Numbers, Octets, Single, call_of, frame_length_of as _frame_length_of,
    number_of as _number_of, octets_of as _octets_of, renamed, room_of as _room_of, struct_of as _struct_of,
    within as _within, written as _written)

_ABSENT, _DAMAGED = 253, 255
_Member = TypeVar("_Member", bound=IntEnum)
_Own = TypeVar("_Own", bound="_Struct")


def _call(name: str, answer: Any, *kinds: Any) -> Callable[..., Any]:
    return call_of(FIRST, name, answer, *kinds)


class _Struct:
    """A struct of the C header. It compares by its fields, shows them, and accepts no number that does not fit. It does
    not expose its memory, a struct of ctypes, as a buffer, because those octets are not the octets on the link."""

    __slots__ = ("_memory",)
    _fields_: Any
    _kinds: Dict[str, Any] = {}
    _C: Any
    _memory: Any

    def __init_subclass__(cls) -> None:
        if "_fields_" in vars(cls):
            cls._kinds = dict(cls._fields_)
            cls._C = type(cls.__name__, (ctypes.Structure,), {"_fields_": cls._fields_})
            for name, kind in cls._kinds.items():
                setattr(cls, name, property(attrgetter(f"_memory.{name}"), _putter(name, kind)))

    def __init__(self, *values: Any) -> None:
        for (name, kind), value in zip(self._kinds.items(), values):
            _within(name, kind, value)
        self._memory = self._C(*values)

    @classmethod
    def _of(cls: Type[_Own], memory: Any) -> _Own:
        """Returns a struct over this memory."""
        struct = cls.__new__(cls)
        struct._memory = memory
        return struct

    def __reduce__(self) -> Tuple[Any, ...]:
        return _copied, (type(self), bytes(self._memory))

    def _values(self) -> Dict[str, Any]:
        """Returns its fields by name. The octets between them are ignored."""
        return {name: getattr(self, name) for name in (it.lstrip("_") for it in self._kinds)}

    def __eq__(self, other: object) -> bool:
        if not isinstance(other, type(self)):
            return NotImplemented
        return self._values() == other._values()

    def __repr__(self) -> str:
        return f"{type(self).__name__}({', '.join(f'{name}={it!r}' for name, it in self._values().items())})"


def _putter(name: str, kind: Any) -> Callable[[Any, Any], None]:
    def put(struct: Any, value: Any) -> None:
        _within(name, kind, value)
        setattr(struct._memory, name, value)

    return put


def _copied(cls: Type[_Own], memory: bytes) -> _Own:
    return cls._of(cls._C.from_buffer_copy(memory))


def _structs_with(cls: Any, memories: Sequence[Any]) -> List[Any]:
    """Returns the structs over these pieces of memory."""
    structs = [*map(cls.__new__, repeat(cls, len(memories)))]
    for struct, memory in zip(structs, memories):
        struct._memory = memory
    return structs


def _typed(**fields: Dict[int, Any]) -> Callable[[Type[_Own]], Type[_Own]]:
    """Makes one-octet fields return members of enumerations. A number without a member, which only a caller can have
    set, stays a number."""
    def made(struct: Type[_Own]) -> Type[_Own]:
        for name, members in fields.items():
            field, of_all = getattr(struct, name), tuple(members.get(number, number) for number in range(256))
            setattr(struct, name, property(_member_of(field.fget, of_all), field.fset))
        return struct

    return made


def _member_of(number_in: Callable[[Any], int], of_all: Tuple[Any, ...]) -> Callable[[Any], Any]:
    return lambda struct: of_all[number_in(struct)]


class _Part(ctypes.Structure):
    _fields_ = [("start", c_size_t), ("count", c_size_t)]
    start: int
    count: int

    def of(self, octets: bytes) -> bytes:
        return octets[self.start:self.start + self.count]


def _count_of(call: Callable[..., Any], fault: Type[Fault], *values: Any) -> int:
    total = c_size_t()
    fault._look_at(call(*values, total))
    return total.value


_version = _call("version", Text)
version = str(_version().text.decode())

# ---- The check ----

_check = _call("check", c_uint16, c_char_p, c_size_t)
_check_append = _call("check_append", c_bool, c_char_p, c_size_t)
_check_holds = _call("check_holds", c_bool, c_char_p, c_size_t)


def check(octets: Octets) -> int:
    """Returns the check (FECF) of the octets (232.0-B-4, 4.1.4.2)."""
    octets = _octets_of("octets", octets)
    return int(_check(octets, len(octets)))


def check_append(octets: Octets) -> bytes:
    """Returns the octets, with the last two set to the check of those before them. Raises CheckFault for fewer than
    two."""
    octets = _octets_of("octets", octets)
    out = ctypes.create_string_buffer(octets, len(octets)) if len(octets) > 1 else None
    if out is None or not _check_append(out, len(octets)):
        raise CheckFault(254)
    return out.raw


def check_holds(octets: Octets) -> bool:
    """Returns whether the last two octets are the check of those before them; False for fewer than two."""
    octets = _octets_of("octets", octets)
    return bool(_check_holds(octets, len(octets)))


# ---- CLCWs ----


class Flags(_Bits):
    """The flags of a CLCW, bits of `Clcw.flags` (4.2.1.8), as in `Flags.WAIT in word.flags`."""

    RETRANSMIT, WAIT, LOCKOUT, NO_BIT_LOCK, NO_RF = 0x08, 0x10, 0x20, 0x40, 0x80


def _flag(name: str, bit: Flags, note: str) -> Any:
    """Makes a flag of `Clcw.flags` a field of its own."""
    def put(word: Any, is_set: bool) -> None:
        word.flags = int(word.flags) | bit if _number_of(name, is_set) else int(word.flags) & ~bit

    return property(lambda word: bool(word.flags & bit), put, doc=note)


@_typed(flags={bits: Flags(bits) for bits in range(0, 256, Flags.RETRANSMIT)})
class Clcw(_Struct):
    """A communications link control word, CLCW (232.0-B-4, 4.2).

    - `status`, 0 to 7, is carried and not interpreted; `vcid`, 0 to 63, is the channel that the CLCW reports on
    - `flags`, a Flags; `no_rf`, `no_bit_lock`, `lockout`, `wait` and `retransmit` are its flags, each True or False
    - `farm_b`, the FARM-B counter, 0 to 3; `value`, the report value, V(R) of the receiver"""

    __slots__ = ()
    _fields_ = [("status", c_uint8), ("vcid", c_uint8), ("flags", c_uint8), ("farm_b", c_uint8), ("value", c_uint8)]
    status: int
    vcid: int
    flags: Flags
    farm_b: int
    value: int
    no_rf: bool = _flag("no_rf", Flags.NO_RF, "The radio frequency channel is not available (4.2.1.8).")
    no_bit_lock: bool = _flag("no_bit_lock", Flags.NO_BIT_LOCK, "The receiver has no bit lock.")
    lockout: bool = _flag("lockout", Flags.LOCKOUT, "The receiver is in its state Lockout.")
    wait: bool = _flag("wait", Flags.WAIT, "There is no room on board for a further frame.")
    retransmit: bool = _flag("retransmit", Flags.RETRANSMIT, "Frames must be retransmitted, from the report value on.")

    def __init__(self, status: int = 0, vcid: int = 0, flags: int = 0, farm_b: int = 0, value: int = 0) -> None:
        super().__init__(status, vcid, flags, farm_b, value)

    @classmethod
    def decode(cls, octets: Octets) -> Clcw:
        """Reads four octets. Raises ClcwFault if they are not a CLCW, or not four."""
        octets, word = _octets_of("octets", octets), cls._C()
        ClcwFault._look_at(_clcw_decode(octets, len(octets), word))
        return cls._of(word)

    __bytes__: Callable[[Clcw], bytes] = lambda word: word.encode()

    def encode(self) -> bytes:
        """Returns the four octets. Raises ClcwFault if a field is too large."""
        out = ctypes.create_string_buffer(4)
        ClcwFault._look_at(_clcw_encode(self._memory, out, 4))
        return out.raw


_clcw_decode = _call("clcw_decode", c_uint8, c_char_p, c_size_t, POINTER(Clcw._C))
_clcw_encode = _call("clcw_encode", c_uint8, POINTER(Clcw._C), c_char_p, c_size_t)

# ---- The receiver ----


def _answered(kind: Type[_Member], answer: int) -> _Member:
    """Returns the result of a receiver or a sender. Raises CopFault 255 if the result is that it is damaged."""
    CopFault._look_at(answer == _DAMAGED and answer)
    return kind(answer)


class Verdict(_Numbers):
    """What a receiver does with a Type-AD frame. `word` is what tctool prints, such as "nobuffer" for NO_BUFFER."""

    ACCEPTED, AHEAD, NO_BUFFER, BEHIND, OUTSIDE, DISCARDED = range(6)

    @property
    def word(self) -> str:
        """The word that tctool prints."""
        return _verdict_word(self)


_verdict_word = _word_of("verdict")


class Mode(_Numbers):
    """A receiver's state (232.1-B-2, 6.1.2)."""

    OPEN, WAIT, LOCKOUT = range(3)


class Farm(_Struct):
    """A receiver FARM-1 of one virtual channel (232.1-B-2, section 6). Its fields may be read freely. If they have
    values that no receiver has, each call raises CopFault 255 (Damaged) and changes nothing."""

    __slots__ = ()
    _fields_ = [("width", c_uint8), ("vr", c_uint8), ("lockout", c_uint8), ("wait", c_uint8), ("retransmit", c_uint8),
                ("farm_b", c_uint8)]
    width: int
    vr: int
    lockout: int
    wait: int
    retransmit: int
    farm_b: int

    def __init__(self, width: int, vr: int = 0) -> None:
        """Creates an open receiver with this window width, which expects the number `vr`. Raises CopFault 1."""
        super().__init__()
        CopFault._look_at(_farm_open(self._memory, width, vr))

    def ad(self, n: int, buffer_free: bool = True) -> Verdict:
        """Takes a Type-AD frame with N(S) = `n`; `buffer_free` states whether there is room for its data. Returns the
        Verdict. If it is ACCEPTED, pass on the data."""
        return _answered(Verdict, _farm_ad(self._memory, n, buffer_free))

    def bd(self) -> None:
        """Takes a Type-BD frame. Pass on its data in every state."""
        CopFault._look_at(_farm_bd(self._memory))

    def unlock(self) -> None:
        """Takes the control command Unlock."""
        CopFault._look_at(_farm_unlock(self._memory))

    def set_vr(self, vr: int) -> None:
        """Takes the control command Set V(R)."""
        CopFault._look_at(_farm_set_vr(self._memory, vr))

    def released(self) -> None:
        """Records that there is room on board again."""
        CopFault._look_at(_farm_released(self._memory))

    def control_word(self, vcid: int) -> Clcw:
        """Returns the Clcw that reports the receiver's present state, for a virtual channel. Raises ClcwFault unless
        `vcid` < 64."""
        word = Clcw._C()
        ClcwFault._look_at(_farm_control_word(self._memory, vcid, word))
        return Clcw._of(word)

    report = renamed("report", control_word)

    @property
    def mode(self) -> Mode:
        """The receiver's state, a Mode."""
        return _answered(Mode, _farm_state(self._memory))


_farm_open = _call("farm_open", c_uint8, POINTER(Farm._C), ("width", c_uint8), ("vr", c_uint8))
_farm_ad = _call("farm_ad", c_uint8, POINTER(Farm._C), ("n", c_uint8), c_bool)
_farm_bd = _call("farm_bd", c_uint8, POINTER(Farm._C))
_farm_unlock = _call("farm_unlock", c_uint8, POINTER(Farm._C))
_farm_set_vr = _call("farm_set_vr", c_uint8, POINTER(Farm._C), ("vr", c_uint8))
_farm_released = _call("farm_released", c_uint8, POINTER(Farm._C))
_farm_control_word = _call("farm_control_word", c_uint8, POINTER(Farm._C), ("vcid", c_uint8), POINTER(Clcw._C))
_farm_state = _call("farm_state", c_uint8, POINTER(Farm._C))

# ---- The sender ----


class Alert(_Numbers):
    """Why a sender has given up (232.1-B-2, 5.2.5); NONE, which is false, if it has not. An alert discards all units.

    - LOCKOUT: a CLCW has the lockout flag
    - NNR: a CLCW's value is not in the range from NN(R) to V(S)
    - CLCW: a CLCW has the wait flag without the retransmit flag
    - SYNCH: a CLCW requests retransmission of what was not sent, or ends its request before any of it was received
    - LIMIT: a CLCW requests retransmission, and the transmission limit is 1
    - TIMER: the timer has run out, and units may not be retransmitted
    - TERMINATED: the directive Terminate

    `shows_a_broken_condition` states which of two ways to recover applies, and `advice` states what to look for. `word`
    is what tctool prints, such as "NnR" for NNR; for NONE it is empty."""

    NONE, LOCKOUT, NNR, CLCW, SYNCH, LIMIT, TIMER, TERMINATED = range(8)

    @property
    def word(self) -> str:
        """The word that tctool prints; empty for NONE."""
        return _alert_word(self) if self else ""

    @property
    def shows_a_broken_condition(self) -> bool:
        """Whether the alert shows that a condition of the link is broken: True for LOCKOUT, NNR, CLCW and SYNCH. In a
        confirmed session that was begun by CLCW check, Unlock or Set V(R), none of these is raised while the conditions
        hold, so the spacecraft has restarted, the link reorders or repeats frames, or there is a second station. Before
        a session is confirmed, the cause may also be something that an earlier session left behind, such as a receiver
        in Lockout. After one of these alerts nothing is known of what is on board until a session begins
        (docs/CONTROL.md, "After a reset"). After any other alert, `Ground.resume` begins the next session
        (docs/CONTROL.md, "After an alert")."""
        return bool(_alert_shows_broken_condition(self))

    @property
    def advice(self) -> str:
        """What to look for after the alert, and how to recover, as a text for people; empty for NONE."""
        return str(_alert_advice(self).text.decode()) if self else ""


class _Advice(ctypes.Structure):
    _fields_ = [("text", c_char * 160)]


_alert_word = _word_of("alert")
_alert_shows_broken_condition = _call("alert_shows_broken_condition", c_bool, ("alert", c_uint8))
_alert_advice = _call("alert_advice", _Advice, ("alert", c_uint8))


class State(_Numbers):
    """The sender's state (232.1-B-2, 5.1): active, retransmitting without and with wait, initialising without and with
    a control command, initial."""

    S1, S2, S3, S4, S5, S6 = range(1, 7)


class Control(_Numbers):
    """The control command of S5, and whether it is due to be sent or sent; IDLE in all other states."""

    IDLE, UNLOCK_DUE, UNLOCK_SENT, SET_VR_DUE, SET_VR_SENT = range(5)


class Next(_Numbers):
    """What is to be sent next on the link: a control command, the unit that waits, or the unit kept under the
    number."""

    NOTHING, UNLOCK, SET_VR, FIRST, AGAIN = range(5)


class Directives:
    """The directives to a sender FOP-1 (232.1-B-2, 5.2.4); tools/bindings makes the methods of the headers."""

    __slots__ = ()

    def _direct(self, name: str, own: str = "", value: int = 0, kind: Any = c_uint8) -> None:
        raise NotImplementedError

    def init_without_check(self) -> None:
        """Directive: initiate without CLCW check: S6 to S1; CopFault 8 WrongState unless in S6."""
        self._direct("init_without_check")

    def init_with_check(self) -> None:
        """Directive: initiate with CLCW check: S6 to S4, until a CLCW agrees; CopFault 8 WrongState unless in S6."""
        self._direct("init_with_check")

    def init_unlock(self) -> None:
        """Directive: initiate with Unlock: S6 to S5, and Unlock is sent; CopFault 8 WrongState unless in S6."""
        self._direct("init_unlock")

    def init_set_vr(self, vr: int) -> None:
        """Directive: initiate with Set V(R): S6 to S5, V(S) and NN(R) are set to `vr`, and Set V(R) is sent; CopFault 8
        WrongState unless in S6."""
        self._direct("init_set_vr", "vr", vr)

    def terminate(self) -> None:
        """Directive: terminate: to S6 with the alert Terminated, which discards all units; CopFault 8 WrongState in
        S6."""
        self._direct("terminate")

    def set_vs(self, vs: int) -> None:
        """Directive: set both V(S) and NN(R) to `vs`; CopFault 8 WrongState unless in S6."""
        self._direct("set_vs", "vs", vs)

    def set_window(self, window: int) -> None:
        """Directive: set the window K to `window`; CopFault 2 Window unless it is 1 to half the receiver's window
        width."""
        self._direct("set_window", "window", window)

    def set_limit(self, limit: int) -> None:
        """Directive: set the transmission limit to `limit`; CopFault 3 Limit if it is 0."""
        self._direct("set_limit", "limit", limit)

    def set_timer(self, timer: int) -> None:
        """Directive: set the timer to `timer`, in ticks; CopFault 4 Timer if it is 0."""
        self._direct("set_timer", "timer", timer, c_uint16)


_DIRECTIVES = {name: number for number, name in enumerate((it for it in vars(Directives) if it[0] != "_"), 1)}


def _directive(name: str, own: str, value: int, kind: Any) -> Tuple[int, int]:
    """Returns the number of a directive, and its value: the argument of this name and type, or 0 for a directive
    without a value."""
    _within(own, kind, value)
    return _DIRECTIVES[name], value


@_typed(state=dict(enumerate(State, 1)), control=dict(enumerate(Control)))
class Fop(_Struct, Directives):
    """A sender FOP-1 of one virtual channel (232.1-B-2, section 5). It keeps numbers, and its caller keeps the units.
    Its `state` is a State, and its `control` a Control. If its fields have values that no sender has, each call raises
    CopFault 255 (Damaged) and changes nothing."""

    __slots__ = ()
    _fields_ = [("timer", c_uint16), ("ticks", c_uint16), ("room", c_uint8), ("state", c_uint8), ("vs", c_uint8),
                ("nn", c_uint8), ("waiting", c_uint8), ("sent", c_uint8), ("due", c_uint8), ("window", c_uint8),
                ("limit", c_uint8), ("count", c_uint8), ("control", c_uint8), ("vr", c_uint8)]
    timer: int
    ticks: int
    room: int
    state: State
    vs: int
    nn: int
    waiting: int
    sent: int
    due: int
    window: int
    limit: int
    count: int
    control: Control
    vr: int

    def __init__(self, width: int, window: int, limit: int, timer: int) -> None:
        """Creates a sender in S6, for a receiver of this window width, with the window K, the transmission limit and
        the timer's value in ticks. Raises CopFault 1 to 4."""
        super().__init__()
        CopFault._look_at(_fop_open(self._memory, width, window, limit, timer))

    def _direct(self, name: str, own: str = "", value: int = 0, kind: Any = c_uint8) -> None:
        CopFault._look_at(_fop_directive(self._memory, *_directive(name, own, value, kind)))

    def submit(self) -> None:
        """Takes a unit, which then waits. Raises CopFault 6 (not open) or 7 (another unit waits already)."""
        CopFault._look_at(_fop_submit(self._memory))

    def next(self) -> Tuple[Next, int]:
        """Takes what is to be sent on the link next. Returns its Next and its number."""
        number = c_uint8()
        return _answered(Next, _fop_next(self._memory, number)), number.value

    def clcw(self, vcid: int, word: Clcw) -> Optional[Tuple[Alert, int]]:
        """Takes a Clcw, as the sender of the virtual channel `vcid`. Returns the Alert, and how many of the oldest
        units are acknowledged. Returns None, and changes nothing, if the CLCW reports on another channel."""
        released = c_uint8()
        answer = _fop_clcw(self._memory, vcid, _struct_of("word", Clcw, word)._memory, released)
        return None if answer == _ABSENT else (_answered(Alert, answer), released.value)

    report = renamed("report", clcw)

    def tick(self) -> Alert:
        """Counts a tick of the clock. Returns the Alert."""
        return _answered(Alert, _fop_tick(self._memory))

    def accepted_beyond(self, value: int) -> Optional[int]:
        """Returns how many of the sent and unacknowledged units, oldest first, had been accepted on board when a CLCW
        with this value was made. Returns 0 if V(S) = NN(R), whatever the value; otherwise None if the value is not in
        the range from NN(R) to V(S), because nothing is then known of these units. Works after an alert too, in S6,
        until V(S) is set or an initiation begins (5.1). Uses only the numbers: after an alert that shows a broken
        condition nothing is known of the units, whatever this returns."""
        return _accepted_of(_fop_accepted_beyond, self._memory, value)


def accepted_beyond(nn: int, vs: int, value: int) -> Optional[int]:
    """Returns how many of the sent and unacknowledged units of a sender with these NN(R) and V(S), oldest first, had
    been accepted on board when a CLCW with this value was made. Returns 0 if V(S) = NN(R), whatever the value;
    otherwise None if the value is not in the range from NN(R) to V(S), because nothing is then known of these units.
    `Fop` and `Ground` have a method of this name for their own numbers."""
    return _accepted_of(_accepted_beyond, nn, vs, value)


def _accepted_of(call: Callable[..., Any], *values: Any) -> Optional[int]:
    accepted = c_uint8()
    answer = call(*values, accepted)
    CopFault._look_at(answer == _DAMAGED and answer)
    return None if answer == _ABSENT else accepted.value


_fop_open = _call("fop_open", c_uint8, POINTER(Fop._C), ("width", c_uint8), ("window", c_uint8), ("limit", c_uint8),
                  ("timer", c_uint16))
_fop_directive = _call("fop_directive", c_uint8, POINTER(Fop._C), ("directive", c_uint8), ("value", c_uint16))
_fop_submit = _call("fop_submit", c_uint8, POINTER(Fop._C))
_fop_next = _call("fop_next", c_uint8, POINTER(Fop._C), POINTER(c_uint8))
_fop_clcw = _call("fop_clcw", c_uint8, POINTER(Fop._C), ("vcid", c_uint8), POINTER(Clcw._C), POINTER(c_uint8))
_fop_tick = _call("fop_tick", c_uint8, POINTER(Fop._C))
_fop_accepted_beyond = _call("fop_accepted_beyond", c_uint8, POINTER(Fop._C), ("value", c_uint8), POINTER(c_uint8))
_accepted_beyond = _call("accepted_beyond", c_uint8, ("nn", c_uint8), ("vs", c_uint8), ("value", c_uint8),
                         POINTER(c_uint8))

# ---- Telecommand frames ----


class Kind(_Numbers):
    """The type of a telecommand frame (232.0-B-4, 4.1.2.3)."""

    AD, BD, BC = range(3)


class Segment(_Numbers):
    """The position of a segment in the packet that it is part of (4.1.3.2.2.2)."""

    CONTINUING, FIRST, LAST, ALONE = range(4)


class Command(_Numbers):
    """The control commands (4.1.3.3)."""

    UNLOCK, SET_VR = range(2)


@_typed(kind=dict(enumerate(Kind)), flags=dict(enumerate(Segment)), command=dict(enumerate(Command)))
class TcFrame(_Struct):
    """A telecommand frame without its data (232.0-B-4, 4.1).

    - `scid`, 0 to 1,023, and `vcid`, 0 to 63; the `kind`, a Kind
    - AD: the number `n`, and the `flags`, a Segment, and `map`, 0 to 63, of its segment
    - BD: `flags` and `map`
    - BC: the `command`, a Command, and the number `vr` of Set V(R)"""

    __slots__ = ()
    _fields_ = [("scid", c_uint16), ("vcid", c_uint8), ("kind", c_uint8), ("n", c_uint8), ("flags", c_uint8),
                ("map", c_uint8), ("command", c_uint8), ("vr", c_uint8)]
    scid: int
    vcid: int
    kind: Kind
    n: int
    flags: Segment
    map: int
    command: Command
    vr: int

    def __init__(self, scid: int = 0, vcid: int = 0, kind: int = Kind.AD, n: int = 0, flags: int = 0, map: int = 0,
                 command: int = 0, vr: int = 0) -> None:
        super().__init__(scid, vcid, kind, n, flags, map, command, vr)

    @classmethod
    def decode(cls, octets: Octets, checked: bool = True) -> Tuple[TcFrame, bytes]:
        """Reads all of the octets as one frame, which ends with its FECF unless `checked` is False. Returns the frame,
        and the data after the segment header (a control frame has neither). Raises TcFault 1 to 9 if the octets are not
        a frame."""
        octets, frame, part = _octets_of("octets", octets), cls._C(), _Part()
        TcFault._look_at(_tc_decode(octets, len(octets), checked, frame, part))
        return cls._of(frame), part.of(octets)

    @classmethod
    def decode_all(cls, octets: Octets, checked: bool = True, *, scid: Optional[int] = None,
                   vcid: Optional[int] = None) -> Iterator[Tuple[Union[TcFrame, TcFault], bytes]]:
        """Reads consecutive frames in the octets, each as long as it declares. Yields for each the frame and its data,
        as `decode` returns them, or its TcFault and its octets instead. With `scid` or `vcid`, yields only frames whose
        header names this spacecraft or virtual channel, refused ones too. If octets are left after the last whole
        frame, yields them at the end, with TcFault 1 for fewer than 5 octets, or else TcFault 5; no earlier frame has
        either fault. Raises OverflowError for a number that no header has."""
        return chain.from_iterable(_frames_in(cls, _octets_of("octets", octets), checked, [
            *_wanted("scid", scid, 0x3FF, ((0, 255, 0), (1, 3, 8))), *_wanted("vcid", vcid, 0x3F, ((2, 63, 0),))]))

    def encode(self, data: Octets = b"", checked: bool = True) -> bytes:
        """Returns the octets of the frame with these data, at most 1,024, ending with its FECF unless `checked` is
        False. Raises TcFault if a field is out of range."""
        data = _octets_of("data", data)
        return _written(TcFault._look_at, _tc_encode, 1024, self._memory, data, len(data), checked)

    @staticmethod
    def declared(octets: Octets, checked: bool = True) -> int:
        """Returns the length of the frame that begins with these octets, with its FECF unless `checked` is False.
        Raises TcFault 1 for fewer than 5 octets, or 5 if the declared length is too small."""
        octets = _octets_of("octets", octets)
        return _count_of(_tc_declared, TcFault, octets, len(octets), checked)


_tc_decode = _call("tc_decode", c_uint8, c_char_p, c_size_t, c_bool, POINTER(TcFrame._C), POINTER(_Part))
_tc_encode = _call("tc_encode", c_uint8, POINTER(TcFrame._C), c_char_p, c_size_t, c_bool, c_char_p, c_size_t,
                   POINTER(c_size_t))
_tc_declared = _call("tc_declared", c_uint8, c_char_p, c_size_t, c_bool, POINTER(c_size_t))
_tc_frames = _call("tc_frames", c_size_t, c_char_p, c_size_t, c_bool, c_char_p, c_size_t, POINTER(c_size_t))

# The record that `_tc_frames` writes for each frame: its size, and where the fault, the fields and the kind are. The
# first two octets are the length of the frame. Then the maximum of octets and of frames for one call.
_FOUND, _FAULT, _FIELDS, _KIND = 12, 2, 3, 6
_PIECE, _MOST = 65536, 512


def _columns(records: bytes, size: int, places: Sequence[int], room: bytearray, own: int) -> bytearray:
    """Copies the octets at these places of each record of this size to `room`, which has `own` octets for each."""
    end = len(records) // size * own
    for k, place in enumerate(places):
        room[k:end:own] = records[place::size]
    return room


def _places_of(kinds: Iterable[Any], begun: int, order: str = byteorder) -> List[int]:
    """Returns where the octets of fields of these kinds are in a record, from this place on. In the record the lower
    octet of a number comes first."""
    places: List[int] = []
    for kind in kinds:
        own = range(begun, begun := begun + ctypes.sizeof(kind))
        places += reversed(own) if kind is c_uint16 and order == "big" else own
    return places


def _structs_of(many: Any, records: bytes, size: int, begun: int) -> Any:
    """Returns the structs whose fields begin at this place in each record of this size. They share the memory of one
    array: making them together takes half the time."""
    places = _places_of((kind for _, kind in many._type_._fields_), begun)
    room = _columns(records, size, places, bytearray(ctypes.sizeof(many)), ctypes.sizeof(many._type_))
    return many.from_buffer(room)[:len(records) // size]


_Wanted = Tuple[int, bytes]  # a place in a record, and a table with 1 for each octet that may be there, or 0


def _wanted(name: str, number: Optional[int], most: int, parts: Iterable[Tuple[int, int, int]]) -> Iterator[_Wanted]:
    """Yields the values that octets must have if they contain this number; nothing if it is None. Each part is a place,
    a mask for its octet, and the left shift from its bits to the number; a shift below 0 is to the right."""
    if number is None:
        return
    if not 0 <= _number_of(name, number) <= most:
        raise OverflowError(f"{name}: {number} is not in 0 to {most}")
    for place, bits, up in parts:
        value = (number >> up if up >= 0 else number << -up) & bits
        yield place, bytes(it & bits == value for it in range(256))


def _chosen(records: bytes, size: int, count: int, wanted: Iterable[_Wanted]) -> bytearray:
    """Returns 1 for each of `count` records of this size that has the octets wanted, and 0 for all others."""
    chosen = int.from_bytes(b"\1" * count, "little")
    for place, table in wanted:
        chosen &= int.from_bytes(records[place:count * size:size].translate(table), "little")
    return bytearray(chosen.to_bytes(count, "little"))


def _frames_in(cls: Type[TcFrame], octets: bytes, checked: bool,
               channel: Sequence[_Wanted]) -> Iterator[Iterable[Tuple[Union[TcFrame, TcFault], bytes]]]:
    """Yields the frames in the octets, piece by piece, and then the octets left over. `channel` contains the fields
    that the frames wanted must have: the lower octet of the scid, its higher octet, and the vcid."""
    total, begun, many = c_size_t(), 0, cls._C * _MOST
    out: Any = ctypes.create_string_buffer(_MOST * _FOUND)  # its slices are bytes, which Debian's mypy 1.0.1 does not know
    check, control, number = 2 if checked else 0, Kind.BC.value, _places_of([c_uint16], 0)
    while found := _tc_frames(piece := octets[begun:begun + _PIECE], len(piece), checked, out, len(out), total):
        records, end = out[:found * _FOUND], 0
        frames, counts = _structs_with(cls, _structs_of(many, records, _FOUND, _FIELDS)), memoryview(
            _columns(records, _FOUND, number, bytearray(found * 2), 2)).cast("H")
        faults, kinds = records[_FAULT::_FOUND], records[_KIND::_FOUND]
        data = [piece[end + 6:(end := end + count) - check] for count in counts]
        chosen = _chosen(records[_FIELDS:], _FOUND, found, channel)
        if any(faults) or control in kinds:
            end = 0
            for k, count in enumerate(counts):
                start, end = end, end + count
                if faults[k]:
                    frames[k], data[k] = TcFault(faults[k]), piece[start:end]
                    named = piece[start + 1], piece[start] & 3, piece[start + 2] >> 2
                    chosen[k] = all(table[named[place]] for place, table in channel)
                elif kinds[k] == control:
                    data[k] = b""
        yield compress(zip(frames, data), chosen) if channel else zip(frames, data)
        begun += total.value
    if begun < len(octets):
        yield [(TcFault(1 if len(octets) - begun < 5 else 5), octets[begun:])]


# ---- Space packets ----


class PacketKind(_Numbers):
    """The type of a space packet (133.0-B-2, 4.1.3.3.2)."""

    TELEMETRY, TELECOMMAND = range(2)


class SequenceFlags(_Numbers):
    """The sequence flags of a space packet (133.0-B-2, 4.1.3.4.2)."""

    CONTINUATION, FIRST, LAST, UNSEGMENTED = range(4)


@_typed(kind=dict(enumerate(PacketKind)), flags=dict(enumerate(SequenceFlags)))
class Packet(_Struct):
    """A space packet without its data field (133.0-B-2, 4.1).

    - `apid`, the application process identifier, 0 to 2,047; 2,047 is that of idle packets
    - `count`, the sequence count or the packet's name, 0 to 16,383
    - `kind`, a PacketKind; `secondary`, 1 if the data field begins with a secondary header, or 0
    - `flags`, a SequenceFlags; a new packet is UNSEGMENTED"""

    __slots__ = ()
    _fields_ = [("apid", c_uint16), ("count", c_uint16), ("kind", c_uint8), ("secondary", c_uint8), ("flags", c_uint8)]
    apid: int
    count: int
    kind: PacketKind
    secondary: int
    flags: SequenceFlags

    def __init__(self, apid: int = 0, count: int = 0, kind: int = PacketKind.TELEMETRY, secondary: int = 0,
                 flags: int = SequenceFlags.UNSEGMENTED) -> None:
        super().__init__(apid, count, kind, secondary, flags)

    @classmethod
    def decode(cls, octets: Octets) -> Tuple[Packet, bytes]:
        """Reads the packet at the beginning of the octets. Returns it and its data field. Raises PacketFault if there
        is none."""
        octets, packet, part = _octets_of("octets", octets), cls._C(), _Part()
        PacketFault._look_at(_packet_decode(octets, len(octets), packet, part))
        return cls._of(packet), part.of(octets)

    def encode(self, data: Octets) -> bytes:
        """Returns the octets of the packet with this data field. Raises PacketFault if a field is out of range."""
        data = _octets_of("data", data)
        return _written(PacketFault._look_at, _packet_encode, len(data) + 6, self._memory, data, len(data))

    @staticmethod
    def declared(octets: Octets) -> int:
        """Returns the length of the packet that begins with these octets. Raises PacketFault if no packet does."""
        octets = _octets_of("octets", octets)
        return _count_of(_packet_declared, PacketFault, octets, len(octets))


_packet_decode = _call("packet_decode", c_uint8, c_char_p, c_size_t, POINTER(Packet._C), POINTER(_Part))
_packet_encode = _call("packet_encode", c_uint8, POINTER(Packet._C), c_char_p, c_size_t, c_char_p, c_size_t,
                       POINTER(c_size_t))
_packet_declared = _call("packet_declared", c_uint8, c_char_p, c_size_t, POINTER(c_size_t))


class _GapCheck(ctypes.Structure):
    _fields_ = [("_last", c_uint16 * 2048)]


class GapCheck(Single):
    """Counts missing packets by the sequence counts of all application processes (133.0-B-2, 4.1.3.4.3)."""

    def __init__(self) -> None:
        self._check = _GapCheck()
        _gap_check_open(self._check)

    def see(self, apid: int, count: int) -> Optional[int]:
        """Takes the `apid` and `count` of a Packet. Returns how many packets are missing before it, (count - last - 1)
        modulo 16,384, or None for the first packet of its APID. Raises PacketFault 5 (FieldRange) if `apid` is above
        2,047 or `count` above 16,383."""
        missing = c_uint16()
        answer = _gap_check_see(self._check, apid, count, missing)
        if answer == _ABSENT:
            return None
        PacketFault._look_at(answer)
        return missing.value


_gap_check_open = _call("gap_check_open", None, POINTER(_GapCheck))
_gap_check_see = _call("gap_check_see", c_uint8, POINTER(_GapCheck), ("apid", c_uint16), ("count", c_uint16),
                       POINTER(c_uint16))

# ---- Telemetry frames ----

ONLY_IDLE, NO_START = 2046, 2047


class TmFrame(_Struct):
    """A telemetry frame without its data (132.0-B-3, 4.1).

    - `scid`, 0 to 1,023, and `vcid`, 0 to 7; `mc_count` and `vc_count`, the frame counts
    - `pointer`, the place in the data, counted from 0, where the first packet starts, or ONLY_IDLE or NO_START
    - `ocf`, the operational control field, the four octets of a Clcw"""

    __slots__ = ()
    _fields_ = [("scid", c_uint16), ("pointer", c_uint16), ("vcid", c_uint8), ("mc_count", c_uint8),
                ("vc_count", c_uint8), ("_ocf", c_uint8 * 4)]
    scid: int
    pointer: int
    vcid: int
    mc_count: int
    vc_count: int

    def __init__(self, scid: int = 0, pointer: int = 0, vcid: int = 0, mc_count: int = 0, vc_count: int = 0,
                 ocf: Octets = bytes(4)) -> None:
        super().__init__(scid, pointer, vcid, mc_count, vc_count)
        self.ocf = ocf

    @property
    def ocf(self) -> bytes:
        """The operational control field, the four octets of a Clcw."""
        return bytes(self._memory._ocf)

    @ocf.setter
    def ocf(self, octets: Octets) -> None:
        octets = _octets_of("ocf", octets)
        if len(octets) != 4:
            raise ValueError(f"ocf: {len(octets)} octets are not four")
        self._memory._ocf = (c_uint8 * 4)(*octets)

    @classmethod
    def decode(cls, octets: Octets, length: Optional[int] = None) -> Tuple[TmFrame, bytes]:
        """Reads all of the octets as one frame of the channel's `length`, or of any length if none is given. Returns the
        frame and its data. Raises TmFault 1 to 6 if the octets are not a frame."""
        octets, frame, part = _octets_of("octets", octets), cls._C(), _Part()
        length = len(octets) if length is None else length
        TmFault._look_at(_tm_decode(octets, len(octets), length, frame, part))
        return cls._of(frame), part.of(octets)

    def encode(self, data: Octets) -> bytes:
        """Returns the octets of the frame with these data. Raises TmFault if a field is out of range."""
        data = _octets_of("data", data)
        return _written(TmFault._look_at, _tm_encode, 2048, self._memory, data, len(data))


_tm_decode = _call("tm_decode", c_uint8, c_char_p, c_size_t, ("length", c_size_t), POINTER(TmFrame._C), POINTER(_Part))
_tm_encode = _call("tm_encode", c_uint8, POINTER(TmFrame._C), c_char_p, c_size_t, c_char_p, c_size_t, POINTER(c_size_t))

# ---- Packets in telemetry frames ----


class _TmBuilder(ctypes.Structure):
    _fields_ = [("start", c_size_t), ("count", c_size_t), ("begun", c_size_t), ("scid", c_uint16),
                ("length", c_uint16), ("vcid", c_uint8), ("next_count", c_uint8), ("idle_left", c_uint8)]


class _TmExtractor(ctypes.Structure):
    _fields_ = [("start", c_size_t), ("count", c_size_t), ("last", c_uint8), ("seen", c_uint8)]


class _TmExtracted(ctypes.Structure):
    _fields_ = [("joined", c_size_t), ("packets", _Part), ("first", c_uint8), ("lost", c_uint8)]


class TmBuilder(Single):
    """Builds the telemetry frames of one virtual channel from packets (132.0-B-3, 4.2). All frames have `length`
    octets, 16 to 2,048; at most `room` octets of packets wait to be sent. Raises TmFault 10 (FieldRange) for a
    spacecraft or virtual channel that is not valid, or for any other length."""

    def __init__(self, scid: int, vcid: int, length: int, room: int = 65542) -> None:
        self._builder, self._memory = _TmBuilder(), _room_of("room", room)
        TmFault._look_at(_tm_builder_open(self._builder, scid, vcid, length))

    @property
    def waiting(self) -> int:
        """The number of octets that wait to be sent."""
        return int(self._builder.count)

    def queue(self, packet: Octets) -> None:
        """Queues a packet, given as all of its octets. Raises TmFault 8 (NotAPacket) if the octets are not exactly one
        packet, or are an idle packet, and 7 (Memory) if more octets would wait than there is room for."""
        packet = _octets_of("packet", packet)
        TmFault._look_at(_tm_builder_queue(self._builder, packet, len(packet), self._memory, len(self._memory)))

    def build(self, ocf: Octets) -> bytes:
        """Returns the octets of the next frame, with this operational control field, the four octets of a Clcw. If
        packets run out within the frame, an idle packet fills it; if there are no packets, the frame has only idle
        data. Raises TmFault 254 (WrongCount) unless the octets are four."""
        ocf = _octets_of("ocf", ocf)
        return _written(TmFault._look_at, _tm_builder_build, 2048, self._builder, ocf, len(ocf), self._memory,
                        len(self._memory))


class Extracted(NamedTuple):
    """What `TmExtractor.take` makes of a telemetry frame."""

    packets: List[bytes]
    """The packets whose last octets the frame has, except idle ones."""
    lost: Optional[int]
    """The number of frames missing before it, modulo 256; None for the first."""


class TakenFrame(NamedTuple):
    """What `TmExtractor.take_all` makes of a telemetry frame."""

    frame: Union[TmFrame, TmFault]
    """The frame, or the fault of octets that are not a frame."""
    packets: List[bytes]
    """The packets whose last octets the frame has, except idle ones."""
    lost: Optional[int]
    """The number of frames missing before it, modulo 256; None for the first, and if there is no frame."""


class TmExtractor(Single):
    """Extracts packets from the telemetry frames of one virtual channel; any of the frames may be missing (132.0-B-3,
    4.3). It has memory for every packet of at most `longest` octets, 7 to 65,542, idle packets included. It delivers a
    longer packet if that needs no more memory. Raises ValueError for any other `longest`."""

    def __init__(self, longest: int = 65542) -> None:
        if not 7 <= _number_of("longest", longest) <= 65542:
            raise ValueError(f"longest: {longest} is not in 7 to 65542")
        self._extractor, self._memory = _TmExtractor(), _room_of("longest", longest + 2036)
        self._dropped, self._lock = 0, RLock()

    @property
    def dropped(self) -> int:
        """The number of packets so far that were begun and then dropped, because frames are missing after their first
        octets, or because a frame does not continue them (docs/PROFILE.md, "Extraction", 1 to 4). An idle packet does
        not count, unless only one octet of it had arrived. A packet whose first octet is missing shows in the sequence
        counts instead."""
        return self._dropped

    def take(self, frame: TmFrame, data: Octets) -> Extracted:
        """Takes the next received frame, a TmFrame and its data. Returns an Extracted: the `packets` whose last octets
        the frame has, except idle packets, and the number of frames missing before it (`lost`), modulo 256, or None for
        the first. Raises TmFault 10 (FieldRange) for a pointer after the data, and 7 (Memory) if the packets need more
        memory; the frame then counts as missing."""
        extracted = _TmExtracted()
        fault, packets = self._taken(_struct_of("frame", TmFrame, frame), _octets_of("data", data), extracted)
        TmFault._look_at(fault)
        return Extracted(packets, None if extracted.first else extracted.lost)

    def take_all(self, octets: Octets, length: int, *, scid: Optional[int] = None,
                 vcid: Optional[int] = None) -> List[TakenFrame]:
        """Takes consecutive frames of `length` octets. Returns for each a TakenFrame: the `frame`, as `TmFrame.decode`
        returns it, and `packets` and `lost`, as `take` returns them; or the frame's TmFault instead, with no packets.
        With `scid` or `vcid`, takes only frames whose header names this spacecraft or virtual channel, refused ones
        too. If octets are left at the end, the last TakenFrame has TmFault 1. Raises OverflowError for a number that no
        header has, and ValueError unless the length is 16 to 2,048."""
        octets, length = _octets_of("octets", octets), _frame_length_of(length)
        channel = [*_wanted("scid", scid, 0x3FF, ((0, 63, 4), (1, 240, -4))), *_wanted("vcid", vcid, 7, ((1, 14, -1),))]
        if channel:
            octets = _frames_with(octets, length, channel)
        answers: List[TakenFrame] = []
        most = min(_PIECE, len(octets)) // length + 1
        out: Any = ctypes.create_string_buffer(most * _TAKEN.size)
        place: Any = ctypes.create_string_buffer(len(self._memory) + most * length)
        with self._lock:
            begun, total, piece = 0, c_size_t(), octets
            while found := _tm_extractor_frames(
                    self._extractor, piece, len(piece), length, self._memory, len(self._memory), out, len(out), place,
                    len(place), total):
                self._dropped += _add_taken(answers, TmFrame._C * most, out[:found * _TAKEN.size], place[:total.value])
                begun += found * length
                piece = octets[begun:begun + most * length]
        if piece:
            answers.append(TakenFrame(TmFault(1), [], None))
        return answers

    def _taken(self, frame: TmFrame, data: bytes, extracted: _TmExtracted) -> Tuple[int, List[bytes]]:
        """Returns the library's result, and the packets."""
        with self._lock:
            begun = self._begun()
            fault = _tm_extractor_frame(
                self._extractor, frame._memory, data, len(data), self._memory, len(self._memory), extracted)
            if fault:
                return fault, []
            packets = [self._memory[:extracted.joined]] if extracted.joined else []
            goes_on = frame.pointer == NO_START and self._extractor.count > 0
            if begun and not packets and not goes_on:
                self._dropped += not _is_idle(begun + (b"" if extracted.lost else _before_start(frame.pointer, data)))
        part = extracted.packets
        while _tm_packet(data, len(data), part):
            packets.append(part.of(data))
        return 0, packets

    def _begun(self) -> bytes:
        """Returns the first octets, two at most, of the packet whose end is to come; none if there is no such
        packet."""
        start = self._extractor.start
        return bytes(self._memory[start:start + min(self._extractor.count, 2)])


def _frames_with(octets: bytes, length: int, wanted: Sequence[_Wanted]) -> bytes:
    """Returns the frames of this length that have the octets wanted, and the octets left after the last frame."""
    whole, view = len(octets) // length, memoryview(octets)
    chosen = compress(range(0, whole * length, length), _chosen(octets, length, whole, wanted))
    return b"".join([*(view[begun:begun + length] for begun in chosen), view[whole * length:]])


# The record that `_tm_extractor_frames` writes for each frame: the number of octets of its packets, its fault, whether
# it is the first, how many are missing before it, whether a packet is dropped, and from the ninth octet on its fields.
_TAKEN, _TAKEN_FIELDS = Struct("<IBBBB11x"), 8


def _add_taken(answers: List[TakenFrame], many: Any, records: bytes, octets: bytes) -> int:
    """Adds the frames that these records describe. `many` is an array of at least that many frames, and `octets` has
    their packets. Returns the number of packets that were dropped."""
    frames, end, all_dropped = _structs_with(TmFrame, _structs_of(many, records, _TAKEN.size, _TAKEN_FIELDS)), 0, 0
    for frame, (count, fault, first, lost, dropped) in zip(frames, _TAKEN.iter_unpack(records)):
        packets: List[bytes] = []
        if fault:
            answers.append(TakenFrame(TmFault(fault), packets, None))
            continue
        start, end = end, end + count
        while start < end:
            begun, start = start, start + 7 + (octets[start + 4] << 8 | octets[start + 5])
            packets.append(octets[begun:start])
        all_dropped += dropped
        answers.append(TakenFrame(frame, packets, None if first else lost))
    return all_dropped


def _before_start(pointer: int, data: bytes) -> bytes:
    """Returns the octets of a frame's data before the first packet that starts in it."""
    return data if pointer == NO_START else b"" if pointer == ONLY_IDLE else data[:pointer]


def _is_idle(octets: bytes) -> bool:
    """Returns whether the octets begin an idle packet (133.0-B-2, 4.1.3.3.4)."""
    return len(octets) > 1 and octets[0] & 7 == 7 and octets[1] == 255


_tm_builder_open = _call("tm_builder_open", c_uint8, POINTER(_TmBuilder), ("scid", c_uint16), ("vcid", c_uint8),
                         ("length", c_size_t))
_tm_builder_queue = _call("tm_builder_queue", c_uint8, POINTER(_TmBuilder), c_char_p, c_size_t, c_char_p, c_size_t)
_tm_builder_build = _call("tm_builder_build", c_uint8, POINTER(_TmBuilder), c_char_p, c_size_t, c_char_p, c_size_t,
                          c_char_p, c_size_t, POINTER(c_size_t))
_tm_extractor_frame = _call("tm_extractor_frame", c_uint8, POINTER(_TmExtractor), POINTER(TmFrame._C), c_char_p,
                            c_size_t, c_char_p, c_size_t, POINTER(_TmExtracted))
_tm_packet = _call("tm_packet", c_bool, c_char_p, c_size_t, POINTER(_Part))
_tm_extractor_frames = _call("tm_extractor_frames", c_size_t, POINTER(_TmExtractor), c_char_p, c_size_t,
                             ("frame_length", c_size_t), c_char_p, c_size_t, c_char_p, c_size_t, c_char_p, c_size_t,
                             POINTER(c_size_t))

# ---- Packets in segments ----

_IN_MEMORY = 1
_dropped_word = _word_of("dropped")


class _Map(ctypes.Structure):
    _fields_ = [("count", c_size_t), ("open", c_uint8), ("blocking", c_uint8)]


class _Taken(ctypes.Structure):
    _fields_ = [("count", c_size_t), ("where", c_uint8), ("dropped", c_uint8)]


class _Limits(ctypes.Structure):
    _fields_ = [("part", c_uint32), ("max_packet", c_uint32), ("blocking", c_uint8)]


def _parts_of(octets: bytes) -> Iterator[_Part]:
    """Yields the position of each packet in the octets. Each position is valid until the next one is requested."""
    part = _Part()
    while _map_packet(octets, len(octets), part):
        yield part


class Assembled(NamedTuple):
    """What `Map.take` makes of a segment."""

    packets: List[bytes]
    """The packets that are whole now."""
    dropped: Optional[str]
    """Why octets were dropped, in the word that tctool prints; or None."""


class Map(Single):
    """One MAP on board, which joins segments into packets of at most `longest` octets (232.0-B-4, 4.1.3.2.2). With
    blocking, an alone segment may contain several whole packets."""

    def __init__(self, longest: int = 65542, blocking: bool = False) -> None:
        self._map, self._memory = _Map(blocking=bool(blocking)), _room_of("longest", longest)
        self._lock = RLock()

    def take(self, flags: int, data: Octets) -> Assembled:
        """Takes the next segment, its Segment flags and its data. Returns an Assembled: the `packets` that are whole
        now, and why octets were `dropped`, in the word that tctool prints, or None. Raises MapFault 255 (Damaged) for
        flags that are not valid."""
        data, taken = _octets_of("data", data), _Taken()
        with self._lock:
            MapFault._look_at(_map_take(self._map, flags, data, len(data), self._memory, len(self._memory), taken))
            whole: bytes = (self._memory if taken.where == _IN_MEMORY else data)[:taken.count]
        packets = [part.of(whole) for part in _parts_of(whole)]
        return Assembled(packets, _dropped_word(taken.dropped) if taken.dropped else None)


def segments(octets: Octets, part: int, longest: int = 65542, blocking: bool = False) -> List[Tuple[Segment, bytes]]:
    """Cuts a packet, or with blocking consecutive packets, into segments of at most `part` octets. Returns for each
    segment its Segment flags and its data. Raises MapFault if the octets are not a packet, or if a packet has more than
    `longest` octets."""
    for name, value in (("part", part), ("longest", longest)):
        _within(name, c_uint32, value)
    octets, limits = _octets_of("octets", octets), _Limits(part, longest, bool(blocking))
    flags, data = c_uint8(), _Part()
    cut: List[Tuple[Segment, bytes]] = []
    _count_of(_map_count, MapFault, octets, len(octets), limits)
    for group in _groups_of(octets, part):
        for k in range(_count_of(_map_count, MapFault, group, len(group), limits)):
            MapFault._look_at(_map_segment(group, len(group), limits, k, flags, data))
            cut.append((Segment(flags.value), data.of(group)))
    return cut


def _groups_of(octets: bytes, part: int) -> Iterator[bytes]:
    """Yields, from the left, each group of packets that share one segment, and each packet of more than `part` octets.
    A segment is requested within its group, because the library scans all packets that it is given."""
    start = end = 0
    for packet in _parts_of(octets):
        next_end = packet.start + packet.count
        if next_end - start > part and end > start:
            yield octets[start:end]
            start = end
        end = next_end
    yield octets[start:end]


_map_take = _call("map_take", c_uint8, POINTER(_Map), ("flags", c_uint8), c_char_p, c_size_t, c_char_p, c_size_t,
                  POINTER(_Taken))
_map_packet = _call("map_packet", c_bool, c_char_p, c_size_t, POINTER(_Part))
_map_count = _call("map_count", c_uint8, c_char_p, c_size_t, POINTER(_Limits), POINTER(c_size_t))
_map_segment = _call("map_segment", c_uint8, c_char_p, c_size_t, POINTER(_Limits), ("k", c_size_t), POINTER(c_uint8),
                     POINTER(_Part))
