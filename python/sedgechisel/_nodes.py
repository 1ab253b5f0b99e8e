"""The calls of libsedgechisel_nodes: what the nodes share, and the ground."""
from __future__ import annotations

import ctypes
from ctypes import POINTER, c_bool, c_char_p, c_size_t, c_uint8, c_uint16, c_uint32, c_uint64, c_void_p
from collections import defaultdict
from dataclasses import dataclass, field
from enum import EnumMeta
from functools import partial
from threading import RLock
from types import TracebackType
from typing import Any, Callable, DefaultDict, Dict, Iterator, List, Optional, Tuple, Type, TypeVar

from ._calls import Alert, Clcw, Command, Directives, State, Verdict, _directive, _dropped_word, _Struct
from ._faults import ClcwFault, CopFault, Fault, LinkFault, TcFault, TmFault, word_of as _word_of
from ._library import (
    LONGEST, NODES, Numbers, Octets, Single, call_of, frame_length_of as _frame_length_of, give_back as _give_back,
    lent as _lent, octets_of as _octets_of, renamed, struct_of as _struct_of, warn_of as _warn_of, within as _within,
    written as _written)

_ABSENT, _OUT_OF_RANGE, _NONE = 253, 254, 255
_Own = TypeVar("_Own", bound="Handle")


def _call(name: str, answer: Any, *kinds: Any) -> Callable[..., Any]:
    return call_of(NODES, name, answer, *kinds)


class Config(_Struct):
    """The managed parameters of a node, with the defaults and the ranges of docs/PROFILE.md. Both ends of a link have
    the same `scid`, `vcid`, `tm_vcid`, `width`, `max_packet`, `maps`, `frame_length` and `blocking`. Of the others,
    only the ground reads `window`, `limit`, `timer`, `part` and `queue_slots`, and only the spacecraft reads
    `ready_slots` and `bypass_slots`. `Config(window=4, timer=3)` sets two of them:

    - `scid`: the spacecraft identifier, 0 to 1,023; default 1
    - `vcid`: the virtual channel of telecommand frames, 0 to 63; default 2
    - `tm_vcid`: the virtual channel of telemetry frames, 0 to 7; default 0
    - `width`: the width of the receiver's window, even, 2 to 254; default 254
    - `window`: the sender's window K, 1 to width/2; default 127
    - `limit`: the transmission limit, 1 to 255; default 3
    - `timer`: the timer's value in ticks, 1 to 65,535; default 10
    - `part`: the maximum number of data octets in a segment. Without silence before an initiation, segments of two
      longer packets can be joined into a command that nobody submitted. Range 1 to 1,016; default 1,016
    - `max_packet`: the maximum length of a packet in octets, 7 to 65,542; default 65,542
    - `maps`: the open MAPs, any 64 bits: bit m, of value 2 to the power of m, is 1 if MAP m is open; default all ones
    - `ready_slots`: the number of packets waiting to be taken at which the buffer on board is full, 1 to 64; default 64
    - `bypass_slots`: the maximum number of bypass packets that wait to be taken, 1 to 64; default 4
    - `queue_slots`: the maximum number of units that wait to be sent for the first time, 1 to 65,535; default 1,000
    - `frame_length`: the length of a telemetry frame in octets, 16 to 2,048; default 64
    - `blocking`: 1 if a segment may contain several packets, 0 to 1; default 0"""

    __slots__ = ()
    _fields_ = [("scid", c_uint32), ("vcid", c_uint32), ("tm_vcid", c_uint32), ("width", c_uint32),
                ("window", c_uint32), ("limit", c_uint32), ("timer", c_uint32), ("part", c_uint32),
                ("max_packet", c_uint32), ("maps", c_uint64), ("ready_slots", c_uint32), ("bypass_slots", c_uint32),
                ("queue_slots", c_uint32), ("frame_length", c_uint32), ("blocking", c_uint32)]
    scid: int
    vcid: int
    tm_vcid: int
    width: int
    window: int
    limit: int
    timer: int
    part: int
    max_packet: int
    maps: int
    ready_slots: int
    bypass_slots: int
    queue_slots: int
    frame_length: int
    blocking: int

    def __init__(
            self, *, scid: int = 1, vcid: int = 2, tm_vcid: int = 0, width: int = 254, window: int = 127, limit: int = 3,
            timer: int = 10, part: int = 1016, max_packet: int = 65542, maps: int = 2**64 - 1,
            ready_slots: int = 64, bypass_slots: int = 4, queue_slots: int = 1000, frame_length: int = 64,
            blocking: int = 0) -> None:
        super().__init__(scid, vcid, tm_vcid, width, window, limit, timer, part, max_packet, maps, ready_slots,
                         bypass_slots, queue_slots, frame_length, blocking)

    def fault(self) -> Optional[str]:
        """Returns the name of the first parameter that is out of range, or None."""
        number = _config_fault(self._memory)
        return ConfigFault(number).name if number else None


_config_fault = _call("config_fault", c_uint8, POINTER(Config._C))


class ConfigFault(Fault):
    """The first managed parameter that is out of range: its number, its name, and the range."""

    class Number(Numbers):
        (SCID, VCID, TM_VCID, WIDTH, WINDOW, LIMIT, TIMER, PART, MAX_PACKET, MAPS, READY_SLOTS, BYPASS_SLOTS,
         QUEUE_SLOTS, FRAME_LENGTH, BLOCKING) = range(1, 16)

    _word = staticmethod(_word_of("parameter", NODES))
    _meanings = {number: f"its range is {its}" for number, its in enumerate((
        "0 to 1,023", "0 to 63", "0 to 7", "even, 2 to 254", "1 to width/2", "1 to 255", "1 to 65,535", "1 to 1,016",
        "7 to 65,542", "any 64 bits", "1 to 64", "1 to 64", "1 to 65,535", "16 to 2,048", "0 to 1"), 1)}


class _Raw(ctypes.Structure):
    _fields_ = [("node", c_void_p)]


def _fields_of(given: Dict[str, Any]) -> Dict[str, Any]:
    """Returns the arguments that are managed parameters and are given."""
    return {name: value for name, value in given.items() if name in Config._kinds and value is not None}


class Handle(Single):
    """What the nodes share. A node is closed by `close`, at the end of its `with` block, or when nothing refers to it
    any more. Every later call raises a ValueError."""

    _opens: Callable[..., int]
    _closes: Callable[..., Any]
    _faults: Type[Fault] = LinkFault

    def __init__(
            self, config: Optional[Config] = None, *,
            scid: Optional[int] = None, vcid: Optional[int] = None, tm_vcid: Optional[int] = None,
            width: Optional[int] = None, window: Optional[int] = None, limit: Optional[int] = None,
            timer: Optional[int] = None, part: Optional[int] = None, max_packet: Optional[int] = None,
            maps: Optional[int] = None, ready_slots: Optional[int] = None, bypass_slots: Optional[int] = None,
            queue_slots: Optional[int] = None, frame_length: Optional[int] = None,
            blocking: Optional[int] = None) -> None:
        """Opens a node with these managed parameters: a Config, or some of its fields, each by name; the others have
        their defaults. Raises ConfigFault if one is out of range, or LinkFault 6 (Memory)."""
        fields = _fields_of(locals())
        if not isinstance(config, (Config, type(None))):
            raise TypeError(f"config: {config!r} is not a Config; parameters are given by name, as in timer=3")
        if config is not None and fields:
            raise TypeError("a Config or its fields, but not both")
        config = Config(**fields) if config is None else config
        if not hasattr(self, "_handle"):
            self._handle, self._lock = _Raw(), RLock()
            self._left: DefaultDict[str, List[Tuple[int, bytes]]] = defaultdict(list)
        answer = self._open(config)
        if answer == _OUT_OF_RANGE:
            raise ConfigFault(_config_fault(config._memory))
        self._faults._look_at(answer)
        self._config = config._values()

    def __setattr__(self, name: str, value: Any) -> None:
        """Refuses to set a field of a node by name: `set_timer` and the like are the directives."""
        if not name.startswith("_") and not hasattr(type(self), name):
            raise AttributeError(f"{type(self).__name__} has no field {name}")
        super().__setattr__(name, value)

    def _open(self, config: Config) -> int:
        return type(self)._opens(self._handle, config._memory)

    def close(self) -> None:
        """Closes the node and releases its memory. A second call does nothing."""
        with self._lock:
            type(self)._closes(self._handle)
            self._left.clear()

    @property
    def config(self) -> Config:
        """The managed parameters with which the node was opened, as a Config of its own."""
        return Config(**self._config)

    @property
    def closed(self) -> bool:
        """Whether the node is closed."""
        return self._handle.node is None

    def _shown(self) -> str:
        """Returns its state, in a few words."""
        raise NotImplementedError

    def __repr__(self) -> str:
        return f"<{type(self).__name__} {'closed' if self.closed else self._shown()}>"

    def __enter__(self: _Own) -> _Own:
        self._asked(_NONE if self.closed else 0)
        return self

    def __exit__(self, kind: Optional[Type[BaseException]], it: Optional[BaseException],
                 trace: Optional[TracebackType]) -> None:
        self.close()

    def __del__(self) -> None:
        if hasattr(self, "_handle"):
            self.close()

    def _asked(self, answer: int, fault: Optional[Type[Fault]] = None) -> int:
        """Returns the answer of a call. Raises the fault, by default of the node's own kind, unless the answer is 0."""
        if answer == _NONE:
            raise ValueError(f"the {type(self).__name__.lower()} is closed")
        (fault or self._faults)._look_at(answer)
        return answer

    def _is_absent(self, answer: int) -> bool:
        """Returns whether a call reports that there is nothing. Raises the fault for any other answer except 0."""
        return answer == _ABSENT or bool(self._asked(answer))

    def _number(self, call: Callable[..., int]) -> int:
        """Returns the number that a call writes."""
        number = c_size_t()
        self._asked(call(self._handle, number))
        return number.value

    def _given(self, call: Callable[..., int], most: int, *values: Any) -> bytes:
        """Returns what a call writes into a buffer of the maximum size."""
        return _written(self._asked, call, most, self._handle, *values)

    def _take_out(self, call: Callable[..., int], most: int, made: Callable[[int, bytes], Any], *map: c_uint8) -> Any:
        """Returns what a call takes out of the node, built from its MAP and its octets, or None. If a signal handler
        raises after the call, what the call took is kept here, and the next such call returns it. The interpreter runs
        a handler after a call or an iteration of a loop. It therefore runs none between a statement without a call and
        the `return` after it."""
        left = self._left[call.__name__]
        while left:
            entry = left[0]
            taken = made(*entry)
            if left and left[0] is entry:
                del left[0]
                return taken
        count, room, octets = c_size_t(), _lent(), b""
        try:
            self._asked(call(self._handle, *map, room, most, count))
            octets = room[:count.value]
            _give_back(room)
            taken = made(map[0].value if map else 0, octets) if octets else None
            return taken
        except BaseException:
            if count.value:
                left.append((map[0].value if map else 0, octets or room[:count.value]))
            raise


def _octets_alone(_: int, octets: bytes) -> bytes:
    return octets


# ---- Received octets ----


class Arrived(Numbers):
    """What the received octets were: not a valid frame, a frame of another spacecraft or channel, a telecommand frame
    of one of the types, a telemetry frame, or a CLCW by itself."""

    INVALID, FOREIGN, AD, BD, BC, TM, CLCW = range(1, 8)


class _Renamed(EnumMeta):
    """An enumeration whose members also have their names from before 0.3."""

    def __getattr__(cls, name: str) -> Any:
        new = {"NONE": "REFUSED", "OTHER": "OTHER_CHANNEL"}.get(name, name)
        if name.startswith("_") or new not in cls._member_map_:
            raise AttributeError(name)
        if new != name:
            _warn_of(f"{cls.__name__}.{name}", new)
        return cls._member_map_[new]


class Report(Numbers, metaclass=_Renamed):
    """What became of a CLCW: it was passed to the sender (USED), its octets are not a valid CLCW (REFUSED), or it
    reports on another virtual channel (OTHER_CHANNEL)."""

    USED, REFUSED, OTHER_CHANNEL = range(3)


# Members by their numbers: a lookup takes a tenth of the time of a call of their enumeration.
_ARRIVED, _REPORTS = dict(enumerate(Arrived, 1)), dict(enumerate(Report))
_ALERTS, _VERDICTS = dict(enumerate(Alert)), dict(enumerate(Verdict))


@dataclass(frozen=True)
class Received:
    """What the spacecraft makes of received octets: their `kind`, and its own fields.

    - INVALID: `fault`
    - AD: the frame's number `n`, the `verdict`, the number of packets that became `ready` with it, and why octets on
      its MAP were `dropped`, in the word that tctool prints, or None
    - BD: whether it carried a packet, which is then `kept`
    - BC: the `command`, and the number `vr` of Set V(R)"""

    kind: Arrived
    fault: Optional[TcFault] = None
    n: int = 0
    verdict: Optional[Verdict] = None
    ready: int = 0
    dropped: Optional[str] = None
    kept: bool = False
    command: Optional[Command] = None
    vr: int = 0


class _Received(ctypes.Structure):
    _fields_ = [("ready", c_size_t), ("kind", c_uint8), ("fault", c_uint8), ("n", c_uint8), ("verdict", c_uint8),
                ("dropped", c_uint8), ("kept", c_bool), ("command", c_uint8), ("vr", c_uint8)]

    def value(self) -> Received:
        kind = _ARRIVED[self.kind]
        if kind == Arrived.INVALID:
            return Received(kind, fault=TcFault(self.fault))
        if kind == Arrived.AD:
            dropped = _dropped_word(self.dropped) if self.dropped else None
            return Received(kind, n=self.n, verdict=_VERDICTS[self.verdict], ready=self.ready, dropped=dropped)
        if kind == Arrived.BC:
            return Received(kind, command=Command(self.command), vr=self.vr)
        return Received(kind, kept=self.kept)


@dataclass(frozen=True)
class Heard:
    """What the ground makes of received octets: their `kind`, and its own fields.

    - INVALID: `fault`
    - TM: the number of frames missing before it (`gap`), or None for the first; the number of `packets` that it added
      to those that wait to be taken; what became of its CLCW (`report`); the CLCW itself (`word`), or the `word_fault`
      if the report is REFUSED; and why the sender has given up (`alert`)
    - CLCW: `report`, `word`, `word_fault` and `alert`, as for TM

    `word` is a Clcw, of any virtual channel. From a `Link` it is None, because `Link.report` has returned it."""

    kind: Arrived
    fault: Optional[TmFault] = None
    gap: Optional[int] = None
    packets: int = 0
    report: Optional[Report] = None
    word_fault: Optional[ClcwFault] = None
    alert: Alert = Alert.NONE
    word: Optional[Clcw] = field(default=None, hash=False)


class _Heard(ctypes.Structure):
    _fields_ = [("packets", c_size_t), ("kind", c_uint8), ("fault", c_uint8), ("first", c_uint8), ("missing", c_uint8),
                ("report", c_uint8), ("word_fault", c_uint8), ("alert", c_uint8)]

    def value(self, ocf: Octets = b"") -> Heard:
        """Returns the Heard that describes what arrived. These four octets are its CLCW."""
        if self.kind == 1:
            return Heard(Arrived.INVALID, fault=TmFault(self.fault))
        if self.kind == 2:
            return Heard(Arrived.FOREIGN)
        kind, report = Arrived.CLCW if self.kind == 4 else Arrived.TM, _REPORTS[self.report]
        gap = None if self.first or kind == Arrived.CLCW else self.missing
        word_fault = ClcwFault(self.word_fault) if report == Report.REFUSED else None
        word = Clcw.decode(ocf) if ocf and word_fault is None else None
        return Heard(kind, None, gap, self.packets, report, word_fault, _ALERTS[self.alert], word)


# ---- The ground ----


class _GroundReading(ctypes.Structure):
    _fields_ = [("submitted", c_uint64), ("sent_whole", c_uint64), ("acknowledged_whole", c_uint64),
                ("outstanding", c_size_t), ("unsent", c_size_t), ("due", c_size_t), ("bypassed", c_size_t),
                ("frame_length", c_size_t), ("ticks", c_uint16), ("state", c_uint8), ("vs", c_uint8), ("nn", c_uint8),
                ("count", c_uint8)]


class _KeptGround(ctypes.Structure):
    _fields_ = [("acknowledged", c_uint64), ("vs", c_uint8), ("nn", c_uint8), ("known", c_uint8), ("whole", c_uint8),
                ("_segments", c_uint8 * 127), ("_zeros", c_uint8 * 5)]


_ground_kept = _call("ground_kept", c_uint8, POINTER(_Raw), POINTER(_KeptGround))
_ground_open_kept = _call("ground_open_kept", c_uint8, POINTER(_Raw), POINTER(Config._C), POINTER(_KeptGround))
_ground_open = _call("ground_open", c_uint8, POINTER(_Raw), POINTER(Config._C))
_ground_close = _call("ground_close", None, POINTER(_Raw))


@dataclass(frozen=True)
class KeptGround:
    """The record of a ground, from which another one can continue if that ground is lost.

    - `acknowledged`, how many submissions are acknowledged whole
    - `vs`, V(S), the number of the next segment to be sent for the first time
    - `nn`, NN(R), the number that the spacecraft was last known to expect
    - `known`, whether these are a session's numbers, and no alert has shown that a condition is broken
    - `segments`, for each further submission that was sent whole, how many of its segments are not acknowledged"""

    acknowledged: int = 0
    vs: int = 0
    nn: int = 0
    known: bool = False
    segments: Tuple[int, ...] = ()

    def _record(self) -> _KeptGround:
        numbers = {"acknowledged": c_uint64, "vs": c_uint8, "nn": c_uint8, "known": c_uint8}
        for name, kind in numbers.items():
            _within(name, kind, getattr(self, name))
        record = _KeptGround(self.acknowledged, self.vs, self.nn, self.known, min(len(self.segments), 128))
        for place, count in enumerate(self.segments[:127]):
            _within("segments", c_uint8, count)
            record._segments[place] = count
        return record


class Ground(Directives, Handle):
    """The ground node: it sends packets until they are accepted, and takes telemetry."""

    _opens, _closes = _ground_open, _ground_close

    def __init__(
            self, config: Optional[Config] = None, *, kept: Optional[KeptGround] = None,
            scid: Optional[int] = None, vcid: Optional[int] = None, tm_vcid: Optional[int] = None,
            width: Optional[int] = None, window: Optional[int] = None, limit: Optional[int] = None,
            timer: Optional[int] = None, part: Optional[int] = None, max_packet: Optional[int] = None,
            maps: Optional[int] = None, ready_slots: Optional[int] = None, bypass_slots: Optional[int] = None,
            queue_slots: Optional[int] = None, frame_length: Optional[int] = None,
            blocking: Optional[int] = None) -> None:
        """Opens a ground with these managed parameters: a Config, or some of its fields, each by name; the others have
        their defaults. With `kept`, the `kept` of a ground that was lost, it continues from there in S6: `resume`
        begins the next session, as after an alert. Raises ConfigFault if a parameter is out of range, OverflowError for
        a record that no ground of this configuration can have written, or LinkFault 6 (Memory)."""
        self._kept = None if kept is None else _struct_of("kept", KeptGround, kept)._record()
        super().__init__(config, **_fields_of(locals()))

    def _open(self, config: Config) -> int:
        if self._kept is None:
            return super()._open(config)
        answer = int(_ground_open_kept(self._handle, config._memory, self._kept))
        if answer == _OUT_OF_RANGE and not _config_fault(config._memory):
            raise OverflowError("kept: no ground of this configuration gives this record")
        return answer

    @property
    def kept(self) -> KeptGround:
        """The record of this ground, of fixed size. A program stores it after each call, and after a pull before the
        frame is sent. If the ground is lost, `Ground(config, kept=..)` opens another one from the record. The record
        contains nothing about submissions that were not sent whole, bypass packets, telemetry, or what directives
        set."""
        it = _KeptGround()
        self._asked(_ground_kept(self._handle, it))
        return KeptGround(it.acknowledged, it.vs, it.nn, it.known == 1, tuple(it._segments[:it.whole]))

    def _direct(self, name: str, own: str = "", value: int = 0, kind: Any = c_uint8) -> None:
        self._asked(_ground_directive(self._handle, *_directive(name, own, value, kind)), CopFault)
        if name.startswith(("init", "set_vs")):
            self._left.pop("sedge_ground_pull", None)

    def submit(self, map: int, packets: Octets) -> int:
        """Queues one packet, or with blocking several consecutive packets, for transmission on a MAP under sequence
        control. Returns the number of this submission in its session, from 0. `resume` counts submissions: if the
        packets do not fit into one segment of `part` octets together, some of them may be on board although the
        submission is not counted. Raises the first of LinkFault 1 to 6 that applies; nothing has changed then."""
        answer, number = self._submitted(map, _octets_of("packets", packets))
        self._asked(answer)
        return number

    def try_submit(self, map: int, packets: Octets) -> Optional[int]:
        """Queues packets as `submit` does, and returns the number of the submission; or None if the queue has no room
        for them now (LinkFault 5, QueueFull), which is flow control and not an error. Nothing has changed then."""
        answer, number = self._submitted(map, _octets_of("packets", packets))
        return None if answer == LinkFault.Number.QUEUE_FULL or self._asked(answer) else number

    def _submitted(self, map: int, packets: bytes) -> Tuple[int, int]:
        """Submits, and returns the answer and the number of the submission, which is valid if the answer is 0. One step
        makes both calls, so that no submission by a signal handler comes between them."""
        _within("map", c_uint8, map)
        submit, read = getattr(_ground_submit, "__wrapped__"), _GroundReading()
        submit = partial(submit, self._handle, map, packets, len(packets))
        answer, _ = _each_called((submit, partial(_ground_read, self._handle, read)))
        return answer, read.submitted - 1

    def bypass(self, map: int, packet: Octets) -> None:
        """Queues one packet for transmission on a MAP by bypass, in any state. Raises the first of LinkFault 2 to 6
        that applies."""
        packet = _octets_of("packet", packet)
        self._asked(_ground_bypass(self._handle, map, packet, len(packet)))

    def pull(self) -> Optional[bytes]:
        """Takes the next telecommand frame for the link. Returns it with its FECF, at most 1,024 octets, or None if
        nothing is to be sent now."""
        taken: Optional[bytes] = self._take_out(_ground_pull, 1024, _octets_alone)
        return taken

    def frames(self) -> Iterator[bytes]:
        """Pulls frames until nothing is to be sent. A frame counts as sent when it is yielded; frames that are not
        requested stay in the ground."""
        return iter(self.pull, None)

    def peek(self) -> Optional[bytes]:
        """Returns the next telecommand frame for the link, as `pull` does, or None if nothing is to be sent now.
        Changes nothing: the frame counts as sent once `advance` is called, for example when a radio that may
        refuse the frame has taken it."""
        return self._given(_ground_peek, 1024) or None

    def advance(self) -> None:
        """Counts the next frame for the link as sent, as `pull` does."""
        self._asked(_ground_advance(self._handle))

    def telemetry(self, octets: Octets) -> Heard:
        """Takes octets received from the spacecraft, normally one telemetry frame. Returns a Heard. Raises LinkFault 6
        (Memory)."""
        octets, heard = _octets_of("octets", octets), _Heard()
        self._asked(_ground_telemetry(self._handle, octets, len(octets), heard))
        return heard.value(octets[-6:-2])

    def telemetry_all(self, octets: Octets, length: int) -> Iterator[Heard]:
        """Takes received octets that are consecutive telemetry frames of `length` octets. Yields for each frame, on
        request, what `telemetry` returns, and takes as long as a loop over `telemetry`. Take the `packets` after each
        frame, or those of all frames at the end. Octets left at the end are yielded as an invalid frame. Raises
        ValueError unless the length is 16 to 2,048, and LinkFault 6 (Memory)."""
        octets, length = _octets_of("octets", octets), _frame_length_of(length)
        return (self.telemetry(octets[start:start + length]) for start in range(0, len(octets), length))

    def clcw(self, word: Octets) -> Heard:
        """Takes a CLCW of four octets by itself, as a front end forwards it. Passes it to the sender, as if it had
        arrived in a telemetry frame; telemetry is unchanged. The front end may repeat the last CLCW before the next
        one, which changes nothing; it must not forward an older one as if it were new. Raises ValueError unless the
        octets are four."""
        octets, heard = _octets_of("word", word), _Heard()
        if self._is_absent(_ground_clcw(self._handle, octets, len(octets), heard)):
            raise ValueError(f"word: {len(octets)} octets, where a control word has four")
        return heard.value(octets)

    def forget_telemetry(self) -> None:
        """Restarts the extraction of packets from telemetry, for example after a restart of the spacecraft. Drops an
        unfinished packet. Packets that wait to be taken stay."""
        self._asked(_ground_forget_telemetry(self._handle))

    def clcw_in(self, octets: Octets) -> Optional[Clcw]:
        """Returns the CLCW that a telemetry frame of any spacecraft and virtual channel carries, or None if the octets
        are not a frame or the frame carries no CLCW. Changes nothing."""
        octets, word = _octets_of("octets", octets), Clcw._C()
        return None if self._is_absent(_ground_clcw_in(self._handle, octets, len(octets), word)) else Clcw._of(word)

    report_in = renamed("report_in", clcw_in)

    def take_telemetry(self) -> Optional[bytes]:
        """Takes the oldest packet that telemetry frames carried. Returns it, or None."""
        taken: Optional[bytes] = self._take_out(_ground_take_telemetry, LONGEST, _octets_alone)
        return taken

    def packets(self) -> Iterator[bytes]:
        """Takes the packets that telemetry frames carried, oldest first, until none is left. Packets that are not
        requested stay in the ground."""
        return iter(self.take_telemetry, None)

    def tick(self) -> Alert:
        """Counts a tick of the clock. Returns the Alert."""
        answer = _ground_tick(self._handle)
        return _ALERTS[self._asked(answer) if answer == _NONE else answer]

    def accepted_beyond(self, value: int) -> Optional[int]:
        """Returns how many of the sent and unacknowledged segments, oldest first, had been accepted on board when a
        CLCW with this value was made. Returns 0 if V(S) = NN(R), whatever the value; otherwise None if the value is not
        in the range from NN(R) to V(S), because nothing is then known of these segments. Works after an alert too, in
        S6, until V(S) is set or an initiation begins (232.1-B-2, 5.1). Uses only the numbers: after an alert that shows
        a broken condition nothing is known of the segments, whatever this returns."""
        accepted = c_uint8()
        return None if self._is_absent(_ground_accepted_beyond(self._handle, value, accepted)) else accepted.value

    def known_on_board(self, value: int) -> Optional[int]:
        """Returns how many of the session's submissions, counted from the first, are known to be on board whole by a
        CLCW with this value: those that are acknowledged, and those whose segments were all accepted according to the
        CLCW. Works after an alert too (232.1-B-2, 5.1). Returns None if nothing is known: no session has begun, V(S)
        has been set since, the session ended by an alert that shows a broken condition, or V(S) is not NN(R) and the
        value is not in the range from NN(R) to V(S)."""
        whole = c_uint64()
        return None if self._is_absent(_ground_known_on_board(self._handle, value, whole)) else whole.value

    def resume(self, value: int) -> int:
        """Begins the next session after the alert Timer, Limit or Terminated, at the point that the ended session
        reached. Sets V(S) to the value of a CLCW that was made when nothing was in transit on the uplink, and begins by
        Unlock (232.1-B-2, 5.2.4). Returns how many of the ended session's submissions, counted from the first, are on
        board whole; resubmit the later ones. (If the packets of a submission do not fit into one segment together, some
        of them may be on board although the submission is not counted.) If V(S) = NN(R), it accepts any value, so
        compare the value with V(S) first (docs/CONTROL.md, "After an alert").

        Raises LinkFault 10 (NotKnown) if nothing is known of what is on board: the sender is not in S6, no session has
        begun, V(S) has been set since, the session ended by an alert that shows a broken condition (Lockout, NnR, Clcw
        or Synch), or V(S) is not NN(R) and the value is not in the range from NN(R) to V(S). Nothing has changed
        then."""
        whole = c_uint64()
        self._asked(_ground_resume(self._handle, value, whole))
        self._left.pop("sedge_ground_pull", None)
        return whole.value

    @property
    def submitted(self) -> int:
        """How many submissions the session has; they are numbered from 0, in order. `submitted`, `sent_whole` and
        `acknowledged_whole` remain valid after an alert, and become 0 when V(S) is set."""
        return int(self._read().submitted)

    @property
    def sent_whole(self) -> int:
        """How many of the session's submissions, counted from the first, were sent whole, each to its last segment."""
        return int(self._read().sent_whole)

    @property
    def acknowledged_whole(self) -> int:
        """How many of the session's submissions, counted from the first, are acknowledged whole, and so are on
        board."""
        return int(self._read().acknowledged_whole)

    def _read(self) -> _GroundReading:
        read = _GroundReading()
        self._asked(_ground_read(self._handle, read))
        return read

    def _shown(self) -> str:
        read = self._read()
        return f"{State(read.state).name}, V(S)={read.vs}, NN(R)={read.nn}"

    @property
    def state(self) -> State:
        """The sender's state."""
        return State(self._read().state)

    @property
    def vs(self) -> int:
        """V(S), the number of the next segment to be sent for the first time."""
        return int(self._read().vs)

    @property
    def nn(self) -> int:
        """NN(R), the number that the spacecraft was last known to expect."""
        return int(self._read().nn)

    @property
    def outstanding(self) -> int:
        """How many segments were submitted and are not acknowledged. After an alert it is 0, because the sender has
        discarded them."""
        return int(self._read().outstanding)

    @property
    def unsent(self) -> int:
        """How many of the outstanding segments wait to be sent for the first time."""
        return int(self._read().unsent)

    @property
    def due(self) -> int:
        """How many of the outstanding segments are to be retransmitted."""
        return int(self._read().due)

    @property
    def bypassed(self) -> int:
        """How many bypass packets wait to be sent."""
        return int(self._read().bypassed)

    @property
    def ticks(self) -> int:
        """The ticks left on the timer, or 0 if it does not run."""
        return int(self._read().ticks)

    @property
    def count(self) -> int:
        """The transmission count, at least 1."""
        return int(self._read().count)

    @property
    def frame_length(self) -> int:
        """How many octets each frame of telemetry has."""
        return int(self._read().frame_length)


_ground_directive = _call("ground_directive", c_uint8, POINTER(_Raw), ("directive", c_uint8), ("value", c_uint16))
_ground_submit = _call("ground_submit", c_uint8, POINTER(_Raw), ("map", c_uint8), c_char_p, c_size_t)
_ground_bypass = _call("ground_bypass", c_uint8, POINTER(_Raw), ("map", c_uint8), c_char_p, c_size_t)
_ground_pull = _call("ground_pull", c_uint8, POINTER(_Raw), c_char_p, c_size_t, POINTER(c_size_t))
_ground_peek = _call("ground_peek", c_uint8, POINTER(_Raw), c_char_p, c_size_t, POINTER(c_size_t))
_ground_advance = _call("ground_advance", c_uint8, POINTER(_Raw))
_ground_telemetry = _call("ground_telemetry", c_uint8, POINTER(_Raw), c_char_p, c_size_t, POINTER(_Heard))
_ground_clcw = _call("ground_clcw", c_uint8, POINTER(_Raw), c_char_p, c_size_t, POINTER(_Heard))
_ground_forget_telemetry = _call("ground_forget_telemetry", c_uint8, POINTER(_Raw))
_ground_clcw_in = _call("ground_clcw_in", c_uint8, POINTER(_Raw), c_char_p, c_size_t, POINTER(Clcw._C))
_ground_take_telemetry = _call("ground_take_telemetry", c_uint8, POINTER(_Raw), c_char_p, c_size_t, POINTER(c_size_t))
_ground_tick = _call("ground_tick", c_uint8, POINTER(_Raw))
_ground_known_on_board = _call("ground_known_on_board", c_uint8, POINTER(_Raw), ("value", c_uint8), POINTER(c_uint64))
_ground_resume = _call("ground_resume", c_uint8, POINTER(_Raw), ("value", c_uint8), POINTER(c_uint64))
_ground_accepted_beyond = _call("ground_accepted_beyond", c_uint8, POINTER(_Raw), ("value", c_uint8), POINTER(c_uint8))
_ground_read = _call("ground_read", c_uint8, POINTER(_Raw), POINTER(_GroundReading))

_each_called: Any = partial(map, partial.__call__)  # unpacking its answers makes the calls, in one step
