"""Commands that are executed at most once and in order on board, over restarts at any moment: the board's part, and the
codecs of the ground."""
from __future__ import annotations

import ctypes
from ctypes import POINTER, c_char_p, c_size_t, c_uint8, c_uint16, c_uint32, c_uint64
from threading import RLock
from typing import NamedTuple, Optional

from ._calls import _call, _Part
from ._faults import LogFault
from ._library import (
    Numbers as _Numbers, Octets, Single, octets_of as _octets_of, struct_of as _struct_of, within as _within,
    written as _written)

_RECORD, _STATUS = 50, 27


class _LogRecord(ctypes.Structure):
    _fields_ = [("known", c_uint64), ("boot", c_uint32), ("last", c_uint32), ("history", c_uint32), ("begun", c_uint8)]


class _Log(ctypes.Structure):
    _fields_ = [("kept", _LogRecord), ("mark", c_uint32), ("stage", c_uint8)]


class _BoardStatus(ctypes.Structure):
    _fields_ = [("kept", _LogRecord), ("mark", c_uint32), ("kind", c_uint8), ("waiting", c_uint8)]


class _LogOrder(ctypes.Structure):
    _fields_ = [("boot", c_uint32), ("last", c_uint32), ("mark", c_uint32), ("kind", c_uint8)]


class ActionKind(_Numbers):
    """What the program on board does next."""

    NOTHING, WRITE_FIRST, WRITE_SECOND, EXECUTE, RESTART = range(5)


class Action(NamedTuple):
    """What `Executor.next` returns: the program completes the action, and passes it to `done`."""

    kind: ActionKind
    octets: bytes
    """The octets to be written at the place; empty for any other kind."""
    number: int
    """The number of the command to be executed; 0 for any other kind."""
    content: bytes
    """The mission's octets of the command to be executed; empty for any other kind."""


class Executor(Single):
    """Decides on board which command is executed next: each at most once and in order, over restarts at any moment. It
    does no input or output. Pass it the octets at the two places in memory that survives restarts (no octets for a
    place that cannot be read), and a `mark` that differs at each start, from a clock or at random: if neither place has
    a record, it is the mark of this loss. A new board has `new_record()` at both places.

    The program must complete the action that `next` returns, and call `done`, before it calls `next` again."""

    def __init__(self, first: Octets, second: Octets, mark: int) -> None:
        first, second = _octets_of("first", first), _octets_of("second", second)
        self._log, self._lock, self._content = _Log(), RLock(), b""
        self._due: Optional[Action] = None
        _log_start(self._log, first, len(first), second, len(second), mark)

    def next(self) -> Action:
        """Returns the program's next action. Raises RuntimeError if `done` was not called for the action that it
        returned last."""
        with self._lock:
            if self._due is not None:
                raise RuntimeError(f"next before done: {self._due.kind.name} is not done")
            room, number = ctypes.create_string_buffer(_RECORD), c_uint32()
            kind = ActionKind(_log_next(self._log, room, _RECORD, number))
            is_write = kind in (ActionKind.WRITE_FIRST, ActionKind.WRITE_SECOND)
            content = self._content if kind == ActionKind.EXECUTE else b""
            action = Action(kind, room.raw if is_write else b"", number.value, content)
            if kind != ActionKind.NOTHING:
                self._due = action
            return action

    def done(self, action: Action) -> None:
        """Takes the action that `next` returned, once it is complete. Raises RuntimeError, and changes nothing, for any
        other action. Does nothing for an action of the kind NOTHING."""
        with self._lock:
            if _struct_of("action", Action, action).kind == ActionKind.NOTHING and self._due is None:
                return
            if action is not self._due:
                raise RuntimeError("this is not the action that next returned last")
            LogFault._look_at(_log_done(self._log, action.kind, action.number))
            self._due = None

    def offer(self, octets: Octets) -> bytes:
        """Takes the octets of a packet that arrived if it is the next command, and returns the mission's octets in
        them. Raises LogFault, and changes nothing, for any other packet, which is dropped: the first of 1 (Layout), 2
        (Check), 3 (Starting), 4 (Busy) or 5 (Lost), 6 (Behind) or 7 (Ahead)."""
        octets, part = _octets_of("octets", octets), _Part()
        with self._lock:
            LogFault._look_at(_log_offer(self._log, octets, len(octets), part))
            self._content = part.of(octets)
            return self._content

    def obey(self, octets: Octets) -> None:
        """Takes the octets of an order that arrived. The next action is then RESTART; or a board that has lost its
        record continues with the record that the order brings. Raises LogFault, and changes nothing, for any other
        packet, which is dropped: the first of 1 (Layout), 2 (Check), 3 (Starting), 4 (Busy) or 5 (Lost), 8 (OtherBoot),
        9 (NotLost) and 10 (OtherMark)."""
        octets = _octets_of("octets", octets)
        with self._lock:
            LogFault._look_at(_log_obey(self._log, octets, len(octets)))

    def status(self, waiting: int = 0) -> bytes:
        """Returns the 27 octets of the status for telemetry, with the number of commands that wait on board, at most
        255."""
        room = ctypes.create_string_buffer(_STATUS)
        with self._lock:
            LogFault._look_at(_log_status(self._log, waiting, room, _STATUS))
        return room.raw


def new_record() -> bytes:
    """Returns the 50 octets that both places have before a new board starts for the first time."""
    room = ctypes.create_string_buffer(_RECORD)
    LogFault._look_at(_log_new_record(room, _RECORD))
    return room.raw


class StatusKind(_Numbers):
    """What a status states: the record; or that the record is being written, or that the board has just started (the
    previous status then holds); or that the record is lost."""

    SAYS, CHANGES, STARTS, LOST = range(4)


class BoardStatus(NamedTuple):
    """What the status of a board states. The fields of the record are 0 unless the kind is SAYS."""

    kind: StatusKind
    boot: int
    """How often the board has started."""
    last: int
    """The number of the last command that was executed or passed over."""
    known: int
    """A bit for each of the 64 numbers up to last, the lowest for last: 1 if it is known that the command was
    executed, whole."""
    history: int
    """The running check of all commands that were taken (`history_after`)."""
    begun: bool
    """Whether the next command is begun."""
    mark: int
    """The mark of the loss, for LOST, otherwise 0."""
    waiting: int
    """How many commands wait on board, at most 255."""

    @classmethod
    def decode(cls, octets: Octets) -> BoardStatus:
        """Reads a status of 27 octets. Raises LogFault 1 (Layout) or 2 (Check)."""
        octets, found = _octets_of("octets", octets), _BoardStatus()
        LogFault._look_at(_log_status_decode(octets, len(octets), found))
        kept = found.kept
        return cls(StatusKind(found.kind), kept.boot, kept.last, kept.known, kept.history, kept.begun == 1, found.mark,
                   found.waiting)


def command_packet(apid: int, count: int, number: int, content: Octets) -> bytes:
    """Returns the command packet with this APID, sequence count and number, and the mission's octets. Raises LogFault
    11 (FieldRange) for an APID above 2,047, a count above 16,383, the number 0, or more than 65,528 octets."""
    content = _octets_of("content", content)
    long = len(content)
    return _written(LogFault._look_at, _log_command_encode, long + 14, apid, count, number, content, long)


def restart_order(apid: int, count: int, boot: int) -> bytes:
    """Returns the packet of an order that restarts the board with this boot count. Raises LogFault 11 (FieldRange)."""
    return _order(1, apid, count, 0, boot, 0)


def rebuild_order(apid: int, count: int, mark: int, boot: int, last: int) -> bytes:
    """Returns the packet of an order that brings a record to the board that has lost its own, with this mark. The
    record has this boot count and this last number. Raises LogFault 11 (FieldRange)."""
    return _order(2, apid, count, mark, boot, last)


def _order(kind: int, apid: int, count: int, mark: int, boot: int, last: int) -> bytes:
    for name, value in (("mark", mark), ("boot", boot), ("last", last)):
        _within(name, c_uint32, value)
    order = _LogOrder(boot, last, mark, kind)
    return _written(LogFault._look_at, _log_order_encode, 23, order, apid, count)


def history_after(history: int, packet: Octets) -> int:
    """Returns the history after one more command packet: CRC-32 continued over the last four octets of the packet. The
    history of no packets is 0. A ground compares the history of the packets that it sent with the history in a
    status."""
    packet = _octets_of("packet", packet)
    return int(_log_history_after(history, packet, len(packet)))


_log_start = _call("log_start", None, POINTER(_Log), c_char_p, c_size_t, c_char_p, c_size_t, ("mark", c_uint32))
_log_next = _call("log_next", c_uint8, POINTER(_Log), c_char_p, c_size_t, POINTER(c_uint32))
_log_done = _call("log_done", c_uint8, POINTER(_Log), ("action", c_uint8), ("number", c_uint32))
_log_offer = _call("log_offer", c_uint8, POINTER(_Log), c_char_p, c_size_t, POINTER(_Part))
_log_obey = _call("log_obey", c_uint8, POINTER(_Log), c_char_p, c_size_t)
_log_status = _call("log_status", c_uint8, POINTER(_Log), ("waiting", c_size_t), c_char_p, c_size_t)
_log_new_record = _call("log_new_record", c_uint8, c_char_p, c_size_t)
_log_status_decode = _call("log_status_decode", c_uint8, c_char_p, c_size_t, POINTER(_BoardStatus))
_log_command_encode = _call("log_command_encode", c_uint8, ("apid", c_uint16), ("count", c_uint16),
                            ("number", c_uint32), c_char_p, c_size_t, c_char_p, c_size_t, POINTER(c_size_t))
_log_order_encode = _call("log_order_encode", c_uint8, POINTER(_LogOrder), ("apid", c_uint16), ("count", c_uint16),
                          c_char_p, c_size_t, POINTER(c_size_t))
_log_history_after = _call("log_history_after", c_uint32, ("history", c_uint32), c_char_p, c_size_t)
