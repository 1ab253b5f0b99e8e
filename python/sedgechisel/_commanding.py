"""The calls of libsedgechisel_nodes for the commander: a ground whose commands are executed on board once and in order,
over restarts of both ends at any moment."""
from __future__ import annotations

import ctypes
from ctypes import POINTER, c_char_p, c_size_t, c_uint8, c_uint16, c_uint32, c_uint64
from dataclasses import dataclass
from functools import partial
from typing import Any, Callable, NamedTuple, Optional, Tuple

from ._calls import Alert, State
from ._faults import LedgerFault
from ._library import (
    LONGEST, Numbers as _Numbers, Octets, give_back as _give_back, lent as _lent, octets_of as _octets_of,
    room_of as _room_of, struct_of as _struct_of, within as _within)
from ._nodes import (
    _ABSENT, _ALERTS, _NONE, Config, Handle, Heard, _call, _each_called, _fields_of, _GroundReading, _Heard,
    _octets_alone, _Raw)

_ROOM = 252


class _Mission(ctypes.Structure):
    _fields_ = [("round_trip", c_uint32), ("orders", c_uint16), ("status", c_uint16), ("map", c_uint8),
                ("holds", c_uint8)]


class _CommanderAction(ctypes.Structure):
    _fields_ = [("tag", c_uint64), ("number", c_uint32), ("last", c_uint32), ("count", c_size_t), ("kind", c_uint8),
                ("alert", c_uint8)]


class _CommanderReading(ctypes.Structure):
    _fields_ = [("below", c_uint32), ("highest", c_uint32), ("worth", c_uint8)]


_commander_open = _call("commander_open", c_uint8, POINTER(_Raw), POINTER(Config._C), POINTER(_Mission), c_char_p,
                        c_size_t, POINTER(c_size_t))
_commander_close = _call("commander_close", None, POINTER(_Raw))


@dataclass(frozen=True)
class Mission:
    """The settings of a mission.

    - `round_trip`, the longest time in ticks from sending a frame to the arrival of a CLCW that was made after it
    - `map`, the MAP of orders, one that is open
    - `orders`, the APID of orders, 0 to 2,046
    - `status`, the APID of the board's status
    - `holds`, whether sending stops after a restart of the board, or the loss of its record, until `go_on` is called.
      The first status of a board counts as a restart"""

    round_trip: int
    map: int
    orders: int
    status: int
    holds: bool = False

    def _record(self) -> _Mission:
        numbers = {"round_trip": c_uint32, "map": c_uint8, "orders": c_uint16, "status": c_uint16}
        for name, kind in numbers.items():
            _within(name, kind, getattr(self, name))
        return _Mission(self.round_trip, self.orders, self.status, self.map, bool(self.holds))


class CommanderActionKind(_Numbers):
    """What the ground's program does next."""

    NOTHING, STORE, EXECUTED, UNKNOWN, RESTARTED, RECORD_LOST, FOREIGN, ALERT, TELEMETRY, SEND = range(10)


_KINDS = dict(enumerate(CommanderActionKind))
_OWING_NOTHING = (CommanderActionKind.NOTHING, CommanderActionKind.ALERT)
_STORE, _TELEMETRY, _SEND = CommanderActionKind.STORE, CommanderActionKind.TELEMETRY, CommanderActionKind.SEND


class CommanderAction(NamedTuple):
    """What `Commander.next` returns. The program completes the action, and passes it to `done`. A field that is not set
    for the kind is empty or 0.

    - NOTHING: nothing is to be done until something arrives or a tick passes
    - STORE: append `octets` to the store, and make sure that they are there
    - EXECUTED: report that the command with this `tag` was executed, whole
    - UNKNOWN: report that nothing is known of the command with this `tag`: its execution may have begun. It is not
      executed later
    - RESTARTED: report that the board has restarted; `number` is its new boot count
    - RECORD_LOST: report that the board has lost its record; `number` is the mark of the loss. The board executes
      nothing until an operator calls `rebuild`
    - FOREIGN: report that the board has passed the numbers from `number` to `last`, and that their commands are not
      those of this store
    - ALERT: the sender has given up, by this `alert`. The commander begins another session by itself
    - TELEMETRY: `octets` are a packet from telemetry, which `next` has taken
    - SEND: send the frame in `octets`, at most 1,024 of them"""

    kind: CommanderActionKind
    octets: bytes = b""
    tag: int = 0
    number: int = 0
    last: int = 0
    alert: Alert = Alert.NONE


class Progress(_Numbers):
    """The progress of a command without a fate, by COP-1: not all of it has been sent (WAITS), all of it has been sent
    (SENT), or all of it is acknowledged (ON_BOARD)."""

    WAITS, SENT, ON_BOARD = range(3)


@dataclass(frozen=True)
class GroundReading:
    """The readings of a commander's ground at one moment: the fields have the names and the values of the properties of
    a `Ground`."""

    state: State
    vs: int
    nn: int
    outstanding: int
    unsent: int
    due: int
    bypassed: int
    ticks: int
    count: int
    frame_length: int
    submitted: int
    sent_whole: int
    acknowledged_whole: int


class _Hand:
    """What a commander's program has in hand. Each field is set in one step, between which no signal handler runs."""

    __slots__ = ("raw", "taken", "turn", "due", "reported", "ahead")

    def __init__(self) -> None:
        self.raw = _CommanderAction()
        """The action that the library returned and `next` has not returned yet; of the kind 0 if there is none."""
        self.taken = c_size_t()
        """The length of the packet that was taken for this action, or 0."""
        self.turn = 0
        """How many actions `next` has returned."""
        self.due: Tuple[Any, ...] = ()
        """The action that is not done yet, if there is one, and the answers of the calls for it, once they are made."""
        self.reported: Tuple[Any, ...] = ()
        """An action that was reported when something was to be stored first, and the answer of the call for it."""
        self.ahead = 0
        """How many of the octets that the library has for the store are in the store already."""


class Commander(Handle):
    """The ground's half of commands that are executed on board once and in order, over restarts of both ends at any
    moment: a ground node, and the ledger of its commands. On board an `Executor` decides what is executed.

    It does no input or output. `next` returns the program's next action. The program must complete it, and pass it to
    `done`, before it calls `next` again. After each input (a command, a frame, a CLCW, a status, a tick) the program
    does this until `next` returns NOTHING.

    A call that is refused raises a fault. Nothing has changed then, and after LedgerFault 9 (Memory) the call may be
    repeated. A call on a closed commander raises a ValueError."""

    _opens, _closes, _faults = _commander_open, _commander_close, LedgerFault

    def __init__(
            self, mission: Mission, store: Octets = b"", config: Optional[Config] = None, *,
            scid: Optional[int] = None, vcid: Optional[int] = None, tm_vcid: Optional[int] = None,
            width: Optional[int] = None, window: Optional[int] = None, limit: Optional[int] = None,
            timer: Optional[int] = None, part: Optional[int] = None, max_packet: Optional[int] = None,
            maps: Optional[int] = None, ready_slots: Optional[int] = None, bypass_slots: Optional[int] = None,
            queue_slots: Optional[int] = None, frame_length: Optional[int] = None,
            blocking: Optional[int] = None) -> None:
        """Opens a commander from the octets of its store; a new store has none. Truncate the store to `good` octets
        before you append to it. The managed parameters are those of a `Ground`, which is in S6. Raises ConfigFault if a
        parameter is out of range, OverflowError for a number that a Mission cannot have, or the first of LedgerFault 3
        (FieldRange: the MAP of orders is not open, or their APID is above 2,046), 4 (TooLong: `part` or `max_packet` is
        below 23) and 9 (Memory)."""
        self._mission, self._store = _struct_of("mission", Mission, mission)._record(), _octets_of("store", store)
        super().__init__(config, **_fields_of(locals()))

    def _open(self, config: Config) -> int:
        good, store, self._store = c_size_t(), self._store, b""
        answer = int(_commander_open(self._handle, config._memory, self._mission, store, len(store), good))
        if not answer:
            self._hand, self._room, self._good = _Hand(), _room_of("most", LONGEST), good.value
        return answer

    def close(self) -> None:
        """Closes the commander and releases its memory. A second call does nothing."""
        with self._lock:
            super().close()
            self._hand = _Hand()

    @property
    def good(self) -> int:
        """How many octets of the store were good when the commander was opened. Truncate the store to this length
        before you append to it."""
        return int(self._good)

    def command(self, tag: int, map: int, apid: int, sequence: int, content: Octets) -> int:
        """Gives the commander a command, after all others, and returns its number, 1 to 4,294,967,295. The commander
        writes the command packet: `apid`, 0 to 2,046, and `sequence`, 0 to 16,383, are its APID and its sequence count,
        and `content` is 0 to 65,528 octets of the mission. `tag`, of 64 bits, is the caller's own, and returns with the
        command's fate. Raises the first of LedgerFault 3 (FieldRange: a MAP that is not open, or an APID, a sequence
        count or a number of octets out of these ranges), 4 (TooLong: the packet has 14 octets besides `content`), 5
        (NoNumber) and 9 (Memory)."""
        content, number = _octets_of("content", content), c_uint32()
        self._asked(_commander_command(self._handle, tag, map, apid, sequence, content, len(content), number))
        return number.value

    def telemetry(self, frame: Octets) -> Heard:
        """Takes octets that came from the board, exactly one telemetry frame, and returns a Heard, as
        `Ground.telemetry` does. `next` then returns the packets in it, and the commander reads each status among them.
        Raises LedgerFault 9 (Memory)."""
        frame, heard = _octets_of("frame", frame), _Heard()
        self._asked(_commander_telemetry(self._handle, frame, len(frame), heard))
        return heard.value(frame[-6:-2])

    def clcw(self, word: Octets) -> Heard:
        """Takes a CLCW of four octets that came by itself, and returns a Heard, as `Ground.clcw` does. Raises
        ValueError unless the octets are four."""
        octets, heard = _octets_of("word", word), _Heard()
        if self._is_absent(_commander_clcw(self._handle, octets, len(octets), heard)):
            raise ValueError(f"word: {len(octets)} octets, where a control word has four")
        return heard.value(octets)

    def status(self, octets: Octets) -> None:
        """Takes the 27 octets of a status that came without a packet. (`next` and `take_telemetry` take those in
        telemetry by themselves.) A status that contains nothing new changes nothing. Raises the first of LedgerFault 1
        (Layout: not 27 octets), 2 (Check) and 9 (Memory)."""
        octets = _octets_of("octets", octets)
        self._asked(_commander_status(self._handle, octets, len(octets)))

    def tick(self) -> None:
        """Counts a tick of the clock. An alert is then the next ALERT of `next`."""
        self._asked(_commander_tick(self._handle))

    def next(self) -> CommanderAction:
        """Returns the program's next action. What must be stored or reported comes before telemetry, and telemetry
        before frames. For SEND the frame counts as sent, and for TELEMETRY this call has taken the packet: `done` then
        only confirms that the program has used the octets. Raises RuntimeError if `done` was not called for the action
        that it returned last (unless that was NOTHING or ALERT), or LedgerFault 9 (Memory).

        If a signal handler raises in this call, the next call returns the action."""
        while True:
            with self._lock:
                hand = self._hand
                if hand.due:
                    raise RuntimeError(f"next before done: {hand.due[0].kind.name} is not done")
                turn, action = hand.turn, self._made(hand)
                owes = (action,) if action is not None and action.kind not in _OWING_NOTHING else ()
            # (No call from here to the `return`, so neither a signal handler nor another thread comes between.)
            if action is not None and hand.turn == turn:
                hand.turn = turn + 1
                hand.raw.kind = 0
                hand.taken.value = 0
                hand.due = owes
                return action

    def _made(self, hand: _Hand) -> Optional[CommanderAction]:
        """Returns the action in hand or, if there is none, the library's next one. Returns None, with none in hand, if
        there is nothing to be done for it: it was reported before, or the packet was taken by `take_telemetry`."""
        raw, octets = hand.raw, b""
        if not raw.kind:
            self._asked(_commander_next(self._handle, raw, self._room, LONGEST))
        kind = _KINDS[raw.kind]
        if kind is _STORE:
            octets = self._whole(_commander_unstored, raw.count)[hand.ahead:]
        elif kind is _SEND:
            octets = self._room[:raw.count]
        elif kind is _TELEMETRY:
            if not hand.taken.value:
                self._asked(_commander_take_telemetry(self._handle, self._room, LONGEST, hand.taken))
            octets = self._room[:hand.taken.value]
            if not octets:
                raw.kind = 0
                return None
        elif hand.reported and kind not in _OWING_NOTHING:
            self._tells(hand)
            return None
        return CommanderAction(kind, octets, raw.tag, raw.number, raw.last, _ALERTS[raw.alert])

    def _tells(self, hand: _Hand) -> None:
        """Notes that the action in hand was reported. The calls of the library and the record of their answers are one
        step, here and in `done`: no signal handler comes between."""
        if not hand.reported[1:]:
            answers = _each_called((partial(_commander_told, self._handle, hand.reported[0]),))
            hand.reported = (hand.reported[0], *answers)
        answer = hand.reported[1]
        if answer:
            hand.reported = hand.reported[:1]
            self._asked(answer)
        hand.reported = ()
        hand.raw.kind = 0

    def done(self, action: CommanderAction) -> None:
        """Takes the action that `next` returned, once it is complete: the octets are in the store, the report was made,
        the frame was sent, or the packet was taken. The commander may be given commands and telemetry between `next`
        and `done`. Raises RuntimeError, and changes nothing, for any other action, or LedgerFault 9 (Memory). Does
        nothing for NOTHING and ALERT. After RESTARTED and RECORD_LOST the session ends."""
        with self._lock:
            self._asked(_NONE if self.closed else 0)
            hand, kind = self._hand, _struct_of("action", CommanderAction, action).kind
            if kind in _OWING_NOTHING and not hand.due:
                return
            if not hand.due or hand.due[0] is not action:
                raise RuntimeError("this is not the action that next returned last")
            stored = hand.ahead + len(action.octets) if kind is _STORE else 0
            if not hand.due[1:]:
                answers = _each_called(self._calls_of(action, stored))
                hand.due = (action, *answers)
            answers = hand.due[1:]
            if kind is _STORE:
                self._is_absent(answers[0])
                hand.ahead, hand.due = stored if answers[0] == _ABSENT else 0, ()
            elif answers and answers[0] == _ABSENT:  # something must be stored first, and then this is noted
                hand.reported, hand.due = (_struct_for(action),), ()
            elif answers and answers[0]:
                hand.due = (action,)
                self._asked(answers[0])
            else:
                hand.due = ()

    def _calls_of(self, action: CommanderAction, stored: int) -> Tuple[Callable[[], int], ...]:
        """Returns the calls of the library for an action that is complete. The call for STORE changes nothing, and
        answers this, if further octets came between."""
        if action.kind is _STORE:
            return (partial(getattr(_commander_stored, "__wrapped__"), self._handle, stored),)
        if action.kind in (_SEND, _TELEMETRY):
            return ()
        return (partial(_commander_told, self._handle, _struct_for(action)),)

    def take_telemetry(self) -> Optional[bytes]:
        """Takes the oldest packet that telemetry frames carried. Returns it, 7 to 65,542 octets, or None. If it has the
        APID of the board's status and 27 octets of data, the commander also takes it as a status. (`next` takes packets
        by itself.) Raises LedgerFault 9 (Memory)."""
        taken: Optional[bytes] = self._take_out(_commander_take_telemetry, LONGEST, _octets_alone)
        return taken

    def progress(self, number: int) -> Optional[Progress]:
        """Returns the progress of the command with this number, by COP-1 in the current session or, if none is open,
        the last one. Only EXECUTED of `next` states that it was executed. Returns None if the command has a fate or was
        not given."""
        found = c_uint8()
        return None if self._is_absent(_commander_progress(self._handle, number, found)) else Progress(found.value)

    def pause(self) -> None:
        """Stops the submission of commands to the ground until `go_on`. The ground still sends the commands that were
        submitted."""
        self._asked(_commander_pause(self._handle))

    def go_on(self) -> None:
        """Resumes the sending of commands."""
        self._asked(_commander_go_on(self._handle))

    def restart_board(self) -> None:
        """Has the order to restart sent to the board, until a restart of the board or the loss of its record is
        reported."""
        self._asked(_commander_restart_board(self._handle))

    def rebuild(self) -> None:
        """Makes the order that brings a record to a board that has lost its own; an operator decides this. Once a
        status shows that the board obeyed it, each command that was stored by now and has no fate is UNKNOWN, whether
        or not it was sent. Raises the first of LedgerFault 6 (NotLost), 7 (NoBoot) and 9 (Memory)."""
        self._asked(_commander_rebuild(self._handle))

    def _read(self) -> _CommanderReading:
        read = _CommanderReading()
        self._asked(_commander_read(self._handle, read))
        return read

    def _shown(self) -> str:
        read = self._read()
        return f"{read.highest - read.below} of {read.highest} commands without a fate, {self.ground.state.name}"

    @property
    def below(self) -> int:
        """The number up to which every command has its fate."""
        return int(self._read().below)

    @property
    def highest(self) -> int:
        """The highest number that was given, or that a command of another ground had on board."""
        return int(self._read().highest)

    @property
    def is_worth(self) -> bool:
        """Whether a fresh store would have less than half as many octets, and nothing is left to be stored or
        reported."""
        return bool(self._read().worth)

    @property
    def ground(self) -> GroundReading:
        """The readings of the commander's ground."""
        read = _GroundReading()
        self._asked(_commander_read_ground(self._handle, read))
        return GroundReading(
            State(read.state), read.vs, read.nn, read.outstanding, read.unsent, read.due, read.bypassed, read.ticks,
            read.count, read.frame_length, read.submitted, read.sent_whole, read.acknowledged_whole)

    def fresh(self) -> bytes:
        """Returns the octets of a fresh store of the same commands. The commander does not change. Write them to a new
        file, replace the store with it, and call `renewed` with their number; append nothing in between. Raises the
        first of LedgerFault 8 (Owing: something must be stored or reported first) and 9 (Memory)."""
        return self._whole(_commander_fresh, LONGEST)

    def renewed(self, count: int) -> None:
        """Records that the store now has this many octets, which begin with those of `fresh`."""
        self._asked(_commander_renewed(self._handle, count))

    def _whole(self, call: Callable[..., int], most: int) -> bytes:
        """Returns what a call writes, in a buffer of this size or, if that is too short, in a longer one."""
        count, room = c_size_t(), _lent(most)
        answer = call(self._handle, room, len(room), count)
        while answer == _ROOM:
            room = _room_of("most", 2 * len(room))
            answer = call(self._handle, room, len(room), count)
        self._asked(answer)
        octets: bytes = room[:count.value]
        _give_back(room)
        return octets


def _struct_for(action: CommanderAction) -> _CommanderAction:
    return _CommanderAction(action.tag, action.number, action.last, 0, action.kind, 0)


_commander_command = _call("commander_command", c_uint8, POINTER(_Raw), ("tag", c_uint64), ("map", c_uint8),
                           ("apid", c_uint16), ("sequence", c_uint16), c_char_p, c_size_t, POINTER(c_uint32))
_commander_telemetry = _call("commander_telemetry", c_uint8, POINTER(_Raw), c_char_p, c_size_t, POINTER(_Heard))
_commander_clcw = _call("commander_clcw", c_uint8, POINTER(_Raw), c_char_p, c_size_t, POINTER(_Heard))
_commander_status = _call("commander_status", c_uint8, POINTER(_Raw), c_char_p, c_size_t)
_commander_tick = _call("commander_tick", c_uint8, POINTER(_Raw))
_commander_next = _call("commander_next", c_uint8, POINTER(_Raw), POINTER(_CommanderAction), c_char_p, c_size_t)
_commander_unstored = _call("commander_unstored", c_uint8, POINTER(_Raw), c_char_p, c_size_t, POINTER(c_size_t))
_commander_stored = _call("commander_stored", c_uint8, POINTER(_Raw), ("count", c_size_t))
_commander_told = _call("commander_told", c_uint8, POINTER(_Raw), POINTER(_CommanderAction))
_commander_take_telemetry = _call("commander_take_telemetry", c_uint8, POINTER(_Raw), c_char_p, c_size_t,
                                  POINTER(c_size_t))
_commander_progress = _call("commander_progress", c_uint8, POINTER(_Raw), ("number", c_uint32), POINTER(c_uint8))
_commander_pause = _call("commander_pause", c_uint8, POINTER(_Raw))
_commander_go_on = _call("commander_go_on", c_uint8, POINTER(_Raw))
_commander_restart_board = _call("commander_restart_board", c_uint8, POINTER(_Raw))
_commander_rebuild = _call("commander_rebuild", c_uint8, POINTER(_Raw))
_commander_read = _call("commander_read", c_uint8, POINTER(_Raw), POINTER(_CommanderReading))
_commander_read_ground = _call("commander_read_ground", c_uint8, POINTER(_Raw), POINTER(_GroundReading))
_commander_fresh = _call("commander_fresh", c_uint8, POINTER(_Raw), c_char_p, c_size_t, POINTER(c_size_t))
_commander_renewed = _call("commander_renewed", c_uint8, POINTER(_Raw), ("count", c_size_t))
