"""The calls of libsedgechisel_nodes for the simulated link between two nodes."""
from __future__ import annotations

import ctypes
from ctypes import POINTER, c_bool, c_char_p, c_size_t, c_uint8, c_uint16, c_uint64
from typing import Any, List, Optional, Tuple

from ._calls import Alert, Clcw, Directives, Mode, State, _directive
from ._faults import CopFault, LinkFault, SimFault, TelemetryFault
from ._library import Numbers, Octets, octets_of, within
from ._nodes import Config, Handle, Heard, Received, _call, _GroundReading, _Heard, _Raw, _Received
from ._spacecraft import OnMap, _SpacecraftReading

_REFUSED = 3
_REFUSED_BY = {1: LinkFault, 2: CopFault, 3: TelemetryFault}
_SUBMITTED, _DELIVERED, _SENT, _ACCEPTED = range(1, 5)


class Begun(Numbers):
    """How a session began; NOT if none has begun."""

    NOT, WITHOUT_CHECK, WITH_CHECK, UNLOCK, SET_VR = range(5)


_EVENTS = {name: kind for kind, name in enumerate((
    "submit", "bypass", "directive", "send", "up_deliver", "up_lose", "up_damage", "report", "down_deliver",
    "down_lose", "down_damage", "tick", "take", "take_bypass", "telemetry", "down_clcw", "resume"), 1)}


class _Event(ctypes.Structure):
    _fields_ = [("kind", c_uint8), ("map", c_uint8), ("directive", c_uint8), ("value", c_uint16), ("octets", c_char_p),
                ("count", c_size_t)]


class _Reply(ctypes.Structure):
    _fields_ = [("count", c_size_t), ("whole", c_uint64), ("up", _Received), ("down", _Heard), ("report", Clcw._C),
                ("kind", c_uint8), ("by", c_uint8), ("fault", c_uint8), ("alert", c_uint8), ("map", c_uint8)]
    count: int
    whole: int
    up: _Received
    down: _Heard
    report: Any
    kind: int
    by: int
    fault: int
    alert: int
    map: int


class _SimReading(ctypes.Structure):
    _fields_ = [("outstanding", c_size_t), ("acknowledged", c_size_t), ("state", c_uint8), ("begun", c_uint8),
                ("vr", c_uint8), ("clean", c_bool), ("idle", c_bool), ("confirmed", c_bool)]


_sim_open = _call("sim_open", c_uint8, POINTER(_Raw), POINTER(Config._C))
_sim_close = _call("sim_close", None, POINTER(_Raw))


class Link(Directives, Handle):
    """A simulated link: a ground, a spacecraft with the same parameters, and the frames in transit between them, first
    in, first out. It keeps the records of its session; each initiation that the ground accepts begins a new one.

    An event that a node refuses raises the node's fault, as in `Ground` and `Spacecraft`. An event that needs memory
    may run out of it, and raise LinkFault 6, TelemetryFault 7 or SimFault 6 (Memory). Nothing has changed then."""

    _opens, _closes = _sim_open, _sim_close

    def _event(self, name: str, map: int = 0, octets: bytes = b"", directive: Tuple[int, int] = (0, 0)) -> _Reply:
        within("map", c_uint8, map)
        event, reply = _Event(_EVENTS[name], map, *directive, octets, len(octets)), _Reply()
        with self._lock:
            self._asked(_sim_step(self._handle, event, reply), SimFault)
        if reply.kind == _REFUSED:
            raise _REFUSED_BY[reply.by](reply.fault)
        return reply

    def _octets(self, reply: _Reply) -> Optional[bytes]:
        """Returns the frame or the packet of the event, if there is one."""
        return self._given(_sim_octets, reply.count) if reply.count else None

    def _direct(self, name: str, own: str = "", value: int = 0, kind: Any = c_uint8) -> None:
        self._event("directive", directive=_directive(name, own, value, kind))

    def submit(self, map: int, packets: Octets) -> None:
        """Queues packets on the ground for a MAP under sequence control, as `Ground.submit` does."""
        self._event("submit", map, octets_of("packets", packets))

    def bypass(self, map: int, packet: Octets) -> None:
        """Queues one packet on the ground for a MAP by bypass, as `Ground.bypass` does."""
        self._event("bypass", map, octets_of("packet", packet))

    def send(self) -> Optional[bytes]:
        """Sends a frame from the ground; it is then in transit on the uplink. Returns it, or None if nothing is to be
        sent."""
        with self._lock:
            return self._octets(self._event("send"))

    def up_deliver(self) -> Received:
        """Delivers the first frame in transit on the uplink. Raises SimFault 7 (NothingInTransit) if there is none."""
        return self._event("up_deliver").up.value()

    def up_lose(self) -> None:
        """Loses the first frame in transit on the uplink. Raises SimFault 7 (NothingInTransit) if there is none."""
        self._event("up_lose")

    def up_damage(self, octets: Octets) -> Received:
        """Delivers these octets, which must not form a valid frame, instead of the first frame in transit on the
        uplink. Raises SimFault 7 (NothingInTransit) if there is none, and 8 (NotDetectable) if the octets are a valid
        frame."""
        return self._event("up_damage", 0, octets_of("octets", octets)).up.value()

    def report(self) -> Clcw:
        """Sends a telemetry frame from the spacecraft; it is then in transit on the downlink. Returns the CLCW in
        it."""
        return Clcw._of(self._event("report").report)

    def down_deliver(self) -> Heard:
        """Delivers the first frame in transit on the downlink. Raises SimFault 7 (NothingInTransit) if there is
        none."""
        return self._event("down_deliver").down.value()

    def down_lose(self) -> None:
        """Loses the first frame in transit on the downlink. Raises SimFault 7 (NothingInTransit) if there is none."""
        self._event("down_lose")

    def down_damage(self, octets: Octets) -> Heard:
        """Delivers these octets, which must not form a valid frame, instead of the first frame in transit on the
        downlink. Raises SimFault 7 (NothingInTransit) if there is none, and 8 (NotDetectable) if the octets are a valid
        frame."""
        return self._event("down_damage", 0, octets_of("octets", octets)).down.value()

    def down_clcw(self) -> Heard:
        """Delivers the first frame in transit on the downlink, but only its CLCW reaches the ground, as by
        `Ground.clcw`; telemetry is unchanged. Raises SimFault 7 (NothingInTransit) if there is none."""
        return self._event("down_clcw").down.value()

    def resume(self, value: int) -> int:
        """Resumes on the ground after an alert, as `Ground.resume` does: a session begins, by Unlock. Returns how many
        of the ended session's submissions, counted from the first, are on board whole. Raises LinkFault 10 (NotKnown)
        as that call does."""
        within("value", c_uint8, value)
        return self._event("resume", directive=(0, value)).whole

    def tick(self) -> Alert:
        """Counts a tick of the ground's clock. Returns the Alert."""
        return Alert(self._event("tick").alert)

    def _taken(self, name: str) -> Optional[OnMap]:
        with self._lock:
            reply = self._event(name)
            packet = self._octets(reply)
        return None if packet is None else OnMap(reply.map, packet)

    def take(self) -> Optional[OnMap]:
        """Takes a packet of sequence-controlled frames on board. Returns an OnMap, its `map` and the `packet`, or
        None."""
        return self._taken("take")

    def take_bypass(self) -> Optional[OnMap]:
        """Takes a packet that arrived by bypass on board. Returns an OnMap, its `map` and the `packet`, or None."""
        return self._taken("take_bypass")

    def telemetry(self, packet: Octets) -> None:
        """Queues a packet on board to be sent as telemetry, as `Spacecraft.telemetry` does."""
        self._event("telemetry", 0, octets_of("packet", packet))

    # The session.

    def _read(self) -> _SimReading:
        read = _SimReading()
        self._asked(_sim_read(self._handle, read))
        return read

    def _shown(self) -> str:
        read = self._read()
        return f"{State(read.state).name}, {read.outstanding} outstanding, {read.acknowledged} acknowledged"

    @property
    def state(self) -> State:
        """The state of the ground's sender."""
        return State(self._read().state)

    @property
    def outstanding(self) -> int:
        """How many segments were submitted and are not acknowledged."""
        return int(self._read().outstanding)

    @property
    def acknowledged(self) -> int:
        """How many of `sent`, counted from the first, the ground counts as acknowledged."""
        return int(self._read().acknowledged)

    @property
    def begun(self) -> Begun:
        """How the session began."""
        return Begun(self._read().begun)

    @property
    def clean(self) -> bool:
        """Whether the session began with nothing in transit, and, if it began without CLCW check, with V(R) = V(S)."""
        return bool(self._read().clean)

    @property
    def idle(self) -> bool:
        """Whether the session had an idle start (docs/PROMISES.md)."""
        return bool(self._read().idle)

    @property
    def confirmed(self) -> bool:
        """Whether a CLCW has taken the ground from S4 or S5 to S1."""
        return bool(self._read().confirmed)

    # Its nodes.

    def _read_ground(self) -> _GroundReading:
        read = _GroundReading()
        self._asked(_sim_ground_read(self._handle, read))
        return read

    @property
    def vs(self) -> int:
        """V(S) of the ground, the number of the next segment to be sent for the first time."""
        return int(self._read_ground().vs)

    @property
    def nn(self) -> int:
        """NN(R) of the ground, the number that the spacecraft was last known to expect."""
        return int(self._read_ground().nn)

    @property
    def unsent(self) -> int:
        """How many of the outstanding segments wait to be sent for the first time."""
        return int(self._read_ground().unsent)

    @property
    def due(self) -> int:
        """How many of the outstanding segments are to be retransmitted."""
        return int(self._read_ground().due)

    @property
    def bypass_unsent(self) -> int:
        """How many bypass packets wait to be sent."""
        return int(self._read_ground().bypassed)

    @property
    def ticks(self) -> int:
        """The ticks left on the ground's timer, or 0 if it does not run."""
        return int(self._read_ground().ticks)

    @property
    def count(self) -> int:
        """The transmission count of the ground's sender, at least 1."""
        return int(self._read_ground().count)

    def _read_spacecraft(self) -> _SpacecraftReading:
        read = _SpacecraftReading()
        self._asked(_sim_spacecraft_read(self._handle, read))
        return read

    @property
    def control_word(self) -> Clcw:
        """The CLCW that the next telemetry frame carries."""
        it = self._read_spacecraft()
        return Clcw(it.status, it.vcid, it.flags, it.farm_b, it.value)

    @property
    def mode(self) -> Mode:
        """The state of the receiver on board."""
        return Mode(self._read_spacecraft().state)

    @property
    def ready(self) -> int:
        """How many packets of sequence-controlled frames wait on board to be taken."""
        return int(self._read_spacecraft().ready)

    @property
    def bypass_ready(self) -> int:
        """How many packets that arrived by bypass wait on board to be taken."""
        return int(self._read_spacecraft().bypassed)

    # The records of its session.

    def _entries(self, record: int, map: int = 0) -> List[bytes]:
        entries, length = c_size_t(), c_size_t()
        found = []
        with self._lock:
            self._asked(_sim_count(self._handle, record, map, entries))
            for k in range(entries.value):
                self._asked(_sim_entry_length(self._handle, record, map, k, length))
                found.append(self._given(_sim_entry, length.value, record, map, k))
        return found

    @property
    def submissions(self) -> List[OnMap]:
        """What was submitted in the session, in order: the MAP and the octets of each submission."""
        map, length = c_uint8(), c_size_t()
        found = []
        with self._lock:
            for k in range(self._number(_sim_submissions)):
                self._asked(_sim_submission_length(self._handle, k, map, length))
                found.append(OnMap(map.value, self._given(_sim_submission, length.value, k, map)))
        return found

    def submitted(self, map: int) -> List[bytes]:
        """Returns the packets that were submitted on a MAP in the session."""
        return self._entries(_SUBMITTED, map)

    def delivered(self, map: int) -> List[bytes]:
        """Returns the packets that became ready on board on a MAP in the session, taken or not."""
        return self._entries(_DELIVERED, map)

    @property
    def sent(self) -> List[bytes]:
        """The data fields of Type-AD frames in the session, in the order in which they were first sent."""
        return self._entries(_SENT)

    @property
    def accepted(self) -> List[bytes]:
        """The data fields of Type-AD frames that were accepted on board in the session."""
        return self._entries(_ACCEPTED)


_sim_step = _call("sim_step", c_uint8, POINTER(_Raw), POINTER(_Event), POINTER(_Reply))
_sim_octets = _call("sim_octets", c_uint8, POINTER(_Raw), c_char_p, c_size_t, POINTER(c_size_t))
_sim_read = _call("sim_read", c_uint8, POINTER(_Raw), POINTER(_SimReading))
_sim_ground_read = _call("sim_ground_read", c_uint8, POINTER(_Raw), POINTER(_GroundReading))
_sim_spacecraft_read = _call("sim_spacecraft_read", c_uint8, POINTER(_Raw), POINTER(_SpacecraftReading))
_sim_submissions = _call("sim_submissions", c_uint8, POINTER(_Raw), POINTER(c_size_t))
_sim_submission_length = _call("sim_submission_length", c_uint8, POINTER(_Raw), ("k", c_size_t), POINTER(c_uint8),
                               POINTER(c_size_t))
_sim_submission = _call("sim_submission", c_uint8, POINTER(_Raw), ("k", c_size_t), POINTER(c_uint8), c_char_p,
                        c_size_t, POINTER(c_size_t))
_sim_count = _call("sim_count", c_uint8, POINTER(_Raw), ("record", c_uint8), ("map", c_uint8), POINTER(c_size_t))
_sim_entry_length = _call("sim_entry_length", c_uint8, POINTER(_Raw), ("record", c_uint8), ("map", c_uint8),
                          ("k", c_size_t), POINTER(c_size_t))
_sim_entry = _call("sim_entry", c_uint8, POINTER(_Raw), ("record", c_uint8), ("map", c_uint8), ("k", c_size_t),
                   c_char_p, c_size_t, POINTER(c_size_t))
