"""The calls of libsedgechisel_nodes for the spacecraft."""
from __future__ import annotations

import ctypes
from ctypes import POINTER, c_char_p, c_size_t, c_uint8
from dataclasses import dataclass
from typing import Iterator, NamedTuple, Optional

from ._calls import Clcw, Mode
from ._faults import TelemetryFault
from ._library import LONGEST, Octets, octets_of as _octets_of, renamed, struct_of as _struct_of, within as _within
from ._nodes import (
    _OUT_OF_RANGE, Config, Handle, Received, _call, _config_fault, _fields_of, _octets_alone, _Raw, _Received)


class _SpacecraftReading(ctypes.Structure):
    _fields_ = [("frame_length", c_size_t), ("ready", c_size_t), ("bypassed", c_size_t), ("status", c_uint8),
                ("vcid", c_uint8), ("flags", c_uint8), ("farm_b", c_uint8), ("value", c_uint8), ("state", c_uint8),
                ("mc_count", c_uint8), ("vc_count", c_uint8)]


_spacecraft_open = _call("spacecraft_open", c_uint8, POINTER(_Raw), POINTER(Config._C))
_spacecraft_open_kept = _call("spacecraft_open_kept", c_uint8, POINTER(_Raw), POINTER(Config._C),
                              POINTER(_SpacecraftReading))
_spacecraft_close = _call("spacecraft_close", None, POINTER(_Raw))


@dataclass(frozen=True)
class KeptNumbers:
    """The numbers with which a spacecraft that is restarted on purpose continues.

    - `vr`, V(R), the number of the next frame to be accepted
    - `farm_b`, FARM-B, the count of Type-B frames modulo 4
    - `mc_count` and `vc_count`, the next telemetry frame's counts on the master and on the virtual channel"""

    vr: int = 0
    farm_b: int = 0
    mc_count: int = 0
    vc_count: int = 0

    def _read(self) -> _SpacecraftReading:
        for name in ("vr", "farm_b", "mc_count", "vc_count"):
            _within(name, c_uint8, getattr(self, name))
        return _SpacecraftReading(value=self.vr, farm_b=self.farm_b, mc_count=self.mc_count, vc_count=self.vc_count)


class OnMap(NamedTuple):
    """A packet and its MAP."""

    map: int
    packet: bytes


class Spacecraft(Handle):
    """The spacecraft node: it receives packets, reports in CLCWs, and sends telemetry."""

    _opens, _closes = _spacecraft_open, _spacecraft_close

    def __init__(
            self, config: Optional[Config] = None, *, kept: Optional[KeptNumbers] = None,
            scid: Optional[int] = None, vcid: Optional[int] = None, tm_vcid: Optional[int] = None,
            width: Optional[int] = None, window: Optional[int] = None, limit: Optional[int] = None,
            timer: Optional[int] = None, part: Optional[int] = None, max_packet: Optional[int] = None,
            maps: Optional[int] = None, ready_slots: Optional[int] = None, bypass_slots: Optional[int] = None,
            queue_slots: Optional[int] = None, frame_length: Optional[int] = None,
            blocking: Optional[int] = None) -> None:
        """Opens a spacecraft with these managed parameters: a Config, or some of its fields, each by name; the others
        have their defaults. With `kept` it continues with the numbers that `kept_numbers` had before a restart on
        purpose; its receiver is OPEN with no flag, and no packet is on board. Raises ConfigFault if a parameter is out
        of range, OverflowError for a number that `kept` cannot have, or LinkFault 6 (Memory)."""
        self._kept = None if kept is None else _struct_of("kept", KeptNumbers, kept)._read()
        super().__init__(config, **_fields_of(locals()))

    def _open(self, config: Config) -> int:
        if self._kept is None:
            return super()._open(config)
        answer = int(_spacecraft_open_kept(self._handle, config._memory, self._kept))
        if answer == _OUT_OF_RANGE and not _config_fault(config._memory):
            raise OverflowError(f"farm_b: {self._kept.farm_b} is not in 0 to 3")
        return answer

    def receive(self, octets: Octets) -> Received:
        """Takes octets received from the ground, normally one telecommand frame with its FECF. Returns a Received.
        Raises LinkFault 6 (Memory)."""
        octets, received = _octets_of("octets", octets), _Received()
        self._asked(_spacecraft_receive(self._handle, octets, len(octets), received))
        return received.value()

    def take(self) -> Optional[OnMap]:
        """Takes the oldest packet of sequence-controlled frames. Returns an OnMap, its `map` and the `packet`, or
        None."""
        taken: Optional[OnMap] = self._take_out(_spacecraft_take, LONGEST, OnMap, c_uint8())
        return taken

    def take_bypass(self) -> Optional[OnMap]:
        """Takes the oldest packet that arrived by bypass. Returns an OnMap, its `map` and the `packet`, or None."""
        taken: Optional[OnMap] = self._take_out(_spacecraft_take_bypass, LONGEST, OnMap, c_uint8())
        return taken

    def packets(self) -> Iterator[OnMap]:
        """Takes the packets of sequence-controlled frames, oldest first, each with its MAP, until none is left. Packets
        that are not requested stay on board."""
        return iter(self.take, None)

    def bypass_packets(self) -> Iterator[OnMap]:
        """Takes the packets that arrived by bypass, oldest first, each with its MAP, until none is left. Packets that
        are not requested stay on board."""
        return iter(self.take_bypass, None)

    def telemetry(self, packet: Octets) -> None:
        """Queues a packet to be sent as telemetry. Raises TelemetryFault 8 (NotAPacket) if the octets are not exactly
        one packet, or are an idle packet, or TelemetryFault 7 (Memory)."""
        packet = _octets_of("packet", packet)
        self._asked(_spacecraft_telemetry(self._handle, packet, len(packet)), TelemetryFault)

    def telemetry_frame(self) -> bytes:
        """Takes the next telemetry frame, which carries the CLCW. Returns its octets, `frame_length` of them."""
        taken: bytes = self._take_out(_spacecraft_telemetry_frame, 2048, _octets_alone)
        return taken

    report = renamed("report", telemetry_frame)

    def _read(self) -> _SpacecraftReading:
        read = _SpacecraftReading()
        self._asked(_spacecraft_read(self._handle, read))
        return read

    def _shown(self) -> str:
        read = self._read()
        return f"{Mode(read.state).name}, V(R)={read.value}"

    @property
    def kept_numbers(self) -> KeptNumbers:
        """The numbers with which a restarted spacecraft continues: `Spacecraft(config, kept=..)`."""
        it = self._read()
        return KeptNumbers(it.value, it.farm_b, it.mc_count, it.vc_count)

    @property
    def control_word(self) -> Clcw:
        """The CLCW that the next telemetry frame carries."""
        it = self._read()
        return Clcw(it.status, it.vcid, it.flags, it.farm_b, it.value)

    @property
    def mode(self) -> Mode:
        """The receiver's state."""
        return Mode(self._read().state)

    @property
    def ready(self) -> int:
        """How many packets of sequence-controlled frames wait to be taken."""
        return int(self._read().ready)

    @property
    def bypassed(self) -> int:
        """How many packets that arrived by bypass wait to be taken."""
        return int(self._read().bypassed)

    @property
    def frame_length(self) -> int:
        """How many octets each frame of telemetry has."""
        return int(self._read().frame_length)


_spacecraft_receive = _call("spacecraft_receive", c_uint8, POINTER(_Raw), c_char_p, c_size_t, POINTER(_Received))
_spacecraft_take = _call("spacecraft_take", c_uint8, POINTER(_Raw), POINTER(c_uint8), c_char_p, c_size_t,
                         POINTER(c_size_t))
_spacecraft_take_bypass = _call("spacecraft_take_bypass", c_uint8, POINTER(_Raw), POINTER(c_uint8), c_char_p, c_size_t,
                                POINTER(c_size_t))
_spacecraft_telemetry = _call("spacecraft_telemetry", c_uint8, POINTER(_Raw), c_char_p, c_size_t)
_spacecraft_telemetry_frame = _call("spacecraft_telemetry_frame", c_uint8, POINTER(_Raw), c_char_p, c_size_t,
                                    POINTER(c_size_t))
_spacecraft_read = _call("spacecraft_read", c_uint8, POINTER(_Raw), POINTER(_SpacecraftReading))
