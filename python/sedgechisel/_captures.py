"""Reads a pair of captures, of telecommand frames and of CLCWs, as one list for a ladder."""
from __future__ import annotations

from itertools import groupby
from typing import Dict, Iterable, Iterator, List, NamedTuple, Optional, Sequence, Tuple, Union

from ._calls import Clcw, Command, Flags, Kind, Segment, TcFrame, TmFrame
from ._faults import ClcwFault, Fault, TcFault, TmFault
from ._ladder import clcw_name
from ._library import frame_length_of

_FARTHEST = 300  # how many frames after the previous CLCW may have caused the next one
_LOCKOUT, _WAIT, _RETRANSMIT = int(Flags.LOCKOUT), int(Flags.WAIT), int(Flags.RETRANSMIT)
_State = Tuple[int, int, int]  # of a receiver: V(R), FARM-B and flags
_States = Dict[Tuple[int, int], int]  # by FARM-B and flags; bit v is 1 if V(R) may be v
_BELOW = [sum(1 << (number - above) % 256 for above in range(1, 128)) for number in range(256)]  # V(R) behind each N(S)
_Word = Union[Clcw, ClcwFault, TmFault]


class Record(NamedTuple):
    """A record of a ladder: whether it is on the uplink, its name, the text next to it, and whether it is valid."""

    is_up: bool
    name: str
    told: str
    is_valid: bool


def frame_name(frame: TcFrame) -> str:
    """Returns what the ladder shows of a telecommand frame: 'AD 0', 'BD', 'BC unlock'."""
    if frame.kind == Kind.AD:
        return f"AD {frame.n}"
    return "BD" if frame.kind == Kind.BD else f"BC set {frame.vr}" if frame.command == Command.SET_VR else "BC unlock"


def name_of(octets: bytes) -> str:
    """Returns what the ladder shows of the octets of a telecommand frame."""
    return frame_name(TcFrame.decode(octets)[0])


def _up(number: int, frame: Union[TcFrame, TcFault], data: bytes) -> Record:
    """Returns the record of a telecommand frame."""
    if isinstance(frame, TcFault):
        return Record(True, f"invalid {frame.number} {frame.name}", f"frame {number}: {len(data)} octets", False)
    carried = "" if frame.kind == Kind.BC else f": MAP {frame.map}, {len(data)} octets"
    part = "" if frame.kind == Kind.BC or frame.flags == Segment.ALONE else f", {Segment(frame.flags).name.lower()}"
    return Record(True, frame_name(frame), f"frame {number}{carried}{part}", True)


def _words(octets: bytes, length: Optional[int], scid: Optional[int], vcid: Optional[int]) -> Iterator[_Word]:
    """Yields the CLCWs of a capture: each four octets, or with a length the control field of a telemetry frame."""
    size = 4 if length is None else frame_length_of(length)
    for start in range(0, len(octets), size):
        record = octets[start:start + size]
        try:
            if length is not None:
                frame, _ = TmFrame.decode(record, length)
                if scid not in (None, frame.scid):
                    continue
                record = bytes(frame.ocf)
            word = Clcw.decode(record)
            if vcid in (None, word.vcid):
                yield word
        except (ClcwFault, TmFault) as fault:
            yield fault


def _alone(state: _State) -> _States:
    """Returns the states in which a receiver may be: this one, and this one after a buffer has become free."""
    value, counter, flags = state
    return {(counter, flags): 1 << value, (counter, flags & ~_WAIT): 1 << value}


def _after(frame: Union[TcFrame, TcFault], states: _States, may_wait: bool) -> _States:
    """Returns the states in which a receiver of any width may be after a frame that may have been lost. It finds no
    free buffer only if `may_wait` is true."""
    if isinstance(frame, TcFault):
        return states
    found = dict(states)

    def add(counter: int, flags: int, values: int) -> None:
        found[counter, flags] = found.get((counter, flags), 0) | values

    is_unlock = frame.kind == Kind.BC and frame.command == Command.UNLOCK
    for (counter, flags), values in states.items():
        is_set = frame.kind == Kind.BC and frame.command == Command.SET_VR and not flags & _LOCKOUT
        if frame.kind != Kind.AD:
            add((counter + 1) % 4, 0 if is_set or is_unlock else flags, 1 << frame.vr if is_set else values)
        elif not flags & _LOCKOUT:
            own = values & 1 << frame.n
            add(counter, 0, own and 1 << (frame.n + 1) % 256)
            add(counter, flags | _LOCKOUT, values & ~own)
            add(counter, flags | _RETRANSMIT, values & _BELOW[frame.n])
            if may_wait:
                add(counter, _WAIT | _RETRANSMIT, own)
                add(counter, _RETRANSMIT, own)
    return found


def _earliest(frames: Sequence[Union[TcFrame, TcFault]], begun: int, states: _States, wanted: _State,
              may_wait: bool) -> Optional[int]:
    """Returns the least number of frames that were sent before a CLCW, given that `begun` frames were sent before the
    previous CLCW; None if none of the next frames explains the CLCW."""
    value, *key = wanted
    for count in range(begun, min(begun + _FARTHEST, len(frames)) + 1):
        if states.get((key[0], key[1]), 0) >> value & 1:
            return count
        states = states if count == len(frames) else _after(frames[count], states, may_wait)
    return None


def _placed(frames: Sequence[Union[TcFrame, TcFault]], words: Sequence[_Word]) -> Iterator[Tuple[int, str, str, bool]]:
    """Yields for each CLCW the least number of frames that were sent before it, its name, the text next to it, and
    whether it is valid. The first CLCW shows the state of the receiver before all frames, as far as is known. No buffer
    on board is full unless a CLCW has the wait flag."""
    states: _States = {}
    place, may_wait = 0, any(isinstance(word, Clcw) and word.wait for word in words)
    for word in words:
        if isinstance(word, Fault):
            yield place, f"invalid {word.number} {word.name}", "", False
            continue
        state, octets = (word.value, word.farm_b, word.flags & (_LOCKOUT | _WAIT | _RETRANSMIT)), word.encode()
        found = _earliest(frames, place, states or _alone(state), state, may_wait)
        told = f": {octets.hex().upper()}{', no cause' if found is None else ''}"
        place, states = place if found is None else found, _alone(state)
        yield place, clcw_name(octets), told, True


def _down(placed: Iterable[Tuple[int, str, str, bool]]) -> Iterator[Tuple[int, Record]]:
    """Yields the records of CLCWs. Equal CLCWs between two frames are one record."""
    for (place, name, told, is_valid), run in groupby(enumerate(placed, 1), lambda it: it[1]):
        first, *_, last = [number for number, _ in run] * 2
        numbers = f"{first}" if first == last else f"{first} to {last}"
        yield place, Record(False, name, f"CLCW {numbers}{told}", is_valid)


def records_of(up: bytes, down: bytes, *, checked: bool, length: Optional[int] = None, scid: Optional[int] = None,
               vcid: Optional[int] = None) -> List[Record]:
    """Returns the records of both captures in one order: each CLCW as early as it can follow from the frames."""
    frames = list(TcFrame.decode_all(up, checked, scid=scid, vcid=vcid))
    records = [(k + 0.5, _up(k + 1, *it)) for k, it in enumerate(frames)]
    records += _down(_placed([frame for frame, _ in frames], list(_words(down, length, scid, vcid))))
    return [record for _, record in sorted(records, key=lambda it: it[0])]
