"""Loads the shared libraries, and makes Python functions of their calls."""
from __future__ import annotations

import ctypes
import warnings
from ctypes import c_size_t, c_uint8, c_uint16, c_uint32, c_uint64
from enum import IntEnum, IntFlag
from functools import wraps
from os import path
from typing import Any, Callable, Dict, List, Tuple, TypeVar, Union, cast

_LOST = """{file} cannot be loaded: {why}
The package sedgechisel needs it beside its modules. In the repository of Sedgechisel run one of these:
    ./install --wheel DIR      and then  pip install --no-index DIR/sedgechisel-*.whl
    ./install --prefix DIR     and then  export PYTHONPATH=DIR/lib/python"""
_Own = TypeVar("_Own", bound="Single")
_Call = TypeVar("_Call", bound=Callable[..., Any])
Octets = Union[bytes, bytearray, memoryview]
_MOST: Dict[Any, int] = {c_uint8: 0xFF, c_uint16: 0xFFFF, c_uint32: 0xFFFFFFFF, c_uint64: 0xFFFF_FFFF_FFFF_FFFF}
LONGEST = 65542
_rooms: List[Any] = []  # buffers of LONGEST octets each, which no call is using


def _load(name: str) -> ctypes.PyDLL:
    """Loads a library next to this module. Each call holds the interpreter's lock, so no two threads call at once."""
    file = path.join(path.dirname(path.abspath(__file__)), name)
    try:
        return ctypes.PyDLL(file)
    except OSError as why:
        raise ImportError(_LOST.format(file=file, why=why), name="sedgechisel", path=file) from None


def warn_of(old: str, new: str) -> None:
    """Warns a program of a name that will be removed after 0.3."""
    warnings.warn(f"{old} is {new} now; the old name goes after 0.3", DeprecationWarning, stacklevel=3)


def renamed(old: str, call: _Call) -> _Call:
    """Makes a method under its old name, which `help` shows as such."""
    @wraps(call)
    def called(*values: Any, **named: Any) -> Any:
        warn_of(old, call.__name__)
        return call(*values, **named)

    called.__name__, called.__doc__ = old, f"The old name of `{call.__name__}`; it goes after 0.3."
    return cast(_Call, called)


def number_of(name: str, value: Any) -> int:
    """Returns the number. Raises TypeError if the value is not one."""
    if not isinstance(value, int):
        raise TypeError(f"{name}: {value!r} is not a number")
    return value


def frame_length_of(value: Any) -> int:
    """Returns the length, if telemetry frames may have it. Raises ValueError for any other."""
    if not 16 <= number_of("length", value) <= 2048:
        raise ValueError(f"length: {value} is not in 16 to 2048")
    return int(value)


def within(name: str, kind: Any, value: Any) -> None:
    """Raises OverflowError if the number does not fit its kind, and TypeError if the value is not a number."""
    most = _MOST.get(kind)
    if most is not None and not 0 <= number_of(name, value) <= most:
        raise OverflowError(f"{name}: {value} is not in 0 to {most}")


def room_of(name: str, count: Any) -> Any:
    """Allocates a buffer of this many octets."""
    within(name, c_size_t, count)
    return ctypes.create_string_buffer(count)


def lent(most: int = LONGEST) -> Any:
    """Returns a buffer for this many octets. They are reused, because creating one takes longer than most calls. Only
    one call at a time uses each buffer."""
    try:
        return _rooms.pop() if most <= LONGEST else room_of("most", most)
    except IndexError:
        return room_of("most", LONGEST)


def give_back(room: Any) -> None:
    """Keeps a buffer for the next call."""
    if len(room) == LONGEST:
        _rooms.append(room)


def written(look_at: Callable[[int], Any], call: Callable[..., int], most: int, *values: Any) -> bytes:
    """Returns the octets that a call writes into a buffer of the maximum size. The call writes their number too."""
    count, room = c_size_t(), lent(most)
    look_at(call(*values, room, most, count))
    octets: bytes = room[:count.value]
    give_back(room)
    return octets


def octets_of(name: str, value: Any) -> bytes:
    """Returns octets as `bytes`. Raises TypeError if the value contains none, for example a number or a str."""
    if type(value) is bytes:
        return value
    if isinstance(value, bytes):
        return bytes(value)
    try:
        return bytes(memoryview(value))
    except TypeError:
        raise TypeError(f"{name}: {value!r} is not bytes") from None


def struct_of(name: str, kind: Any, value: Any) -> Any:
    """Returns the struct. Raises TypeError if the value is not of this kind."""
    if not isinstance(value, kind):
        raise TypeError(f"{name}: {value!r} is not a {kind.__name__}")
    return value


def call_of(library: ctypes.PyDLL, name: str, answer: Any, *kinds: Any) -> Callable[..., Any]:
    """Makes a function of a library call. Each number that a caller passes has a name and a kind. A number that does
    not fit its kind raises an OverflowError; ctypes would truncate it. A struct is passed as it is: ctypes makes the
    pointer, in half the time that `byref` takes."""
    call: Any = getattr(library, "sedge_" + name)
    call.restype, call.argtypes = answer, [it[1] if isinstance(it, tuple) else it for it in kinds]
    numbers = [(place, *it) for place, it in enumerate(kinds) if isinstance(it, tuple)]

    def checked(*values: Any) -> Any:
        for place, own, kind in numbers:
            within(own, kind, values[place])
        return call(*values)

    setattr(checked, "__wrapped__", call)
    made: Callable[..., Any] = checked if numbers else call
    return made


class Numbers(IntEnum):
    """An enumeration whose members print as their numbers, in every version of Python."""

    def __str__(self) -> str:
        return int.__repr__(self)

    def __format__(self, how: str) -> str:
        return int.__format__(self, how)


class Bits(IntFlag):
    """Flags that print as their number, in every version of Python."""

    def __str__(self) -> str:
        return int.__repr__(self)

    def __format__(self, how: str) -> str:
        return int.__format__(self, how)


class Single:
    """An object with memory of its own, which a copy would share: copying and pickling raise a TypeError."""

    def __reduce__(self) -> Tuple[Any, ...]:
        raise TypeError(f"a {type(self).__name__} is not copied")

    def __copy__(self: _Own) -> _Own:
        raise TypeError(f"a {type(self).__name__} is not copied")

    def __deepcopy__(self: _Own, memo: Any) -> _Own:
        raise TypeError(f"a {type(self).__name__} is not copied")


FIRST = _load("libsedgechisel.so")
NODES = _load("libsedgechisel_nodes.so")
