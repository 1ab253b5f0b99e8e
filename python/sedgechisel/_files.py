"""Reads telemetry frames from files."""
from __future__ import annotations

from typing import Callable, Iterator, Optional, Protocol

from ._library import frame_length_of, octets_of

_PIECE = 65536


class Readable(Protocol):
    """A file, or an object that is read like one."""

    def read(self, size: int, /) -> Optional[bytes]:
        """Returns at most this many octets, and none at the end."""


def read_frames(file: Readable, length: int) -> Iterator[bytes]:
    """Reads telemetry frames of `length` octets, 16 to 2,048, one after another until the file ends. Yields each as
    `bytes`, for `Ground.telemetry` or `TmFrame.decode`. Raises ValueError for any other length; and, after the last
    frame, if octets are left at the end, with their number.

    The file must be a binary file whose reads wait for octets: one opened with "rb", buffered or not, a pipe,
    `socket.makefile("rb")`, or a file that is decompressed. A frame is yielded once its last octet has arrived. At most
    65,536 octets are read at once, so the file may be read beyond the frame that was yielded."""
    read = getattr(file, "read1", None) or getattr(file, "read", None)
    if read is None:
        raise TypeError(f"file: {file!r} has no read")
    return _cut(read, frame_length_of(length))


def _piece_of(read: Callable[[int], Optional[bytes]]) -> bytes:
    """Returns the next octets, as many as have arrived."""
    piece = read(_PIECE)
    if piece is None:
        raise BlockingIOError("file: it does not wait until there are octets")
    if isinstance(piece, str):
        raise TypeError('file: it has text, not octets; open it with "rb"')
    return octets_of("file", piece)


def _cut(read: Callable[[int], Optional[bytes]], length: int) -> Iterator[bytes]:
    """Yields what is read, in frames of this length."""
    octets = b""
    while piece := _piece_of(read):
        octets += piece
        whole = len(octets) - len(octets) % length
        for start in range(0, whole, length):
            yield octets[start:start + length]
        octets = octets[whole:]
    if octets:
        raise ValueError(f"file: the last {len(octets)} octets are no frame, which has {length}")
