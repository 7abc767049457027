"""Streams that are written again piece by piece."""
from __future__ import annotations

import collections
import ctypes
import threading
from typing import Any, Deque, Iterator, Optional

from ._errors import ArrowflowError, error_of
from ._library import COptions, calls
from ._limits import STANDARD, Limits, limits_in_c
from ._sources import Data, Input, bytes_of, source_of

_ROOM = 1 << 16


class _Thread(threading.local):
    """For each thread, the copiers that it opened and that were collected on another one: it closes them the next time that it
    makes or uses a copier."""

    def __init__(self) -> None:
        self.left: Deque[int] = collections.deque()


_thread = _Thread()


def _close_left() -> None:
    """Closes the copiers of this thread that were collected on another one."""
    while _thread.left:
        calls["copier_close"](_thread.left.popleft())


class Copier:
    """Writes a stream again while its pieces come: `feed` and `end` return the bytes that are written. All of them together are
    what `sanitize` returns for all pieces, and the memory in use meanwhile is bounded by a message and what it is written as.

        with arrowflow.Copier() as copier:
            for piece in pieces:
                out.write(copier.feed(piece))
            out.write(copier.end())

    It stays on the thread that made it: another one that uses it gets a RuntimeError. If it is collected on another thread, it is
    closed when its own thread makes or uses a copier again.
    """

    def __init__(self, limits: Limits = STANDARD, *, resend: bool = False, pad_to_8: bool = False) -> None:
        """limits     how much the stream may ask for, and which types it may have
        resend     whether a dictionary that was extended is written completely, and not as a delta
        pad_to_8   whether buffers are padded to 8 bytes, and not to 64"""
        _close_left()
        self._handle: Optional[int] = None
        self._left, handle = _thread.left, ctypes.c_void_p()
        kind = calls["copier_open"](limits_in_c(limits), COptions(bool(resend), bool(pad_to_8)), ctypes.byref(handle))
        if kind:
            raise error_of(kind, 0)
        self._handle = handle.value

    def feed(self, piece: Data) -> bytes:
        """Takes a piece, and returns what is written with it, b"" if it completes no message. If bytes are written before a
        fault, they are returned, and the next call raises ArrowflowError; otherwise this one does. What comes after an end
        marker is ignored."""
        data = bytes_of(piece)
        report = calls["copier_put"](self._of_thread(), data, len(data))
        written = self._take(report.waiting)
        if report.kind and not written:
            raise error_of(report.kind, report.place)
        return written

    def end(self) -> bytes:
        """Ends the stream, and returns the last bytes, with the end marker. ArrowflowError if the stream cannot end here, inside
        a message or before a schema, or if it has a fault; `partial` has what was not returned yet."""
        report = calls["copier_end"](self._of_thread())
        written = self._take(report.waiting)
        if report.kind:
            raise error_of(report.kind, report.place, written)
        return written

    def close(self) -> None:
        """Frees what the copier holds. Using it afterwards raises ValueError."""
        self._on_its_thread()
        handle, self._handle = self._handle, None
        if handle:
            calls["copier_close"](handle)

    def __enter__(self) -> "Copier":
        return self

    def __exit__(self, *why: object) -> None:
        self.close()

    def __del__(self) -> None:
        handle, self._handle = getattr(self, "_handle", None), None
        if not handle:
            return
        if self._left is _thread.left:
            calls["copier_close"](handle)
        else:
            self._left.append(handle)

    def _on_its_thread(self) -> None:
        if self._left is not _thread.left:
            raise RuntimeError("a copier stays on the thread that made it")
        _close_left()

    def _of_thread(self) -> int:
        self._on_its_thread()
        if self._handle is None:
            raise ValueError("the copier is closed")
        return self._handle

    def _take(self, waiting: int) -> bytes:
        """All bytes that wait to be taken."""
        parts = []
        while waiting:
            room = ctypes.create_string_buffer(min(waiting, _ROOM * 16))
            size = calls["copier_take"](self._handle, room, len(room))
            parts.append(ctypes.string_at(room, size))
            waiting -= size
        return b"".join(parts)


def sanitize_pieces(source: Input, limits: Limits = STANDARD, *, resend: bool = False, pad_to_8: bool = False) -> Iterator[bytes]:
    """Writes a stream again while it is read, as a Copier does: an iterator of what is written, which stays on its thread.

    source   what `open` takes: a path, a binary file, bytes, or an iterable of bytes

    ArrowflowError at a fault, after the bytes before it were returned: these are the complete batches, without an end marker. An
    exception of the source is raised unchanged.
    """
    limits_in_c(limits)
    return _pieces(source_of(source), limits, resend, pad_to_8)


def _pieces(source: Any, limits: Limits, resend: bool, pad_to_8: bool) -> Iterator[bytes]:
    copier = Copier(limits, resend=resend, pad_to_8=pad_to_8)
    try:
        for piece in source.pieces():
            if written := copier.feed(piece):
                yield written
        if written := copier.end():
            yield written
    except ArrowflowError as why:
        if why.partial:
            yield why.partial
        raise
    finally:
        source.close()
