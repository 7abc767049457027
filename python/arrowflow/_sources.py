"""What a stream is read from: bytes, a file by its path, an open file, pieces of an iterable, pieces that are passed one by one."""
from __future__ import annotations

import collections
import ctypes
import errno
import io
import os
from _ctypes import CFuncPtr, FUNCFLAG_CDECL
from typing import TYPE_CHECKING, Any, Callable, Deque, Iterable, Iterator, Optional, Union

from ._library import ArrowArrayStream, CLimits, READ, calls

if TYPE_CHECKING:
    from typing import Protocol

    from typing_extensions import Buffer

    class Reads(Protocol):
        """A binary file with a method `read`."""

        def read(self, size: int, /) -> Optional[Buffer]: ...

    class ReadsInto(Protocol):
        """A binary file that reads into a buffer."""

        def readinto(self, room: bytearray, /) -> Optional[int]: ...

    Data = Buffer
    Input = Union[str, os.PathLike[str], Buffer, Reads, ReadsInto, Iterable[Buffer]]
else:
    Data = Input = Any

PIECE = 65536


def bytes_of(data: Data) -> bytes:
    """The bytes of an object with the buffer protocol, copied if other code could change them. Raises TypeError for any other object."""
    return data if type(data) is bytes else memoryview(data).tobytes()


class NoDataYet(Exception):
    """All pieces that were passed so far were read."""


class Source:
    """What a stream is read from. `raised` is the exception that ended it."""

    raised: Optional[BaseException] = None
    is_waiting = False  # whether the last read found no data yet
    is_read = False  # whether a read is in progress

    def start(self, limits: CLimits, stream: ArrowArrayStream) -> int:
        """Makes a stream of the library that reads from this source, and returns a kind."""
        raise NotImplementedError

    def pieces(self) -> Iterator[bytes]:
        """All bytes, in pieces."""
        raise NotImplementedError

    def mind(self) -> None:
        """Called after each call of the library that reads from this source."""

    def close(self) -> None:
        """Drops what was opened for the stream; the library does not read any more."""


class OfBytes(Source):
    """Bytes in memory."""

    def __init__(self, data: bytes) -> None:
        self._data = data

    def start(self, limits: CLimits, stream: ArrowArrayStream) -> int:
        at = ctypes.cast(ctypes.c_char_p(self._data), ctypes.c_void_p)
        return int(calls["stream_of_bytes"](at, len(self._data), limits, stream))

    def pieces(self) -> Iterator[bytes]:
        for at in range(0, len(self._data), PIECE):
            yield self._data[at:at + PIECE]


class OfPath(Source):
    """A file by its path, which the library reads without Python."""

    def __init__(self, path: Union[str, "os.PathLike[str]"]) -> None:
        self._file = io.FileIO(os.fspath(path), "rb")

    def start(self, limits: CLimits, stream: ArrowArrayStream) -> int:
        return int(calls["stream_of_fd"](self._file.fileno(), limits, stream))

    def pieces(self) -> Iterator[bytes]:
        while piece := self._file.read(PIECE):
            yield piece

    def close(self) -> None:
        self._file.close()


class OfPieces(Source):
    """The pieces that a function returns one by one, and b"" at the end. An exception of the function ends the stream, and is raised to
    the caller of the stream."""

    def __init__(self, next_piece: Callable[[], bytes]) -> None:
        self._next_piece, self._left = next_piece, memoryview(b"")
        self._callback: Any = None
        self._asked = self._filled = 0

    def start(self, limits: CLimits, stream: ArrowArrayStream) -> int:
        self._callback = callback_of(self.fill, self._minding())
        return int(calls["stream_of"](ctypes.cast(self._callback, READ), None, limits, stream))

    def pieces(self) -> Iterator[bytes]:
        while piece := self._next_piece():
            yield piece

    def fill(self, state: Optional[int], room: int, size: Any) -> int:
        """Writes bytes to a buffer of this size, and returns their number, 0 at the end, or the negative of a number of errno.h. It
        raises nothing."""
        try:
            self._compare(self._asked - 1)
            if self.raised is None:
                return self._put(room, size.value)
        except BaseException as why:
            self.raised = why
        return -errno.EIO

    def _put(self, room: int, size: int) -> int:
        """The same, but raises the exceptions of the source."""
        self.is_read = True
        try:
            piece = self._left or memoryview(self._next_piece())
        except NoDataYet:
            self.is_waiting = True
        except StopIteration as why:
            # it would end the loop of the caller as if the stream had ended
            raise RuntimeError("what the stream is read from raised StopIteration") from why
        finally:
            self.is_read = False
        if not self.is_waiting:
            part, self._left = bytes(piece[:size]), piece[size:]
            ctypes.memmove(room, part, len(part))
        self._filled += 1
        return -errno.ENOMEM if self.is_waiting else len(part)

    def _minding(self) -> Iterator[None]:
        """Resumed before each call of `fill`; keeps the exception that a signal handler raises at that moment, as for Ctrl-C."""
        while True:
            try:
                while True:
                    yield
                    self._asked += 1
            except GeneratorExit:
                return
            except BaseException as why:
                self.raised = why
                self._asked += 1

    def mind(self) -> None:
        self._compare(self._asked)

    def _compare(self, asked: int) -> None:
        """Ends the stream if one of this many calls of `fill` was lost, because of a signal in the moment before it."""
        if self.raised is None and asked != self._filled:
            self.raised = KeyboardInterrupt("a signal came while a stream asked for bytes")

    def close(self) -> None:
        self._callback = None


class OfFed(OfPieces):
    """Pieces that are passed one by one."""

    def __init__(self) -> None:
        super().__init__(self._next)
        self._fed: Deque[bytes] = collections.deque()
        self.is_ended = False

    def feed(self, piece: bytes) -> None:
        if piece:
            self._fed.append(piece)

    def clear(self) -> None:
        """Drops the pieces that were not read."""
        self._fed.clear()

    def _next(self) -> bytes:
        if self._fed:
            return self._fed.popleft()
        if self.is_ended:
            return b""
        raise NoDataYet


def callback_of(fill: Callable[..., int], minding: Iterator[None]) -> Any:
    """A C function that calls this one. A signal handler may run when Python begins to run the function, and ctypes would ignore the
    exception that it raises and return an arbitrary result: bytes would be read twice. Therefore `minding` is resumed first, as the
    __init__ of the last argument, and catches that exception. Before CPython 3.11 a handler may also run between a function's last
    instruction inside of a `try` and its return, which is not caught."""
    next(minding)
    size = type("Size", (ctypes.c_size_t,), {"__init__": minding.__next__})
    # CFUNCTYPE would keep the prototype forever
    prototype = type("Read", (CFuncPtr,), {"_argtypes_": (ctypes.c_void_p, ctypes.c_void_p, size), "_restype_": ctypes.c_ssize_t,
                                           "_flags_": FUNCFLAG_CDECL})
    return prototype(fill)


# ---- the argument of a caller


def source_of(given: Input) -> Source:
    """The source for a caller's argument. Raises TypeError for an argument that is not a source, OSError for a file that cannot be
    opened."""
    if isinstance(given, (str, os.PathLike)):
        return OfPath(given)
    try:
        data = bytes_of(given)
    except TypeError:
        return OfPieces(_pieces_of(given))
    return OfBytes(data)


def _pieces_of(given: Any) -> Callable[[], bytes]:
    """A function that returns the next piece of an open file or of an iterable."""
    if isinstance(given, io.TextIOBase):
        raise TypeError("the file is open for text: it has to be opened with mode 'rb'")
    read = getattr(given, "read1", None) or getattr(given, "read", None)
    if read is not None:
        return lambda: _from_file(read(PIECE))
    if hasattr(given, "readinto"):
        return lambda: _read_into(given.readinto)
    if hasattr(given, "__iter__"):
        pieces = iter(given)
        return lambda: next(filter(None, map(bytes_of, pieces)), b"")
    raise TypeError(f"a stream is read from a path, a binary file, bytes or pieces of bytes, not {type(given).__name__}")


def _from_file(piece: Optional[Data]) -> bytes:
    if piece is None:
        raise BlockingIOError(errno.EAGAIN, "the file has no data yet: it has to be one that blocks")
    return bytes_of(piece)


def _read_into(readinto: Callable[[bytearray], Optional[int]]) -> bytes:
    room = bytearray(PIECE)
    size = readinto(room)
    return _from_file(None if size is None else bytes(room[:size]))
