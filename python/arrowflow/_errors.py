"""Why a call failed."""
from __future__ import annotations

import ctypes
import enum
import errno
import re
from typing import Any, Optional, Tuple, Union

from ._library import CLimits, calls


class Kind(enum.IntEnum):
    """How a call ended. FINE is no fault, 1 to 18 are faults of the stream (docs/FORMAT.md of the repository defines them), 32 and above
    are for a valid stream that cannot be written again. `str(kind)` is the name that the program `arrowflow` prints."""
    FINE = 0
    CONTINUATION = 1
    METADATA_SIZE = 2
    METADATA = 3
    VERSION = 4
    HEADER = 5
    BODY_LENGTH = 6
    ORDER = 7
    UNSUPPORTED = 8
    SCHEMA = 9
    COMPRESSED = 10
    UNKNOWN_ID = 11
    NO_BASE = 12
    ROWS = 13
    LAYOUT = 14
    TEXT = 15
    INDEX = 16
    NO_SCHEMA = 17
    TRUNCATED = 18
    MEMORY = 19
    BAD_LIMITS = 20
    NO_HANDLE = 21
    INPUT = 22
    SCHEMA_TOO_LARGE = 32
    BATCH_SCHEMA_DIFFERS = 41
    BATCH_TOO_LARGE = 42
    BATCH_DICTIONARIES_DIFFER = 43
    END_TOO_LARGE = 52

    def __str__(self) -> str:
        return self.name.title().replace("_", "")


def _sentence(call: str, *about: Any) -> str:
    """The text that a call writes to a buffer, which is made larger if needed."""
    room, size = ctypes.create_string_buffer(256), 0
    while (size := calls[call](*about, room, len(room))) >= len(room):
        room = ctypes.create_string_buffer(size + 1)
    return room.value.decode(errors="replace")


def error_text(kind: int, place: int) -> str:
    """A sentence about an error: "fault at byte 976: Truncated, the stream ended inside a message"."""
    return _sentence("error_text", kind, place)


def fault_text(stream: bytes, limits: CLimits) -> str:
    """A sentence about the first fault of a stream, with the column at fault if there is one."""
    return _sentence("fault_text", stream, len(stream), limits)


class ArrowflowError(ValueError):
    """A stream with a fault, or one that cannot be written again.

    kind      the kind of the error (Kind); None only for DictionaryTooLong
    offset    where the message at fault begins, in bytes from the start of the stream; None if the error has no offset
    batch     the number, from 0, of the batch that cannot be written again; otherwise None
    column    the index, from 0, of the column at fault, if the fault is in the body of a record batch (Kind.LAYOUT, TEXT or INDEX) and
              the stream was passed as bytes to `open`, `sanitize`, `show`, `messages` or `schema_text`; otherwise None
    field     the name of this column, or of the field that DictionaryTooLong is about, which the library cuts if it is long; otherwise
              None
    partial   for `sanitize`, `show`, `messages` and `schema_text`: the output for the complete messages before the fault, in bytes
    """

    kind: Optional[Kind]
    offset: Optional[int] = None
    batch: Optional[int] = None
    column: Optional[int] = None
    field: Optional[str] = None
    partial: bytes = b""

    def __init__(self, kind: int, place: int = 0, partial: bytes = b"", text: str = "") -> None:
        super().__init__(text or error_text(kind, place))
        self.kind, self._place, self.partial = Kind(kind), place, partial
        if named := _COLUMN.search(text):
            self.column, self.field = int(named[1]), named[2]
        if Kind.FINE < kind <= Kind.TRUNCATED:
            self.offset = place
        if Kind.BATCH_SCHEMA_DIFFERS <= kind <= Kind.BATCH_DICTIONARIES_DIFFER:
            self.batch = place

    def __reduce__(self) -> Tuple[Any, ...]:
        return type(self), (int(self.kind or 0), self._place, self.partial, str(self))


class DictionaryTooLong(ArrowflowError):
    """A valid stream with a dictionary whose values, joined, are too long for one array with offsets of 32 bits. `field` is the name of a
    field that has it, which the library cuts if it is long."""

    def __init__(self, text: str) -> None:
        ValueError.__init__(self, text)
        named = re.match(r'field "(.*)": the values of dictionary', text, re.S)
        self.kind, self.field, self._text = None, named[1] if named else None, text

    def __reduce__(self) -> Tuple[Any, ...]:
        return type(self), (self._text,)


# How the text of arrowflow_error_text begins for a fault of the stream, and how that of arrowflow_fault_text ends for a column at fault.
_FAULT = re.compile(r"fault at byte (\d+): (\w+)")
_COLUMN = re.compile(r', in column (\d+), "(.*)"$')
_KINDS = {str(it): it for it in Kind}


def error_of_stream(status: int, text: str) -> Exception:
    """The exception for the number of errno.h that a stream's call returned, with the text of its get_last_error."""
    if status == errno.ENOMEM:
        return MemoryError(text)
    if status == errno.EOVERFLOW:
        return DictionaryTooLong(text)
    fault = _FAULT.match(text)
    if fault and fault[2] in _KINDS:
        return ArrowflowError(_KINDS[fault[2]], int(fault[1]), text=text)
    return OSError(status, text)


def error_of(kind: int, place: int, partial: bytes = b"", text: str = "") -> Union[ArrowflowError, MemoryError]:
    """The exception for a kind that is not FINE."""
    return MemoryError(error_text(kind, place)) if kind == Kind.MEMORY else ArrowflowError(kind, place, partial, text)
