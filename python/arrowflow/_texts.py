"""Calls on complete streams in memory."""
from __future__ import annotations

import ctypes
import dataclasses
from typing import Any

from ._errors import Kind, error_of, fault_text
from ._library import COptions, calls
from ._limits import STANDARD, Limits, limits_in_c
from ._sources import Data, bytes_of


@dataclasses.dataclass(frozen=True)
class Report:
    """What `check` reports about a stream.

    kind      Kind.FINE, or the first fault
    ended     whether the end marker came; what follows it was not checked
    offset    where the message at fault begins, or where the stream ended, in bytes from its beginning
    batches   how many batches were complete before that
    rows      how many rows they have together
    """
    kind: Kind
    ended: bool
    offset: int
    batches: int
    rows: int


def check(data: Data, limits: Limits = STANDARD) -> Report:
    """Reads a complete stream and reports what it is: with Kind.FINE it is a valid stream with that many batches and rows. A
    fault is reported, not raised; a MemoryError is raised.

    data     the stream, as bytes or anything else with a buffer, which is copied
    limits   how much it may ask for, and which types it may have
    """
    stream = bytes_of(data)
    report = calls["check"](stream, len(stream), limits_in_c(limits))
    if report.kind == Kind.MEMORY:
        raise error_of(report.kind, 0)
    return Report(Kind(report.kind), report.ended, report.place, report.batches, report.rows)


def sanitize(data: Data, limits: Limits = STANDARD, *, resend: bool = False, pad_to_8: bool = False) -> bytes:
    """Writes a stream again: a valid stream of exactly the schema, the rows and the dictionaries that were read, with nothing in
    padding, under nulls or past offsets, as bytes. Names, custom metadata of the schema and its fields, and values of a
    dictionary that no index refers to are kept. ArrowflowError at a fault; its `partial` has the batches before it, without an
    end marker.

    data       the stream, as bytes or anything else with a buffer, which is copied; `sanitize_pieces` takes files and pieces
    limits     how much it may ask for, and which types it may have
    resend     whether a dictionary that was extended is written completely, and not as a delta
    pad_to_8   whether buffers are padded to 8 bytes, and not to 64
    """
    # a copy is usually about as long as the stream
    return _text("copy", data, limits, COptions(bool(resend), bool(pad_to_8)), size=lambda read: read + read // 4 + 512)


def show(data: Data, limits: Limits = STANDARD) -> str:
    """The rows as comma-separated values, as `arrowflow show` prints them. ArrowflowError at a fault. A stream may have far more rows
    than bytes: `limits.max_rows` bounds those of a batch."""
    return _text("show", data, limits).decode()


def messages(data: Data, limits: Limits = STANDARD) -> str:
    """A line for each message, as `arrowflow check` prints them. ArrowflowError at a fault."""
    return _text("messages", data, limits).decode()


def schema_text(data: Data, limits: Limits = STANDARD) -> str:
    """The schema, a line a field, as `arrowflow schema` prints it. ArrowflowError at a fault."""
    return _text("schema", data, limits).decode()


def _text(call: str, data: Data, limits: Limits, *more: Any, size: Any = lambda read: 4096) -> bytes:
    """The text of a call; if the buffer was too small, the call is made again with a larger one."""
    stream, chosen = bytes_of(data), limits_in_c(limits)
    room = ctypes.create_string_buffer(size(len(stream)))
    report = calls[call](stream, len(stream), chosen, *more, room, len(room))
    while report.size > len(room):
        room = ctypes.create_string_buffer(report.size)
        report = calls[call](stream, len(stream), chosen, *more, room, len(room))
    text = ctypes.string_at(room, report.size)
    if report.kind:
        is_of_body = Kind.LAYOUT <= report.kind <= Kind.INDEX
        raise error_of(report.kind, report.place, text, fault_text(stream, chosen) if is_of_body else "")
    return text
