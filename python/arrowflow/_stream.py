"""A stream that is read batch by batch, and handed on to other Arrow libraries."""
from __future__ import annotations

import ctypes
import threading
from typing import Any, Dict, Iterator, List, Optional

from ._batches import Batch, Owned
from ._errors import error_of, error_of_stream
from ._library import ArrowArrayStream, ArrowSchema, GET_LAST_ERROR, GET_NEXT, GET_SCHEMA, RELEASE_SCHEMA, RELEASE_STREAM
from ._limits import STANDARD, Limits, limits_in_c
from ._schema import Schema, field_of
from ._sources import Input, NoDataYet, Source, source_of


class Handle:
    """A stream of the library, with what it is read from. Any threads may call it, one after another; it is released together
    with its source, by `close` or once nothing refers to it."""

    def __init__(self, source: Source, limits: Limits) -> None:
        self._source, self._stream = source, ArrowArrayStream()
        self._schema: Optional[Schema] = None
        self._next = Owned()
        self._lock = threading.RLock()
        kind = source.start(limits_in_c(limits), self._stream)
        if kind:
            source.close()
            raise error_of(kind, 0)

    def __del__(self) -> None:
        self._release()

    def _release(self, release_stream: Any = RELEASE_STREAM, byref: Any = ctypes.byref) -> None:
        if self._stream.release:
            release_stream(self._stream.release)(byref(self._stream))
            self._source.close()

    @property
    def is_closed(self) -> bool:
        """Whether it was closed or handed on."""
        return not self._stream.release

    def close(self) -> None:
        """Releases the stream and its source, if it was not closed or handed on."""
        with self._lock:
            if not self.is_closed:
                self._ask()
                self._release()

    def _ask(self) -> None:
        """Is called with the lock held. RuntimeError inside of another call, when the source uses the stream that reads it."""
        if self._source.is_read and self._source.raised is None:
            raise RuntimeError("a stream is asked by what it is read from")

    def _call(self, prototype: Any, call: str, out: Any) -> None:
        """Makes a call of the stream that fills a struct, and raises the error if it does not."""
        if self.is_closed:
            raise ValueError("the stream is closed, or was handed on")
        self._ask()
        stream, self._source.is_waiting = self._stream, False
        status = prototype(getattr(stream, call))(ctypes.byref(stream), ctypes.byref(out))
        self._source.mind()
        if not status and self._source.raised is None:
            return
        if self._source.is_waiting:
            raise NoDataYet
        if self._source.raised is not None:
            raise self._source.raised
        text = GET_LAST_ERROR(stream.get_last_error)(ctypes.byref(stream))
        raise error_of_stream(status, ctypes.string_at(text).decode(errors="replace") if text else "")

    def schema(self) -> Schema:
        """The schema, which is read if it was not yet."""
        with self._lock:
            return self._read_schema()

    def _read_schema(self) -> Schema:
        if self._schema is None:
            struct = ArrowSchema()
            self._call(GET_SCHEMA, "get_schema", struct)
            try:
                self._schema = Schema(field_of(struct))
            finally:
                RELEASE_SCHEMA(struct.release)(ctypes.byref(struct))
        return self._schema

    def next_batch(self) -> Optional[Batch]:
        """The next batch, or None at the end of the stream."""
        with self._lock:
            schema = self._read_schema()
            # there is one already if a signal ended the call that read it
            if not self._next.array.release:
                self._call(GET_NEXT, "get_next", self._next.array)
            if not self._next.array.release:
                return None
            batch, self._next = Batch(self._next, schema), Owned()
            return batch

    def moved_into_capsule(self) -> object:
        """A capsule that owns the stream from now on; this object is closed then."""
        from ._capsules import stream_capsule
        with self._lock:
            if self.is_closed:
                raise ValueError("the stream is closed, or was handed on: that is done once")
            self._ask()
            return stream_capsule(self._stream, self._source)


class Stream:
    """An Arrow IPC stream, which `arrowflow.open` makes. A loop goes through its batches, each read when it is asked for:

        with arrowflow.open("rows.arrows") as stream:
            for batch in stream:
                print(batch.to_pylist())

    It is handed on completely to a library that takes an object with `__arrow_c_stream__`, and is closed then. Any thread may use
    it: calls wait for one another. A fault raises ArrowflowError, from the call that met it and from each one after it; the
    batches before it were returned. An exception of the source is raised to the caller unchanged, and ends the stream; a library
    that received the stream gets its text.
    """

    def __init__(self, handle: Handle) -> None:
        self._handle = handle

    @property
    def schema(self) -> Schema:
        """The Schema, which is read if it was not yet. It stays when the stream is closed."""
        return self._handle.schema()

    def __iter__(self) -> Iterator[Batch]:
        return self

    def __next__(self) -> Batch:
        batch = self._handle.next_batch()
        if batch is None:
            raise StopIteration
        return batch

    def read_all(self) -> List[Batch]:
        """The remaining batches."""
        return [*self]

    def to_pylist(self) -> List[Dict[str, Any]]:
        """The remaining rows, each a dict of the columns' names and values: see Column.to_pylist."""
        return [row for batch in self for row in batch.to_pylist()]

    @property
    def closed(self) -> bool:
        """Whether it was closed or handed on: reading batches then raises ValueError."""
        return self._handle.is_closed

    def close(self) -> None:
        """Releases the source, and closes a file that was opened by its path. Batches stay."""
        self._handle.close()

    def __enter__(self) -> "Stream":
        return self

    def __exit__(self, *why: object) -> None:
        self.close()

    def __repr__(self) -> str:
        return f"<arrowflow.Stream{', closed' if self.closed else ''}>"

    def __arrow_c_schema__(self) -> object:
        """The schema as a PyCapsule "arrow_schema", for other Arrow libraries; this may be called any number of times."""
        return self.schema.__arrow_c_schema__()

    def __arrow_c_stream__(self, requested_schema: Optional[object] = None) -> object:
        """The stream as a PyCapsule "arrow_array_stream", for other Arrow libraries: the batches that were not read yet. It is
        handed on once, and is closed from then on: a second time raises ValueError. A requested schema is ignored. The schema
        is read first, so that a stream without one raises ArrowflowError here."""
        self.schema
        return self._handle.moved_into_capsule()


def open(source: Input, limits: Limits = STANDARD) -> Stream:
    """Opens an Arrow IPC stream. A file is opened, but nothing is read yet.

    source   the path of a file, as str or os.PathLike; bytes, or anything else with a buffer, which is copied; a binary file,
    which is
             anything with read1(n), read(n) or readinto(buffer), which blocks and is not closed; or an iterable of bytes. What comes
             after the end marker is ignored; of a file some of it may have been read
    limits   how much the stream may ask for, and which types it may have: STANDARD, ALL_TYPES, or Limits(..)

    TypeError for any other source, OSError for a file that cannot be opened.
    """
    limits_in_c(limits)
    return Stream(Handle(source_of(source), limits))
