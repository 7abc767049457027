"""A reader that takes the pieces of a stream."""
from __future__ import annotations

from typing import List, Optional

from ._batches import Batch
from ._errors import ArrowflowError
from ._limits import STANDARD, Limits
from ._schema import Schema
from ._sources import Data, NoDataYet, OfFed, bytes_of
from ._stream import Handle


class Reader:
    """Reads a stream whose pieces arrive one after another, as from a socket: `feed` returns the batches that a piece completes.

        with arrowflow.Reader() as reader:
            for piece in pieces:
                for batch in reader.feed(piece):
                    print(batch.to_pylist())
            reader.end()

    How a stream is cut into pieces has no effect on the batches. Any thread may use it: calls wait for one another. Bytes after an end
    marker are ignored.
    """

    def __init__(self, limits: Limits = STANDARD) -> None:
        self._fed = OfFed()
        self._handle = Handle(self._fed, limits)
        self._ready: List[Batch] = []

    @property
    def schema(self) -> Optional[Schema]:
        """The Schema, or None if its message is not complete yet. Raises ArrowflowError if there was a fault before it."""
        try:
            return self._handle.schema()
        except NoDataYet:
            return None

    def feed(self, piece: Data) -> List[Batch]:
        """Reads a piece, which is copied if it is not of the type bytes, and returns the batches that it completes. If there are some
        before a fault they are returned, and the next call raises ArrowflowError; otherwise this call raises it. After a MemoryError no
        batch is lost: the next call, even feed(b""), reads on."""
        data = bytes_of(piece)
        if self._fed.is_ended:
            raise ValueError("the reader was told that the stream has ended")
        self._fed.feed(data)
        try:
            self._read_on()
        except ArrowflowError:
            self._fed.clear()
            if not self._ready:
                raise
        return self._taken()

    def end(self) -> List[Batch]:
        """Ends the stream. Raises ArrowflowError if it cannot end here, because it ended inside a message or before a schema, or if it
        has a fault. Returns the batches that were not returned yet, which there are only after a MemoryError."""
        self._fed.is_ended = True
        self._read_on()
        return self._taken()

    def close(self) -> None:
        """Frees what the reader holds. Passing it pieces afterwards raises ValueError; batches stay valid."""
        self._handle.close()

    def __enter__(self) -> "Reader":
        return self

    def __exit__(self, *why: object) -> None:
        self.close()

    def _read_on(self) -> None:
        """Reads the pieces that were passed."""
        try:
            while (batch := self._handle.next_batch()) is not None:
                self._ready.append(batch)
        except NoDataYet:
            return
        # the bytes after the end marker
        self._fed.clear()

    def _taken(self) -> List[Batch]:
        batches, self._ready = self._ready, []
        return batches
