"""Batches and their columns, which own their memory."""
from __future__ import annotations

import ctypes
import struct
from typing import Any, Dict, Iterator, List, Optional, Tuple, Union

from ._formats import code_of, offset_code_of, offset_width_of, width_of
from ._library import ArrowArray, RELEASE_ARRAY
from ._schema import Field, Schema, found
from ._values import values_in


class Owned:
    """An ArrowArray of the library, which is released when nothing refers to it any more, on whatever thread that is."""

    __slots__ = ("array",)

    def __init__(self) -> None:
        self.array = ArrowArray()

    def __del__(self, release_array: Any = RELEASE_ARRAY, byref: Any = ctypes.byref) -> None:
        array = getattr(self, "array", None)
        if array is not None and array.release:
            release_array(array.release)(byref(array))


class Column:
    """A column of a batch, or a column below one: the child of a list, a field of a struct, the values of a dictionary. It keeps the
    memory of its batch alive. `len(column)` is the number of slots, `column[3]` the value in a slot, and a loop iterates over all values.
    `field` is its Field."""

    def __init__(self, owned: Owned, array: ArrowArray, field: Field) -> None:
        self._owned, self._array, self.field = owned, array, field

    @property
    def name(self) -> str:
        """The name of the field."""
        return self.field.name

    @property
    def type(self) -> str:
        """The type in words, as in Field.type."""
        return self.field.type

    @property
    def format(self) -> str:
        """The format string of the Arrow C data interface, which says how slots are stored in the buffers."""
        return self.field.format

    def __len__(self) -> int:
        return int(self._array.length)

    @property
    def children(self) -> "List[Column]":
        """The columns below it: a list or a map has one, whose slots are delimited by the offsets; a fixed-size list has one, with the
        same number of slots for each list; a struct has one for each field."""
        return [Column(self._owned, self._array.children[k].contents, it) for k, it in enumerate(self.field.children)]

    @property
    def dictionary(self) -> "Optional[Column]":
        """The values of its dictionary as a column, which the slots are indices into; None if it is not dictionary-encoded."""
        return Column(self._owned, self._array.dictionary.contents, self.field.dictionary) if self.field.dictionary else None

    @property
    def null_count(self) -> int:
        """The number of nulls. They are counted when this is called."""
        if self.format == "n":
            return len(self)
        return 0 if (valid := self._valid(0, len(self))) is None else valid.count(False)

    def buffers(self) -> List[Optional[memoryview]]:
        """The buffers in the order of the Arrow columnar format, as read-only memoryviews of bytes. A Null column has none. Otherwise the
        first is the validity bitmap, or None if no slot is null. Then come: for numbers, intervals, decimals, bits and byte strings of
        fixed size the values; for lists and maps the offsets; for fixed-size lists and structs nothing more; for texts and byte strings
        the offsets and the bytes; for a dictionary-encoded column the indices. Numbers are little-endian and begin at a multiple of 64
        bytes, so `view.cast("i")` reads numbers of 32 bits. A view, and anything made from it, keeps the memory alive, even after the
        column, the batch and the stream are gone."""
        return [self._view(k, size) for k, size in enumerate(self._sizes())]

    def to_pylist(self) -> List[Any]:
        """The values as Python objects: None, bool, int, float, bytes, str, a list for a list or a fixed-size list, a dict for a struct,
        a list of (key, value) for a map; indices are looked up in the dictionary. Dates become a datetime.date, times a datetime.time,
        timestamps a datetime.datetime and durations a datetime.timedelta if that is exact, otherwise the number of units: for nanoseconds
        that are not a whole number of microseconds, for years after 9999, and for a time outside of a day. A timestamp with a zone has
        that zone if `zoneinfo` knows it or it is an offset such as "+02:00", and otherwise is in UTC. An interval in months is the number
        of months, any other one a tuple of its numbers, unchanged: (days, milliseconds) or (months, days, nanoseconds). A decimal is a
        decimal.Decimal with all of its digits, whose exponent is the negated scale. Raises ValueError if two fields of a struct have the
        same name."""
        return values_in(self, 0, len(self))

    def __getitem__(self, slot: int) -> Any:
        if not isinstance(slot, int):
            raise TypeError(f"a slot is a number, not {type(slot).__name__}")
        at = slot + len(self) if slot < 0 else slot
        if not 0 <= at < len(self):
            raise IndexError(f"no slot {slot} of {len(self)}")
        return values_in(self, at, at + 1)[0]

    def __iter__(self) -> Iterator[Any]:
        return iter(self.to_pylist())

    def __repr__(self) -> str:
        return f"<arrowflow.Column {self.name!r}: {self.type}, {len(self)} slots>"

    def __arrow_c_schema__(self) -> object:
        """The field as a PyCapsule "arrow_schema", for other Arrow libraries."""
        return self.field.__arrow_c_schema__()

    def __arrow_c_array__(self, requested_schema: Optional[object] = None) -> Tuple[object, object]:
        """The column as PyCapsules "arrow_schema" and "arrow_array", which share its memory. A requested schema is ignored."""
        from ._capsules import array_capsules
        return array_capsules(self._owned, self._array, self.field)

    # ---- the contents of the buffers

    def _sizes(self) -> List[int]:
        """How many bytes the slots take in each buffer."""
        format, slots = self.format, len(self)
        if format == "n":
            return []
        sizes = [(slots + 7) // 8]
        if offset_code_of(format):
            sizes.append(offset_width_of(format) * (slots + 1))
            return sizes if format.startswith("+") else [*sizes, self._offsets(slots, slots)[0]]
        if format == "b":
            return sizes * 2
        return sizes if format.startswith("+") else [*sizes, width_of(format) * slots]

    def _view(self, number: int, size: int) -> Optional[memoryview]:
        """This many bytes of a buffer, as a view that keeps its owner alive; None for a validity bitmap that does not exist."""
        at = self._array.buffers[number]
        if not at or not size:
            return None if number == 0 and not at else memoryview(b"")
        block = (ctypes.c_ubyte * size).from_address(at)
        block.owned = self._owned  # type: ignore[attr-defined]
        return memoryview(block).cast("B").toreadonly()

    def _raw(self, number: int, start: int, stop: int) -> bytes:
        """A copy of the bytes of a buffer from one offset up to another."""
        return ctypes.string_at(self._array.buffers[number] + start, stop - start) if start < stop else b""

    def _bits(self, number: int, start: int, stop: int) -> List[bool]:
        """The bits of a buffer from one index up to another."""
        first = start // 8
        flat = [byte >> k & 1 == 1 for byte in self._raw(number, first, (stop + 7) // 8) for k in range(8)]
        return flat[start - first * 8:stop - first * 8]

    def _valid(self, start: int, stop: int) -> Optional[List[bool]]:
        """Which of these slots are not null; None if the column has no validity bitmap."""
        return self._bits(0, start, stop) if self._array.n_buffers and self._array.buffers[0] else None

    def _numbers(self, start: int, stop: int) -> Tuple[Any, ...]:
        """The numbers in these slots."""
        width = width_of(self.format)
        return struct.unpack(f"<{stop - start}{code_of(self.format)}", self._raw(1, width * start, width * stop))

    def _offsets(self, start: int, stop: int) -> Tuple[int, ...]:
        """The offsets from one index up to and including another."""
        width, count = offset_width_of(self.format), stop + 1 - start
        return struct.unpack(f"<{count}{offset_code_of(self.format)}", self._raw(1, width * start, width * (stop + 1)))


class Batch:
    """A record batch. It owns its memory: it stays valid whatever happens to the stream, and may be used on any thread. `schema` is the
    Schema of its stream."""

    def __init__(self, owned: Owned, schema: Schema) -> None:
        self._owned, self.schema = owned, schema

    @property
    def num_rows(self) -> int:
        """The number of rows, which is also len(batch)."""
        return int(self._owned.array.length)

    @property
    def num_columns(self) -> int:
        """The number of columns."""
        return len(self.schema)

    @property
    def columns(self) -> List[Column]:
        """All columns."""
        return self._whole().children

    def column(self, which: Union[int, str]) -> Column:
        """The column with this index, from 0 or, if it is negative, counted from the end, or with this name. Raises IndexError if there
        is no such index, KeyError for a name that no column or several columns have."""
        number = found(range(len(self.schema)), self.schema.names, which)
        return Column(self._owned, self._owned.array.children[number].contents, self.schema.fields[number])

    def to_pylist(self) -> List[Dict[str, Any]]:
        """The rows, each a dict of the columns' names and values, which are those of Column.to_pylist. Raises ValueError if two columns
        have the same name: in this case get the values of each column. A batch without columns gives as many empty dicts as it has rows:
        `max_rows` limits them."""
        return values_in(self._whole(), 0, self.num_rows)

    def __len__(self) -> int:
        return self.num_rows

    def __repr__(self) -> str:
        return f"<arrowflow.Batch of {self.num_rows} rows and {self.num_columns} columns>"

    def _whole(self) -> Column:
        """The batch as a column of structs."""
        return Column(self._owned, self._owned.array, self.schema._root)

    def __arrow_c_schema__(self) -> object:
        """The schema as a PyCapsule "arrow_schema", for other Arrow libraries."""
        return self.schema.__arrow_c_schema__()

    def __arrow_c_array__(self, requested_schema: Optional[object] = None) -> Tuple[object, object]:
        """The batch as PyCapsules "arrow_schema" and "arrow_array", which share its memory; it may be called any number of times. A
        requested schema is ignored."""
        return self._whole().__arrow_c_array__(requested_schema)
