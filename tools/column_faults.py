"""Streams that are rejected for the body of a record batch, each with the column at fault, which is put there by hand."""
import itertools
import struct

from tools import frames

# The columns by the kind of their fault: the type, the encoding, two slots that are valid and two that are not.
KINDS = {
    "Text": (frames.UTF8, None, frames.strings(["fine", None]), frames.strings([b"fine", b"\xff"])),
    "Index": (frames.INT32, frames.dictionary(1), frames.numbers([1, 0]), frames.numbers([1, 2])),
    "Layout": (frames.INT32, None, frames.numbers([1, 0]), frames.Column([(2, 0)], [b"", bytes(4)])),
}
# Where the fault is in its column.
PLACES = ("alone", "in a list", "in a struct")
# Names of columns, and how an error shows them: at most 64 bytes, and a question mark for each control character.
NAMES = {"": "", "city": "city", "a\nb\x7f\"": "a?b?\"", "e" * 64: "e" * 64, "e" * 65: "e" * 64, "\u00e9" * 40: "\u00e9" * 31}


def field_of(name, kind, place):
    """The field of a column that has a fault of this kind at this place."""
    of, encoding, _, _ = KINDS[kind]
    inner = frames.field(name if place == "alone" else "item", frames.UTF8 if encoding else of, encoding=encoding)
    return inner if place == "alone" else frames.field(name, frames.LIST if place == "in a list" else frames.STRUCT, [inner])


def column_of(kind, place, is_valid):
    """Two slots of that column."""
    column = KINDS[kind][2 if is_valid else 3]
    if place == "in a list":
        return frames.Column([(2, 0), *column.nodes], [b"", struct.pack("<3i", 0, 1, 2), *column.buffers])
    return column if place == "alone" else frames.structs([1, 1], column)


def stream_of(columns, batches):
    """A stream of columns, each a name, a kind and a place, and of batches, each given by the numbers of its columns at fault."""
    parts = [frames.schema(*(field_of(*it) for it in columns))]
    if any(kind == "Index" for _, kind, _ in columns):
        parts.append(frames.dictionary_batch(1, frames.strings(["a", "b"])))
    for bad in batches:
        parts.append(frames.batch(*(column_of(kind, place, k not in bad) for k, (_, kind, place) in enumerate(columns))))
    return b"".join([*parts, frames.END_MARKER])


def streams():
    """Each stream with the kind of its fault, the number of the column, and the part of the column's name that the error
    shows."""
    for kind, place, count in itertools.product(KINDS, PLACES, range(1, 5)):
        columns = [(f"c{k}", kind, place) for k in range(count)]
        for k in range(count):
            yield stream_of(columns, [(), (k,)]), kind, k, f"c{k}"
            yield stream_of(columns, [range(k, count)]), kind, k, f"c{k}"
    for name, as_shown in NAMES.items():
        for kind in KINDS:
            yield stream_of([("first", "Text", "alone"), (name, kind, "alone")], [(), (1,), (0, 1)]), kind, 1, as_shown
