"""The tables of columns that the tests of arrow_body_writer hold: whether each row is what tools/frames.py makes of its columns.

Each row has the buffers of columns, and what a writer has to make of them. Those buffers are read here, by the columnar format
alone, and their values written again. The bytes under nulls, before the first value and after the last are ignored.
"""
import re
import struct

from tools import frames, typed_columns


def bytes_of(words):
    """The bytes of a buffer: a text, or numbers of one byte or of four each."""
    if words.startswith("'"):
        return words[1:-1].encode()
    held = [int(it) for it in words.lstrip("#").split()]
    return struct.pack(f"<{len(held)}{'B' if words.startswith('#') else 'i'}", *held)


def nodes_of(words):
    return [tuple(map(int, it.split("/"))) for it in words.split()]


def numbers(buffer, form="i"):
    return struct.unpack(f"<{len(buffer) // struct.calcsize(form)}{form}", buffer)


def parts(whole, ends):
    return [whole[start:end] for start, end in zip(ends, ends[1:])]


class Columns:
    """The columns of these types, nodes and buffers; each column takes its own from the front of these."""

    def __init__(self, kinds, words):
        nodes, _, buffers = words.partition(" | ")
        self.kinds, self.nodes = kinds.split(), nodes_of(nodes)
        self.buffers = [bytes_of(it) for it in buffers.split(", ")]

    def column(self):
        """The values of the next column, and the function that makes a column of such values."""
        (kind, _, count), (length, _) = self.kinds.pop(0).rstrip("]").partition("["), self.nodes.pop(0)
        if kind == "null":
            return [None] * length, lambda values: frames.nulls(len(values))
        validity = self.buffers.pop(0)
        sized = {"struct": self.structs, "fixed_size_list": self.fixed_lists, "fixed_size_binary": self.fixed_bytes}
        slots, layout = sized[kind](int(count), length) if kind in sized else self.slots(kind)
        return [slots[at] if not validity or validity[at // 8] >> at % 8 & 1 else None for at in range(length)], layout

    def slots(self, kind):
        """The values in the slots, null or not."""
        buffer = self.buffers.pop(0)
        if kind in ("utf8", "large_utf8"):
            form = "q" if kind == "large_utf8" else "i"
            return parts(self.buffers.pop(0), numbers(buffer, form)), lambda values: frames.strings(values, form)
        if kind == "list":
            items, of = self.column()
            return parts(items, numbers(buffer)), lambda values: frames.lists(values, of)
        return numbers(buffer), frames.numbers

    def fixed_bytes(self, width, length):
        buffer = self.buffers.pop(0)
        return [buffer[at * width:(at + 1) * width] for at in range(length)], lambda values: typed_columns.fixed(values, width)

    def fixed_lists(self, size, length):
        items, of = self.column()
        return [items[at * size:(at + 1) * size] for at in range(length)], lambda values: frames.fixed_lists(values, size, of)

    def structs(self, count, _):
        fields = [self.column() for _ in range(count)]

        def layout(values):
            return frames.structs(values, *(of([it and it[at] for it in values]) for at, (_, of) in enumerate(fields)))
        return list(zip(*(values for values, _ in fields))), layout


def is_written(columns, expected):
    """Whether the columns have these nodes, these buffers at their places, and this many bytes in all, which are 0 elsewhere."""
    align, nodes, buffers, size = expected.split(" | ")
    held = [(int(place), bytes_of(words)) for words, place in (it.split(" @") for it in buffers.split(", ") if it)]
    whole = bytearray(int(size))
    for place, buffer in held:
        whole[place:place + len(buffer)] = buffer
    places = [(place, len(buffer)) for place, buffer in held]
    return frames.body_of(columns, int(align)) == (nodes_of(nodes), places, bytes(whole))


def read(row):
    """The part of a row before the arrow, without the name, and the part after it."""
    of, expected = re.sub(r"\\\n\s*", "", row).split(" => ")
    return of.partition(": ")[2], expected


def is_stored(row):
    """Columns that were read and are stored again."""
    of, expected = read(row)
    held, columns = Columns(*of.split(" | ", 1)), []
    while held.kinds:
        values, layout = held.column()
        columns.append(layout(values))
    return is_written(columns, expected)


def is_tail(row):
    """The values of a dictionary from one on, which came in segments."""
    of, expected = read(row)
    of, start = of.rsplit(" from ", 1)
    kinds, segments = of.split(" | ", 1)
    values = []
    for segment in segments.split(" + "):
        more, layout = Columns(kinds, segment).column()
        values += more
    return is_written([layout(values[int(start):])], expected)


# The tables by their file and their name, with the check for each row.
TABLES = {"crates/arrow_body_tests/src/tests/stored.rt": {"COLUMNS": is_stored, "RESTS": is_tail}}
