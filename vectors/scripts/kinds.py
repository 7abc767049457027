"""Each type of the profile: alone, with nulls and without them, and by a dictionary that is extended by a delta and is replaced;
and for each type a column of nine slots, in which every condition of the layout is broken by itself."""
import re

from tools import typed_columns
from tools.arrow_types import BY_NAME, INT, WITH_OFFSETS
from tools.frames import (END_MARKER, INT32, UTF8, batch, dictionary, dictionary_batch, field, lists, numbers, of_type, schema,
    strings)
from tools.streams import points
from layouts import Conditions, Nine, untold
from raw_frames import stream
from results import CORE

# The last unit of a day.
LAST = [86_399, 86_399_999, 86_399_999_999, 86_399_999_999_999]
DAY_IN_MS = 86_400_000
INDICES = INT.cases
POINT = [field("x", INT32), field("y", UTF8)]
LETTERS = "abcdefghi"


class Kind:
    """A type of tools/arrow_types.py with its parameters, under its printed name or another one: the function that makes its columns,
    two of its values, and nine with the properties of their column."""

    def __init__(self, of, parameters, first, second, nine=None, name=None, below=(), as_column=None, **has):
        form = BY_NAME[of].form(parameters)
        self.name = name or re.sub(r"\W", "_", form.printed).rstrip("_")
        self.words, self.kind = self.name.replace("_", " "), [of_type(of, *parameters), *below]
        self.as_column, self.first, self.second = as_column or typed_columns.column_of(form), first, second
        self.values = list(nine or ([second, first] * 5)[:9])
        width = form.width if form.layout in WITH_OFFSETS else 0
        self.nine = Nine(self.as_column(self.values), width, form.layout, **has)


def integers():
    for bits, signed in INT.cases:
        low, high = (-2 ** (bits - 1), 2 ** (bits - 1) - 1) if signed else (0, 2 ** bits - 1)
        yield Kind("Int", (bits, signed), low, high)


def moments():
    yield Kind("Date", (0,), -1, 20_000)
    yield Kind("Date", (1,), -DAY_IN_MS, 20_000 * DAY_IN_MS)
    for parameters, last in zip(BY_NAME["Time"].cases, LAST):
        yield Kind("Time", parameters, 0, last)
    for unit in range(4):
        yield Kind("Timestamp", (unit, None), -1, 2 ** 62)
    yield Kind("Timestamp", (2, b"Europe/Berlin"), 0, -2 ** 63, name="timestamp_in_a_zone")
    for parameters in BY_NAME["Duration"].cases:
        yield Kind("Duration", parameters, -1, 2 ** 63 - 1)


def others():
    octets, triples = [it.encode() for it in LETTERS], [bytes([at, 0, 255]) for at in range(9)]
    items, words = [[None], *([at] for at in range(1, 9))], [[None], *([it] for it in LETTERS[1:])]
    yield Kind("Null", (), None, None)
    yield Kind("Bool", (), True, False)
    yield Kind("Binary", (), b"\xff\x00", b"", octets)
    yield Kind("Utf8", (), "é€", "", LETTERS)
    yield Kind("LargeBinary", (), b"\x80", b"", octets)
    yield Kind("LargeUtf8", (), "é€", "", LETTERS)
    yield Kind("FixedSizeBinary", (3,), b"\x00\x01\xff", b"abc", triples, name="fixed_size_binary")
    yield Kind("List", (), [1, None], [], items, below=[[field("item", INT32)]], as_column=lambda values: lists(values, numbers),
        validities=(0, 2))
    yield Kind("LargeList", (), ["a", None], [], words, below=[[field("item", UTF8)]],
        as_column=lambda values: typed_columns.large_lists(values, strings), validities=(0, 2))
    yield Kind("Struct_", (), (7, "a"), (None, ""), [(None, "a"), *((at, None) for at in range(1, 9))], below=[POINT], as_column=points,
        validities=(0, 1, 3))


KINDS = [*others(), *integers(), *moments()]


def alone(it):
    """Batches of a column with a null, of no rows, without nulls, and of nine slots."""
    plain, spare, bare = it.nine.batches()
    return {"schema": schema(field("c", *it.kind)), "first": batch(it.as_column([it.first, None, it.second])),
        "empty": batch(it.as_column([]), length=0), "whole": batch(it.as_column([it.second, it.first])), "nine": plain, "spare": spare,
        "bare": bare, "end": END_MARKER}


def by_index(index):
    """The function that makes a column of indices of a width and a sign, and nine of them."""
    form = INT.form(index)
    places = typed_columns.column_of(form)
    return places, Nine(places(list(range(9))), lies=form.width)


def by_a_dictionary(it, index):
    """The first value and a null, then the second in a delta, then only the second, then nine; a batch after each of these."""
    places, nine = by_index(index)
    plain, spare, bare = nine.batches()
    return {"schema": schema(field("k", *it.kind, encoding=dictionary(0, *index))),
        "base": dictionary_batch(0, it.as_column([it.first, None])), "first": batch(places([1, 0, None])),
        "delta": dictionary_batch(0, it.as_column([it.second]), True), "second": batch(places([2, 0])),
        "other": dictionary_batch(0, it.as_column([it.second])), "third": batch(places([0, None])),
        "values": dictionary_batch(0, it.nine.column), "nine": plain, "spare": spare, "bare": bare, "end": END_MARKER}


def all_of(kinds=KINDS):
    """Each type with its index, and the frames of both its streams."""
    for at, it in enumerate(kinds):
        yield it, INDICES[at % 8], alone(it), by_a_dictionary(it, INDICES[at % 8])


def vectors(kinds=KINDS):
    """Each type, of the core or of these, alone and by a dictionary."""
    found = {}
    for it, _, plain, encoded in all_of(kinds):
        found[f"{it.name}_alone"] = (
            f"a column of the type {it.words}, with a null, without rows, without nulls, and of nine slots", b"".join(plain.values()))
        found[f"{it.name}_by_a_dictionary"] = (
            f"a dictionary of the type {it.words} that grows and is then replaced by a shorter one, and by one of nine values",
            b"".join(encoded.values()))
    return found


def untold_vectors():
    """Columns of nine slots of each type by this project's own choices."""
    plain = schema(*(field(it.name, *it.kind) for it in KINDS))
    encoded = schema(*(field(it.name, *it.kind, encoding=dictionary(at, *INDICES[at % 8])) for at, it in enumerate(KINDS)))
    values = [dictionary_batch(at, it.nine.column) for at, it in enumerate(KINDS)]
    about = "of nine slots, whose null counts are not given, whose validities are far before the body, and of no slots"
    return {
        "each_type_untold": (f"a column of each type {about}", stream(plain, *untold([it.nine for it in KINDS]))),
        "each_type_by_a_dictionary_untold": (f"a column by a dictionary of each type {about}", stream(encoded, *values,
            *untold([by_index(INDICES[at % 8])[1] for at, _ in enumerate(KINDS)]))),
    }


def changes(kinds=KINDS, types=CORE):
    """For each type what breaks its layout, as a column of it and as one of indices to it, with a set of types."""
    found = {}
    for it, index, plain, encoded in all_of(kinds):
        for name, nine, its in ((f"{it.name}_alone", it.nine, plain), (f"{it.name}_by_a_dictionary", by_index(index)[1], encoded)):
            found[name] = "each condition of nine slots by itself", name, Conditions(nine, its, types).all()
    return found
