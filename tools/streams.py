"""The frames that tests hold, and streams made of them with dictionaries and batches, written by frames.py.

    python3 -m tools.streams FOLDER    writes each stream to FOLDER/NAME.arrows
"""
import pathlib
import struct
import sys

from tools import custom_metadata, frames
from tools.arrow_types import INT
from tools.frames import (BINARY, BOOL, END_MARKER, INT32, LIST, NULL, STRUCT, UTF8, batch, bools, date, dictionary,
    dictionary_batch, field, integer, lists, nulls, numbers, schema, strings, structs, time, timestamp)

# The offsets of the frames of the growing dictionary, and its end, at an alignment of 8.
GROWING_PLACES = [0, 200, 424, 592, 816, 976, 1208, 1368, 1376]

# The sizes in bytes of some of the written streams.
WRITTEN_SIZES = {"GROWING": 1376, "RESENT": 1384, "SECOND_LEFT_OUT": 992, "FROM_NO_VALUES": 1128, "NUMBERS": 336,
                 "NUMBERS_64": 520}


def letters_schema(align=8):
    """One column `k` of texts, by signed 32-bit indices into dictionary 0."""
    return schema(field("k", UTF8, encoding=dictionary(0)), align=align)


def letters(words, delta=False, align=8):
    return dictionary_batch(0, strings(words), delta, align=align)


def four_fields():
    """A column by a dictionary, a list, a struct, and a timestamp in a zone."""
    return schema(field("k", UTF8, encoding=dictionary(0)),
                  field("l", LIST, [field("item", INT32)], nullable=False),
                  field("s", STRUCT, [field("m", integer(8, False), nullable=False)]),
                  field("t", timestamp(2, "UTC")))


def growing_dictionary(align=8):
    """Three batches; the dictionary has three values, then five by a delta, and is then replaced by four others."""
    return [letters_schema(align), letters("abc", align=align), batch(numbers([0, 1, 2]), align=align),
            letters("de", True, align), batch(numbers([4, 0]), align=align), letters("acde", align=align),
            batch(numbers([1, 3]), align=align), END_MARKER]


def mixed_versions():
    """The growing dictionary, whose schema, first batch, delta and last batch are of version V4."""
    return [frames.as_v4(part) if at in (0, 2, 3, 6) else part for at, part in enumerate(growing_dictionary())]


# Modules of frames: their names, what each is, and its bytes.
LETTERS = {
    "SCHEMA": ("The schema of one column `k` of texts, by signed 32-bit indices into dictionary 0.", letters_schema()),
    "ABC": ("Dictionary 0 is a, b and c.", letters("abc")),
    "FIRST": ("The batch of the indices 0, 1 and 2.", batch(numbers([0, 1, 2]))),
    "DE": ("Dictionary 0 grows by d and e.", letters("de", delta=True)),
    "SECOND": ("The batch of the indices 4 and 0.", batch(numbers([4, 0]))),
    "ACDE": ("Dictionary 0 is a, c, d and e.", letters("acde")),
    "THIRD": ("The batch of the indices 1 and 3.", batch(numbers([1, 3]))),
    "WITH_NULL": ("The batch of the indices 0 and 1, and of a null.", batch(numbers([0, 1, None]))),
    "COMPRESSED": ("Dictionary 0 is a, b and c, in a body that is said to be compressed.",
                   dictionary_batch(0, strings("abc"), compressed=True)),
}

COLUMNS = {
    "TEXTS": ("The schema of one column `t` of texts.", schema(field("t", UTF8))),
    "THREE_TEXTS": ("The batch of `a`, a null and `bc`.", batch(strings(["a", None, "bc"]))),
    "NO_TEXTS": ("The batch of no rows, with one offset.", batch(strings([]))),
    "BITS": ("The schema of one column `b` of truth values.", schema(field("b", BOOL))),
    "FOUR_BITS": ("The batch of true, false, a null and true.", batch(bools([True, False, None, True]))),
    "NO_COLUMNS": ("The schema without columns.", schema()),
    "THREE_ROWS": ("The batch of three rows without columns.", batch(length=3)),
    "LISTS": ("The schema of `l`, lists of signed 32-bit integers, and `t`, texts.",
              schema(field("l", LIST, [field("item", INT32)]), field("t", UTF8))),
    "LIST_ROWS": ("The batch of the list of 1 and 2, a null and the empty list; `a,b`, a null and the empty text.",
                  batch(lists([[1, 2], None, []], numbers), strings(["a,b", None, ""]))),
    "STRUCTS": ("The schema of `s`, structs of one signed 32-bit integer `m`.",
                schema(field("s", STRUCT, [field("m", INT32)]))),
    "STRUCT_ROWS": ("The batch of the struct of 5, and of a null.", batch(structs([(), None], numbers([5, None])))),
    "MANY": ("The schema of nulls, integers, byte strings, dates, times and timestamps.",
             schema(field("a", NULL), field("b", integer(8, False)), field("c", integer(64, True)), field("d", BINARY),
                    field("e", date(0)), field("f", time(2)), field("g", timestamp(1, "UTC")))),
    "MANY_ROWS": ("A batch of two rows of them.",
                  batch(nulls(2), numbers([200, None], "B"), numbers([None, -5], "q"), strings([b"\xff\x00", b""]),
                        numbers([-1, 20000]), numbers([86399999999, 0], "q"), numbers([None, 1], "q"))),
    "COMPRESSED": ("The batch of 1, a null and 3, in a body that is declared to be compressed.",
                   batch(numbers([1, None, 3]), compressed=True)),
}

ENCODED = {
    "MIXED": ("The schema of `k`, texts by signed 32-bit indices into dictionary 0, and `t`, texts.",
              schema(field("k", UTF8, encoding=dictionary(0)), field("t", UTF8))),
    "MIXED_ROWS": ("The batch of the indices 2 and 0, and a null; `x`, a null and `y`.",
                   batch(numbers([2, 0, None]), strings(["x", None, "y"]))),
    "SHARED": ("The schema of `k` and `i`, texts by indices of 8 and 16 bits into dictionary 5, and between them `j`, "
               "into dictionary -2.",
               schema(field("k", UTF8, encoding=dictionary(5, 8, False)), field("j", UTF8, encoding=dictionary(-2)),
                      field("i", UTF8, encoding=dictionary(5, 16, True)))),
    "ANIMALS": ("Dictionary 5 is `cat` and `dog`.", dictionary_batch(5, strings(["cat", "dog"]))),
    "COLORS": ("Dictionary -2 is `red`.", dictionary_batch(-2, strings(["red"]))),
    "SHARED_ROWS": ("The batch of the indices 1 and 0; 0 and a null; a null and 1.",
                    batch(numbers([1, 0], "B"), numbers([0, None]), numbers([None, 1], "h"))),
    "SIZES": ("The schema of `k`, signed 32-bit integers by signed 8-bit indices into dictionary 0.",
              schema(field("k", INT32, encoding=dictionary(0, 8, True)))),
    "THREE_SIZES": ("Dictionary 0 is 7, a null and 900.", dictionary_batch(0, numbers([7, None, 900]))),
    "SIZE_ROWS": ("The batch of the indices 2, 1 and 0.", batch(numbers([2, 1, 0], "b"))),
    "GROUPS": ("The schema of `g`, lists of signed 32-bit integers by signed 32-bit indices into dictionary 0.",
               schema(field("g", LIST, [field("item", INT32)], encoding=dictionary(0)))),
    "TWO_GROUPS": ("Dictionary 0 is the list of 1 and 2, and the empty list.",
                   dictionary_batch(0, lists([[1, 2], []], numbers))),
    "GROUP_ROWS": ("The batch of the indices 1 and 0, and a null.", batch(numbers([1, 0, None]))),
    "BELOW": ("The schema of `l`, lists, and `s`, structs, of texts by signed 32-bit indices into dictionary 0.",
              schema(field("l", LIST, [field("item", UTF8, encoding=dictionary(0))]),
                     field("s", STRUCT, [field("m", UTF8, encoding=dictionary(0))]))),
    "BELOW_ROWS": ("The batch of the list of the indices 2 and 0, and a null; structs of the index 1 and of a null.",
                   batch(lists([[2, 0], None], numbers), structs([(), ()], numbers([1, None])))),
}

# The names of the columns of numbers below, and the formats of the module struct for them.
NUMBERS = [(f"{'i' if signed else 'u'}{bits}", integer(bits, signed), INT.form((bits, signed)).slot) for bits, signed in INT.cases]
MOMENTS = [("days", date(0), "i"), ("dates", date(1), "q"), ("s", time(0), "i"), ("ms", time(1), "i"), ("us", time(2), "q"),
           ("ns", time(3), "q"), *((f"at {unit}", timestamp(unit), "q") for unit in range(4))]


def extremes(form):
    """The least and the greatest number of a format, and a null."""
    bits = struct.calcsize(f"<{form}") * 8
    low, high = (0, 2 ** bits - 1) if form.isupper() else (-2 ** (bits - 1), 2 ** (bits - 1) - 1)
    return numbers([low, high, None], form)


def points(values):
    """Structs of `x`, signed 32-bit integers, and `y`, texts, of pairs."""
    pairs = [value or (None, None) for value in values]
    return structs([value if value is None else () for value in values], numbers([x for x, _ in pairs]),
                   strings([y for _, y in pairs]))


POINT = field("point", STRUCT, [field("x", INT32), field("y", UTF8)])

# Streams without dictionaries that only the tests of reports hold.
REPORTED = {
    "EXTREMES": ("Columns of numbers, dates, times and timestamps: the least and the greatest of each width, and a null.",
                 schema(*(field(name, kind) for name, kind, _ in NUMBERS + MOMENTS))
                 + batch(*(extremes(form) for _, _, form in NUMBERS + MOMENTS)) + END_MARKER),
    "QUOTED": ("Texts of which some stand in quotes, in a column whose name does, and byte strings.",
               schema(field('a "b"', UTF8), field("c", BINARY))
               + batch(strings(['say "no"', "a,b", "a\rb", "a\nb", "a;b c", "é", None]),
                       strings([b"\x00", b"\xff\x0a", b"", None, b",", b"abc", b""])) + END_MARKER),
    "NESTED": ("Lists of structs of a number `x` and a text `y`, with nulls on each level.",
               schema(field("g", LIST, [POINT]))
               + batch(lists([[(1, "a;b"), None, (None, None)], [], None], points)) + END_MARKER),
    "EMPTY_BATCHES": ("Batches of no text, three, none and three.",
                      b"".join(COLUMNS[name][1] for name in "TEXTS NO_TEXTS THREE_TEXTS NO_TEXTS THREE_TEXTS".split())
                      + END_MARKER),
}

# The modules of frames that the tests of arrow_stream_reader hold, and the subject of each.
TESTED = {
    "letters": ("Frames of a column of letters by their numbers in a dictionary, which grows and is then replaced.",
                LETTERS),
    "columns": ("Frames of columns without dictionaries: schemas, and batches of each.", COLUMNS),
    "encoded": ("Frames of columns with dictionaries of other forms: beside a plain column, of two ids, of numbers, of "
                "lists, and below lists and structs.", ENCODED),
}


def of_these(name, words):
    """The subject of a module of TESTED, and those of its frames that are named."""
    about, held = TESTED[name]
    return about, {word: held[word] for word in words.split()}


def joined(held, names):
    """The frames of these names, one after the other."""
    return b"".join(END_MARKER if name == "END" else held[name][1] for name in names.split())


def encoded(names):
    """A stream of frames of dictionaries of other forms, or of letters."""
    return b"".join(joined(ENCODED if name in ENCODED else LETTERS, name) for name in names.split())


def streams():
    """Streams keyed by name; those that end without an end marker have a fault."""
    abc = joined(LETTERS, "SCHEMA ABC")
    under_a_null = frames.Column([(3, 1)], [b"\x03", struct.pack("<3i", 0, 1, 3)])
    return {
        "growing_dictionary": b"".join(growing_dictionary()),
        "growing_dictionary_64": b"".join(growing_dictionary(64)),
        "other_letters": b"".join(other_letters()),
        "one_batch": frames.ONE_COLUMN + frames.ONE_BATCH + END_MARKER,
        "all_null_indices": letters_schema() + batch(numbers([None, None, None])) + END_MARKER,
        "index_above": abc + batch(numbers([0, 1, 3])),
        "index_below": abc + batch(numbers([0, 1, -1])),
        "null_index_above": abc + batch(under_a_null) + END_MARKER,
        "delta_without_base": joined(LETTERS, "SCHEMA DE"),
        "unknown_id": letters_schema() + dictionary_batch(7, strings("abc")),
        "no_texts": joined(COLUMNS, "TEXTS NO_TEXTS END"),
        "texts": joined(COLUMNS, "TEXTS THREE_TEXTS END"),
        "bits": joined(COLUMNS, "BITS FOUR_BITS END"),
        "no_columns": joined(COLUMNS, "NO_COLUMNS THREE_ROWS END"),
        "lists": joined(COLUMNS, "LISTS LIST_ROWS END"),
        "structs": joined(COLUMNS, "STRUCTS STRUCT_ROWS END"),
        "many_types": joined(COLUMNS, "MANY MANY_ROWS END"),
        "mixed": encoded("MIXED ABC MIXED_ROWS END"),
        "shared": encoded("SHARED ANIMALS COLORS SHARED_ROWS END"),
        "sizes": encoded("SIZES THREE_SIZES SIZE_ROWS END"),
        "groups": encoded("GROUPS TWO_GROUPS GROUP_ROWS END"),
        "below": encoded("BELOW ABC BELOW_ROWS END"),
        "compressed_batch": frames.ONE_COLUMN + joined(COLUMNS, "COMPRESSED"),
        "compressed_dictionary": joined(LETTERS, "SCHEMA COMPRESSED"),
    }


def reported():
    """The streams that the tests of reports hold, with a description of each."""
    laid_out = streams()
    held = {
        "ONE_BATCH": ("One batch of a column of 1, a null and 3.", laid_out["one_batch"]),
        "NO_COLUMNS": ("One batch of three rows without columns.", laid_out["no_columns"]),
        "LISTS": ("One batch of a column of lists and one of texts.", laid_out["lists"]),
        "STRUCTS": ("One batch of a column of structs.", laid_out["structs"]),
        "BITS": ("One batch of a column of truth values.", laid_out["bits"]),
        "MANY_TYPES": ("One batch of nulls, integers, byte strings, dates, times and timestamps.", laid_out["many_types"]),
        "SHARED": ("Three columns of texts by indices of two dictionaries.", laid_out["shared"]),
        "SIZES": ("A column of numbers by indices of a dictionary.", laid_out["sizes"]),
        "GROUPS": ("A column of lists by indices of a dictionary.", laid_out["groups"]),
        "BELOW": ("Lists and structs of texts by indices of a dictionary.", laid_out["below"]),
    }
    return held | REPORTED | noted_streams()


def noted_streams():
    """Streams with pairs on all levels."""
    return {"NOTED": ("Two rows of a schema with pairs on all levels, at an alignment of 8.", custom_metadata.stream()),
            "NOTED_64": ("The same at an alignment of 64.", custom_metadata.stream(64))}


def resent_dictionary():
    """The growing dictionary, with all its values each time."""
    return [letters_schema(), letters("abc"), batch(numbers([0, 1, 2])), letters("abcde"), batch(numbers([4, 0])),
            letters("acde"), batch(numbers([1, 3])), END_MARKER]


def other_letters():
    """Another column of texts, by unsigned 8-bit indices into dictionary 0."""
    return [schema(field("other", UTF8, encoding=dictionary(0, 8, False))), letters("xy"),
            batch(numbers([1, 0, 1], "B")), END_MARKER]


def list_after_a_gap():
    """One list, whose one item is the second one."""
    items = numbers([7, 8])
    places = struct.pack("<2i", 1, 2)
    column = frames.Column([(1, 0)] + items.nodes, [b"", places] + items.buffers)
    return [schema(field("l", LIST, [field("item", INT32)])), batch(column, length=1), END_MARKER]


def hiding(words, hidden):
    """Texts; under each null are these bytes."""
    shown = [hidden if word is None else word for word in words]
    return frames.Column([frames.node(words)], [frames.validity(words), frames.offsets(shown), "".join(shown).encode()])


def closed_gap():
    """The same without the item that no list refers to."""
    return [list_after_a_gap()[0], batch(lists([[8]], numbers)), END_MARKER]


def long_lists():
    """Lists of nulls by a dictionary of two, whose items are 2^31 in all: the first list has as many as 32 bits can count, and
    the second one comes in a delta."""
    def one_list(count):
        return dictionary_batch(0, frames.Column([(1, 0), (count, count)], [b"", struct.pack("<2i", 0, count)]), count == 1)
    return [schema(field("k", LIST, [field("item", NULL)], encoding=dictionary(0))), one_list(2 ** 31 - 1), one_list(1),
            batch(numbers([1]))]


def written():
    """The streams that the tests of arrow_stream_writer and arrowflow_session hold, with a description of each: what is read, and
    what has to be written for it."""
    opening = b"".join(growing_dictionary()[:3])
    closing = b"".join(growing_dictionary()[5:])
    indices = batch(numbers([0, 1]))
    a_null = joined(LETTERS, "SCHEMA"), letters(["a", None]), indices
    two_columns = schema(field("k", UTF8, encoding=dictionary(0)), field("j", UTF8, encoding=dictionary(0)))
    one_batch = [[schema(field("n", INT32), align=align), batch(numbers([1, None, 3]), align=align), END_MARKER]
                 for align in (8, 64)]
    return {
        "GROWING": ("Three batches of letters, whose dictionary grows by a delta and is then replaced.",
                    b"".join(growing_dictionary())),
        "GROWING_64": ("The same at an alignment of 64.", b"".join(growing_dictionary(64))),
        "RESENT": ("The same at an alignment of 8, with the dictionary that grew sent once more.",
                   b"".join(resent_dictionary())),
        "SECOND_LEFT_OUT": ("The same without the second batch: the third one's dictionary is another one than the first one's.",
                            opening + closing),
        "FROM_NO_VALUES": ("Two batches of nulls, by the dictionary of no values, and one of its first letter.",
                           b"".join([letters_schema(), letters(""), batch(numbers([None, None])), batch(numbers([None, None])),
                                     letters("a", delta=True), batch(numbers([0])), END_MARKER])),
        "HIDING": ("Two batches by the list of `a` and a null, under which other bytes are hidden in each.",
                   a_null[0] + dictionary_batch(0, hiding(["a", None], "x")) + indices
                   + dictionary_batch(0, hiding(["a", None], "yz")) + indices + END_MARKER),
        "TIDY": ("The same without the hidden bytes, and without the second list, which is equal.",
                 b"".join(a_null) + indices + END_MARKER),
        "EMPTY": ("The schema of letters, and no batch.", joined(LETTERS, "SCHEMA END")),
        "NO_COLUMNS": ("One batch of three rows without columns.", joined(COLUMNS, "NO_COLUMNS THREE_ROWS END")),
        "NUMBERS": ("One batch of 1, a null and 3, at an alignment of 8.", b"".join(one_batch[0])),
        "NUMBERS_64": ("The same at an alignment of 64.", b"".join(one_batch[1])),
        "OTHER": ("One batch of letters by another schema, with the same id.", b"".join(other_letters())),
        "TWICE_X": ("One batch of `x` in two columns by one dictionary.",
                    two_columns + letters("x") + batch(numbers([0]), numbers([0])) + END_MARKER),
        "GAP": ("One list of the second of two items.", b"".join(list_after_a_gap())),
        "CLOSED_GAP": ("The same without the first item.", b"".join(closed_gap())),
        "SHARED": ("Three columns of texts by indices of two dictionaries.", encoded("SHARED ANIMALS COLORS SHARED_ROWS END")),
        "NESTED": ("Lists and structs of letters by one dictionary.", encoded("BELOW ABC BELOW_ROWS END")),
        "MANY_TYPES": ("One batch of nulls, integers, byte strings, dates, times and timestamps.",
                       joined(COLUMNS, "MANY MANY_ROWS END")),
    } | noted_streams()


def check():
    """Ends the program if the frames of the growing dictionary are not at the offsets where they should be."""
    frames.check()
    places = [0]
    for part in growing_dictionary():
        places.append(places[-1] + len(part))
    if places != GROWING_PLACES:
        sys.exit(f"the frames of the growing dictionary stand at {places}")
    sizes = {name: len(stream) for name, (_, stream) in written().items() if name in WRITTEN_SIZES}
    if sizes != WRITTEN_SIZES:
        sys.exit(f"streams that are written have the sizes {sizes}")


if __name__ == "__main__":
    check()
    if len(sys.argv) != 2:
        sys.exit(__doc__)
    for name, stream in streams().items():
        (pathlib.Path(sys.argv[1]) / f"{name}.arrows").write_bytes(stream)
