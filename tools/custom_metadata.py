"""Schemas and messages with custom metadata, written by frames.py: pairs of keys and values on a schema, on its fields on all
levels, and on messages. Some keys occur more than once, some keys and values are empty, absent or not UTF-8.
"""
from tools.frames import (BOOL, END_MARKER, INT32, LARGE_LIST, LIST, STRUCT, UTF8, batch, body_of, bools, dictionary,
    dictionary_batch, field, frame, integer, lists, metadata_in, numbers, record_batch, scalar, schema, strings, structs, table,
    text, timestamp, vector)
from tools.typed_columns import large_lists

PAIR = [("k", "v")]

# The pairs of the schema below and of its fields.
AT_SCHEMA = [("origin", "here"), ("", ""), ("origin", "there")]
AT_K, AT_ITEM = [(b"\xff\xfe", b"\0\x80")], [("unit", "m"), ("unit", "s"), ("unit", "m")]
AT_WIDE, AT_WIDE_ITEM = [("", "w")], [("w", "")]
AT_M, AT_DEEPEST = [("m", b"\xc3")], [("deep", "est")]


def levels(align=8):
    """Pairs on the schema, on a column by a dictionary, below a list and a large list, on these, and below a list in a struct."""
    inner = field("n", LIST, [field("item", BOOL, noted=AT_DEEPEST)])
    return schema(field("k", UTF8, encoding=dictionary(0), noted=AT_K),
                  field("l", LIST, [field("item", INT32, noted=AT_ITEM)]),
                  field("w", LARGE_LIST, [field("item", integer(64, True), noted=AT_WIDE_ITEM)], noted=AT_WIDE),
                  field("s", STRUCT, [field("m", integer(8, False), noted=AT_M), inner], noted=PAIR),
                  field("t", timestamp(2, "UTC")), align=align, noted=AT_SCHEMA)


def stream(align=8):
    """Two rows of it."""
    listed = structs([(), None], numbers([7, None], "B"), lists([[True], None], bools))
    rows = batch(numbers([1, None]), lists([[1, 2], None], numbers), large_lists([[], [-5]], lambda items: numbers(items, "q")),
                 listed, numbers([1, None], "q"), align=align)
    return b"".join([levels(align), dictionary_batch(0, strings("ab"), align=align), rows, END_MARKER])


ABSENT = [(None, "v"), ("k", None), (None, None)]
FILLED = [("", "v"), ("k", ""), ("", "")]


def numbers_with(noted=(), noted_column=()):
    """The schema of one column `n` of signed 32-bit integers, with pairs of its own and of the column."""
    return schema(field("n", INT32, noted=noted_column), noted=noted)


def no_pairs():
    """The same, whose schema and whose column each have a vector of no pairs."""
    code, int32 = INT32
    column = table(text("n"), scalar("B", 1), scalar("B", code), int32, None, vector([]), vector([]))
    return frame(1, table(scalar("h", 0), vector([column]), vector([])))


def shared():
    """Two columns of lists by one dictionary, whose items have other pairs."""
    return schema(field("a", LIST, [field("item", INT32, noted=PAIR)], encoding=dictionary(7)),
                  field("b", LIST, [field("item", INT32)], encoding=dictionary(7), noted=PAIR))


def message(noted):
    """The same, with pairs on the message."""
    return frame(1, table(scalar("h", 0), vector([field("n", INT32)])), noted=noted)


def rows_with(noted):
    """The batch of 1, a null and 3 for it, with pairs on the message."""
    column = numbers([1, None, 3])
    nodes, places, body = body_of([column])
    return frame(3, record_batch(3, nodes, places), body, noted=noted)


def held_metadata():
    """The metadata that the tests of arrow_meta_reader hold."""
    return {
        "ROWS": ("The batch of 1, a null and 3.", metadata_in(batch(numbers([1, None, 3])))),
        "WORDS": ("Dictionary 0 is three texts.", metadata_in(dictionary_batch(0, strings("abc")))),
        **{name: (meaning, metadata_in(held)) for name, (meaning, held) in held_frames().items() if name != "ROWS_AT_MESSAGE"},
    }


def held_frames():
    """Frames with pairs and without them."""
    return {
        "PLAIN": ("One nullable column `n` of signed 32-bit integers.", numbers_with()),
        "AT_SCHEMA": ("The schema of `n`, with the pair of `k` and `v`.", numbers_with(PAIR)),
        "AT_COLUMN": ("The same pair at the column.", numbers_with((), PAIR)),
        "AT_BOTH": ("The column, with this pair at the schema and at itself.", numbers_with(PAIR, PAIR)),
        "AT_MESSAGE": ("The same pair at the message.", message(PAIR)),
        "ROWS_AT_MESSAGE": ("The batch of 1, a null and 3, with the same pair at the message.", rows_with(PAIR)),
        "NO_PAIRS": ("The column, if schema and column each have a vector of no pairs.", no_pairs()),
        "ABSENT": ("The column, with three pairs: without a key, without a value, and without both.", numbers_with((), ABSENT)),
        "FILLED": ("The same, with an empty text in place of each of them.", numbers_with((), FILLED)),
        "LEVELS": ("Pairs at the schema, at columns, and at fields below a list, a large list, a struct and a list in it.", levels()),
        "SHARED": ("Columns `a` and `b` of lists by dictionary 7: the item of `a` has a pair, and `b` has it itself.", shared()),
    }
