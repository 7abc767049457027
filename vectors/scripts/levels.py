"""Columns below columns, and columns next to each other: how their nodes and buffers have to fit together, and which of several
faults is reported. Each is a vector with changes of it."""
from tools.frame_parts import Stream
from tools.frames import (BOOL, END_MARKER, INT32, LARGE_LIST, LARGE_UTF8, LIST, STRUCT, UTF8, batch, dictionary,
    dictionary_batch, duration, field, fixed_size_binary, integer, numbers, schema, strings)
from layouts import number
from raw_frames import column, i32, i64, letters

ITEM = field("item", INT32)
KEY = field("k", UTF8, encoding=dictionary(0))
LISTED = field("l", LIST, [ITEM])
DEEP = [LIST, [field("item", STRUCT, [LISTED, field("t", UTF8)])]]
# [{[1, 2], "a"}, {null, "bc"}], null and [{[3], null}].
DEEP_ROWS = column([(3, 1), (3, 0), (3, 1), (3, 0), (3, 1)], b"\x05", i32(0, 2, 2, 3), b"", b"\x05", i32(0, 2, 2, 3), b"",
    i32(1, 2, 3), b"\x03", i32(0, 1, 3, 3), b"abc")


def of(*fields, rows, **dictionaries):
    return Stream(schema=schema(*fields), **dictionaries, batch=rows, end=END_MARKER)


def node(at, length):
    return {f"batch.header.nodes.{at}.length": number(length)}


def nulls(at, count):
    return {f"batch.header.nodes.{at}.null_count": number(count)}


def buffer(at, length):
    return {f"batch.header.buffers.{at}.length": number(length)}


def nodes(*lengths):
    settings = {"batch.header.length": number(lengths[0])}
    for at, it in enumerate(lengths):
        settings |= node(at, it)
    return settings


def nested():
    """For each what it is about, its stream, its valid changes, and those that are malformed."""
    two = field("i", STRUCT, [field("x", INT32), field("y", INT32)])
    truths = field("i", STRUCT, [field("b", BOOL)])
    words, letter = column([(4, 1)], b"\x0e", i64(0, 1, 2, 2, 4), b"\xffabc"), "batch.body.9[1]"
    large = column([(3, 1), *words.nodes], b"\x05", i64(1, 2, 2, 4), *words.buffers)
    wide = [field("f", fixed_size_binary(2)), field("l", LARGE_LIST, [ITEM]), field("d", duration(0))]
    return {
        "lists_of_structs_of_lists": ("lists of structs of lists and texts, with nulls on each level", of(field("c", *DEEP),
            rows=batch(DEEP_ROWS)), [], [buffer(6, 8), buffer(9, 2), {letter: "ff"}, buffer(6, 8) | {letter: "ff"}]),
        "structs_of_structs": ("structs of structs of two columns, the first of which has more slots", of(field("s", STRUCT, [two]),
            rows=batch(column([(1, 0), (1, 0), (2, 0), (1, 0)], b"", b"", b"", i32(1, 0), b"", i32(1, 0)))),
            [nodes(0, 1, 2, 2)], [nodes(2, 2, 2, 1), nodes(1, 2, 1, 2), nodes(2, 1, 2, 2)]),
        "structs_of_structs_of_truths": ("structs of structs of truth values, of which one is null",
            of(field("s", STRUCT, [truths]), rows=batch(column([(2, 0), (2, 1), (2, 0)], b"", b"\x01", b"", b"\x01"))), [], [buffer(3, 0)]),
        "large_lists_of_large_texts": ("large lists from the second large text on, the first of which is null over other bytes",
            of(field("l", LARGE_LIST, [field("item", LARGE_UTF8)]), rows=batch(large)), [],
            [buffer(2, 0) | nulls(1, 0), node(1, 3) | buffer(4, 2)]),
        "struct_of_wide_fields": ("structs of byte strings, large lists and more durations", of(field("s", STRUCT, wide),
            rows=batch(column([(2, 1), (2, 0), (2, 0), (1, 0), (3, 0)], b"\x02", b"", bytes([1, 2, 3, 4]), b"", i64(0, 0, 1), b"",
            i32(7), b"", i64(5, 6, 8)))), [], [node(4, 1), buffer(2, 3), buffer(7, 8)]),
        "half_a_large_offset": ("large texts of no rows, with one offset", of(field("u", LARGE_UTF8),
            rows=batch(column([(0, 0)], b"", i64(0), b""), length=0)), [], [buffer(1, 4)]),
        "no_fixed_bytes_of_the_greatest_width": ("no byte strings of 2^31 - 1 bytes, of which each would take as many",
            of(field("f", fixed_size_binary(2 ** 31 - 1)), rows=batch(column([(0, 0)], b"", bytes(16)), length=0)), [],
            [nodes(1), nodes(2 ** 31 - 1)]),
    }


def encoded():
    abc, lists = letters("abc"), field("l", LIST, [field("item", LIST, [KEY])])
    index, text = {"batch.body.1[0]": "03"}, {"batch.body.4[0]": "ff"}
    valid = buffer(0, 0) | nulls(0, 0)
    neighbour = batch(column([(1, 0)], b"", i32(2)), strings(["a"]))
    without = batch(column([(1, 1)], b"\x00", i32(0)), strings(["a"]))
    return {
        "lists_of_lists_of_indices": ("lists of lists of indices", of(lists, dictionary=abc,
            rows=batch(column([(2, 0), (3, 0), (3, 0)], b"", i32(0, 2, 3), b"", i32(0, 2, 2, 3), b"", i32(2, 0, 1)))), [],
            [buffer(5, 8), {"batch.body.5[8]": "03"}]),
        "lists_of_lists_of_null_indices": ("lists of lists of null indices without a dictionary", of(lists,
            rows=batch(column([(2, 0), (3, 0), (3, 3)], b"", i32(0, 2, 3), b"", i32(0, 2, 2, 3), b"\x00", i32(2, 0, 1)))), [],
            [buffer(4, 0) | nulls(2, 0)]),
        "dictionary_of_lists_of_structs": ("a dictionary of lists of structs of lists and texts", of(field("k", *DEEP,
            encoding=dictionary(0)), dictionary=dictionary_batch(0, DEEP_ROWS), rows=batch(numbers([2, 0]))), [], [index]),
        "index_beside_a_text": ("an index beside a text", of(KEY, field("t", UTF8), dictionary=abc, rows=neighbour), [],
            [index, index | text, index | buffer(4, 0), text]),
        "null_index_beside_a_text": ("a null index without a dictionary beside a text", of(KEY, field("t", UTF8), rows=without), [],
            [valid, valid | text, valid | buffer(4, 0), text]),
        "index_among_200": ("an index of 8 bits without a sign into 200 values", *among_200(False, (128, 199), (200, 255))),
        "signed_index_among_200": ("an index of 8 bits with a sign into 200 values", *among_200(True, (127,), (128, 199, 200, 255))),
    }


def among_200(signed, accepted, malformed):
    """An index of 8 bits, and the values to which it is set."""
    its = Stream(schema=schema(field("k", integer(8, False), encoding=dictionary(0, 8, signed))),
        dictionary=dictionary_batch(0, numbers(range(200), "B")), batch=batch(column([(1, 0)], b"", b"\x00")), end=END_MARKER)
    return its, *([{"batch.body.1": f"{it:02x}"} for it in values] for values in (accepted, malformed))


def all_of():
    return nested() | encoded()


# Structs whose fields have more slots.
OWN = {"structs_of_structs", "struct_of_wide_fields"}


def vectors():
    return {name: (about, its.held()) for name, (about, its, _, _) in all_of().items() if name not in OWN}


def own():
    return {name: (about, its.held()) for name, (about, its, _, _) in all_of().items() if name in OWN}


def changes(line):
    """The changes of each; `line` makes a line from a stream and settings."""
    return {name: (f"changes of {about}", name, [
        *([f"binds {'own' if name in OWN else 'standard'}", *(line(its, it) for it in accepted)] if accepted else []),
        "binds malformed", *(line(its, it) for it in malformed)]) for name, (about, its, accepted, malformed) in all_of().items()}
