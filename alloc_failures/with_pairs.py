#!/usr/bin/env python3
"""Writes the streams with custom metadata that the programs here read, with tools/frames.py:

    alloc_failures/with_pairs.py FOLDER    writes NAME.arrows and NAME.txt, the text of its schema

`pairs` has pairs on its schema, on a column and on a field below one: keys that occur twice, that are empty, and that are not
UTF-8. The messages that bring values of the dictionary are of V4, and so is the schema. Two columns of `equal_types` have one
dictionary, and their types differ only in pairs; in `unequal_types` the integer of the second one has another width.

Run without a folder, it prints what a writer makes of `pairs`: the number of bytes after each part, and their hash.
"""
import pathlib
import struct
import sys

TOP = pathlib.Path(__file__).resolve().parent.parent
sys.dont_write_bytecode = True
sys.path.insert(0, str(TOP))
from tools.frames import (END_MARKER, INT32, LIST, NULL, STRUCT, UTF8, batch, dictionary, dictionary_batch, field, frame,
    integer, lists, numbers, scalar, strings, table, timestamp, vector)

V4 = 3
# The offset of the version in a frame.
VERSION = 28

PAIRS_OF_SCHEMA = [(b"k", b"v"), (b"k", b"")]
PAIRS_OF_COLUMN = [(b"\xff", b"x")]
PAIRS_OF_ITEM = [(b"unit", b"m"), (b"", b"")]
TEXT = "k: dictionary<int32, utf8> id 0\nl: list\n  item: int32\n"


def vector_of(pairs):
    """A vector of KeyValue tables."""
    return vector([table(("text", key), ("text", value)) for key, value in pairs])


def field_with(pairs, *arguments, **named):
    """A field with these pairs."""
    kind, fields = field(*arguments, **named)
    return kind, (*fields, vector_of(pairs))


def schema(pairs, *fields):
    return frame(1, table(scalar("h", 0), vector(fields), vector_of(pairs)))


def schema_with_pairs():
    return schema(PAIRS_OF_SCHEMA, field_with(PAIRS_OF_COLUMN, "k", UTF8, encoding=dictionary(0)),
                  field("l", LIST, [field_with(PAIRS_OF_ITEM, "item", INT32)]))


def parts():
    """The frames of the schema, of each batch with the values that come before it, and the end marker."""
    return [schema_with_pairs(),
            dictionary_batch(0, strings("abc")) + batch(numbers([0, 1, 2]), lists([[1], None, [2, 3]], numbers)),
            dictionary_batch(0, strings("de"), delta=True) + batch(numbers([4, 0]), lists([[], [4]], numbers)), END_MARKER]


def of_v4(part):
    return part[:VERSION] + struct.pack("<h", V4) + part[VERSION + 2:]


def two_types(bits):
    """Columns `x`, and `z` in `y`, of lists of structs of an integer and a timestamp, by dictionary 7."""
    def lists_of(pairs, name, bits):
        below = [field_with(pairs, "i", integer(bits, True)), field_with([], "s", timestamp(3, "UTC"))]
        return field_with(pairs, name, LIST, [field_with(pairs, "r", STRUCT, below)], encoding=dictionary(7))
    pairs, others = [(b"k", b"v"), (b"\xff", b"")], [(b"k", b"w")]
    return schema(pairs, lists_of(pairs, "x", 32),
                  field("y", STRUCT, [field("n", NULL), lists_of(others, "z", bits)]))


def files():
    schema, *later, end = parts()
    return {"pairs.arrows": b"".join(map(of_v4, (schema, *later))) + end, "pairs.txt": TEXT.encode(),
            "equal_types.arrows": two_types(32), "unequal_types.arrows": two_types(16)}


def sum_of(held, before=0):
    for byte in held:
        before = (before * 257 + byte) % 2 ** 64
    return before


def print_written():
    """Prints what is written of `pairs`, all of it as V5."""
    written = b""
    for part in parts():
        written += part
        print(f"pairs: {len(written)} bytes, {sum_of(written):016x}, the last part {len(part)} bytes")


if __name__ == "__main__":
    if len(sys.argv) == 2:
        for name, held in files().items():
            (pathlib.Path(sys.argv[1]) / name).write_bytes(held)
    else:
        print_written()
