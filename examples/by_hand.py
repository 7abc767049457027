"""The bytes in tests that somebody wrote by hand among other code: what they have to be, by tools/frames.py, or by the module
struct if they are not part of a stream. Each is keyed by its file and the words that lead to it: a constant, and then indices
and fields in its value.
"""
import struct

from tools.frames import (INT32, NULL, Buffer, batch, dictionary, field, metadata_in, numbers, pairs, scalar, schema, table,
    text, vector)


def tables():
    """A table with a field of each kind, a text, a vector of tables and one of pairs, and an empty text."""
    buffer = Buffer()
    buffer.bytes += bytes(4)
    buffer.name(0, buffer.put(table(scalar("B", 0xab), None, text("hi"), scalar("H", 0x1234))))
    for value in (vector([table()]), pairs([(1, -1)]), text("")):
        buffer.put(value)
    buffer.align(8)
    return bytes(buffer.bytes)


def decimals(children, *numbers):
    """The metadata of one column `n` of decimals with this precision, this scale and this many bits."""
    return metadata_in(schema(field("n", (7, table(*(scalar("i", it) for it in numbers))), children)))


def fixed_size_lists(names, *children, encoding=None):
    """The metadata of columns of lists of three nulls each, with these names, whose children have these names."""
    return metadata_in(schema(*(field(name, (16, table(scalar("i", 3))), [field(it, NULL) for it in children], encoding=encoding)
                                for name in names)))


NUMBERS = schema(field("n", INT32))
THREE = batch(numbers([1, None, 3]))
ONE_VECTOR = struct.pack("<I4Hi4I", 12, 6, 8, 4, 0, 8, 4, 2, 1, 2)

ARRAYS = {
    "crates/arrow_meta_reader_tests/src/tests/decimals.rt": {
        "DECIMAL": decimals([], 38, 10, 128),
        "WITH_CHILD": decimals([field("c", NULL)], 9, 2, 32),
    },
    "crates/arrow_meta_reader_tests/src/tests/fixed_size_lists.rt": {
        "LISTS": fixed_size_lists("l", "c"),
        "WITH_TWO": fixed_size_lists("l", "c", "d"),
        "SHARED": fixed_size_lists("ab", "c", encoding=dictionary(7)),
    },
    "crates/arrow_meta_writer_tests/src/tests/tables.rt": {"LAID_OUT": tables()},
    "crates/arrow_meta_writer_tests/src/tests/written.rt": {"DECIMAL": decimals([], 38, 10, 128), "LISTS": fixed_size_lists("l", "c")},
    "crates/arrow_csv_tests/src/tests/chunks.rt": {"BYTES": bytes((240 + 37 * at) % 256 for at in range(33))},
    "crates/arrow_flatbuf_tests/src/tests/flatbuf.rt": {
        "TWO": ONE_VECTOR,
        "SHARED": struct.pack("<I4Hi5Ii2H", 12, 6, 8, 4, 0, 8, 4, 3, 12, 8, 0, 32, 0x12a, 0),
        "SCHEMA": metadata_in(NUMBERS),
        "BATCH": metadata_in(THREE),
    },
}
