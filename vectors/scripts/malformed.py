"""Streams that contradict the standard, or end too early: each reader rejects them."""

from tools import custom_metadata, streams, typed_columns
from tools.frame_parts import Stream
from tools.frames import (BOOL, END_MARKER, INT32, LARGE_BINARY, LARGE_LIST, LARGE_UTF8, LIST, ONE_BATCH, ONE_COLUMN, STRUCT,
    UTF8, batch, dictionary, dictionary_batch, duration, field, fixed_size_binary, frame, integer, numbers, scalar, schema,
    strings, table, timestamp)
from raw_frames import (FIELD, NODE, TYPE, VALIDITY, VALUES, WORDS, column, i32, i64, in_one, letters, one_batch_of,
    raw_dictionary, schema_in_one, stream)

FF = "ff" * 8
PAIRED = Stream(schema=custom_metadata.numbers_with(custom_metadata.PAIR, custom_metadata.PAIR), batch=ONE_BATCH, end=END_MARKER)
ABC = WORDS + letters("abc")
GROWING = streams.growing_dictionary()


def framing():
    """Prefixes, the end marker, the order of messages, and streams that end too early."""
    return {
        "no_continuation_at_the_start": ("a first message without the continuation",
            in_one(("schema.prefix.continuation", "00000000"))[:8]),
        "continuation_of_other_bytes": ("a message whose continuation has another first byte",
            in_one(("batch.prefix.continuation", "fe"))),
        "negative_size": ("metadata of a negative size", in_one(("batch.prefix.size", "ffffffff"))),
        "negative_size_at_the_start": ("eight bytes of all ones at the start", bytes.fromhex(FF)),
        "negative_body_length": ("a body of a negative length", in_one(("batch.body_length", FF))),
        "negative_body_length_of_the_schema": ("a body of the schema of a negative length",
            in_one(("schema.body_length[7]", "80"))),
        "second_schema": ("two schemas", ONE_COLUMN + ONE_COLUMN),
        "second_schema_behind_a_batch": ("a schema after a batch", ONE_COLUMN + ONE_BATCH + ONE_COLUMN + END_MARKER),
        "batch_before_the_schema": ("a batch before the schema", ONE_BATCH),
        "dictionary_before_the_schema": ("a dictionary before the schema", letters("abc") + WORDS),
        "end_marker_before_the_schema": ("an end marker, and no schema", END_MARKER),
        "nothing": ("no bytes", b""),
        "cut_off_in_the_first_prefix": ("the first 5 bytes of a schema", WORDS[:5]),
        "cut_off_in_the_schema": ("the first 100 bytes of a schema", ONE_COLUMN[:100]),
        "cut_off_in_the_batch": ("a batch without its last byte", ONE_COLUMN + ONE_BATCH[:-1]),
        "cut_off_in_the_end_marker": ("an end marker without its last byte", ONE_COLUMN + ONE_BATCH + END_MARKER[:7]),
        "cut_off_in_the_first_dictionary": ("the first 400 bytes of a growing dictionary", b"".join(GROWING)[:400]),
        "cut_off_in_the_delta": ("a growing dictionary without the last byte of its delta", b"".join(GROWING)[:815]),
        "cut_off_in_the_second_batch": ("a growing dictionary without the last byte of its second batch", b"".join(GROWING)[:975]),
        "declared_body_of_2_36": ("a body of 2^36 bytes is declared, ten of them come",
            in_one(("batch.body_length", "0000000010000000"))[:len(ONE_COLUMN) + 162]),
        "no_header": ("a message without a header", ONE_COLUMN + frame(3, None) + END_MARKER),
        "header_of_no_code": ("a message whose header has the code of none", in_one(("batch.header_type", "00"))),
    }


def metadata():
    """Metadata that is not a FlatBuffer, or lacks what it must have."""
    return {
        "root_outside": ("a root that names no place", in_one(("batch.root", "00"))),
        "vtable_too_long": ("a root table whose vtable does not lie inside", in_one(("batch.root", "8e"))),
        "vtable_before_the_metadata": ("a root table whose vtable is before the metadata", in_one(("batch.to_vtable", "11"))),
        "vtable_of_three_bytes": ("a vtable that has no room for its own sizes", in_one(("batch.header.vtable.size", "03"))),
        "header_outside": ("a header past the end of the metadata", in_one(("batch.header", "80"))),
        "too_many_buffers": ("a vector of buffers that does not lie inside", in_one(("batch.header.buffers.count", "ffffffff"))),
        "too_many_nodes": ("a vector of nodes that does not lie inside", in_one(("batch.header.nodes.count", "07"))),
        "too_many_fields": ("a vector of fields that does not lie inside", in_one(("schema.header.fields.count[3]", "40"))),
        "field_outside": ("a field past the end of the metadata", in_one(("schema.header.fields.0", "80"))),
        "name_outside": ("a name that ends past the end of the metadata", in_one((f"{FIELD}.name.count", "21"))),
        "length_outside": ("a batch's length that ends past the end of the metadata", in_one(("batch.header.vtable.length", "52"))),
        "integers_without_a_type_table": ("integers whose type has no table", in_one((f"{FIELD}.vtable.type", "00"))),
        "pairs_of_the_schema_outside": ("custom metadata of the schema that do not lie inside",
            PAIRED.changed({"schema.header.custom_metadata": "ff"})),
        "pairs_of_a_field_outside": ("custom metadata of a field that do not lie inside",
            PAIRED.changed({f"{FIELD}.custom_metadata": "ff"})),
        "pair_outside": ("a pair past the end of the metadata", PAIRED.changed({f"{FIELD}.custom_metadata.0": "80"})),
        "key_outside": ("a key that ends past the end of the metadata", PAIRED.changed({f"{FIELD}.custom_metadata.0.key.count[1]": "01"})),
        "value_outside": ("a value that ends past the end of the metadata",
            PAIRED.changed({"schema.header.custom_metadata.0.value.count[1]": "20"})),
    }


def alone(name, *kind, **how):
    return schema(field(name, *kind, **how)) + END_MARKER


def schemas():
    """Widths, units and children that no type has."""
    index = table(scalar("q", 0), integer(24, True)[1], scalar("B", 0), scalar("h", 0))
    return {
        "width_24": ("integers of 24 bits", schema_in_one((f"{TYPE}.bit_width", "18"))),
        "width_of_the_index_24": ("indices of 24 bits", alone("k", UTF8, encoding=index)),
        "date_of_the_unit_32": ("a date whose unit is none", schema_in_one((f"{FIELD}.type_type", "08"))),
        "duration_of_the_unit_32": ("a duration whose unit is none", schema_in_one((f"{FIELD}.type_type", "12"))),
        "time_of_the_unit_4": ("a time of day whose unit is none", alone("t", (9, table(scalar("h", 4), scalar("i", 64))))),
        "timestamp_of_the_unit_4": ("a timestamp whose unit is none", alone("t", timestamp(4))),
        "time_in_seconds_of_64_bits": ("a time of day in seconds of 64 bits",
            alone("t", (9, table(scalar("h", 0), scalar("i", 64))))),
        "time_in_nanoseconds_of_32_bits": ("a time of day in nanoseconds of 32 bits", alone("t",
            (9, table(scalar("h", 3), scalar("i", 32))))),
        "fixed_bytes_of_a_negative_width": ("byte strings of -1 bytes", alone("f", fixed_size_binary(-1))),
        "list_without_a_child": ("a list without a child", alone("l", LIST)),
        "list_of_two_children": ("a list with two children", alone("l", LIST, [field("a", INT32), field("b", INT32)])),
        "large_list_without_a_child": ("a large list without a child", schema_in_one((f"{FIELD}.type_type", "15"))),
        "child_of_integers": ("integers with a child", alone("n", INT32, [field("a", INT32)])),
        "child_of_texts": ("texts with a child", alone("t", UTF8, [field("a", INT32)])),
    }


def dictionaries():
    """Dictionaries that do not fit the schema or what came before, and indices without a value."""
    lists = schema(field("l", LIST, [field("item", UTF8, encoding=dictionary(0))]))
    unsigned = schema(field("k", UTF8, encoding=dictionary(0, 64, False)))
    two = schema(field("k", UTF8, encoding=dictionary(0)), field("j", UTF8, encoding=dictionary(1)))
    return {
        "unknown_id": ("a dictionary of an id that no field gives", WORDS + dictionary_batch(7, strings("abc"))),
        "dictionary_of_no_column": ("a dictionary, and no column has one", ONE_COLUMN + letters("abc") + END_MARKER),
        "delta_without_base": ("a delta before its dictionary", WORDS + letters("de", True)),
        "delta_of_another_id": ("a delta for the second of two ids, after the dictionary of the first",
            two + letters("ab") + dictionary_batch(1, strings("c"), True)),
        "index_above": ("a valid index above its dictionary", streams.streams()["index_above"]),
        "index_below": ("a negative valid index", streams.streams()["index_below"]),
        "index_without_a_dictionary": ("a valid index, and no dictionary", stream(WORDS, batch(numbers([None, 0])))),
        "index_of_an_emptied_dictionary": ("an index of a dictionary that was replaced by one of no values",
            stream(WORDS, letters("a"), batch(numbers([0])), letters(""), batch(numbers([0])))),
        "index_above_a_shorter_dictionary": ("an index of a dictionary that was replaced by a shorter one",
            stream(ABC, batch(numbers([2])), letters("ab"), batch(numbers([1])), batch(numbers([2])))),
        "index_before_its_delta": ("an index of a value that comes with the delta after it",
            stream(ABC, batch(numbers([3])), letters("d", True))),
        "index_of_2_64": ("the greatest index of 64 bits", stream(unsigned, letters("a"), batch(numbers([2 ** 64 - 1], "Q")))),
        "index_in_a_list_above": ("a valid index above its dictionary in a list", stream(lists, letters("a"),
            batch(column([(1, 0), (2, 0)], b"", i32(0, 2), b"", i32(0, 1))))),
    }


def rows():
    """Numbers of rows, nodes and buffers that contradict each other."""
    two = schema(field("n", INT32), field("m", INT32))
    return {
        "negative_rows": ("a batch of a negative length", in_one(("batch.header.length", FF))),
        "most_negative_rows": ("a batch whose length is far below zero", in_one(("batch.header.length[7]", "80"))),
        "negative_node": ("a node of a negative length", in_one((f"{NODE}.length[7]", "80"))),
        "negative_rows_of_a_dictionary": ("a dictionary of a negative length", WORDS + raw_dictionary(0, -1, [(-1, 0)],
            [(0, 0)] * 3)),
        "rows_of_the_batch_and_of_its_node": ("a batch of four rows, whose node has three", in_one(("batch.header.length", "04"))),
        "node_longer_than_the_batch": ("a batch of three rows, whose node has four", in_one((f"{NODE}.length", "04"))),
        "rows_of_the_dictionary_and_of_its_node": ("a dictionary of two values, whose node has one",
            WORDS + raw_dictionary(0, 2, [(1, 0)], [(0, 0), (0, 8), (8, 1)], i32(0, 1) + b"a" + bytes(7))),
        "columns_of_unequal_lengths": ("two columns of unequal lengths", stream(two, batch(numbers([1, 2]), numbers([1])))),
        "node_too_long": ("a node of four slots, whose values are of three", in_one(("batch.header.length", "04"),
            (f"{NODE}.length", "04"))),
        "no_node": ("no node for the column", in_one(("batch.header.nodes.count", "00"))),
        "no_node_for_the_second": ("no node for the second of two columns", stream(two, batch(numbers([1])))),
        "no_node_for_the_child": ("no node for the child of a list", one_batch_of([LIST, [field("item", INT32)]],
            column([(1, 0)], b"", i32(0, 0), b"", b""))),
        "one_buffer": ("one buffer for the column", in_one(("batch.header.buffers.count", "01"))),
        "no_buffer_for_the_child": ("no values for the child of a struct", one_batch_of([STRUCT, [field("m", INT32)]],
            column([(1, 0), (1, 0)], b"", b""))),
        "shorter_child": ("a struct whose child has fewer slots", one_batch_of([STRUCT, [field("m", INT32)]],
            column([(2, 0), (1, 0)], b"", b"", i32(5)), length=2)),
    }


def buffers():
    """Buffers that are not inside the body, or have no room for their slots."""
    two = 2
    return {
        "values_outside": ("values that end past the end of the body", in_one((f"{VALUES}.offset", "10"))),
        "validity_outside": ("a validity that begins past the end of the body", in_one((f"{VALIDITY}.offset[3]", "01"))),
        "negative_buffer_offset": ("values that begin before the body", in_one((f"{VALUES}.offset", FF))),
        "negative_buffer_length": ("values of a negative length", in_one((f"{VALUES}.length", FF))),
        "buffer_past_2_63": ("values whose offset and length are past 2^63 together", in_one((f"{VALUES}.offset", "ff" * 7 + "7f"),
            (f"{VALUES}.length", "ff" * 7 + "7f"))),
        "validity_too_short": ("a validity of 8 bits for 9 slots",
            one_batch_of([INT32], column([(9, 0)], b"\xff", i32(*range(9))))),
        "values_too_short": ("values of 11 bytes for three slots of four", one_batch_of([INT32],
            column([(3, 0)], b"", i32(1, 2, 3)[:11]))),
        "truths_too_short": ("truth values of 8 bits for 9 slots", one_batch_of([BOOL], column([(9, 0)], b"", b"\xff"))),
        "fixed_bytes_too_short": ("values of 5 bytes for two slots of three", one_batch_of([fixed_size_binary(3)],
            column([(2, 0)], b"", b"abcde"))),
        "durations_too_short": ("values of 15 bytes for two slots of eight", one_batch_of([duration(1)],
            column([(two, 0)], b"", bytes(15)))),
        "indices_too_short": ("indices of three bytes for one slot of four", stream(ABC, batch(column([(1, 0)], b"", bytes(3))))),
        "offsets_too_short": ("two offsets for two slots", one_batch_of([UTF8], column([(2, 0)], b"", i32(0, 1), b"ab"))),
        "large_offsets_too_short": ("two large offsets and a half for two slots", one_batch_of([LARGE_UTF8],
            column([(2, 0)], b"", i64(0, 1) + bytes(4), b"ab"))),
        "no_offsets_for_a_slot": ("no offsets for one slot", one_batch_of([UTF8], column([(1, 0)], b"", b"", b""))),
        "two_bytes_of_offsets": ("texts of no rows, with two bytes of offsets", one_batch_of([UTF8],
            column([(0, 0)], b"", bytes(2), b""), length=0)),
        "three_bytes_of_offsets": ("texts of no rows, with three bytes of offsets", one_batch_of([UTF8],
            column([(0, 0)], b"", bytes(3), b""), length=0)),
    }


def offsets():
    """Offsets that decrease, are negative, or end after the end of what they lead into."""
    def texts(*places):
        return one_batch_of([UTF8], column([(len(places) - 1, 0)], b"", i32(*places), b"abcd"))

    def large(*places):
        return one_batch_of([LARGE_BINARY], column([(len(places) - 1, 0)], b"", i64(*places), b"abcd"))

    def listed(kind, places):
        return one_batch_of([kind, [field("item", INT32)]], column([(1, 0), (2, 0)], b"", places, b"", i32(7, 8)))
    return {
        "falling_offsets": ("offsets that fall", one_batch_of([UTF8], column([(2, 0)], b"", i32(0, 3, 2), b"abc"))),
        "falling_offsets_under_a_null": ("offsets that fall at a null", one_batch_of([UTF8],
            column([(2, 1)], b"\x01", i32(0, 3, 2), b"abc"))),
        "negative_offset": ("a first offset of -1", texts(-1, 0)),
        "offsets_past_the_data": ("a last offset of one byte more than there are", texts(2, 2, 5)),
        "falling_large_offsets": ("large offsets that fall", large(0, 3, 2)),
        "negative_large_offset": ("a first large offset of -1", large(-1, 0)),
        "large_offsets_past_the_data": ("a last large offset of one byte more than there are", large(2, 2, 5)),
        "large_offset_of_2_32": ("a large offset that is 4 but for its upper half", large(0, 2 ** 32 + 4)),
        "list_past_its_child": ("a list that ends past the end of its child", listed(LIST, i32(0, 3))),
        "list_from_a_negative_offset": ("a list that begins before its child", listed(LIST, i32(-1, 1))),
        "large_list_past_its_child": ("a large list that ends past the end of its child", listed(LARGE_LIST, i64(0, 3))),
        "falling_large_list": ("a large list that ends before it begins", listed(LARGE_LIST, i64(2, 1))),
    }


def texts():
    """Valid texts that are not UTF-8."""
    return {
        "text_not_utf8": ("a valid text that is not UTF-8", one_batch_of([UTF8], strings([b"\xff"]))),
        "text_of_a_surrogate": ("a valid text that has half a pair of UTF-16", one_batch_of([UTF8],
            strings([b"a", b"\xed\xa0\x80"]))),
        "text_longer_than_it_need_be": ("a valid text in which two bytes say what one can", one_batch_of([UTF8],
            strings([b"\xc0\x80"]))),
        "text_cut_off": ("valid texts that are cut within a letter",
            one_batch_of([UTF8], column([(2, 0)], b"", i32(0, 1, 2), "é".encode()))),
        "large_text_not_utf8": ("a valid large text that is not UTF-8", one_batch_of([LARGE_UTF8],
            typed_columns.large_strings([b"a", None, b"\x80"]))),
        "text_of_a_dictionary_not_utf8": ("a value of a dictionary that is not UTF-8", stream(WORDS, letters([b"a", b"\xff"]),
            batch(numbers([0])))),
        "bad_text_beside_a_short_buffer": ("a text that is not UTF-8, and another column whose values are too short",
            stream(schema(field("t", UTF8), field("n", INT32)), batch(strings([b"\xff"]), column([(1, 0)], b"", b"abc")))),
        "text_in_a_list_not_utf8": ("an item of a list that is not UTF-8", one_batch_of([LIST, [field("item", UTF8)]],
            column([(1, 0), (1, 0)], b"", i32(0, 1), b"", i32(0, 2), b"\xc3\x28"))),
    }


def vectors():
    found = {}
    for group in (framing(), metadata(), schemas(), dictionaries(), rows(), buffers(), offsets(), texts()):
        assert not found.keys() & group.keys()
        found.update(group)
    return found
