"""Streams that are accepted or rejected by this project's own rules: its profile, its limits, and what the standard leaves
open."""
import struct

from tools import custom_metadata, frames, schemas, streams, typed_columns
from tools.frames import (END_MARKER, INT32, LARGE_LIST, LARGE_UTF8, LIST, NULL, ONE_BATCH, ONE_COLUMN, STRUCT, UTF8, batch,
    date, dictionary, dictionary_batch, field, fixed_size_binary, floating, frame, lists, nulls, numbers, pairs, record_batch,
    scalar, schema, strings, table, text, time, timestamp, vector)
import kinds
import levels
import surplus
from raw_frames import (FIELD, INT32S, NODE, ONE, TEXTS, TYPE, VALIDITY, WORDS, column, i32, in_one, letters, metadata_frame,
    of_another_writer, one_batch_of, raw_batch, raw_dictionary, raw_field, raw_schema, schema_in_one, stream,
    written_by_another)
from sound import nested

FF = "ff" * 8
# The distance of an offset that leads outside of all metadata.
OUTSIDE = scalar("I", 1 << 30)


def counts():
    """Numbers of nulls, and nodes and buffers that no field uses."""
    surplus = column([(1, 0), (7, 7)], b"", i32(5), b"spare")
    return {
        "null_count_not_told": ("a null count of -1 is not looked at", in_one((f"{NODE}.null_count", FF))),
        "null_count_of_minus_2": ("a null count below -1 is refused", in_one((f"{NODE}.null_count", "fe" + "ff" * 7))),
        "null_count_wrong": ("a null count that is not that of the bits is refused", in_one((f"{NODE}.null_count", "00"))),
        "no_validity_and_a_null": ("no validity, and a null count of 1", in_one((f"{VALIDITY}.length", "00"))),
        "validity_of_no_nulls": ("a validity of all bits, and a null count of 1", in_one(("batch.body.0", "07"))),
        "null_count_of_nulls": ("a column of nulls whose null count is another one", one_batch_of([NULL], column([(2, 7)]))),
        "null_count_of_indices_wrong": ("a null count of indices that is not that of the bits",
            stream(WORDS, letters("a"), batch(column([(2, 2)], b"\x01", i32(0, 0))))),
        "null_count_of_a_struct_wrong": ("a null count of a struct that is not that of the bits",
            one_batch_of([STRUCT, [field("m", INT32)]], column([(1, 1), (1, 0)], b"\x01", b"", i32(5)))),
        "surplus_nodes_and_buffers": ("nodes and buffers that no field takes", stream(INT32S, batch(surplus, length=1))),
        "surplus_below_0": ("a node and a buffer below 0 that no field takes", stream(INT32S,
            raw_batch(3, [(3, 1), (-7, 0)], [(0, 1), (8, 12), (-1, -1)], b"\x05" + bytes(7) + i32(1, 0, 3)))),
        "surplus_of_a_dictionary": ("nodes and buffers of a dictionary that its values do not take",
            stream(WORDS, dictionary_batch(0, column([(1, 0), (9, 9)], b"", i32(0, 1), b"a", b"spare")), batch(numbers([0])))),
        "longer_child": ("a struct whose child has more slots", stream(schema(field("s", STRUCT, [field("m", INT32)])),
            batch(column([(2, 0), (3, 0)], b"", b"", i32(5, 6, 7)), length=2))),
        "no_offsets": ("texts of no rows, with an empty buffer of offsets", TEXTS + batch(column([(0, 0)], b"", b"", b""),
            length=0)),
        "no_large_offsets": ("large texts and lists of no rows, with empty buffers of offsets",
            stream(schema(field("u", LARGE_UTF8), field("l", LARGE_LIST, [field("item", INT32)])),
            batch(column([(0, 0)], b"", b"", b""), column([(0, 0), (0, 0)], b"", b"", b"", b""), length=0))),
        "fixed_bytes_of_width_0": ("byte strings of no bytes, one of them null", one_batch_of([fixed_size_binary(0)],
            typed_columns.fixed([b"", None, b""], 0))),
        "fixed_bytes_without_a_width": ("a column of byte strings, whose width is absent",
            schema_in_one((f"{FIELD}.type_type", "0f"), (f"{TYPE}.vtable.bit_width", "00"))),
        "moments_out_of_their_day": ("times of more than a day and dates within a day, which are shown as they are",
            stream(schema(field("t", time(0)), field("u", time(3)), field("d", date(1))), batch(numbers([-1, 86_400]),
            numbers([2 ** 63 - 1, -2 ** 63], "q"), numbers([1, -1], "q")))),
    }


def hidden():
    """What is under a null of a level above, or is referred to by no list, is checked all the same."""
    of_texts = [STRUCT, [field("t", UTF8)]]
    indices = schema(field("s", STRUCT, [field("k", UTF8, encoding=dictionary(0))]))
    listed = schema(field("l", LIST, [field("k", UTF8, encoding=dictionary(0))]))
    return {
        "text_under_a_null_struct": ("a text that is not UTF-8 below a null struct", one_batch_of(of_texts,
            column([(1, 1), (1, 0)], b"\0", b"", i32(0, 1), b"\xff"))),
        "text_that_no_list_reaches": ("an item of no list that is not UTF-8", one_batch_of([LIST, [field("t", UTF8)]],
            column([(1, 0), (2, 0)], b"", i32(0, 1), b"", i32(0, 1, 2), b"a\xff"))),
        "index_under_a_null_struct": ("an index above its dictionary below a null struct", stream(indices, letters("a"),
            batch(column([(1, 1), (1, 0)], b"\0", b"", i32(1))))),
        "index_that_no_list_reaches": ("an index above its dictionary in no list", stream(listed, letters("a"),
            batch(column([(1, 0), (2, 0)], b"", i32(0, 1), b"", i32(0, 1))))),
    }


def profile():
    """What is not read: types, versions, headers, compressed and big-endian data."""
    inner = field("m", UTF8, encoding=dictionary(1))
    kinded = table(scalar("q", 0), INT32[1], scalar("B", 0), scalar("h", 1))
    return {
        "no_continuation": ("a message without the continuation, as it was framed before 0.15",
            in_one(("batch.prefix.continuation", "00000000"))),
        "floating_point": ("a type that is not read", schema(field("x", floating(2))) + END_MARKER),
        "floating_point_below": ("a type that is not read, below a list",
            schema(field("l", LIST, [field("x", floating(2))])) + END_MARKER),
        "type_of_no_code": ("a type that the standard has not", schema_in_one((f"{FIELD}.type_type", "1b"))),
        "dictionary_below_a_dictionary": ("a dictionary whose values have one",
            schema(field("s", STRUCT, [inner], encoding=dictionary(0))) + END_MARKER),
        "dictionary_of_another_kind": ("a dictionary of a kind that is not read",
            schema(field("k", UTF8, encoding=kinded)) + END_MARKER),
        "big_endian": ("a schema that says it is big-endian", in_one(("schema.header.endianness", "01"))),
        "tensor": ("a message that is a tensor", in_one(("batch.header_type", "04"))),
        "header_of_an_unknown_code": ("a message whose header has a code that the standard has not",
            in_one(("batch.header_type", "09"))),
        "tensor_for_a_schema": ("a first message that is a tensor", in_one(("schema.header_type", "04"))),
        "compressed": ("a body that is said to be compressed", streams.streams()["compressed_batch"]),
        "compressed_dictionary": ("a dictionary whose body is said to be compressed", streams.streams()["compressed_dictionary"]),
    }


def versions():
    """Metadata of each version, and of two in one stream."""
    return {
        "version_1": ("metadata of V1", in_one(("schema.version", "00"))),
        "version_3": ("metadata of V3", in_one(("schema.version", "02"))),
        "version_3_and_floating_point": ("metadata of V3, and a type that is not read", in_one(("schema.version", "02"),
            (f"{FIELD}.type_type", "03"))),
        "version_4_and_floating_point": ("metadata of V4, and a type that is not read", in_one(("schema.version", "03"),
            (f"{FIELD}.type_type", "03"))),
        "version_6": ("metadata of a version that the standard has not", in_one(("schema.version", "05"))),
        "version_3_of_a_batch": ("a batch of V3", in_one(("batch.version", "02"))),
        "version_4_of_the_schema": ("a schema of V4 and a batch of V5", in_one(("schema.version", "03"))),
        "version_4_of_the_batch": ("a schema of V5 and a batch of V4", in_one(("batch.version", "03"))),
        "mixed_versions": ("messages of V4 and of V5", b"".join(streams.mixed_versions())),
    }


def one_id():
    """Two columns of one dictionary, and a dictionary batch without values."""
    return {
        "unequal_types_of_an_id": ("two columns of one id and other types", schema(field("k", UTF8, encoding=dictionary(0)),
            field("j", INT32, encoding=dictionary(0))) + END_MARKER),
        "unequal_names_below_an_id": ("two columns of one id whose types differ in a name",
            schema(field("k", LIST, [field("a", INT32)], encoding=dictionary(0)), field("j", LIST, [field("b", INT32)],
            encoding=dictionary(0)))),
        "other_pairs_below_an_id": ("two columns of one id, whose items have other pairs", stream(custom_metadata.shared(),
            dictionary_batch(7, lists([[1], []], numbers)), batch(numbers([1, 0]), numbers([0, None])))),
        "dictionary_without_data": ("a dictionary batch without a record batch", WORDS + frame(2,
            table(scalar("q", 0), None, scalar("B", 0)))),
    }


def limits():
    """The limits of metadata, bodies, rows and levels."""
    return {
        "metadata_over_the_limit": ("metadata of one byte more than 2^26", in_one(("batch.prefix.size", "01000004"))),
        "body_over_the_limit": ("a body of one byte more than 2^36", in_one(("batch.body_length", "0100000010000000"))),
        "rows_over_the_limit": ("a batch of 2^31 rows", in_one(("batch.header.length", "0000008000000000"))),
        "node_over_the_limit": ("a node of 2^31 slots", in_one((f"{NODE}.length", "0000008000000000"))),
        "delta_over_the_limit": ("a delta with which a dictionary would have 2^31 values", stream(WORDS, letters("a"),
            raw_dictionary(0, 2 ** 31 - 1, [(2 ** 31 - 1, 0)], [(0, 0)] * 3, delta=True))),
        "33_levels": ("lists nested so that the innermost field is at level 33", nested(33)),
        "shared_name_of_40_bytes": ("two columns with one name of 40 bytes", two_of_one_name(40)),
        "shared_name_of_4000_bytes": ("two columns with one name of 4,000 bytes", two_of_one_name(4_000)),
        "shared_fields_8_deep": ("structs nested 8 deep, each of the upper 7 with two offsets to one field", doubled(8)),
        "shared_fields_17_deep": (
            "structs nested 17 deep, each of the upper 16 with two offsets to one field, so that there are 131,071", doubled(17)),
        "pairs_over_the_limit": ("structs nested 16 deep, whose innermost has two pairs, and one pair more at the schema",
            doubled(16, 2, 1)),
        "names_over_the_limit": ("8,193 columns by one table, whose name has 8,192 bytes", many_of_one_name(8_193, 8_192)),
    }


def framed(fields, noted=()):
    """A schema whose fields may be shared."""
    return schemas.framed(table(scalar("h", 4), scalar("B", 1), table(scalar("h", 0), vector(fields),
        *([vector(noted)] if noted else [])), scalar("q", 0)))


def shared(value, height):
    return "shared", schemas.Held(value, height)


def two_of_one_name(size):
    name = shared(text("n" * size), 0)
    code, kind = INT32
    return framed([table(name, scalar("B", 1), scalar("B", code), kind, None, vector([]))] * 2) + END_MARKER


def many_of_one_name(count, size):
    return framed([shared(table(text("n" * size), scalar("B", 1), scalar("B", 1), table(), None, vector([])),
        1)] * count) + END_MARKER


def doubled(levels, its_pairs=0, more=0):
    """Structs this many levels deep, each of the upper ones with two offsets to one field below it."""
    pair = shared(table(text("k"), text("v")), 1)
    below = table(text("s"), scalar("B", 1), scalar("B", 13), table(), None, vector([]),
        *([vector([pair] * its_pairs)] if its_pairs else []))
    for height in range(2, levels + 1):
        below = table(text("s"), scalar("B", 1), scalar("B", 13), table(), None, vector([shared(below, height)] * 2))
    return framed([below], [pair] * more) + END_MARKER


def skipped():
    """What is not checked, whatever it is, and what is checked."""
    one_field = [field("n", INT32)]
    nodes, places, body = frames.body_of([numbers([1, None, 3])])
    rows = table(scalar("q", 3), pairs(nodes), pairs(places))

    def message(code, header, held=b""):
        return message_and(code, header, held, OUTSIDE)
    words, its_places, its_body = frames.body_of([strings(["a", "b"])])
    text_rows, text_places, text_body = frames.body_of([numbers([1, 0])])

    def rows_and(*more):
        return frame(3, table(*rows[1], *more), body)
    return {
        "unreadable_pairs_of_the_messages": ("custom metadata at each message that do not lie inside, which are skipped",
            stream(message(1, table(scalar("h", 0), vector([field("k", UTF8, encoding=dictionary(0))]))),
            message(2, table(scalar("q", 0), record_batch(2, words, its_places), scalar("B", 0)), its_body),
            message(3, record_batch(2, text_rows, text_places), text_body))),
        "fields_of_a_later_standard": ("behind the fields of each table one more, an offset that leads outside", later_fields()),
        "unreadable_features": ("features of the schema that do not lie inside, which are skipped",
            stream(raw_schema(one_field, None, OUTSIDE), ONE_BATCH)),
        "unreadable_type_tables": ("tables of types without fields that do not lie inside, which are skipped",
            stream(raw_schema([raw_field(f"c{code}", code, OUTSIDE) for code in (1, 4, 5, 6, 19, 20)]))),
        "no_type_tables": ("types without fields whose tables are absent",
            stream(raw_schema([raw_field(f"c{code}", code, None) for code in (1, 4, 5, 6, 19, 20)]))),
        "unreadable_counts_of_variadic_buffers": ("counts of variadic buffers that do not lie inside, which are skipped",
            stream(INT32S, rows_and(None, OUTSIDE))),
        "counts_of_variadic_buffers": ("counts of variadic buffers, which are skipped", stream(INT32S,
            rows_and(None, pairs([(0, 0)])))),
        "unreadable_compression": ("a compression that does not lie inside: that it is there is enough",
            stream(INT32S, rows_and(OUTSIDE))),
        "unreadable_tensor": ("a tensor that does not lie inside: its code is enough", ONE_COLUMN + message(4, OUTSIDE)),
        "unreadable_unknown_header": ("a header of an unknown code that does not lie inside: its code is enough",
            ONE_COLUMN + message(9, OUTSIDE)),
    }


def places():
    """The places of buffers, and how many bytes there are in each part."""
    return {
        "body_of_the_schema": ("a body after the schema, which is skipped",
            ONE.changed({"schema.body_length": "08"})[:len(ONE_COLUMN)] + b"skipped." + ONE_BATCH + END_MARKER),
        "empty_buffer_outside": ("an empty validity past the end of the body", in_one((f"{VALIDITY}.length", "00"),
            (f"{VALIDITY}.offset", "ff" * 7 + "7f"), (f"{NODE}.null_count", "00"))),
        "empty_buffer_before_the_body": ("an empty validity before the body", in_one((f"{VALIDITY}.length", "00"),
            (f"{VALIDITY}.offset", FF), (f"{NODE}.null_count", "00"))),
        "buffers_not_aligned": ("values whose offset is no multiple of 8", stream(INT32S,
            raw_batch(2, [(2, 1)], [(0, 1), (1, 8)], b"\x02" + i32(7, 9) + bytes(7)))),
        "buffers_that_overlap": ("a validity in the bytes of the values",
            stream(INT32S, raw_batch(2, [(2, 0)], [(0, 1), (0, 8)], i32(7, 9)))),
        "metadata_of_an_odd_size": ("metadata and a body whose sizes are no multiples of 8", odd_sizes()),
        "truth_of_255": ("bytes of truth values that are 255",
            stream(schema_in_one((f"{FIELD}.nullable", "ff"), (f"{TYPE}.is_signed", "ff")), ONE_BATCH)),
    }


def message_and(code, header, held, *more):
    """The frame of a message of V5, with more fields after the length of its body."""
    words = frames.metadata(table(scalar("h", 4), scalar("B", code), header, scalar("q", len(held)), *more))
    return b"\xff" * 4 + struct.pack("<i", len(words)) + words + held


def later_fields():
    """A text by a dictionary, with custom metadata: each table has one field more than those of the standard."""
    pair = table(text("k"), text("v"), OUTSIDE)
    index = table(scalar("i", 32), scalar("B", 1), OUTSIDE)
    encoding = table(scalar("q", 0), index, scalar("B", 0), scalar("h", 0), OUTSIDE)
    column = table(text("k"), scalar("B", 1), scalar("B", 5), table(OUTSIDE), encoding, vector([]), vector([pair]), OUTSIDE)

    def rows(values):
        nodes, its_places, body = frames.body_of([values])
        return table(*record_batch(len(values), nodes, its_places)[1], None, None, OUTSIDE), body
    (words, words_body), (indices, indices_body) = rows(strings(["a", "b"])), rows(numbers([1, None]))
    return stream(message_and(1, table(scalar("h", 0), vector([column]), vector([pair]), None, OUTSIDE), b"", None, OUTSIDE),
        message_and(2, table(scalar("q", 0), words, scalar("B", 0), OUTSIDE), words_body, None, OUTSIDE),
        message_and(3, indices, indices_body, None, OUTSIDE))


def odd_sizes():
    """The one batch without the padding of its metadata and of its body."""
    header = table(scalar("q", 3), pairs([(3, 1)]), pairs([(0, 1), (1, 12)]))
    held = b"\x05" + i32(1, 0, 3)
    words = frames.metadata(table(scalar("h", 4), scalar("B", 3), header, scalar("q", len(held)))) + bytes(3)
    return stream(ONE_COLUMN, b"\xff" * 4 + struct.pack("<i", len(words)) + words + held)


def absent():
    """What may be absent by this project's own rules."""
    code, kind = INT32
    no_rows = frame(3, table(scalar("q", 0)))
    return {
        "no_vector_of_fields": ("a schema without a vector of fields, which has no columns", stream(raw_schema(None), no_rows)),
        "no_vector_of_children": ("a column without a vector of children",
            stream(raw_schema([raw_field("n", code, kind, children=None)]), ONE_BATCH)),
        "vtable_of_an_odd_size": ("integers whose vtable ends within the entry of the sign, which is absent then",
            in_one((f"{TYPE}.vtable.size", "07"))),
        "offset_of_0": ("an offset that names its own place", in_one((f"{FIELD}.name", "00"))),
        "no_name": ("a column without a name, whose name is empty", stream(raw_schema([raw_field(None, code, kind)]), ONE_BATCH)),
        "no_vectors_of_nodes_and_buffers": ("a batch without vectors of nodes and buffers, for no columns",
            stream(schema(), no_rows, frame(3, table(scalar("q", 2))))),
        "no_nodes_for_a_column": ("a batch without vectors of nodes and buffers, for one column", stream(INT32S, no_rows)),
    }


def other_texts():
    """Names, zones and custom metadata that are not UTF-8, or absent; a zone that names none."""
    return {
        "names_of_signs": ("a name of signs and letters of one to four bytes, and a zone of signs",
            stream(schema(field("\x00\t\n\x1f ~\x7f\x80\\x\"é€😀", NULL), field("z", timestamp(3, "a\\b\x1b"))),
            batch(nulls(1), numbers([1], "q")))),
        "name_not_utf8": ("a name that is not UTF-8", in_one((f"{FIELD}.name.bytes", "ff"))),
        "zone_not_utf8": ("a time zone that is not UTF-8",
            schema(field("t", (10, table(scalar("h", 0), text(b"\xc3"))))) + END_MARKER),
        "timestamp_in_an_unaligned_zone": ("a timestamp whose zone is an empty text at an odd place",
            schema_in_one((f"{FIELD}.type_type", "0a"), (f"{TYPE}.vtable.bit_width", "00"))),
        "custom_metadata": ("keys and values on all levels, of which some are not UTF-8", custom_metadata.stream()),
        "absent_keys_and_values": ("pairs without a key, without a value and without both",
            stream(custom_metadata.numbers_with((), custom_metadata.ABSENT), ONE_BATCH)),
    }


def foreign():
    """Streams as FlatBuffers' own builder lays them out, which examples/foreign wrote: values that are the default are left
    out."""
    noted_its = of_another_writer("arrow_meta_reader_tests/src/foreign.rt")
    return {
        "defaults_left_out": ("a schema, a dictionary, a delta and batches of another writer, who leaves out what has its default",
            written_by_another("defaults_left_out")),
        "defaults_left_out_with_pairs": ("the schema of another writer, with pairs on all levels, of which some are not UTF-8",
            stream(metadata_frame(noted_its["LEVELS"]), custom_metadata.stream()[len(custom_metadata.levels()):-len(END_MARKER)])),
        "defaults_left_out_without_keys": ("a column of another writer, with pairs without a key, without a value and without both",
            stream(metadata_frame(noted_its["ABSENT"]), ONE_BATCH)),
    }


def vectors():
    found = {}
    for group in (counts(), hidden(), profile(), versions(), one_id(), limits(), skipped(), places(), absent(), other_texts(),
        foreign(), kinds.untold_vectors(), surplus.own(), levels.own()):
        assert not found.keys() & group.keys()
        found.update(group)
    return found
