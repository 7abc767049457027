"""Streams that are valid by the standard: each reader whose profile has their types returns these rows."""
import struct

from tools import custom_metadata, frames, streams, typed_columns
from tools.frame_parts import Stream
from tools.frames import (BOOL, END_MARKER, INT32, LARGE_BINARY, LARGE_LIST, LARGE_UTF8, LIST, NULL, ONE_BATCH, ONE_COLUMN,
    STRUCT, UTF8, batch, bools, date, dictionary, dictionary_batch, duration, field, fixed_size_binary, frame, integer, lists,
    nulls, numbers, pairs, scalar, schema, strings, structs, table, time, timestamp, vector)
from kinds import DAY_IN_MS, POINT
from raw_frames import (FIELD, INT32S, NODE, TEXTS, TYPE, VALIDITY, WORDS, column, frames_of_another, i32, in_one, letters,
    one_batch_of, raw_batch, raw_field, raw_schema, schema_in_one, stream, written_by_another)

ABC = WORDS + letters("abc")
GROWING = b"".join(streams.growing_dictionary())


def two_batches(kind, values, to_column, more=()):
    """Two batches of a column by a dictionary, which is extended between them."""
    indices = list(range(len(values))) + [None]
    return stream(schema(field("k", *kind, encoding=dictionary(3, 8))), dictionary_batch(3, to_column(values)),
        batch(numbers(indices, "b")), dictionary_batch(3, to_column(list(more)), True), batch(numbers([len(values), None, 0], "b")))


def later_types():
    """Columns of the five types with large offsets, fixed widths and durations, each with a null."""
    hashes = [b"\x00\x01\xff", None, b"abc"]
    return stream(schema(field("u", LARGE_UTF8), field("b", LARGE_BINARY), field("l", LARGE_LIST, [field("item", LARGE_UTF8)]),
        field("f", fixed_size_binary(3)), field("d", duration(1))), batch(typed_columns.large_strings(["a", None, "bc"]),
        typed_columns.large_strings([b"\xff", b"", None]), typed_columns.large_lists([["x", None], None, []], typed_columns.large_strings),
        typed_columns.fixed(hashes, 3), numbers([-1, None, 2 ** 40], "q")))


def extremes():
    """The numbers of each width, days and timestamps: for these any number is a value."""
    its = [it for it in streams.NUMBERS + streams.MOMENTS if it[0] == "days" or it[0].startswith("at ") or it in streams.NUMBERS]
    return stream(schema(*(field(name, kind) for name, kind, _ in its)), batch(*(streams.extremes(form) for _, _, form in its)))


def one_after_many():
    """Batches of one number, and of ten times the numbers from 0 to 102."""
    many = [at % 103 for at in range(1030)]
    return stream(schema(field("n", integer(8, True))), *(batch(numbers(it, "b")) for it in ([5], many, [-7], [100], many, [0])))


def truths_and_texts(items):
    """Structs of a boolean and a text."""
    parts = [it or (None, None) for it in items]
    return structs([None if it is None else () for it in items], bools([it for it, _ in parts]), strings([it for _, it in parts]))


def nested(levels):
    """Lists in lists, the innermost field at this level."""
    inner = field("item", INT32)
    for _ in range(levels - 2):
        inner = field("item", LIST, [inner])
    return stream(schema(field("l", LIST, [inner])))


def of_written():
    """Streams that tests of the crates read or write too."""
    written, others = streams.written(), streams.reported()
    named = {"growing_dictionary": "GROWING", "growing_dictionary_64": "GROWING_64", "resent_dictionary": "RESENT",
        "dictionary_of_no_values": "FROM_NO_VALUES", "hidden_bytes": "HIDING", "list_after_a_gap": "GAP",
        "two_dictionaries": "SHARED", "dictionary_below": "NESTED", "many_types": "MANY_TYPES", "schema_alone": "EMPTY",
        "int32_column": "NUMBERS", "int32_column_64": "NUMBERS_64", "second_batch_left_out": "SECOND_LEFT_OUT",
        "no_hidden_bytes": "TIDY", "other_letters": "OTHER", "one_dictionary_of_two_columns": "TWICE_X",
        "list_without_its_gap": "CLOSED_GAP"}
    reported = {"texts_with_quotes": "QUOTED", "lists_of_structs": "NESTED", "empty_batches": "EMPTY_BATCHES",
        "lists_and_texts": "LISTS", "struct_column": "STRUCTS", "truths": "BITS", "no_columns": "NO_COLUMNS",
        "dictionary_of_numbers": "SIZES", "dictionary_of_lists": "GROUPS"}
    return {**{name: written[it] for name, it in named.items()}, **{name: others[it] for name, it in reported.items()}}


def columns():
    """Columns without dictionaries."""
    four = [numbers([1, None]), lists([[1, None], []], numbers), structs([(), ()], numbers([200, 0], "B")),
        numbers([-1, 10 ** 15], "q")]
    parts = [(True, "x"), None, (None, "z")]
    return {
        "one_column": ("a schema, and nothing after it", ONE_COLUMN),
        "end_marker_behind_the_schema": ("a schema, an end marker, and three bytes after it", ONE_COLUMN + END_MARKER + b"abc"),
        "texts": ("texts, one of them null", streams.joined(streams.COLUMNS, "TEXTS THREE_TEXTS END")),
        "four_fields": ("a column by a dictionary, a list, a struct and a timestamp in a zone",
            stream(streams.four_fields(), letters("ab"), batch(*four))),
        "large_texts": ("large texts, one of them null", one_batch_of([LARGE_UTF8], typed_columns.large_strings(["a", None, "bc"]))),
        "fixed_bytes": ("byte strings of three bytes, one of them null", one_batch_of([fixed_size_binary(3)],
            typed_columns.fixed([b"\x00\x01\xff", None], 3))),
        "later_types": ("each type with large offsets or of a fixed width, with nulls", later_types()),
        "extremes": ("the least and the greatest number of each width, and a null", extremes()),
        "32_levels": ("lists nested so that the innermost field is at level 32", nested(32)),
        "lists_in_structs_in_lists": ("structs of large lists of structs, with nulls on each level",
            stream(schema(field("s", STRUCT, [field("l", LARGE_LIST,
            [field("item", STRUCT, [field("b", BOOL), field("t", UTF8)])])])),
            batch(structs([(), None, (), ()], typed_columns.large_lists([parts, None, None, []], truths_and_texts))))),
        "struct_without_fields": ("structs without fields", one_batch_of([STRUCT], structs([(), None, ()]))),
        "lists_of_nulls": ("lists of nulls", one_batch_of([LIST, [field("item", NULL)]], lists([[None, None], [], None],
            lambda it: nulls(len(it))))),
        "unsigned": ("integers of 32 bits without a sign", in_one((f"{TYPE}.is_signed", "00"))),
        "not_nullable": ("a column that is not nullable", stream(schema_in_one((f"{FIELD}.nullable", "00")),
            batch(numbers([1, 2])))),
        "one_name_for_two_columns": ("two columns of one name, and one of an empty name",
            stream(schema(field("n", INT32), field("n", UTF8), field("", BOOL)), batch(numbers([1]), strings(["a"]),
            bools([True])))),
        "name_of_a_line_feed": ("a name that is a line feed", in_one((f"{FIELD}.name.bytes", "0a"))),
        "names_of_other_letters": ("names of quotes, a backslash and letters beyond ASCII",
            stream(schema(field('q"\\', INT32), field("ä€", INT32), field("\x7f,", INT32)), batch(*3 * [numbers([1])]))),
        "one_row_after_many": ("batches of one row before, between and after two of 1,030", one_after_many()),
        "no_columns_and_no_rows": ("a batch without columns and without rows", stream(schema(), batch(length=0))),
    }


def lenient():
    """Streams in which the standard leaves the writer a choice that our writer never makes."""
    apart = column([(2, 0)], b"", i32(2, 3, 5), b"..abc")
    spare = column([(3, 1)], b"\xfd", i32(1, 9, 3, 4))
    return {
        "one_offset": ("texts of no rows, with one offset", streams.joined(streams.COLUMNS, "TEXTS NO_TEXTS END")),
        "first_offset_above_zero": ("texts that begin at the third byte", stream(TEXTS, batch(apart, length=2))),
        "text_behind_two_bytes": ("one text, after two bytes that no text has", one_batch_of([UTF8],
            column([(1, 0)], b"", i32(2, 3), b"xxa"))),
        "an_empty_text_behind_two_bytes": ("an empty text and one of three bytes, after two bytes",
            one_batch_of([UTF8], column([(2, 0)], b"", i32(2, 2, 5), b"xxabc"))),
        "null_of_some_bytes": ("a null text that has bytes, which are no UTF-8", one_batch_of([UTF8],
            column([(2, 1)], b"\x02", i32(0, 2, 3), b"\xff\xffa"))),
        "spare_bits_and_slots": ("bits and slots after the last row, and something under a null",
            stream(INT32S, batch(spare, length=3))),
        "spare_bit": ("a set bit after the last row", in_one(("batch.body.0", "0d"))),
        "bytes_behind_the_end_marker": ("bytes after the end marker", ONE_COLUMN + ONE_BATCH + END_MARKER + b"abc"),
        "no_validity": ("no validity, and no nulls", in_one((f"{VALIDITY}.length", "00"), (f"{NODE}.null_count", "00"))),
        "validity_of_all_bits": ("a validity of set bits alone", in_one(("batch.body.0", "07"), (f"{NODE}.null_count", "00"))),
        "date_without_a_unit": ("a date without a unit, in milliseconds",
            schema(field("d", (8, table()))) + batch(numbers([DAY_IN_MS], "q"))),
        "no_end_marker": ("a stream that ends after its batch", ONE_COLUMN + ONE_BATCH),
        "vtable_without_the_sign": ("integers whose vtable ends before the field of the sign",
            in_one((f"{TYPE}.vtable.size", "06"))),
        "one_vtable_for_two_tables": ("integers by the vtable of the schema", in_one((f"{TYPE}.to_vtable", "58"))),
        "vtable_behind_its_table": ("integers whose vtable is after their table", vtable_at_the_end()),
        "metadata_padded_to_4096": ("metadata of a batch with bytes after them that nothing names", padded(4096)),
        "body_longer_than_its_buffers": ("bytes of a body that no buffer has", longer_body()),
        "scalars_left_out": ("numbers that have their defaults are left out", scalars_left_out()),
    }


def vtable_at_the_end():
    """The one column, whose type has its vtable at the end of the metadata."""
    its = Stream(schema=ONE_COLUMN)
    size, vtable = len(ONE_COLUMN) - 8, its.place(f"{TYPE}.vtable.size")
    back = its.place(f"{TYPE}.to_vtable") - len(ONE_COLUMN)
    held = its.changed({"schema.prefix.size": i32(size + 8).hex(), f"{TYPE}.to_vtable": i32(back).hex()})
    return stream(held, held[vtable:vtable + 8], ONE_BATCH)


def padded(size):
    """The one batch, whose metadata is padded with zero bytes up to this size."""
    words = frames.metadata_in(ONE_BATCH)
    prefix, body = b"\xff" * 4 + struct.pack("<i", size), ONE_BATCH[8 + len(words):]
    return stream(ONE_COLUMN, prefix, words, bytes(size - len(words)), body)


def longer_body():
    """A batch whose body goes on after its buffers."""
    nodes, places, body = frames.body_of([numbers([1, None, 3])])
    return stream(INT32S, raw_batch(3, nodes, places, body + bytes(64)))


def scalars_left_out():
    """Each number that is the default of its field is left out, in the schema, in a dictionary and in batches."""
    kinds = [("k", 5, table()), ("t", 9, table()), ("s", 10, table()), ("d", 18, table()), ("e", 8, table()),
        ("u", 2, table(scalar("i", 8)))]
    fields = [raw_field(*it, nullable=None) for it in kinds] + [raw_field("j", 5, table(), table(None, None, None, None))]
    nodes, places, body = frames.body_of([strings(["a", "b"])])
    rows = batch(strings(["a", "b"]), numbers([1, 0]), numbers([5, 1], "q"), numbers([-5, 0], "q"), numbers([0, -DAY_IN_MS], "q"),
        numbers([255, 0], "B"), numbers([None, 1]))
    no_nodes, no_places, no_body = frames.body_of([strings([])] + [numbers([])] * 6)
    return stream(frame(1, table(None, vector(fields))), frame(2, table(None, table(scalar("q", 2), pairs(nodes), pairs(places))),
        body), rows, frame(3, table(None, pairs(no_nodes), pairs(no_places)), no_body))


def types_in_one():
    """The column of the one batch with the code of another type, whose table is that of the integers."""
    def as_type(code, *more):
        return schema_in_one((f"{FIELD}.type_type", code), *more)
    no_width = (f"{TYPE}.vtable.bit_width", "00")
    return {
        "nulls_for_integers": ("a column that is said to be of nulls", as_type("01")),
        "texts_for_integers": ("a column that is said to be of texts", as_type("05")),
        "truths_for_integers": ("a column that is said to be of truth values", as_type("06")),
        "dates_for_integers": ("a column that is said to be of dates, whose unit is absent", as_type("08", no_width)),
        "fixed_bytes_for_integers": ("a column that is said to be of byte strings of 32 bytes", as_type("0f")),
        "durations_for_integers": ("a column that is said to be of durations, whose unit is absent", as_type("12", no_width)),
        "large_bytes_for_integers": ("a column that is said to be of large byte strings", as_type("13")),
    }


def indices():
    """Indices of each width, under nulls and of nulls, and ids."""
    ends = [-2 ** 63, 2 ** 63 - 1]
    widths = [(bits, signed, form if signed else form.upper()) for bits, form in ((8, "b"), (16, "h"), (32, "i"), (64, "q"))
        for signed in (True, False)]
    return {
        "null_indices_without_a_dictionary": ("null indices, and no dictionary", stream(WORDS, batch(numbers([None, None])))),
        "index_under_a_null": ("an index above its dictionary in a null slot", streams.streams()["null_index_above"]),
        "negative_index_under_a_null": ("an index of -1 in a null slot", stream(ABC, batch(column([(2, 1)], b"\x01", i32(2, -1))))),
        "index_of_a_null_value": ("an index of a value that is null, and a null index", stream(WORDS, letters(["a", None]),
            batch(numbers([1, None, 0])))),
        "dictionary_of_nulls_alone": ("a dictionary whose values are all null", stream(WORDS, letters([None, None]),
            batch(numbers([1, None, 0])))),
        "dictionary_of_null_and_other_structs": ("a dictionary of structs below lists, null on each level",
            stream(schema(field("l", LIST, [field("item", STRUCT, POINT, encoding=dictionary(9, 16))])),
            dictionary_batch(9, streams.points([(1, "a"), None, (None, None)])),
            batch(lists([[2, 1, None, 0], None, []], lambda it: numbers(it, "h"))))),
        "ids_at_the_ends": ("the least and the greatest id",
            stream(schema(*(field("k", UTF8, encoding=dictionary(it)) for it in ends)), *(letters_of(it, "ab") for it in ends),
            batch(numbers([0, 1]), numbers([1, None])))),
        "indices_of_each_width": ("one dictionary of eight columns, by indices of each width",
            stream(schema(*(field(f"k{at}", UTF8, encoding=dictionary(0, bits, signed)) for at,
            (bits, signed, _) in enumerate(widths))), letters("abc"),
            batch(*(numbers([2, None, at % 3], form) for at, (_, _, form) in enumerate(widths))))),
        "index_of_255": ("the greatest index of 8 bits without a sign",
            stream(schema(field("k", UTF8, encoding=dictionary(0, 8, False))), letters([f"{at}" for at in range(256)]),
            batch(numbers([255, 128, 127], "B")))),
        "ordered_dictionary": ("a dictionary whose order means something, of a column that is not nullable",
            stream(schema(field("k", UTF8, nullable=False, encoding=dictionary(4, 8, True, True))), letters_of(4, "ab"),
            batch(numbers([1, 0], "b")))),
        "dictionary_of_large_texts": ("a dictionary of large texts that grows", two_batches([LARGE_UTF8], ["a", None], typed_columns.large_strings,
            ["bc"])),
        "dictionary_of_fixed_bytes": ("a dictionary of byte strings of three bytes that grows",
            two_batches([fixed_size_binary(3)], [b"\x00\x01\xff", None], lambda it: typed_columns.fixed(it, 3), [b"abc"])),
        "dictionary_of_durations": ("a dictionary of durations that grows", two_batches([duration(2)], [1, None],
            lambda it: numbers(it, "q"), [-1])),
        "dictionary_of_large_lists": ("a dictionary of large lists that grows", two_batches([LARGE_LIST, [field("item", INT32)]],
            [[1, None], None], lambda it: typed_columns.large_lists(it, numbers), [[]])),
    }


def growing():
    """Dictionaries that grow, shrink, change and come again between batches."""
    many = [letters([chr(97 + at % 26) * (1 + at // 26)], at > 0) for at in range(70)]
    two = schema(field("k", UTF8, encoding=dictionary(1)), field("j", INT32, encoding=dictionary(2)))
    return {
        "cut_off_behind_the_delta": ("a growing dictionary up to the end of its delta", GROWING[:816]),
        "cut_off_behind_the_second_batch": ("a growing dictionary up to the end of its second batch", GROWING[:976]),
        "version_4": ("a growing dictionary whose messages are all of V4",
            b"".join(frames.as_v4(it) for it in streams.growing_dictionary()[:-1]) + END_MARKER),
        "dictionary_used_before_it_changes": ("a batch, then another dictionary of the same id, then the same indices",
            stream(WORDS, letters("abc"), batch(numbers([0, 2])), letters("xyz"), batch(numbers([0, 2])))),
        "dictionary_that_shrinks": ("a dictionary that is replaced by a shorter one each time",
            stream(WORDS, *(it for size in (3, 2, 1) for it in (letters("abc"[:size]), batch(numbers([size - 1, 0])))))),
        "dictionary_emptied": ("a dictionary that is replaced by one of no values, and grows again",
            stream(ABC, batch(numbers([2])), letters(""), batch(numbers([None])), letters("z", True), batch(numbers([0])))),
        "delta_of_no_values": ("a delta of no values", stream(ABC, letters("", True), batch(numbers([2])))),
        "delta_behind_a_replacement": ("a delta, another dictionary, and a delta of that", stream(ABC, letters("d", True),
            batch(numbers([3])), letters("x"), letters("y", True), batch(numbers([1, 0])))),
        "deltas_in_a_row": ("three deltas before one batch", stream(ABC, *(letters(it, True) for it in "def"),
            batch(numbers([5, 4, 3, 0])))),
        "dictionary_of_70_pieces": ("a dictionary of one text that grows by one 69 times", stream(WORDS, *many,
            batch(numbers([0, 1, 25, 26, 63, 64, 65, 69])))),
        "dictionary_in_other_pieces": ("a dictionary of three texts and two, then one of the first alone and five others after it",
            stream(ABC, letters("de", True), batch(numbers([4])), letters("a"), letters("bcdef", True), batch(numbers([5, 4])))),
        "dictionary_sent_twice": ("a dictionary, a batch, and the same dictionary", stream(ABC, batch(numbers([1])), letters("abc"),
            batch(numbers([1])))),
        "deltas_of_two_ids": ("two dictionaries that grow in turn", stream(two, letters_of(1, "a"),
            dictionary_batch(2, numbers([7])), batch(numbers([0]), numbers([0])), dictionary_batch(2, numbers([None, 9]), True),
            batch(numbers([0]), numbers([2])), letters_of(1, "bc", True), batch(numbers([2]), numbers([1])))),
        "dictionaries_without_batches": ("dictionaries that no batch uses", stream(ABC, letters("d", True), letters("x"))),
    }


def letters_of(number, words, delta=False):
    return dictionary_batch(number, strings(words), delta)


AT_SCHEMA = [("origin", "here"), ("", ""), ("origin", "there")]
AT_FIELD = [("unit", "m"), ("unit", "s"), ("empty", ""), ("Maß", "é€")]


def pairs_on_every_level():
    inner = field("n", LIST, [field("item", BOOL, noted=AT_FIELD)], noted=[("list", "")])
    return stream(schema(field("k", UTF8, encoding=dictionary(0), noted=AT_FIELD), field("s", STRUCT,
        [field("m", INT32, noted=AT_FIELD), inner], noted=AT_SCHEMA), field("w", LARGE_LIST,
        [field("item", INT32, noted=[("", "w")])], noted=[("w", "w")]), field("t", UTF8), noted=AT_SCHEMA), letters("ab"),
        batch(numbers([1, None]), structs([(), None], numbers([7, None]), lists([[True], None], bools)),
        typed_columns.large_lists([[1], []], numbers), strings(["x", None])))


def other_writers():
    """Batches and dictionaries as FlatBuffers' own builder lays them out, which leaves out values that are the default."""
    its = frames_of_another()
    six = schema(field("u", integer(16, False)), field("d", date(1), nullable=False), field("t", time(1)), field("s", timestamp(0)),
        field("", duration(1)), field("k", UTF8, encoding=dictionary(0)))
    rows = [numbers([65_535, None], "H"), numbers([0, DAY_IN_MS], "q"), numbers([None, 1]), numbers([1, None], "q"),
        numbers([0, 5], "q"), numbers([2, 0])]
    return {
        "stream_of_another_writer": (
            "a stream of another writer, who leaves out numbers that have their defaults, and gives equal vtables one place",
            written_by_another("stream_of_another_writer")),
        "dictionaries_of_another_writer": ("a dictionary and a delta of another writer, who leaves out what has its default",
            stream(WORDS, its["DICTIONARY"], batch(numbers([1, None])), its["DELTA"], batch(numbers([2, 0])))),
        "batch_of_another_writer": (
            "a batch of no rows of another writer, who leaves out what has its default, between two of ours",
            stream(six, its["DICTIONARY"], its["DELTA"], batch(*rows), its["NO_ROWS"], batch(*rows))),
    }


def skipped():
    """Custom metadata, which is kept on a schema and its fields and skipped on a message, and features, which are skipped."""
    def said(code, header, body=b""):
        return frame(code, header, body, noted=[("k", "v"), ("k", "")])
    words = strings("ab")
    nodes, places, body = frames.body_of([words])
    rows, row_places, row_body = frames.body_of([numbers([1, 0, None])])
    one_field = [field("k", UTF8, encoding=dictionary(0))]
    return {
        "pairs_on_every_level": (
            "custom metadata at the schema and at fields on each level, keys that come again, empty keys and values",
            pairs_on_every_level()),
        "pair_of_the_schema": ("the pair of k and v at the schema", stream(custom_metadata.numbers_with(custom_metadata.PAIR), ONE_BATCH)),
        "pair_of_the_column": ("the pair of k and v at the column", stream(custom_metadata.numbers_with((), custom_metadata.PAIR), ONE_BATCH)),
        "vectors_of_no_pairs": ("vectors of no pairs at the schema and at the column", stream(custom_metadata.no_pairs(), ONE_BATCH)),
        "pairs_of_the_messages": ("custom metadata at each message, which are skipped",
            stream(said(1, table(scalar("h", 0), vector(one_field))),
            said(2, table(scalar("q", 0), record(2, nodes, places), scalar("B", 0)), body), said(3, record(3, rows, row_places),
            row_body))),
        "features_of_the_schema": ("a schema that names the features of its stream, which are skipped", featured()),
    }


def record(length, nodes, places):
    return table(scalar("q", length), pairs(nodes), pairs(places))


def featured():
    """The one column, whose schema has a vector of one long, 1 for dictionaries that are replaced."""
    return stream(raw_schema([field("k", UTF8, encoding=dictionary(0))], None, pairs([(1, 0)])), letters("ab"), batch(numbers([1])),
        letters("c"), batch(numbers([0])))


def vectors():
    found = {}
    for group in (of_written(), columns(), lenient(), types_in_one(), indices(), growing(), other_writers(), skipped()):
        assert not found.keys() & group.keys()
        found.update(group)
    return found
