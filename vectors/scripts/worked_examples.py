"""The worked examples and rows, each with what is stated about it from outside the model: if the model answered differently, the
vectors would not be written. docs/TESTING.md shows which vectors and which tests have each."""
import re

from tools import custom_metadata
from tools.frame_parts import Parts, split
from tools.frames import field, floating, schema
from raw_frames import FIELD, ONE
from results import place_of

CLEAN = ["end clean"]


def rejected(kind, place):
    return [f"refuse {kind} at {place}", f"end {kind} at {place}"]


def column(text):
    return [f"  column {text}"]


def rows(*values):
    return [f"  row {it}" for it in values] + CLEAN


LETTERS_SHOWN = ['  row 0 -> "a"', '  row 1 -> "b"', '  row 2 -> "c"', '  row 4 -> "e"', '  row 0 -> "a"', '  row 1 -> "c"',
    '  row 3 -> "e"']
THREE = rows("1", "null", "3")
ONE_AND_A_HALF = rows("0x3ff8000000000000=1.5", "null")
FOUR_FIELDS = ["  column k: dictionary<int32, utf8> id 0", "  column l: list not null", "    column item: int32",
    "  column s: struct", "    column m: uint8 not null", "  column t: timestamp[us, UTC]"]
CUT = ["length 200 -> batches 0 rows 0 end clean", "length 592 -> batches 1 rows 3 end clean",
    "length 976 -> batches 2 rows 5 end clean", "length 1368 -> batches 3 rows 7 end clean",
    "length 201..423 -> batches 0 rows 0 end Truncated at 200", "length 425..591 -> batches 0 rows 0 end Truncated at 424",
    "length 593..815 -> batches 1 rows 3 end Truncated at 592", "length 817..975 -> batches 1 rows 3 end Truncated at 816",
    "length 1369..1375 -> batches 3 rows 7 end Truncated at 1368"]

# Keyed by the name of an example: the tests that have what is not a stream, and for each vector the lines that its text contains
# in this order; * is any words.
EXAMPLES = {
    "no schema": ([], {
        "nothing": ["take 0 nothing", "hold 0", "end NoSchema at 0"], "cut_off_in_the_schema": ["take 100 nothing", "hold 100",
            "end NoSchema at 0"]}),
    "first frame": ([], {
        "one_column": ["take 152 schema", *column("n: int32"), *CLEAN], "end_marker_behind_the_schema": ["take 152 schema",
            "take 8 end", "take 0 nothing", *CLEAN]}),
    "int32 column": ([], {
        "int32_column": ["take 152 schema", "take 176 batch of 3", *THREE[:3], "take 8 end", *CLEAN],
        "int32_column_64": ["take 192 schema", "take 320 batch of 3", *THREE[:3], "take 8 end", *CLEAN]}),
    "text and bits": ([], {"texts": rows('"a"', "null", '"bc"'), "truths": rows("true", "false", "null", "true")}),
    "empty offsets": ([], {
        "no_offsets": ["take * batch of 0", *CLEAN], "one_offset": ["take * batch of 0", *CLEAN],
            "two_bytes_of_offsets": rejected("Layout", "*")}),
    "no columns": ([], {"no_columns": ["take * batch of 3", "  row", "  row", "  row", *CLEAN]}),
    "growing dictionary": (["arrowflow_session_tests/calls"], {
        "growing_dictionary": ["take 200 schema", "take 224 dictionary 0 of 3", "take 168 batch of 3", *LETTERS_SHOWN[:3],
            "take 224 dictionary 0 of 5", "take 160 batch of 2", *LETTERS_SHOWN[3:5], "take 232 dictionary 0 of 4",
            "take 160 batch of 2", *LETTERS_SHOWN[5:], "take 8 end"],
        "resent_dictionary": [*LETTERS_SHOWN, "take 8 end"]}),
    "hidden bytes": ([], {
        "hidden_bytes": ['  value "a"', "  value null", '  row 0 -> "a"', "  row 1 -> null", '  value "a"', "  value null",
            '  row 0 -> "a"', "  row 1 -> null", *CLEAN],
        "no_hidden_bytes": ["take * dictionary 0 of 2", "take * batch of 2", "take * batch of 2", "take 8 end"]}),
    "hidden bytes of each type": (["arrow_body_tests/stored"], {
        "hidden_in_numbers": rows("1", "null", "3", "1", "null", "3", "1", "2"), "hidden_in_texts": rows('"a"', "null", '"bc"', '"a"',
            "null", '"a"', "null"),
        "hidden_in_lists": rows("[1, 2]", "null", "[]", "[1, 2]", "null", "[3]", "[1, 2]", "[3]", "[1, 2]", "[3]"),
        "hidden_in_structs": rows('{"m": 5}', "null"), "hidden_in_structs_of_texts": rows('{"t": "a"}', "null"),
        "hidden_list_in_a_struct": rows('{"l": [1]}', "null", '{"l": [4]}'), "hidden_in_lists_of_indices": rows(
            "[2 -> [3], null, 1 -> [2]]", "null", "[2 -> [3], null, 1 -> [2]]"), "hidden_without_offsets": CLEAN}),
    "nine slots of each type": ([], {
        "utf8_alone": rows("null", '"b"', '"c"', '"d"', '"e"', '"f"', '"g"', '"h"', '"i"', '"a"', '"b"'),
        "int8_alone.changes": ["nine.header.buffers.1.length at * := 0800000000000000 -> batches * end Layout at *",
            "nine.header.nodes.0.null_count at * := ffffffffffffffff -> batches 6 rows 32 end clean"],
        "utf8_alone.changes": ["nine.body.2[1] at * := ff -> batches * end Text at *"],
        "utf8_by_a_dictionary.changes": ["nine.body.1[* := 09 -> batches * end Index at *"],
        "each_type_untold": ["take * batch of 9", "take * batch of 9", "take * batch of 9", "take * batch of 0", "end clean"]}),
    "columns below columns": (["arrow_body_tests/calls"], {
        "lists_of_structs_of_lists": rows('[{"l": [1, 2], "t": "a"}, {"l": null, "t": "bc"}]', "null", '[{"l": [3], "t": null}]'),
        "lists_of_structs_of_lists.changes": ["* -> batches 0 rows 0 end Layout at *", "* -> batches 0 rows 0 end Text at *"],
        "structs_of_structs.changes": ["* -> batches 1 rows 0 end clean", "* -> batches 0 rows 0 end Layout at *"],
        "index_beside_a_text.changes": [*(f"* -> batches 0 rows 0 end {it} at *" for it in ("Index", "Text", "Layout", "Text"))],
        "index_among_200.changes": ["* := c7 -> batches 1 rows 1 end clean", "* := c8 -> batches 0 rows 0 end Index at *"]}),
    "broken inside a batch": (["arrowflow_tests/drilling", "arrowflow_session_tests/session"], {
        "cut_off_in_the_second_batch": ["take 224 dictionary 0 of 5", "take 159 nothing", "hold 159", "end Truncated at 816"],
        "growing_dictionary_cut.changes": [CUT[7]]}),
    "piece size": (["arrowflow_session_tests/session"], {
        "cut_off_behind_the_second_batch": [*LETTERS_SHOWN[:5], *CLEAN], "growing_dictionary_cut.changes": [CUT[2]]}),
    "all null indices": ([], {"null_indices_without_a_dictionary": rows("null", "null")}),
    "index range": ([], {
        "index_above": rejected("Index", 424), "index_below": rejected("Index", 424), "index_under_a_null": CLEAN,
            "negative_index_under_a_null": CLEAN}),
    "two lists": (["arrowflow_session_tests/one_id"], {
        "one_dictionary_of_two_columns": ["take * dictionary 0 of 1", '  value "x"', "take * batch of 1",
            '  row 0 -> "x", 0 -> "x"', "take 8 end"]}),
    "delta without base": ([], {"delta_without_base": rejected("NoBase", 200),
        "unknown_id": rejected("UnknownId", 200)}),
    "bad headers": ([], {
        "negative_size_at_the_start": rejected("MetadataSize", 0), "no_continuation_at_the_start": rejected("Continuation", 0),
        "end_marker_before_the_schema": rejected("NoSchema", 0)}),
    "lists and CSV": ([], {"lists_and_texts": rows('[1, 2], "a,b"', "null, null", '[], ""')}),
    "struct column": ([], {"struct_column": rows('{"m": 5}', "null")}),
    "shared fields": (["arrow_meta_reader_tests/shared"], {
        "shared_fields_17_deep": rejected("Metadata", 0),
            "fields_at_the_limit.changes": ["schema.header.fields.0 at * -> batches 0 rows 0 end clean"]}),
    "two connections": (["arrowflow_session_tests/session"], {
        "cut_off_in_the_first_prefix": ["take 5 nothing", "hold 5", "end NoSchema at 0"], "other_letters": rows('1 -> "y"',
            '0 -> "x"', '1 -> "y"')}),
    "cut and changed": ([], {
        "cut_off_in_the_end_marker": ["take 176 batch of 3", "take 7 nothing", "end Truncated at 328"], "no_end_marker": THREE,
        "null_count_wrong": rejected("Layout", 152), "negative_body_length": rejected("BodyLength", 152),
            "second_schema": rejected("Order", 152),
        "date_without_a_unit": column("d: date[ms]")}),
    "a schema's text, byte by byte": ([], {
        "not_nullable": column("n: int32 not null"), "unsigned": column("n: uint32"),
            "vtable_without_the_sign": column("n: uint32"),
        "one_vtable_for_two_tables": column("n: int32"), "nulls_for_integers": column("n: null"),
            "texts_for_integers": column("n: utf8"),
        "truths_for_integers": column("n: bool"), "name_of_a_line_feed": column("\\x0a: int32"),
            "body_of_the_schema": ["take 160 schema", *column("n: int32")]}),
    "a schema's faults, byte by byte": ([], {
        "name_not_utf8": rejected("Metadata", 0), "version_3": rejected("Version", 0),
            "version_3_and_floating_point": rejected("Version", 0),
        "tensor_for_a_schema": rejected("Header", 0), "negative_body_length_of_the_schema": rejected("BodyLength", 0),
            "big_endian": rejected("Unsupported", 0),
        "floating_point": rejected("Unsupported", 0), "width_24": rejected("Schema", 0)}),
    "bits, offsets and numbers": (["arrow_bits_tests/bits"], {
        "validity_too_short": rejected("Layout", "*"), "an_empty_text_behind_two_bytes": rows('""', '"abc"'),
            "offsets_past_the_data": rejected("Layout", "*"),
        "falling_offsets": rejected("Layout", "*"), "negative_offset": rejected("Layout", "*"),
            "three_bytes_of_offsets": rejected("Layout", "*"),
        "one_offset": CLEAN, "int8_alone": rows("-128", "null", "127", "127", "-128")}),
    "columns built, dictionaries, batches": (["arrow_builder_tests/pushes", "arrow_builder_tests/arrays",
        "arrow_data_tests/batches", "arrow_types_tests/types"], {
            "index_above": rejected("Index", "*"), "null_indices_without_a_dictionary": rows("null", "null"),
                "columns_of_unequal_lengths": rejected("Layout", "*")}),
    "messages written and read": (["arrow_meta_writer_tests/written"], {
        "date_of_the_unit_32": rejected("Schema", 0), "dates_for_integers": column("n: date[ms]"),
            "timestamp_in_an_unaligned_zone": column("n: timestamp[s, ]"),
        "four_fields": FOUR_FIELDS}),
    "columns and bodies": (["arrow_body_tests/stored"], {
        "text_behind_two_bytes": rows('"a"'), "longer_child": rows('{"m": 5}', '{"m": 6}'), "shorter_child": rejected("Layout", "*"),
        "text_under_a_null_struct": rejected("Text", "*"), "bad_text_beside_a_short_buffer": rejected("Layout", "*"),
            "index_below": rejected("Index", "*"),
        "negative_index_under_a_null": CLEAN}),
    "a reader, call by call": (["arrow_stream_reader_tests/limits",
        "arrow_stream_reader_tests/deciding"], {
        "cut_off_in_the_delta": ["take 224 dictionary 0 of 3", "take 168 batch of 3", "take 223 nothing", "hold 223",
            "end Truncated at 592"],
        "cut_off_behind_the_delta": ["take 224 dictionary 0 of 5", "take 0 nothing", "hold 0", *CLEAN]}),
    "a writer's frames": (["arrowflow_session_tests/calls", "arrowflow_session_tests/limits"], {
        "second_batch_left_out": ["take 200 schema", "take 224 dictionary 0 of 3", "take 168 batch of 3",
            "take 232 dictionary 0 of 4", "take 160 batch of 2", "take 8 end"],
        "dictionary_of_no_values": ["take 200 schema", "take 208 dictionary 0 of 0", "take 168 batch of 2", "take 168 batch of 2",
            "take 216 dictionary 0 of 1", "take 160 batch of 1", "take 8 end"]}),
    "a stream checked, copied, drilled": (["arrowflow_tests/drilling", "arrowflow_session_tests/session"], {
        "growing_dictionary": ["take 224 dictionary 0 of 5", "take 8 end"], "resent_dictionary": ["take 8 end"],
        "list_after_a_gap": rows("[8]"), "list_without_its_gap": rows("[8]")}),
    "one falling pair of offsets, at each place": (["arrow_bits_tests/bits"], {
        "falling_offsets.changes": ["batch.body.1[516] at * -> batches 0 rows 0 end Layout at *"], "falling_large_offsets.changes":
        ["batch.body.1[1032] at * -> batches 0 rows 0 end Layout at *"]}),
    "texts loaded, of which none is copied": (["alloc_failures/loading"], {}),
    "metadata read into a tree once": (["alloc_failures/decoding"], {}),
    "zeros of each number of bits": (["arrow_bits_tests/bits"],
        {"null_counts.changes": ["* := 6400000000000000 -> batches 1 rows 200 end clean"]}),
    "dictionaries of several segments": (["arrow_data_tests/dictionaries", "arrow_dict_tests/trackers", "arrow_body_tests/stored",
        "arrow_body_tests/greatest", "arrow_stream_reader_tests/calls"], {
        "growing_dictionary": LETTERS_SHOWN, "dictionary_in_other_pieces": ['  row 4 -> "e"', '  row 5 -> "f"', '  row 4 -> "e"',
            *CLEAN],
        "dictionary_of_70_pieces": ["take * dictionary 0 of 70", *rows('0 -> "a"', '1 -> "b"', '25 -> "z"', '26 -> "aa"', '*', '*',
            '*', '69 -> "rrr"')]}),
    "each allocation failing in turn": ([f"alloc_failures/{it}" for it in ("reading", "writing", "reporting", "copying", "decoding",
        "storing")], {"growing_dictionary": ["end clean"], "int32_column": ["end clean"]}),
    "sinks and inputs that fail": (["arrowflow_session_tests/broken"], {
        "cut_off_in_the_first_dictionary": ["take 200 schema", "take 200 nothing", "hold 200", "end Truncated at 200"],
            "growing_dictionary_cut.changes": CUT}),
    "one batch, cut to each length": ([], {"int32_column_cut.changes": [
        "length 152 -> batches 0 rows 0 end clean", "length 328 -> batches 1 rows 3 end clean",
            "length 336 -> batches 1 rows 3 end clean",
        "length 0..151 -> batches 0 rows 0 end NoSchema at 0", "length 153..327 -> batches 0 rows 0 end Truncated at 152",
        "length 329..335 -> batches 1 rows 3 end Truncated at 328"]}),
    "one batch, each byte set": (["arrow_stream_reader_tests/single_bytes"], {
        "int32_column_bytes.changes": ["schema.version[0] at 28 := 00..02 -> batches 0 rows 0 end Version at 0",
            f"{FIELD}.name.bytes at 120 := 00..6d -> batches 1 rows 3 end clean"]}),
    "a batch's metadata, byte by byte": (["arrow_stream_reader_tests/declared", "arrow_stream_reader_tests/long_bodies"], {
        "root_outside": rejected("Metadata", 152), "vtable_too_long": rejected("Metadata", 152),
            "too_many_buffers": rejected("Metadata", 152),
        "most_negative_rows": rejected("Rows", 152), "rows_of_the_batch_and_of_its_node": rejected("Layout", 152),
            "node_longer_than_the_batch": rejected("Layout", 152),
        "no_node": rejected("Layout", 152), "one_buffer": rejected("Layout", 152), "null_count_not_told": THREE,
            "values_outside": rejected("Layout", 152),
        "declared_body_of_2_36": ["take 162 nothing", "hold 162", "end Truncated at 152"],
            "body_over_the_limit": rejected("BodyLength", 152)}),
    "a batch's validity, byte by byte": ([], {
        "no_validity_and_a_null": rejected("Layout", 152), "no_validity": rows("1", "0", "3"),
            "validity_of_no_nulls": rejected("Layout", 152), "spare_bit": THREE}),
    "levels, visits and bytes of names": (["arrow_meta_reader_tests/shared", "arrow_meta_reader_tests/counts"], {
        "32_levels": CLEAN, "33_levels": rejected("Metadata", 0), "shared_name_of_40_bytes": CLEAN,
            "shared_name_of_4000_bytes": CLEAN,
        "names_over_the_limit": rejected("Metadata", 0), "names_at_the_limit.changes": ["* -> batches 0 rows 0 end clean"]}),
    "large offsets, fixed widths, durations": ([], {
        "large_texts": rows('"a"', "null", '"bc"'), "fixed_bytes": rows('x"0001ff"', "null"),
            "fixed_bytes_for_integers": column("n: fixed_size_binary[32]"),
        "fixed_bytes_without_a_width": column("n: fixed_size_binary[0]"), "duration_of_the_unit_32": rejected("Schema", 0),
        "durations_for_integers": column("n: duration[ms]"), "large_bytes_for_integers": column("n: large_binary"),
            "large_list_without_a_child": rejected("Schema", 0),
        "later_types": CLEAN, "dictionary_of_large_lists": CLEAN, "lists_in_structs_in_lists": CLEAN}),
    "V4": (["arrow_meta_reader_tests/messages"], {
        "version_4_of_the_schema": column("n: int32") + THREE, "version_4_of_the_batch": THREE, "version_4": LETTERS_SHOWN,
            "mixed_versions": LETTERS_SHOWN,
        "version_3": rejected("Version", 0), "version_4_and_floating_point": rejected("Unsupported", 0)}),
    "custom metadata": (["arrow_types_tests/pairs", "arrow_meta_writer_tests/written", "arrowflow_session_tests/other_schemas"], {
        "pair_of_the_schema": ["take 208 schema", '  metadata x"6b"=x"76"', *column("n: int32"), *THREE],
        "pairs_on_every_level": ['  metadata x"6f726967696e"=x"68657265" x""=x"" x"6f726967696e"=x"7468657265"', *CLEAN],
        "absent_keys_and_values": ['    metadata x""=x"76" x"6b"=x"" x""=x""', *THREE],
            "custom_metadata": ['    metadata x"fffe"=x"0080"', *CLEAN],
        "vectors_of_no_pairs": THREE, "pairs_of_the_messages": CLEAN, "unreadable_pairs_of_the_messages": CLEAN,
            "features_of_the_schema": CLEAN, "unreadable_features": THREE, "fields_of_a_later_standard": CLEAN,
            "pairs_over_the_limit": rejected("Metadata", 0),
        "pairs_at_the_limit.changes": ["* -> batches 0 rows 0 end clean"]}),
    "floating point in a schema, byte by byte": ([], {
        "all/doubles_and_no_batch": ["take 144 schema", *column("d: double"), "take 8 end", *CLEAN],
        "all/singles_and_no_batch": column("d: float"), "all/halves_and_no_batch": column("d: halffloat"),
        "all/precision_of_3": rejected("Schema", 0), "all/precision_of_minus_1": rejected("Schema", 0),
        "all/no_precision": column("d: halffloat"), "all/type_table_outside": rejected("Metadata", 0),
        "all/no_type_table": rejected("Metadata", 0), "all/unions": rejected("Unsupported", 0),
        "all/precision_outside": rejected("Metadata", 0), "all/second_schema": ["take 144 schema", *rejected("Order", 144)],
        "all/child_of_doubles": rejected("Schema", 0)}),
    "floating point in a batch, byte by byte": ([], {
        "all/doubles": ["take 144 schema", "take 176 batch of 2", *ONE_AND_A_HALF],
        "all/singles": ["take 160 batch of 2", *rows("0x3dcccccd=0.1", "0x80000000=-0.0")],
        "all/halves": ["take 168 batch of 3", *rows("0x3c00=1.0", "0x7e01=NaN", "null")],
        "all/ends_of_doubles": rows("*=0.0", "*=-0.0", "*=5e-324", "*=2.225073858507201e-308", "*=2.2250738585072014e-308",
            "*=1.7976931348623157e308"),
        "all/no_numbers": rows("0x7ff0000000000000=inf", "0xfff0000000000000=-inf", "0x7ff8000000000000=NaN",
            "0x7ff0000000000001=NaN", "0xffffffffffffffff=NaN"),
        "all/doubles_too_short": rejected("Layout", 144), "all/bit_under_a_null": ONE_AND_A_HALF,
        "all/null_count_wrong": rejected("Layout", 144), "all/doubles_for_singles": rows("0x00000000=0.0", "null"),
        "all/ends_of_halves": rows("0x0001=5.9604645e-8", "0x03ff=0.00006097555", "0x0400=0.000061035156", "0x7bff=65504.0",
            "0x8001=-5.9604645e-8", "0x7c00=inf", "0xfc00=-inf"),
        "all/not_nullable_doubles": [*column("d: double not null"), *ONE_AND_A_HALF]}),
    "floating point below others and by a dictionary": ([], {
        "all/lists_of_doubles": [*column("l: list"), "    column item: double", *rows("[*=1.0, *=0.5]", "[*=1e21]")],
        "all/struct_of_a_single_and_a_double": rows('{"x": 0x3dcccccd=0.1, "y": 0x3fb999999999999a=0.1}'),
        "all/dictionary_of_doubles": [*column("c: dictionary<int8, double> id 7"), "take * dictionary 7 of 2", "  value *=0.25",
            "  value *=1e-7", *rows("1 -> *=1e-7", "null", "0 -> *=0.25")]}),
}

# The rules of a body: for each the vectors that keep it at its edge, and those that break it, with the kind with which they are
# rejected.
RULES = {
    "there are as many nodes as the fields take": (["surplus_nodes_and_buffers", "surplus_of_a_dictionary",
        "no_vectors_of_nodes_and_buffers"], "Layout", [
        "no_node", "no_node_for_the_second", "no_node_for_the_child", "no_nodes_for_a_column"]),
    "there are as many buffers as the fields take": (["surplus_nodes_and_buffers"], "Layout",
        ["one_buffer", "no_buffer_for_the_child"]),
    "a node has 0 slots or more": (["empty_batches", "no_columns_and_no_rows"], "Rows", ["negative_rows", "negative_node",
        "negative_rows_of_a_dictionary"]),
    "a node, and a dictionary, has 2^31 - 1 slots at most": (["rows_at_the_limit.changes", "values_at_the_limit.changes"], "Rows", [
        "rows_over_the_limit", "node_over_the_limit", "delta_over_the_limit"]),
    "a column's own node has as many slots as the batch": (["int32_column"], "Layout", [
        "rows_of_the_batch_and_of_its_node", "node_longer_than_the_batch", "rows_of_the_dictionary_and_of_its_node",
            "columns_of_unequal_lengths"]),
    "a struct's child has as many slots as the struct, or more": (["struct_column", "longer_child",
        "structs_of_structs.changes"], "Layout", ["shorter_child", "all/fewer_keys_than_entries"]),
    "the child of fixed-size lists has an item for each place in each list, or more": (["all/fixed_size_lists",
        "all/hidden_after_fixed_size_lists", "all/fixed_size_lists_of_none"], "Layout", ["all/item_less_than_fixed_size_lists_have",
        "all/items_that_end_before_a_null", "all/no_items_for_a_list_of_the_greatest_size",
        "all/dictionary_with_an_item_less_than_fixed_size_lists_have"]),
    "a buffer's length is not negative": (["no_validity"], "Layout", ["negative_buffer_length"]),
    "a buffer that is not empty begins in the body": (["buffers_that_overlap", "buffers_not_aligned"], "Layout",
        ["negative_buffer_offset", "validity_outside"]),
    "a buffer that is not empty ends in the body": (["body_longer_than_its_buffers", "metadata_of_an_odd_size"], "Layout",
        ["values_outside", "buffer_past_2_63"]),
    "an empty buffer may be anywhere": (["empty_buffer_outside", "empty_buffer_before_the_body"], "", []),
    "a validity that is not empty has a bit for each slot": (["validity_of_all_bits", "spare_bit", "nulls_of_a5"], "Layout",
        ["validity_too_short"]),
    "values and indices have all their slots": (["spare_bits_and_slots", "fixed_bytes_of_width_0", "all/doubles_for_singles",
        "all/day_times_for_months", "all/decimal256_for_decimal128"], "Layout", [
        "values_too_short", "truths_too_short", "fixed_bytes_too_short", "durations_too_short", "indices_too_short",
        "all/doubles_too_short", "all/singles_for_doubles", "all/months_too_short", "all/day_times_too_short",
        "all/month_day_nanos_too_short", "all/months_for_day_times", "all/decimal32_too_short", "all/decimal64_too_short",
        "all/decimal128_too_short", "all/decimal256_too_short", "all/decimal64_for_decimal128"]),
    "there is one offset more than slots, or there are no slots": (["one_offset", "no_offsets", "no_large_offsets"], "Layout", [
        "offsets_too_short", "large_offsets_too_short", "no_offsets_for_a_slot", "two_bytes_of_offsets", "three_bytes_of_offsets"]),
    "the first offset is not negative": (["first_offset_above_zero", "text_behind_two_bytes",
        "all/maps_after_an_entry"], "Layout", ["negative_offset", "negative_large_offset", "list_from_a_negative_offset",
        "all/map_from_a_negative_offset"]),
    "no offset falls": (["an_empty_text_behind_two_bytes", "null_of_some_bytes"], "Layout", [
        "falling_offsets", "falling_offsets_under_a_null", "falling_large_offsets", "falling_large_list",
        "all/falling_offsets_of_maps"]),
    "the last offset lies in the values or the child": (["list_after_a_gap", "texts_of_a_letter"], "Layout", [
        "offsets_past_the_data", "large_offsets_past_the_data", "large_offset_of_2_32", "list_past_its_child",
            "large_list_past_its_child", "all/map_past_its_entries"]),
    "the number of nulls is -1 or that of the bits, of nulls any": (["null_count_not_told", "null_count_of_nulls", "no_validity"],
        "Layout", [
        "null_count_wrong", "null_count_of_minus_2", "no_validity_and_a_null", "validity_of_no_nulls",
            "null_count_of_indices_wrong", "null_count_of_a_struct_wrong"]),
    "each valid text is UTF-8, also where nothing reaches it": (["utf8_alone", "null_of_some_bytes",
        "letters_of_many_bytes.changes"], "Text", [
        "text_not_utf8", "text_of_a_surrogate", "text_longer_than_it_need_be", "text_cut_off", "large_text_not_utf8",
            "text_of_a_dictionary_not_utf8",
        "text_in_a_list_not_utf8", "text_under_a_null_struct", "text_that_no_list_reaches", "all/key_of_maps_not_utf8"]),
    "each valid index has a value, also where nothing reaches it": (["index_under_a_null", "negative_index_under_a_null",
        "index_of_255", "null_indices_without_a_dictionary", "index_among_200.changes"], "Index", ["index_above", "index_below", "index_without_a_dictionary",
        "index_of_an_emptied_dictionary", "index_above_a_shorter_dictionary", "index_before_its_delta", "index_of_2_64",
        "index_in_a_list_above", "index_under_a_null_struct", "index_that_no_list_reaches"]),
}

# The kinds of faults in the order of their numbers; each has to have several causes.
KINDS = ("Continuation MetadataSize Metadata Version Header BodyLength Order Unsupported Schema Compressed UnknownId NoBase Rows Layout Text Index " "NoSchema Truncated").split()

# The sizes of some streams in bytes.
SIZES = {"growing_dictionary": 1376, "resent_dictionary": 1384, "int32_column": 336, "int32_column_64": 520,
    "second_batch_left_out": 992, "dictionary_of_no_values": 1128, "all/doubles_and_no_batch": 152, "all/doubles": 328}

# For some batches, by the number of their frame, the first nodes, the first buffers, and the bytes with which the body begins.
BODIES = {
    ("int32_column", 1): ([(3, 1)], [(0, 1), (8, 12)], "05 00 00 00 00 00 00 00 01 00 00 00 00 00 00 00 03 00 00 00 00 00 00 00"),
    ("texts", 1): ([(3, 1)], [(0, 1), (8, 16), (24, 3)],
        "05 00 00 00 00 00 00 00 00 00 00 00 01 00 00 00 01 00 00 00 03 00 00 00 61 62 63"),
    ("truths", 1): ([(4, 1)], [(0, 1), (8, 1)], "0b 00 00 00 00 00 00 00 09"),
    ("lists_and_texts", 1): ([(3, 1), (2, 0)], [(0, 1), (8, 16), (24, 0), (24, 8)],
        "05 00 00 00 00 00 00 00 00 00 00 00 02 00 00 00 02 00 00 00 02 00 00 00 01 00 00 00 02 00 00 00"),
    ("struct_column", 1): ([(2, 1), (2, 1)], [(0, 1), (8, 1), (16, 8)],
        "01 00 00 00 00 00 00 00 01 00 00 00 00 00 00 00 05 00 00 00 00 00 00 00"),
    ("growing_dictionary", 3): ([(2, 0)], [(0, 0), (0, 12), (16, 2)], "00 00 00 00 01 00 00 00 02 00 00 00 00 00 00 00 64 65"),
    ("longer_child", 1): ([(2, 0), (3, 0)], [(0, 0), (0, 0), (0, 12)], ""),
    ("text_behind_two_bytes", 1): ([(1, 0)], [(0, 0), (0, 8), (8, 3)], "02 00 00 00 03 00 00 00 78 78 61"),
    ("text_under_a_null_struct", 1): ([(1, 1), (1, 0)], [(0, 1), (8, 0), (8, 8), (16, 1)],
        "00 00 00 00 00 00 00 00 00 00 00 00 01 00 00 00 ff"),
    ("all/doubles", 1): ([(2, 1)], [(0, 1), (8, 16)], "01 00 00 00 00 00 00 00 00 00 00 00 00 00 f8 3f 00 00 00 00 00 00 00 00"),
    ("all/singles", 1): ([(2, 0)], [(0, 0), (0, 8)], "cd cc cc 3d 00 00 00 80"),
    ("all/halves", 1): ([(3, 1)], [(0, 1), (8, 6)], "03 00 00 00 00 00 00 00 00 3c 01 7e 00 00 00 00"),
    ("all/ends_of_halves", 1): ([(7, 0)], [(0, 0), (0, 14)], "01 00 ff 03 00 04 ff 7b 01 80 00 7c 00 fc 00 00"),
    ("large_texts", 1): ([(3, 1)], [(0, 1), (8, 32), (40, 3)], "05"),
    ("fixed_bytes", 1): ([(2, 1)], [(0, 1), (8, 6)], "01 00 00 00 00 00 00 00 00 01 ff 00 00 00"),
}

# The offsets of parts in the schema and in the batch of the one batch, in the schema with one pair, and in that of doubles, each
# from its frame's first byte.
PLACES = {
    "schema": {"version": 28, "header_type": 30, "body_length": 40, "header.endianness": 60, "header.fields.0.nullable": 104,
        "header.fields.0.type_type": 105, "header.fields.0.name.bytes": 120, "header.fields.0.type.vtable.size": 122,
        "header.fields.0.type.vtable.bit_width": 126, "header.fields.0.type.to_vtable": 136, "header.fields.0.type.bit_width": 140,
        "header.fields.0.type.is_signed": 144},
    "batch": {"root": 8, "version": 28, "body_length": 40, "header.length": 72, "header.nodes.count": 92,
        "header.nodes.0.length": 96, "header.nodes.0.null_count": 104, "header.buffers.count": 116, "header.buffers.0.length": 128,
        "header.buffers.1.offset": 136, "body.0": 152},
    "doubles": {"header.fields.0.vtable.size": 76, "header.fields.0.vtable.type": 86, "header.fields.0.to_vtable": 96,
        "header.fields.0.type_type": 105, "header.fields.0.type": 108, "header.fields.0.name.count": 116,
        "header.fields.0.type.vtable.size": 122, "header.fields.0.type.vtable.precision": 126,
        "header.fields.0.type.to_vtable": 128, "header.fields.0.type.precision": 132, "header.fields.0.children.count": 136},
    "paired": {"header.to_vtable": 64, "header.custom_metadata.count": 160, "header.custom_metadata.0.to_vtable": 176},
}


def matches(line, expected):
    return re.fullmatch(".*".join(map(re.escape, expected.split("*"))), line)


def lacking(files, name, stated):
    """The lines that are stated about vectors but are missing in their texts; each has to come after those before it."""
    for vector, expected in stated.items():
        text = files.get(vector if vector.endswith(".changes") else f"{vector}.txt")
        lines = iter(text.decode().splitlines() if text else [])
        for it in expected:
            if not any(matches(line, it) for line in lines):
                yield f"{name}: {vector} lacks, or has before another: {it}"
                break


def wrong_texts(files):
    """The same for all worked examples."""
    for name, (_, stated) in EXAMPLES.items():
        yield from lacking(files, name, stated)


def batch_of(frame):
    """The nodes, the buffers and the body of a batch."""
    its = Parts(frame)
    batch = "header.data" if "header.data" in its.found else "header"

    def pairs(of, first, second):
        return [(its.number(f"{batch}.{of}.{at}.{first}"), its.number(f"{batch}.{of}.{at}.{second}"))
            for at in range(its.number(f"{batch}.{of}.count"))]
    return pairs("nodes", "length", "null_count"), pairs("buffers", "offset",
        "length"), frame[len(frame) - its.number("body_length"):]


def wrong_bytes(files):
    """Sizes, bodies and offsets that differ from what is stated."""
    yield from (f"{name}: not {size} bytes" for name, size in SIZES.items() if len(files[f"{name}.arrows"]) != size)
    for (name, at), (nodes, buffers, body) in BODIES.items():
        found = batch_of(list(split(files[f"{name}.arrows"]))[at])
        expected = bytes.fromhex(body)
        if (found[0][:len(nodes)], found[1][:len(buffers)], found[2][:len(expected)]) != (nodes, buffers, expected):
            yield f"{name}: another body: {found}"
    its = {"schema": ONE.frames["schema"], "batch": ONE.frames["batch"], "paired": custom_metadata.numbers_with(custom_metadata.PAIR),
        "doubles": schema(field("d", floating(2)))}
    for frame, places in PLACES.items():
        found = Parts(its[frame]).found
        yield from (f"{frame}.{name}: is at {found[name].start}" for name,
            place in places.items() if found[name].start != place)


def wrong_rules(files):
    """Rules that are kept or broken in other ways than stated, and kinds with fewer than two causes."""
    endings = {name: held.decode().rstrip("\n").rsplit("\n", 1)[-1] for name, held in files.items() if name.endswith(".txt")}
    for rule, (kept, kind, broken) in RULES.items():
        its = [(it, "end clean") for it in kept if not it.endswith(".changes")] + [(it, f"end {kind} at *") for it in broken]
        yield from (f"{rule}: {it} ends differently" for it, ending in its if not matches(endings.get(f"{it}.txt", ""), ending))
        yield from (f"{rule}: there is no {it}" for it in kept if it.endswith(".changes") and it not in files)
    for kind in KINDS:
        if sum(it.startswith(f"end {kind} ") for it in endings.values()) < 2:
            yield f"{kind}: less than two vectors end so"


def wrong(files):
    """What is stated but is not true."""
    return [*wrong_texts(files), *wrong_bytes(files), *wrong_rules(files)]


def quoted(names):
    """Names of vectors and of families, those in a folder with their paths."""
    places = ((f"vectors/{place_of(it)}" if it.endswith(".changes") else f"vectors/{place_of(it)}.txt" if "/" in it else it) for it in names)
    return ", ".join(f"`{it}`" for it in places)


def rules():
    """The table of vectors/README.md: each rule of a body, the vectors that keep it and those that break it."""
    rows = [f"| {rule} | {quoted(kept)} | {f'{kind}: ' if kind else ''}{quoted(broken)} |" for rule,
        (kept, kind, broken) in RULES.items()]
    return ["| Rule of a body | Kept by | Broken by |", "|---|---|---|", *rows]


def table():
    """The table of docs/TESTING.md: each example, the vectors and the tests that have it."""
    lines = ["| Worked example | Vectors | Tests |", "|---|---|---|"]
    for name, (tests, stated) in EXAMPLES.items():
        modules_of = {}
        for crate, module in (it.split("/") for it in tests):
            modules_of.setdefault(crate, []).append(module)
        places = "; ".join(f"`{crate}`: {', '.join(modules)}" for crate, modules in modules_of.items())
        lines.append(f"| {name} | {quoted(stated)} | {places} |")
    return lines


def tests():
    """The files of the tests that the table names: a module of a crate, or a program of alloc_failures/."""
    found = set()
    for crate, module in (it.split("/") for its, _ in EXAMPLES.values() for it in its):
        found.add(f"alloc_failures/{module}.rt.txt" if crate == "alloc_failures" else f"crates/{crate}/src/tests/{module}.rt")
    return found
