"""Streams with maps, which are read with the set of all types. A map is a list of pairs of a key and a value.

NODES and BODY are those of the first batch, written out by hand: what tools/ generates has to be equal. STATED and SHOWN come
from outside the model: if its answer differs, nothing is written."""
from tools import stream_model
from tools.frame_parts import Stream
from tools.frames import (END_MARKER, INT32, LIST, STRUCT, UTF8, as_v4, batch, dictionary, dictionary_batch, field, lists,
    map_of, numbers, schema, strings, structs)
import changes
import kinds
from raw_frames import FIELD, TYPE, column, i32, i64, stream
from results import ALL
from table import MALFORMED, OWN, STANDARD
from worked_examples import CLEAN, column as columns, rejected, rows

# The fields of the entries of all maps here, unless others are given: texts and numbers of 32 bits.
KEY, VALUE = field("key", UTF8, nullable=False), field("value", INT32)


def entries(key=KEY, value=VALUE, name="entries", **how):
    """The field of a map's entries."""
    return field(name, STRUCT, [key, value], **{"nullable": False, **how})


def of(keys, values):
    """The function that makes a column of maps, whose keys and values are made by these. An entry is a pair, or None if it is
    null."""
    def entry(its):
        whole = [it or (None, None) for it in its]
        return structs(its, keys([key for key, _ in whole]), values([value for _, value in whole]))
    return lambda its: lists(its, entry)


maps = of(strings, numbers)
MAP, SORTED = map_of(entries()), map_of(entries(), True)
FIRST, SECOND = [("a", 1), ("b", None)], []
NINE = [[("a", None)], *([(letter, at)] for at, letter in enumerate(kinds.LETTERS) if at)]
KINDS = [kinds.Kind("Map", (False,), FIRST, SECOND, NINE, below=[[entries()]], as_column=maps, validities=(0, 2, 3, 5))]

# One nullable column `m` of maps of a text and a number: a map of two entries, a null and an empty map.
ONE = Stream(schema=schema(field("m", *MAP)), batch=batch(maps([FIRST, None, SECOND])), end=END_MARKER)
OFFSETS = "batch.body.1"
# The nodes and the body of the batch: for the maps validity and offsets, for the keys offsets and texts, for the values validity
# and numbers.
NODES = i64(3, 1, 2, 0, 2, 0, 2, 1)
BODY = bytes.fromhex("05 00 00 00 00 00 00 00  00 00 00 00 02 00 00 00 02 00 00 00 02 00 00 00"
    "00 00 00 00 01 00 00 00 02 00 00 00 00 00 00 00  61 62 00 00 00 00 00 00"
    "01 00 00 00 00 00 00 00  01 00 00 00 00 00 00 00")


# ---- the schema and the batch, changed by names


def in_schema(*settings):
    """The schema with these settings, each a name and its bytes, and an end marker."""
    return ONE.changed(dict(settings))[:len(ONE.frames["schema"])] + END_MARKER


def in_batch(*settings):
    return ONE.changed(dict(settings))


def no_batch(*columns):
    return stream(schema(*columns))


def schemas():
    """What a schema says about a column of maps: the type, its table, and whether keys are sorted."""
    keys_sorted, entry = f"{TYPE}.keys_sorted", f"{TYPE}.vtable.keys_sorted"
    names = entries(field("k", UTF8, nullable=False), field("k", INT32), "e")
    nullable = entries(field("key", UTF8), nullable=True)

    def of_one_id(one, other):
        """Two columns of one id, with these types."""
        return no_batch(*(field(name, *kind, encoding=dictionary(0)) for name, kind in (("k", one), ("j", other))))
    both = Stream(schema=of_one_id(SORTED, SORTED)[:-len(END_MARKER)], end=END_MARKER)
    return {
        "maps_and_no_batch": (STANDARD, "a column of maps", in_schema()),
        "sorted_maps_and_no_batch": (STANDARD, "a column of maps whose keys are sorted", in_schema((keys_sorted, "01"))),
        "keys_sorted_of_2": (OWN, "maps whose keys are sorted by a byte of 2", in_schema((keys_sorted, "02"))),
        "no_keys_sorted": (STANDARD, "maps that do not say whether keys are sorted", in_schema((entry, "0000"))),
        "vtable_without_keys_sorted": (STANDARD, "maps whose vtable ends before that", in_schema((f"{TYPE}.vtable.size", "04"))),
        "keys_sorted_outside": (MALFORMED, "maps whose byte for sorted keys does not lie inside", in_schema((entry, "ff7f"))),
        "map_table_outside": (MALFORMED, "maps whose type's table does not lie inside", in_schema((f"{FIELD}.type", "ffffff7f"))),
        "no_map_table": (MALFORMED, "maps whose type has no table", in_schema((f"{FIELD}.vtable.type", "0000"))),
        "version_4_of_maps": (STANDARD, "maps whose messages are all of V4",
            stream(*(as_v4(ONE.frames[it]) for it in ("schema", "batch")))),
        "other_names_of_entries": (STANDARD, "maps whose entries have other names, one for the key and the value",
            no_batch(field("m", *map_of(names)))),
        "nullable_entries": (OWN, "maps whose entries and keys are nullable", no_batch(field("m", *map_of(nullable)))),
        "sorted_and_unsorted_maps_of_an_id": (OWN, "two columns of one id, of maps with sorted keys and of others",
            of_one_id(SORTED, MAP)),
        "sorted_and_unsorted_maps_below_an_id": (OWN, "two columns of one id, of lists of such maps",
            of_one_id(*((LIST, [field("item", *it)]) for it in (MAP, SORTED)))),
        "sorted_maps_of_one_id": (STANDARD, "two columns of one id, of maps with sorted keys", both.held()),
        "keys_sorted_of_1_and_2_of_one_id": (OWN, "two columns of one id, of maps whose keys are sorted by a byte of 1 and one of 2",
            both.changed({"schema.header.fields.1.type.keys_sorted": "02"})),
    }


def misfits():
    """Children that maps may not have as entries."""
    def of_children(*children):
        return no_batch(field("m", MAP[0], children))
    return {
        "map_without_a_child": (MALFORMED, "maps without a child", of_children()),
        "map_of_two_children": (MALFORMED, "maps of a key and a value, which are no struct", of_children(KEY, VALUE)),
        "map_of_entries_twice": (MALFORMED, "maps of two structs of two fields", of_children(entries(), entries())),
        "map_of_numbers": (MALFORMED, "maps whose child is a number", of_children(VALUE)),
        "map_of_lists": (MALFORMED, "maps whose child is a list of structs of two fields",
            of_children(field("entries", LIST, [entries()]))),
        "entries_of_no_field": (MALFORMED, "maps of structs without fields", of_children(field("entries", STRUCT))),
        "entries_of_one_field": (MALFORMED, "maps of structs of one field", of_children(field("entries", STRUCT, [KEY]))),
        "entries_of_three_fields": (MALFORMED, "maps of structs of three fields",
            of_children(field("entries", STRUCT, [KEY, VALUE, VALUE]))),
        "dictionary_of_entries": (OWN, "maps whose entries are dictionary-encoded", of_children(entries(encoding=dictionary(0)))),
        "map_of_numbers_below_a_list": (MALFORMED, "lists of maps whose child is a number",
            no_batch(field("l", LIST, [field("item", MAP[0], [VALUE])]))),
        "map_of_numbers_by_a_dictionary": (MALFORMED, "a dictionary of maps whose child is a number",
            no_batch(field("m", MAP[0], [VALUE], encoding=dictionary(0)))),
    }



# ---- bodies


def at_offsets(*offsets, validity=b"", nulls=0):
    """Maps of the entries x, a, b, c, d and y, which these offsets cut."""
    its = maps([[*zip("xabcdy", range(6))]])
    return column([(len(offsets) - 1, nulls), *its.nodes[1:]], validity, i32(*offsets), *its.buffers[2:])


def batches():
    """Columns of maps, and the requirements on their buffers."""
    plain = schema(field("m", *MAP))
    return {
        "maps": (STANDARD, "a map of two entries, a null and an empty map", ONE.held()),
        "sorted_maps": (STANDARD, "maps whose keys are sorted", stream(schema(field("m", *SORTED)), batch(maps([FIRST, None])))),
        "empty_maps": (STANDARD, "empty maps and a null", stream(plain, batch(maps([[], None, []])))),
        "null_values_of_maps": (STANDARD, "maps whose values are all null", stream(plain, batch(maps([[("a", None)], [("b", None)]])))),
        "null_entries": (OWN, "maps with entries that are null", stream(plain, batch(maps([[("a", 1), None], [None]])))),
        "null_keys": (OWN, "maps with keys that are null", stream(plain, batch(maps([[(None, 1), ("b", 2)]])))),
        "one_key_twice": (OWN, "a map with one key for two entries", stream(plain, batch(maps([[("a", 1), ("a", 2)]])))),
        "keys_out_of_order": (OWN, "maps whose keys are sorted by the schema and are not", stream(schema(field("m", *SORTED)),
            batch(maps([[("b", 1), ("a", 2)]])))),
        "maps_after_an_entry": (STANDARD, "maps whose first offset is 1", stream(plain, batch(at_offsets(1, 2, 3)))),
        "hidden_in_maps": (STANDARD, "entries before the first map, under a null and after the last", stream(plain,
            batch(at_offsets(1, 2, 4, 5, validity=b"\x05", nulls=1)))),
        "falling_offsets_of_maps": (MALFORMED, "offsets of maps that fall", ONE.changed({f"{OFFSETS}[8]": "01"})),
        "map_past_its_entries": (MALFORMED, "a map that ends after the last entry", ONE.changed({f"{OFFSETS}[12]": "03"})),
        "map_from_a_negative_offset": (MALFORMED, "a map that begins below 0", ONE.changed({OFFSETS: "ffffffff"})),
        "fewer_keys_than_entries": (MALFORMED, "a key less than entries", ONE.changed({"batch.header.nodes.2.length": "01"})),
        "key_of_maps_not_utf8": (MALFORMED, "a key that is not UTF-8", ONE.changed({"batch.body.5[1]": "ff"})),
    }


# ---- below and next to other columns, and by dictionaries


def nested():
    """Maps below maps, lists and structs, and next to lists of the same structs."""
    pair = [FIRST, None, SECOND, [("c", 3)]]
    inner, plain = field("value", *MAP), field("m", *MAP)
    deep = [[("x", FIRST), ("y", None)], None, [], [("z", [])]]
    return {
        "maps_of_maps": (STANDARD, "maps whose values are maps", stream(schema(field("m", *map_of(entries(value=inner)))),
            batch(of(strings, maps)(deep)))),
        "maps_by_maps": (STANDARD, "maps whose keys are maps", stream(
            schema(field("m", *map_of(entries(key=field("key", *MAP, nullable=False))))),
            batch(of(maps, numbers)([[(FIRST, 1), ([], 2)]])))),
        "lists_of_maps": (STANDARD, "lists of maps, with nulls", stream(schema(field("l", LIST, [field("item", *MAP)])),
            batch(lists([pair[:2], None, pair[2:], []], maps)))),
        "struct_of_maps": (STANDARD, "structs of a map and a number, with a null", stream(schema(field("s", STRUCT, [plain, VALUE])),
            batch(structs([(), None, (), ()], maps(pair), numbers([1, None, 2, None]))))),
        "maps_beside_lists": (STANDARD, "maps beside lists of the same structs", stream(schema(plain, field("l", LIST, [entries()])),
            batch(maps(pair), maps(pair)))),
    }


def dictionaries():
    """Dictionaries of maps, whose values are equal if their entries are, in their order; and dictionaries below maps."""
    two, one = schema(field("c", *MAP, encoding=dictionary(7, 8))), schema(field("k", *MAP, encoding=dictionary(0)))
    its = [[("a", 1), ("b", 2)], [("b", 2), ("a", 1)]]
    words = dictionary_batch(3, strings(["one", None, "two"]))

    def sent(*values):
        """A batch of the first value after each of these dictionaries."""
        return stream(one, *(it for value in values for it in (dictionary_batch(0, maps([value])), batch(numbers([0, None])))))
    return {
        "dictionary_of_maps": (STANDARD, "a dictionary of two maps",
            stream(two, dictionary_batch(7, maps([FIRST, SECOND])), batch(numbers([1, None, 0], "b")))),
        "dictionary_of_maps_in_another_order": (STANDARD, "a dictionary of a map, then one of the same entries in another order",
            sent(*its)),
        "dictionary_of_a_map_sent_twice": (STANDARD, "a dictionary of a map, and the same again", sent(its[0], its[0])),
        "index_above_two_maps": (MALFORMED, "an index above a dictionary of two maps",
            stream(two, dictionary_batch(7, maps([FIRST, SECOND])), batch(numbers([2], "b")))),
        "dictionary_of_the_values_of_maps": (STANDARD, "maps whose values are dictionary-encoded", stream(
            schema(field("m", *map_of(entries(value=field("value", UTF8, encoding=dictionary(3)))))), words,
            batch(maps([[("a", 2), ("b", 1)], None, [("c", None), ("d", 0)]])))),
        "dictionary_of_the_keys_of_maps": (STANDARD, "maps whose keys are dictionary-encoded", stream(
            schema(field("m", *map_of(entries(key=field("key", UTF8, nullable=False, encoding=dictionary(3, 8)))))), words,
            batch(of(lambda its: numbers(its, "b"), numbers)([[(2, 1), (0, None)], []])))),
        "dictionary_of_maps_and_of_their_values": (OWN, "a dictionary of maps whose values are dictionary-encoded", no_batch(
            field("m", *map_of(entries(value=field("value", UTF8, encoding=dictionary(3)))), encoding=dictionary(0)))),
        "growing_dictionary_of_maps": (STANDARD, "a dictionary of maps that grows by deltas", b"".join(growing().values())),
    }


def growing():
    """A dictionary that is extended by two deltas between batches."""
    return {"schema": schema(field("k", *MAP, encoding=dictionary(0, 8))),
        "dictionary": dictionary_batch(0, maps([FIRST, SECOND])), "first": batch(numbers([1, 0, None], "b")),
        "delta": dictionary_batch(0, maps([[("c", 3)], None]), True), "second": batch(numbers([2, 3, 0], "b")),
        "last": dictionary_batch(0, maps([FIRST]), True), "third": batch(numbers([4, 1], "b")), "end": END_MARKER}


def foreign():
    """Streams as another writer lays them out: there are none."""
    return {}


def vectors():
    """The vectors keyed by their names: whom each binds, what it is about, and its bytes."""
    found = {name: (STANDARD, *it) for name, it in kinds.vectors(KINDS).items()}
    for group in (schemas(), misfits(), batches(), nested(), dictionaries()):
        assert not found.keys() & group.keys()
        found.update(group)
    return found


def conditions():
    """What breaks the layout of maps, as a column of them and as one of indices to them."""
    return kinds.changes(KINDS, ALL)


def of_each_length(types):
    """Connections that break at each offset, and a schema with each byte changed, with a set of types."""
    lines = changes.cuts(b"".join(growing().values()), 8 if types == ALL else 0, types)
    return {"maps_bytes": ("each byte of a schema of maps set to some other values", "maps",
            changes.each_byte(ONE, ["schema"], sorted({*changes.SOME, 2, 12, 13, 17}), types)),
        "growing_dictionary_of_maps_cut": ("each length of a growing dictionary of maps", "growing_dictionary_of_maps", lines)}


# What is written for a vector in way 0, if that is not the vector itself.
WRITTEN = {"no_keys_sorted": "maps_and_no_batch", "vtable_without_keys_sorted": "maps_and_no_batch", "version_4_of_maps": "maps",
    "keys_sorted_of_2": "sorted_maps_and_no_batch", "keys_sorted_of_1_and_2_of_one_id": "sorted_maps_of_one_id"}
# The vectors that are copied byte for byte, in way 0.
AS_IT_IS = ("maps_and_no_batch sorted_maps_and_no_batch maps sorted_maps empty_maps null_values_of_maps null_entries null_keys "
    "one_key_twice keys_out_of_order other_names_of_entries nullable_entries sorted_maps_of_one_id maps_of_maps").split()

# The lines of a schema's column of maps, as `arrowflow schema` prints them.
BELOW = ["    column entries: struct not null", "      column key: utf8 not null", "      column value: int32"]
PLAIN, OF_SORTED = [*columns("m: map"), *BELOW], [*columns("m: map[sorted]"), *BELOW]
A_MAP = '[{"key": "a", "value": 1}, {"key": "b", "value": null}]'

# The lines that the texts of vectors have, as in vectors/scripts/worked_examples.py.
STATED = {
    "maps_and_no_batch": ["take 344 schema", *PLAIN, "take 8 end", *CLEAN], "sorted_maps_and_no_batch": [*OF_SORTED, *CLEAN],
    "keys_sorted_of_2": [*OF_SORTED, *CLEAN], "no_keys_sorted": [*PLAIN, *CLEAN], "vtable_without_keys_sorted": [*PLAIN, *CLEAN],
    "keys_sorted_outside": rejected("Metadata", 0), "map_table_outside": rejected("Metadata", 0), "no_map_table": rejected("Metadata", 0),
    "other_names_of_entries": [*columns("m: map"), "    column e: struct not null", "      column k: utf8 not null",
        "      column k: int32", *CLEAN],
    "nullable_entries": [*columns("m: map"), "    column entries: struct", "      column key: utf8", *CLEAN],
    "sorted_and_unsorted_maps_of_an_id": rejected("Schema", 0), "sorted_and_unsorted_maps_below_an_id": rejected("Schema", 0),
    "sorted_maps_of_one_id": [*columns("k: dictionary<int32, map[sorted]> id 0"), *BELOW,
        *columns("j: dictionary<int32, map[sorted]> id 0"), *BELOW, *CLEAN],
    "keys_sorted_of_1_and_2_of_one_id": [*columns("j: dictionary<int32, map[sorted]> id 0"), *CLEAN],
    **{it: rejected("Schema", 0) for it in misfits()}, "dictionary_of_maps_and_of_their_values": rejected("Unsupported", 0),
    "maps": ["take 344 schema", *PLAIN, "take 360 batch of 3", *rows(A_MAP, "null", "[]")],
    "sorted_maps": [*OF_SORTED, *rows(A_MAP, "null")], "empty_maps": rows("[]", "null", "[]"),
    "null_entries": rows('[{"key": "a", "value": 1}, null]', "[null]"),
    "null_keys": rows('[{"key": null, "value": 1}, {"key": "b", "value": 2}]'),
    "one_key_twice": rows('[{"key": "a", "value": 1}, {"key": "a", "value": 2}]'),
    "keys_out_of_order": rows('[{"key": "b", "value": 1}, {"key": "a", "value": 2}]'),
    "maps_after_an_entry": rows('[{"key": "a", "value": 1}]', '[{"key": "b", "value": 2}]'),
    "hidden_in_maps": rows('[{"key": "a", "value": 1}]', "null", '[{"key": "d", "value": 4}]'),
    **{it: rejected("Layout", 344) for it in ("falling_offsets_of_maps", "map_past_its_entries", "map_from_a_negative_offset",
        "fewer_keys_than_entries")}, "key_of_maps_not_utf8": rejected("Text", 344),
    "maps_of_maps": ["      column value: map", "        column entries: struct not null",
        *rows(f'[{{"key": "x", "value": {A_MAP}}}, {{"key": "y", "value": null}}]', "null", "[]", '[{"key": "z", "value": []}]')],
    "lists_of_maps": ["    column item: map", *rows(f"[{A_MAP}, null]", "null", '[[], [{"key": "c", "value": 3}]]', "[]")],
    "dictionary_of_maps": [*columns("c: dictionary<int8, map> id 7"), *BELOW, "take * dictionary 7 of 2", f"  value {A_MAP}", "  value []",
        *rows("1 -> []", "null", f"0 -> {A_MAP}")],
    "dictionary_of_the_values_of_maps": ["      column value: dictionary<int32, utf8> id 3", "take * dictionary 3 of 3",
        *rows('[{"key": "a", "value": 2 -> "two"}, {"key": "b", "value": 1 -> null}]', "null",
            '[{"key": "c", "value": null}, {"key": "d", "value": 0 -> "one"}]')],
    "index_above_two_maps": ["take * dictionary 7 of 2", "refuse Index at *"],
}
# The records that `show` prints of vectors, after that of the names.
SHOWN = {
    "maps": ["0,[{key=a;value=1};{key=b;value=null}]", "0,", "0,[]"], "null_entries": ["0,[{key=a;value=1};null]", "0,[null]"],
    "maps_of_maps": ["0,[{key=x;value=[{key=a;value=1};{key=b;value=null}]};{key=y;value=null}]", "0,", "0,[]", "0,[{key=z;value=[]}]"],
    "maps_by_maps": ["0,[{key=[{key=a;value=1};{key=b;value=null}];value=1};{key=[];value=2}]"],
    "struct_of_maps": ["0,{m=[{key=a;value=1};{key=b;value=null}];value=1}", "0,", "0,{m=[];value=2}",
        "0,{m=[{key=c;value=3}];value=null}"],
    "maps_beside_lists": [f"0,{it},{it}" for it in ("[{key=a;value=1};{key=b;value=null}]", "", "[]", "[{key=c;value=3}]")],
    "dictionary_of_the_keys_of_maps": ["0,[{key=two;value=1};{key=one;value=null}]", "0,[]"],
    "growing_dictionary_of_maps": ["0,[]", "0,[{key=a;value=1};{key=b;value=null}]", "0,", "1,[{key=c;value=3}]", "1,",
        "1,[{key=a;value=1};{key=b;value=null}]", "2,[{key=a;value=1};{key=b;value=null}]", "2,[]"],
}


def written_out():
    """What is written out, compared with what is generated and answered."""
    its, held = vectors(), ONE.frames["batch"]
    shown = {name: stream_model.answers(its[name][2], types=ALL)[1][0].decode().splitlines()[1:] for name in SHOWN}
    return [("the nodes of maps", held[96:160], NODES), ("the body of maps", held[-len(BODY):], BODY),
        *((f"what is shown of {it}", shown[it], expected) for it, expected in SHOWN.items())]
