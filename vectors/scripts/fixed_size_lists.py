"""Streams with fixed-size lists, which are read with the set of all types.

NODES and BODY are those of the first batch, written out by hand: what tools/ generates has to be equal. STATED and SHOWN come
from outside the model: if its answer differs, nothing is written."""
from tools import stream_model, typed_columns
from tools.frame_parts import Stream
from tools.frames import (BOOL, END_MARKER, INT32, LARGE_LIST, LIST, NULL, STRUCT, UTF8, as_v4, batch, bools, dictionary,
    dictionary_batch, field, fixed_lists, fixed_size_binary, fixed_size_list, floating, lists, map_of, nulls, numbers, schema,
    strings, structs)
import changes
import kinds
from layouts import number
from raw_frames import FIELD, TYPE, column, i32, i64, stream
from results import ALL
from table import MALFORMED, OWN, STANDARD
from worked_examples import CLEAN, column as columns, rejected, rows

ITEM, WORD = field("item", INT32), field("item", UTF8)
MOST = 2 ** 31 - 1


def of(size, below=numbers):
    """The function that makes a column of lists of `size` items each, whose items are made by `below`."""
    return lambda values: fixed_lists(values, size, below)


def of_size(size, item=ITEM):
    """The type of lists of `size` items each; None if the type's table leaves the size out."""
    return fixed_size_list(size), [item]


pairs, triples = of(2), of(3)
PAIR = of_size(2)
FIRST, SECOND = [1, None], [-1, 0]
NINE = [[None, 0], *([at, -at] for at in range(1, 9))]
LETTERS = [[None], *([it] for it in kinds.LETTERS[1:])]
KINDS = [kinds.Kind("FixedSizeList", (2,), FIRST, SECOND, NINE, below=[[ITEM]], as_column=pairs, validities=(0, 1)),
    kinds.Kind("FixedSizeList", (1,), ["é€"], [None], LETTERS, below=[[WORD]], as_column=of(1, strings), validities=(0, 1))]

# One nullable column `l` of lists of two numbers each: two numbers, a null, and a number and a null.
ONE = Stream(schema=schema(field("l", *PAIR)), batch=batch(pairs([[1, 2], None, [3, None]])), end=END_MARKER)
CHILD, VALUES = "batch.header.nodes.1", "batch.header.buffers.2"
# The nodes and the body of the batch: for the lists a validity, for the items a validity and numbers.
NODES = i64(3, 1, 6, 3)
BODY = bytes.fromhex("05 00 00 00 00 00 00 00  13 00 00 00 00 00 00 00"
    "01 00 00 00 02 00 00 00 00 00 00 00 00 00 00 00 03 00 00 00 00 00 00 00")


# ---- the schema and the batch, changed by names


def in_schema(*settings):
    """The schema with these settings, each a name and its bytes, and an end marker."""
    return ONE.changed(dict(settings))[:len(ONE.frames["schema"])] + END_MARKER


def in_batch(settings):
    return ONE.changed(settings)


def no_batch(*columns):
    return stream(schema(*columns))


def child(length, null_count=None):
    """Another node of the items: this many slots, and this many nulls."""
    its = {f"{CHILD}.length": number(length)}
    return its if null_count is None else its | {f"{CHILD}.null_count": number(null_count)}


def one(kind, *columns):
    """A column `l` of a type, with a batch for each of these."""
    return stream(schema(field("l", *kind)), *map(batch, columns))


def of_one_id(first, second):
    """Two columns of one id, with these types."""
    return no_batch(*(field(name, *kind, encoding=dictionary(0)) for name, kind in (("k", first), ("j", second))))


def schemas():
    """What a schema says about a column of fixed-size lists: the type, its table, the size there, and the child."""
    size, entry = f"{TYPE}.list_size", f"{TYPE}.vtable.list_size"
    return {
        "fixed_size_lists_and_no_batch": (STANDARD, "a column of lists of two items each", in_schema()),
        "fixed_size_lists_of_one_and_no_batch": (STANDARD, "a column of lists of one item each", in_schema((size, "01"))),
        "fixed_size_lists_of_259_and_no_batch": (STANDARD, "a column of lists of 259 items each", in_schema((size, "0301"))),
        "fixed_size_lists_of_the_greatest_size": (STANDARD, "a column of lists of 2^31 - 1 items each", in_schema((size, "ffffff7f"))),
        "fixed_size_lists_of_none_and_no_batch": (OWN, "a column of lists of no items", in_schema((size, "00"))),
        "no_list_size": (OWN, "fixed-size lists whose size is absent, which is 0", in_schema((entry, "0000"))),
        "vtable_without_the_list_size": (OWN, "fixed-size lists whose vtable ends before the size",
            in_schema((f"{TYPE}.vtable.size", "04"))),
        "list_size_of_minus_1": (MALFORMED, "fixed-size lists of -1 items", in_schema((size, "ffffffff"))),
        "list_size_of_minus_2_31": (MALFORMED, "fixed-size lists of the least size below 0", in_schema((size, "00000080"))),
        "list_size_outside": (MALFORMED, "fixed-size lists whose size does not lie inside", in_schema((entry, "ff7f"))),
        "fixed_size_list_table_outside": (MALFORMED, "fixed-size lists whose type's table does not lie inside",
            in_schema((f"{FIELD}.type", "ffffff7f"))),
        "no_fixed_size_list_table": (MALFORMED, "fixed-size lists whose type has no table", in_schema((f"{FIELD}.vtable.type", "0000"))),
        "version_4_of_fixed_size_lists": (STANDARD, "fixed-size lists whose messages are all of V4",
            stream(*(as_v4(ONE.frames[it]) for it in ("schema", "batch")))),
        "version_3_of_fixed_size_lists": (OWN, "fixed-size lists, whose schema is of V3", in_schema(("schema.version", "02"))),
        "fixed_size_lists_of_one_id": (STANDARD, "two columns of one id, of lists of two items each", of_one_id(PAIR, PAIR)),
        "unequal_list_sizes_of_an_id": (OWN, "two columns of one id, of lists of two and of three items each",
            of_one_id(PAIR, of_size(3))),
        "unequal_list_sizes_below_an_id": (OWN, "two columns of one id, of lists of such lists",
            of_one_id(*((LIST, [field("item", *it)]) for it in (PAIR, of_size(3))))),
        "lists_and_fixed_size_lists_of_an_id": (OWN, "two columns of one id, of lists and of fixed-size lists",
            of_one_id((LIST, [ITEM]), PAIR)),
    }


def misfits():
    """Children that fixed-size lists may not have."""
    kind = fixed_size_list(2)
    return {
        "fixed_size_list_without_a_child": (MALFORMED, "fixed-size lists without a child", no_batch(field("l", kind))),
        "fixed_size_list_of_two_children": (MALFORMED, "fixed-size lists of two children", no_batch(field("l", kind, [ITEM, WORD]))),
        "fixed_size_list_without_a_child_below_a_list": (MALFORMED, "lists of fixed-size lists without a child",
            no_batch(field("l", LIST, [field("item", kind)]))),
        "negative_list_size_below_a_struct": (MALFORMED, "structs of fixed-size lists of -1 items",
            no_batch(field("s", STRUCT, [field("l", *of_size(-1))]))),
        "negative_list_size_by_a_dictionary": (MALFORMED, "a dictionary of fixed-size lists of -1 items",
            no_batch(field("l", *of_size(-1), encoding=dictionary(0)))),
    }


# ---- bodies


def batches():
    """Columns of fixed-size lists, and the requirements on their nodes and buffers."""
    empty, words = of_size(0), of_size(2, WORD)
    return {
        "fixed_size_lists": (STANDARD, "two numbers, a null, and a number and a null", ONE.held()),
        "fixed_size_lists_without_nulls": (STANDARD, "fixed-size lists without nulls", one(PAIR, pairs([[1, 2], [3, 4]]))),
        "fixed_size_lists_that_are_all_null": (STANDARD, "fixed-size lists that are all null", one(PAIR, pairs([None, None, None]))),
        "fixed_size_lists_of_null_items": (STANDARD, "fixed-size lists whose items are all null", one(PAIR, pairs(2 * [[None, None]]))),
        "fixed_size_lists_of_one": (STANDARD, "lists of one item each", one(of_size(1), of(1)([[7], None, [None], [-7]]))),
        "no_fixed_size_lists": (STANDARD, "fixed-size lists of no rows", one(PAIR, pairs([]))),
        "no_fixed_size_lists_of_the_greatest_size": (STANDARD, "no lists of 2^31 - 1 items each", one(of_size(MOST), of(MOST)([]))),
        "hidden_in_fixed_size_lists": (STANDARD, "two numbers under a null list, and bits after the last",
            one(PAIR, column([(3, 1), (6, 1)], b"\xfd", b"\xdf\xff", i32(1, 2, 8, 9, 3, 9) + b"w"))),
        "hidden_in_fixed_size_lists_of_texts": (STANDARD, "two texts under a null list, and bytes before the first and after the last",
            one(words, column([(2, 1), (4, 1)], b"\x02", b"\x0b", i32(1, 2, 4, 5, 6), b"?abxcd!"))),
        "fixed_size_lists_of_none": (OWN, "lists of no items, one of them null", one(empty, of(0)([[], None, []]))),
        "hidden_after_fixed_size_lists_of_none": (OWN, "lists of no items, and three items", one(empty,
            column([(2, 0), (3, 0)], b"", b"", i32(7, 8, 9)))),
        "hidden_after_fixed_size_lists": (OWN, "two lists of two items each, and an item more", one(PAIR,
            column([(2, 0), (5, 1)], b"", b"\xef", i32(1, 2, 3, 4, 5)))),
        "hidden_after_no_fixed_size_lists": (OWN, "no lists, and three items", one(PAIR, column([(0, 0), (3, 0)], b"", b"", i32(7, 8, 9)))),
        "item_less_than_fixed_size_lists_have": (MALFORMED, "five items for three lists of two", in_batch(child(5, 2))),
        "items_that_end_before_a_null": (MALFORMED, "four items for three lists of two, the last of which is null",
            in_batch({"batch.body.0": "03"} | child(4, 2))),
        "no_items_for_a_fixed_size_list": (MALFORMED, "no items for a list of one",
            one(of_size(1), column([(1, 0), (0, 0)], b"", b"", b""))),
        "no_items_for_a_list_of_the_greatest_size": (MALFORMED, "no items for a list of 2^31 - 1",
            one(of_size(MOST), column([(1, 0), (0, 0)], b"", b"", b""))),
        "negative_items_of_fixed_size_lists": (MALFORMED, "a node of -1 items", in_batch(child(-1, 0))),
        "no_node_for_the_items": (MALFORMED, "no node for the items", in_batch({"batch.header.nodes.count": "01"})),
        "no_values_for_the_items": (MALFORMED, "no buffer for the numbers", in_batch({"batch.header.buffers.count": "02"})),
        "values_of_items_too_short": (MALFORMED, "23 bytes for six numbers", in_batch({f"{VALUES}.length": number(23)})),
        "text_under_a_null_fixed_size_list": (MALFORMED, "a text under a null list that is not UTF-8",
            one(words, column([(1, 1), (2, 0)], b"\x00", b"", i32(0, 1, 2), b"a\xff"))),
        "text_after_fixed_size_lists": (MALFORMED, "a text after the last list that is not UTF-8",
            one(words, column([(1, 0), (3, 0)], b"", b"", i32(0, 1, 2, 3), b"ab\xff"))),
    }


# ---- below and next to other columns, and by dictionaries


def nested():
    """Fixed-size lists of each other and of other types, below lists, structs and maps, and next to lists."""
    inner, deep = field("item", *PAIR), of(2, pairs)
    point = field("item", STRUCT, [field("x", INT32), field("t", UTF8)])

    def points(values):
        its = [it or (None, None) for it in values]
        return structs(values, numbers([x for x, _ in its]), strings([t for _, t in its]))

    def entries(values):
        return structs(values, strings([key for key, _ in values]), pairs([value for _, value in values]))
    scored = map_of(field("entries", STRUCT, [field("key", UTF8, nullable=False), field("value", *PAIR)], nullable=False))
    its = [[1, 2], None, [3, None]]
    return {
        "fixed_size_lists_of_fixed_size_lists": (STANDARD, "two lists of two lists of two each, with nulls on each level",
            one(of_size(2, inner), deep([[[1, 2], None], None, [[None, 3], [4, 5]]]))),
        "fixed_size_lists_of_lists": (STANDARD, "fixed-size lists of lists", one(of_size(2, field("item", LIST, [ITEM])),
            of(2, lambda values: lists(values, numbers))([[[1, 2, 3], []], None, [None, [4]]]))),
        "lists_of_fixed_size_lists": (STANDARD, "lists of fixed-size lists, with nulls",
            one((LIST, [inner]), lists([its, None, [], its[:1]], pairs))),
        "large_lists_of_fixed_size_lists": (STANDARD, "large lists of fixed-size lists",
            one((LARGE_LIST, [inner]), lists([its, []], pairs, "q"))),
        "struct_of_fixed_size_lists": (STANDARD, "structs of a fixed-size list and a number, with a null", stream(
            schema(field("s", STRUCT, [field("l", *PAIR), field("n", INT32)])),
            batch(structs([(), None, ()], pairs([[1, 2], None, None]), numbers([5, None, None]))))),
        "fixed_size_lists_of_structs": (STANDARD, "fixed-size lists of structs, with nulls on each level", one(of_size(2, point),
            of(2, points)([[(1, "a"), None], None, [(None, "b"), (2, None)]]))),
        "fixed_size_lists_of_truths": (STANDARD, "lists of three truth values each, of which a bitmap has eight in each byte",
            one(of_size(3, field("item", BOOL)), of(3, bools)([[True, False, True], None, [None, True, False], [False, True, True]]))),
        "fixed_size_lists_of_texts": (STANDARD, "fixed-size lists of texts", one(of_size(2, WORD),
            of(2, strings)([["a", None], ["", "é€"], None]))),
        "fixed_size_lists_of_byte_strings": (STANDARD, "lists of two byte strings of two bytes each", one(
            of_size(2, field("item", fixed_size_binary(2))), of(2, lambda values: typed_columns.fixed(values, 2))(
                [[b"ab", None], None, [b"\x00\xff", b"cd"]]))),
        "fixed_size_lists_of_doubles": (STANDARD, "lists of two floating-point numbers each", one(
            of_size(2, field("item", floating(2))), of(2, lambda values: numbers(values, "Q"))(
                [[0x3ff8 << 48, 0x7ff8000000000001], None, [None, 1 << 63]]))),
        "fixed_size_lists_of_nulls": (STANDARD, "lists of two nulls each, one of them null", one(of_size(2, field("item", NULL)),
            of(2, lambda values: nulls(len(values)))([[None, None], None]))),
        "one_fixed_size_list_of_nulls": (STANDARD, "a list of two nulls", one_of_nulls().held()),
        "maps_of_fixed_size_lists": (STANDARD, "maps whose values are fixed-size lists", one(scored,
            lists([[("a", [1, 2]), ("b", None)], None, [], [("c", [None, 3])]], entries))),
        "fixed_size_lists_beside_lists": (STANDARD, "fixed-size lists beside lists of the same items", stream(
            schema(field("l", *PAIR), field("m", LIST, [ITEM])), batch(pairs(its), lists(its, numbers)))),
        "fixed_size_lists_after_a_gap": (STANDARD, "lists from the second of five fixed-size lists on", one((LIST, [inner]),
            column([(2, 0), (5, 1), (10, 1)], b"", i32(1, 3, 4), b"\x1b", b"\xf7\x03", i32(*range(10))))),
        "hidden_in_lists_of_fixed_size_lists": (STANDARD,
            "lists of fixed-size lists, with a fixed-size list before the first, one under a null and one after the last",
            one((LIST, [inner]), column([(3, 1), (5, 1), (10, 0)], b"\xfd", i32(1, 3, 3, 4), b"\xfb", b"", i32(*range(10))))),
        "hidden_in_structs_of_fixed_size_lists": (STANDARD, "structs of fixed-size lists, with numbers under a null struct", stream(
            schema(field("s", STRUCT, [field("l", *PAIR)])),
            batch(column([(3, 1), (3, 1), (6, 1)], b"\x05", b"\x03", b"\x3d", i32(1, 2, 3, 4, 5, 6))))),
        "hidden_in_fixed_size_lists_of_structs": (STANDARD, "fixed-size lists of structs, with values under null lists and null structs",
            one(of_size(2, point), column([(3, 1), (6, 1), (6, 1), (6, 1)], b"\xfd", b"\xfe", b"\xdf", i32(1, 2, 3, 4, 5, 6), b"\xf7",
                i32(0, 1, 2, 3, 4, 5, 6), b"abcdef"))),
        "hidden_in_fixed_size_lists_of_lists": (STANDARD, "fixed-size lists of lists, with lists under a null", one(
            of_size(2, field("item", LIST, [ITEM])),
            column([(2, 1), (4, 0), (6, 0)], b"\x02", b"", i32(0, 1, 3, 4, 6), b"", i32(9, 9, 9, 1, 2, 3)))),
        "hidden_in_fixed_size_lists_of_fixed_size_lists": (OWN, "fixed-size lists of fixed-size lists, with values under nulls on each "
            "level, and more items on each", one(of_size(2, inner), column([(2, 1), (5, 1), (11, 1)], b"\xfe", b"\xf7", b"\xef\xff",
                i32(*range(11))))),
    }


def dictionaries():
    """Dictionaries of fixed-size lists, whose values are equal if their items are, and dictionaries below fixed-size lists."""
    two, plain = schema(field("c", *PAIR, encoding=dictionary(7, 8))), schema(field("k", *PAIR, encoding=dictionary(0)))
    words, encoded = dictionary_batch(3, strings(["one", None, "two"])), field("item", UTF8, encoding=dictionary(3, 8))
    held, hidden = pairs([[1, 2], None]), column([(2, 1), (4, 0)], b"\x01", b"", i32(1, 2, 8, 9))

    def octets(values):
        return numbers(values, "b")

    def sent(*its):
        """A batch of the first value after each of these dictionaries."""
        return stream(plain, *(it for values in its for it in (dictionary_batch(0, values), batch(numbers([0, None])))))

    def indices(*columns, values=words):
        """Columns of two indices each, after a dictionary."""
        return stream(schema(field("l", *of_size(2, encoded))), values, *map(batch, columns))
    return {
        "dictionary_of_fixed_size_lists": (STANDARD, "a dictionary of two fixed-size lists",
            stream(two, dictionary_batch(7, pairs([FIRST, SECOND])), batch(octets([1, None, 0])))),
        "dictionary_of_a_fixed_size_list_sent_twice": (STANDARD, "a dictionary of fixed-size lists, and the same again",
            sent(held, held)),
        "dictionary_of_a_null_fixed_size_list_over_other_items": (STANDARD,
            "a dictionary of fixed-size lists, and the same with other items under a null", sent(held, hidden)),
        "dictionary_of_fixed_size_lists_in_another_order": (STANDARD, "a dictionary of a fixed-size list, then one of its items reversed",
            sent(pairs([[1, 2]]), pairs([[2, 1]]))),
        "index_above_two_fixed_size_lists": (MALFORMED, "an index above a dictionary of two fixed-size lists",
            stream(two, dictionary_batch(7, pairs([FIRST, SECOND])), batch(octets([2])))),
        "dictionary_with_an_item_less_than_fixed_size_lists_have": (MALFORMED, "a dictionary of two lists of two, and three items",
            stream(plain, dictionary_batch(0, column([(2, 0), (3, 0)], b"", b"", i32(1, 2, 3))), batch(numbers([0])))),
        "dictionary_of_the_items_of_fixed_size_lists": (STANDARD, "fixed-size lists whose items are dictionary-encoded",
            indices(of(2, octets)([[2, 1], None, [None, 0]]))),
        "hidden_in_fixed_size_lists_of_indices": (STANDARD, "fixed-size lists of indices, with indices under a null list",
            indices(column([(2, 1), (4, 1)], b"\x02", b"\x0b", bytes([2, 1, 9, 0])))),
        "index_of_an_item_above": (MALFORMED, "an index above the dictionary in a fixed-size list",
            indices(of(2, octets)([[2, 3]]))),
        "index_under_a_null_fixed_size_list": (MALFORMED, "an index above the dictionary under a null list",
            indices(column([(1, 1), (2, 0)], b"\x00", b"", bytes([0, 3])))),
        "dictionary_of_fixed_size_lists_and_of_their_items": (OWN, "a dictionary of fixed-size lists whose items are dictionary-encoded",
            no_batch(field("l", *of_size(2, encoded), encoding=dictionary(0)))),
        "growing_dictionary_of_fixed_size_lists": (STANDARD, "a dictionary of fixed-size lists that grows by deltas",
            b"".join(growing().values())),
        "growing_dictionary_of_lists_of_fixed_size_lists": (STANDARD, "a dictionary of lists of fixed-size lists of truth values that "
            "grows by deltas, each between items that no list has", b"".join(growing_lists().values())),
    }


def growing_lists():
    """A dictionary of lists of three booleans each, in which a part begins inside a byte of the part before it."""
    below = field("item", *of_size(3, field("item", BOOL)))
    last = lists([[None, [True, True, False]], []], of(3, bools))
    return {"schema": schema(field("k", LIST, [below], encoding=dictionary(0, 8))),
        "dictionary": dictionary_batch(0, column([(2, 0), (5, 1), (15, 1)], b"", i32(1, 2, 4), b"\xf7", b"\xef\x7f", b"\x6d\x5b")),
        "first": batch(numbers([1, 0, None], "b")),
        "delta": dictionary_batch(0, column([(3, 1), (4, 0), (12, 0)], b"\x05", i32(2, 3, 3, 4), b"", b"", b"\x2a\x05"), True),
        "second": batch(numbers([2, 3, 4], "b")), "last": dictionary_batch(0, last, True), "third": batch(numbers([5, 6, 0], "b")),
        "end": END_MARKER}


def growing():
    """A dictionary that is extended by two deltas between batches."""
    return {"schema": schema(field("k", *PAIR, encoding=dictionary(0, 8))),
        "dictionary": dictionary_batch(0, pairs([FIRST, SECOND])), "first": batch(numbers([1, 0, None], "b")),
        "delta": dictionary_batch(0, pairs([[5, 6], None]), True), "second": batch(numbers([2, 3, 0], "b")),
        "last": dictionary_batch(0, pairs([FIRST]), True), "third": batch(numbers([4, 1], "b")), "end": END_MARKER}


def foreign():
    """Streams as another writer lays them out: there are none."""
    return {}


def vectors():
    """The vectors keyed by their names: whom each binds, what it is about, and its bytes."""
    found = {name: (STANDARD, *it) for name, it in kinds.vectors(KINDS).items()}
    for group in (schemas(), misfits(), batches(), nested(), dictionaries()):
        assert not found.keys() & group.keys()
        found.update(group)
    return found


def conditions():
    """What breaks the layout of fixed-size lists, as a column of them and as one of indices to them."""
    return kinds.changes(KINDS, ALL)


def one_of_nulls():
    return Stream(schema=schema(field("l", *of_size(2, field("item", NULL)))),
        batch=batch(of(2, lambda values: nulls(len(values)))([[None, None]])), end=END_MARKER)


def at_the_limit(types):
    """Lists of nulls by their size, by their number, and by the number of nulls that are there."""
    of_nulls = one_of_nulls()

    def line(size, count, items):
        settings = {f"{TYPE}.list_size": i32(size).hex(), "batch.header.length": number(count),
            "batch.header.nodes.0.length": number(count), **child(items)}
        return changes.line(of_nulls, settings, types)
    valid = [(MOST, 1, MOST), (1, MOST, MOST), (0, MOST, 0), (0, MOST, MOST), (46_340, 46_340, 46_340 ** 2), (MOST, 0, MOST)]
    short = [(MOST, 1, MOST - 1), (1, MOST, MOST - 1), (MOST, 2, MOST), (MOST, MOST, MOST), (46_341, 46_341, MOST), (2, 2 ** 30, MOST),
        (2 ** 30, 4, 0), (2 ** 16, 2 ** 16, 0), (MOST, MOST, 1)]
    both = [line(*it) for it in valid], [line(*it) for it in short]
    return ["binds own", *both[0], *(["binds malformed"] if types == ALL else []), *both[1]]


def of_each_length(types):
    """Connections that break at each offset, a schema with each byte changed, and lists of very many items, with a set of
    types."""
    lines = changes.cuts(b"".join(growing().values()), 8 if types == ALL else 0, types)
    return {"fixed_size_lists_bytes": ("each byte of a schema of fixed-size lists set to some other values", "fixed_size_lists",
            changes.each_byte(ONE, ["schema"], sorted({*changes.SOME, 2, 12, 15, 16, 17}), types)),
        "fixed_size_lists_at_the_limit": ("lists of nulls by their size, their number and the number of nulls",
            "one_fixed_size_list_of_nulls", at_the_limit(types)),
        "growing_dictionary_of_fixed_size_lists_cut": ("each length of a growing dictionary of fixed-size lists",
            "growing_dictionary_of_fixed_size_lists", lines)}


# What is written for a vector in way 0, if that is not the vector itself.
WRITTEN = {"no_list_size": "fixed_size_lists_of_none_and_no_batch", "vtable_without_the_list_size": "fixed_size_lists_of_none_and_no_batch",
    "version_4_of_fixed_size_lists": "fixed_size_lists"}
# The vectors that are copied byte for byte, in way 0.
AS_IT_IS = ("fixed_size_lists_and_no_batch fixed_size_lists_of_one_and_no_batch fixed_size_lists_of_259_and_no_batch "
    "fixed_size_lists_of_the_greatest_size fixed_size_lists_of_none_and_no_batch fixed_size_lists_of_one_id fixed_size_lists "
    "fixed_size_lists_without_nulls fixed_size_lists_that_are_all_null fixed_size_lists_of_null_items fixed_size_lists_of_one "
    "no_fixed_size_lists no_fixed_size_lists_of_the_greatest_size fixed_size_lists_of_none fixed_size_lists_of_fixed_size_lists "
    "fixed_size_lists_of_lists lists_of_fixed_size_lists large_lists_of_fixed_size_lists struct_of_fixed_size_lists "
    "fixed_size_lists_of_structs fixed_size_lists_of_truths fixed_size_lists_of_texts maps_of_fixed_size_lists "
    "fixed_size_lists_beside_lists dictionary_of_fixed_size_lists growing_dictionary_of_fixed_size_lists").split()

# The lines of a schema's column of fixed-size lists, as `arrowflow schema` prints them.
BELOW = ["    column item: int32"]


def of_items(size):
    return [*columns(f"l: fixed_size_list[{size}]"), *BELOW]


# The lines that the texts of vectors have, as in vectors/scripts/worked_examples.py.
STATED = {
    "fixed_size_lists_and_no_batch": ["take * schema", *of_items(2), "take 8 end", *CLEAN],
    "fixed_size_lists_of_one_and_no_batch": [*of_items(1), *CLEAN], "fixed_size_lists_of_259_and_no_batch": [*of_items(259), *CLEAN],
    "fixed_size_lists_of_the_greatest_size": [*of_items(MOST), *CLEAN],
    **{it: [*of_items(0), *CLEAN] for it in ("fixed_size_lists_of_none_and_no_batch", "no_list_size", "vtable_without_the_list_size")},
    **{it: rejected("Schema", 0) for it in ("list_size_of_minus_1", "list_size_of_minus_2_31", "unequal_list_sizes_of_an_id",
        "unequal_list_sizes_below_an_id", "lists_and_fixed_size_lists_of_an_id", *misfits())},
    **{it: rejected("Metadata", 0) for it in ("list_size_outside", "fixed_size_list_table_outside", "no_fixed_size_list_table")},
    "version_3_of_fixed_size_lists": rejected("Version", 0), "version_4_of_fixed_size_lists": rows("[1, 2]", "null", "[3, null]"),
    "fixed_size_lists_of_one_id": [*columns("k: dictionary<int32, fixed_size_list[2]> id 0"), *BELOW,
        *columns("j: dictionary<int32, fixed_size_list[2]> id 0"), *BELOW, *CLEAN],
    "dictionary_of_fixed_size_lists_and_of_their_items": rejected("Unsupported", 0),
    "fixed_size_lists": [*of_items(2), "take * batch of 3", *rows("[1, 2]", "null", "[3, null]")],
    "fixed_size_lists_without_nulls": rows("[1, 2]", "[3, 4]"), "fixed_size_lists_that_are_all_null": rows("null", "null", "null"),
    "fixed_size_lists_of_null_items": rows("[null, null]", "[null, null]"),
    "fixed_size_lists_of_one": rows("[7]", "null", "[null]", "[-7]"), "fixed_size_lists_of_none": rows("[]", "null", "[]"),
    "no_fixed_size_lists": ["take * batch of 0", "take 8 end", *CLEAN],
    "no_fixed_size_lists_of_the_greatest_size": ["take * batch of 0", "take 8 end", *CLEAN],
    "hidden_in_fixed_size_lists": rows("[1, 2]", "null", "[3, null]"), "hidden_in_fixed_size_lists_of_texts": rows("null", '[null, "d"]'),
    "hidden_after_fixed_size_lists_of_none": rows("[]", "[]"), "hidden_after_fixed_size_lists": rows("[1, 2]", "[3, 4]"),
    **{it: rejected("Layout", "*") for it in ("item_less_than_fixed_size_lists_have", "items_that_end_before_a_null",
        "no_items_for_a_fixed_size_list", "no_items_for_a_list_of_the_greatest_size", "no_node_for_the_items", "no_values_for_the_items",
        "values_of_items_too_short")},
    "negative_items_of_fixed_size_lists": rejected("Rows", "*"), "text_under_a_null_fixed_size_list": rejected("Text", "*"),
    "text_after_fixed_size_lists": rejected("Text", "*"),
    "fixed_size_lists_of_fixed_size_lists": ["    column item: fixed_size_list[2]", "      column item: int32",
        *rows("[[1, 2], null]", "null", "[[null, 3], [4, 5]]")],
    "fixed_size_lists_of_truths": rows("[true, false, true]", "null", "[null, true, false]", "[false, true, true]"),
    "fixed_size_lists_after_a_gap": rows("[[2, null], null]", "[[6, 7]]"),
    "hidden_in_lists_of_fixed_size_lists": rows("[[2, 3], null]", "null", "[[6, 7]]"),
    "hidden_in_structs_of_fixed_size_lists": rows('{"l": [1, null]}', "null", '{"l": null}'),
    "hidden_in_fixed_size_lists_of_structs": rows('[null, {"x": 2, "t": "b"}]', "null", '[{"x": 5, "t": "e"}, {"x": null, "t": "f"}]'),
    "hidden_in_fixed_size_lists_of_lists": rows("null", "[[1], [2, 3]]"),
    "hidden_in_fixed_size_lists_of_fixed_size_lists": rows("null", "[[null, 5], null]"),
    "dictionary_of_fixed_size_lists": [*columns("c: dictionary<int8, fixed_size_list[2]> id 7"), *BELOW, "take * dictionary 7 of 2",
        "  value [1, null]", "  value [-1, 0]", *rows("1 -> [-1, 0]", "null", "0 -> [1, null]")],
    "dictionary_of_the_items_of_fixed_size_lists": ["    column item: dictionary<int8, utf8> id 3", "take * dictionary 3 of 3",
        *rows('[2 -> "two", 1 -> null]', "null", '[null, 0 -> "one"]')],
    "growing_dictionary_of_lists_of_fixed_size_lists": ["  value [[true, null, true]]", "  value [[true, false, true], null]",
        "  row 1 -> [[true, false, true], null]", "  value [[false, false, true]]", "  value null", "  value [[false, true, false]]",
        "  row 2 -> [[false, false, true]]", "  row 3 -> null", "  row 4 -> [[false, true, false]]", "take * dictionary 0 of 7",
        *rows("5 -> [null, [true, true, false]]", "6 -> []", "0 -> [[true, null, true]]")],
    "hidden_in_fixed_size_lists_of_indices": rows("null", '[null, 0 -> "one"]'),
    **{it: rejected("Index", "*") for it in ("index_above_two_fixed_size_lists", "index_of_an_item_above",
        "index_under_a_null_fixed_size_list")},
    "dictionary_with_an_item_less_than_fixed_size_lists_have": rejected("Layout", "*"),
    "fixed_size_list_2_alone.changes": ["* -> batches * rows * end Layout at *", "binds own"],
    "fixed_size_lists_at_the_limit.changes": ["binds own", *6 * ["* -> batches 1 rows * end clean"], "binds malformed",
        *9 * ["* -> batches 0 rows 0 end Layout at *"]],
}
# The records that `show` prints of vectors, after that of the names.
SHOWN = {
    "fixed_size_lists": ["0,[1;2]", "0,", "0,[3;null]"], "fixed_size_lists_of_none": ["0,[]", "0,", "0,[]"],
    "fixed_size_lists_of_fixed_size_lists": ["0,[[1;2];null]", "0,", "0,[[null;3];[4;5]]"],
    "fixed_size_lists_of_lists": ["0,[[1;2;3];[]]", "0,", "0,[null;[4]]"],
    "lists_of_fixed_size_lists": ["0,[[1;2];null;[3;null]]", "0,", "0,[]", "0,[[1;2]]"],
    "struct_of_fixed_size_lists": ["0,{l=[1;2];n=5}", "0,", "0,{l=null;n=null}"],
    "fixed_size_lists_of_structs": ["0,[{x=1;t=a};null]", "0,", "0,[{x=null;t=b};{x=2;t=null}]"],
    "fixed_size_lists_of_byte_strings": ["0,[6162;null]", "0,", "0,[00ff;6364]"],
    "fixed_size_lists_of_doubles": ["0,[1.5;NaN]", "0,", "0,[null;-0.0]"], "fixed_size_lists_of_nulls": ["0,[null;null]", "0,"],
    "maps_of_fixed_size_lists": ["0,[{key=a;value=[1;2]};{key=b;value=null}]", "0,", "0,[]", "0,[{key=c;value=[null;3]}]"],
    "growing_dictionary_of_fixed_size_lists": ["0,[-1;0]", "0,[1;null]", "0,", "1,[5;6]", "1,", "1,[1;null]", "2,[1;null]", "2,[-1;0]"],
}


def written_out():
    """What is written out, compared with what is generated and answered."""
    its, held = vectors(), ONE.frames["batch"]
    shown = {name: stream_model.answers(its[name][2], types=ALL)[1][0].decode().splitlines()[1:] for name in SHOWN}
    return [("the nodes of fixed-size lists", held[96:128], NODES), ("the body of fixed-size lists", held[-len(BODY):], BODY),
        *((f"what is shown of {it}", shown[it], expected) for it, expected in SHOWN.items())]
