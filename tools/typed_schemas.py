"""Schemas of types in each form, written by frames.py: vectors/scripts/ROWS changes them, and examples have them."""
from tools import typed_columns
from tools.arrow_types import INT
from tools.frames import (BINARY, BOOL, END_MARKER, INT32, LARGE_BINARY, LARGE_LIST, LARGE_UTF8, LIST, NULL, STRUCT, UTF8,
    batch, bools, date, decimal, dictionary, dictionary_batch, duration, field, fixed_lists, fixed_size_binary, fixed_size_list,
    floating, integer, interval, lists, map_of, numbers, schema, strings, structs, time, timestamp)
from tools.streams import four_fields


def every_type():
    widths = [integer(*it) for it in INT.cases]
    times = [kind(unit) for unit in range(4) for kind in (time, timestamp)]
    plain = [NULL, BOOL, *widths, BINARY, UTF8, date(0), date(1), *times]
    columns = [field(f"c{number}", kind) for number, kind in enumerate(plain)]
    columns.append(field("in a zone", timestamp(2, "Europe/Berlin")))
    columns.append(field("never null", integer(32, True), nullable=False))
    columns.append(field("a\\b\tc", UTF8))
    columns.append(field("list", LIST, [field("item", integer(64, True))]))
    inner = field("inner", STRUCT, [field("x", integer(8, False)), field("y", UTF8, nullable=False)])
    columns.append(field("lists of structs", LIST, [inner], nullable=False))
    columns.append(field("words", UTF8, encoding=dictionary(0)))
    columns.append(field("sizes", UTF8, encoding=dictionary(-7, 8, False, True), nullable=False))
    lists = field("tags", LIST, [field("tag", UTF8, encoding=dictionary(0, 16))])
    columns.append(field("nested", STRUCT, [lists, field("none", NULL)]))
    columns.append(field("listed", LIST, [field("item", BOOL)], encoding=dictionary(3, 64)))
    return schema(*columns, *later_types())


def later_types():
    widths = [fixed_size_binary(width) for width in (0, 16, 2 ** 31 - 1)]
    plain = [*widths, *(duration(unit) for unit in range(4)), LARGE_BINARY, LARGE_UTF8]
    columns = [field(f"d{number}", kind) for number, kind in enumerate(plain)]
    item = field("item", LARGE_LIST, [field("", fixed_size_binary(7), nullable=False)])
    columns.append(field("large list", LARGE_LIST, [item]))
    columns.append(field("large words", LARGE_UTF8, encoding=dictionary(4, 16, False, True)))
    columns.append(field("hashes", fixed_size_binary(20), encoding=dictionary(5, 8)))
    listed = [field("item", duration(1))]
    columns.append(field("large listed", LARGE_LIST, listed, encoding=dictionary(-1, 64), nullable=False))
    return columns


def floats():
    """Floating-point numbers of each precision, by their bits: plain, in structs below lists, and by a dictionary that is
    extended."""
    points = LIST, [field("item", STRUCT, [field("x", floating(2)), field("y", floating(1))])]
    columns = schema(field("half", floating(0)), field("single", floating(1), nullable=False), field("double", floating(2)),
                     field("points", *points), field("level", floating(1), encoding=dictionary(7, 8)))
    def halves(values):
        return numbers(values, "H")
    def singles(values):
        return numbers(values, "I")
    def doubles(values):
        return numbers(values, "Q")
    below = structs([(), None, ()], doubles([0x3fe0 << 48, None, 0x444b1ae4d6e2ef50]), singles([0x3dcccccd, None, 0x7f800000]))
    first = batch(halves([0x3c00, None, 0x2e66, 0x7e01]), singles([0x3dcccccd, 1 << 31, 0x7f7fffff, 0x7fc00001]),
                  doubles([0x3ff8 << 48, 0x7e37e43c8800759c, 1, None]), lists([[1, 2], [], None, [3]], lambda _: below),
                  numbers([1, None, 0, 1], "b"))
    more = batch(halves([0xfc00, 1]), singles([0x4b800000, 0x33d6bf95]), doubles([1 << 63, 0x4341c37937e08000]),
                 lists([None, None], lambda _: structs([], doubles([]), singles([]))), numbers([2, 0], "b"))
    return b"".join([columns, dictionary_batch(7, singles([0x3e800000, 0x33d6bf95])), first,
                     dictionary_batch(7, singles([0x7fffffff]), True), more, END_MARKER])


def intervals():
    """Intervals of each unit: plain, in structs below lists, and by a dictionary that is extended."""
    spans = LIST, [field("item", STRUCT, [field("d", interval(1)), field("m", interval(0))])]
    columns = schema(field("month", interval(0)), field("day_time", interval(1), nullable=False), field("nano", interval(2)),
                     field("spans", *spans), field("term", interval(2), encoding=dictionary(7, 8)))
    def months(values):
        return typed_columns.intervals(values, 0)
    def day_times(values):
        return typed_columns.intervals(values, 1)
    def month_day_nanos(values):
        return typed_columns.intervals(values, 2)
    low, high = -2 ** 31, 2 ** 31 - 1
    below = structs([(), None, ()], day_times([(1, 0), None, (0, -1)]), months([12, None, -1]))
    first = batch(months([14, None, -2, 0]), day_times([(2, 500), (-1, -500), (0, 0), (high, low)]),
                  month_day_nanos([(1, 2, 3), (0, 0, 0), None, (low, high, -2 ** 63)]), lists([[1, 2], [], None, [3]], lambda _: below),
                  numbers([1, None, 0, 1], "b"))
    more = batch(months([high, low]), day_times([(low, high), (0, 1)]), month_day_nanos([(12, -30, 2 ** 63 - 1), (0, -1, 0)]),
                 lists([None, []], lambda _: structs([], day_times([]), months([]))), numbers([2, 0], "b"))
    return b"".join([columns, dictionary_batch(7, month_day_nanos([(1, 0, 0), (0, 1, 0)])), first,
                     dictionary_batch(7, month_day_nanos([(0, 0, 86_400_000_000_000)]), True), more, END_MARKER])


def decimals():
    """Decimals of each width, from the least to the greatest number: plain, in lists, in structs below lists, and by a dictionary
    that is extended."""
    parts = LIST, [field("item", STRUCT, [field("d", decimal(128, 5, 2)), field("w", decimal(256, 40, -1))])]
    columns = schema(field("price", decimal(32, 9, 2)), field("mass", decimal(64, 18, -3), nullable=False),
                     field("count", decimal(128, 38, 0)), field("ratio", decimal(256, 76, 76)), field("parts", *parts),
                     field("rates", LIST, [field("item", decimal(64, 4, 4))]),
                     field("term", decimal(256, 76, 2), encoding=dictionary(7, 8)))
    def of(width):
        return lambda values: typed_columns.decimals(values, width)
    of_32, of_64, of_128, of_256 = map(of, (32, 64, 128, 256))
    below = structs([(), None, ()], of_128([125, None, -7]), of_256([10 ** 39, None, -1]))
    first = batch(of_32([5, None, -50, -2 ** 31]), of_64([12, -1, 0, 2 ** 63 - 1]), of_128([1, None, 2 ** 127 - 1, -2 ** 127]),
                  of_256([-2 ** 255, 2 ** 255 - 1, None, 1]), lists([[1, 2], [], None, [3]], lambda _: below),
                  lists([[5, None], [-9999], None, []], of_64), numbers([1, None, 0, 1], "b"))
    more = batch(of_32([2 ** 31 - 1, 0]), of_64([-2 ** 63, 10 ** 18 - 1]), of_128([10 ** 38 - 1, -1]), of_256([None, 0]),
                 lists([None, []], lambda _: structs([], of_128([]), of_256([]))), lists([[0], None], of_64), numbers([2, 0], "b"))
    return b"".join([columns, dictionary_batch(7, of_256([100, -5])), first, dictionary_batch(7, of_256([2 ** 128]), True), more,
                     END_MARKER])


def maps():
    """Maps with sorted keys and without an order: plain, below lists, with values by a dictionary, and by a dictionary that is
    extended."""
    def of_entries(key, value):
        return field("entries", STRUCT, [field("key", key, nullable=False), value], nullable=False)
    counts, names = of_entries(UTF8, field("value", INT32)), of_entries(INT32, field("value", UTF8, encoding=dictionary(3, 8)))
    columns = schema(field("count", *map_of(counts)), field("name", *map_of(names, True), nullable=False),
                     field("groups", LIST, [field("item", *map_of(counts, True))]),
                     field("term", *map_of(counts), encoding=dictionary(7, 8)))

    def pairs_of(keys, values):
        return lambda its: structs(its, keys([key for key, _ in its]), values([value for _, value in its]))

    def counted(values):
        return lists(values, pairs_of(strings, numbers))

    def named(values):
        return lists(values, pairs_of(numbers, lambda its: numbers(its, "b")))
    first = batch(counted([[("a", 1), ("b", None)], None, [], [("a", -1), ("a", 2)]]),
                  named([[(1, 0), (2, 1)], [], [(3, None)], [(4, 0)]]),
                  lists([[[("x", 10), ("y", 20)], None], [], None, [[]]], counted), numbers([1, None, 0, 1], "b"))
    more = batch(counted([None, [("c,d", 0)]]), named([[], [(-1, 1)]]), lists([None, [[("z", None)]]], counted), numbers([2, 0], "b"))
    return b"".join([columns, dictionary_batch(3, strings(["one", "two"])), dictionary_batch(7, counted([[], [("k", 5)]])), first,
                     dictionary_batch(7, counted([[("k", 5), ("l", None)]]), True), more, END_MARKER])


def fixed_size_lists():
    """Fixed-size lists: of two numbers, of texts by a dictionary, of each other, of no items, of structs, below lists, and by a
    dictionary that is extended."""
    pair = fixed_size_list(2), [field("item", INT32)]
    point = field("item", STRUCT, [field("x", INT32), field("y", UTF8)])
    word = field("item", UTF8, encoding=dictionary(3, 8))
    columns = schema(field("pair", *pair), field("words", fixed_size_list(3), [word], nullable=False),
                     field("square", fixed_size_list(2), [field("row", *pair)]), field("none", fixed_size_list(0), [field("item", UTF8)]),
                     field("points", fixed_size_list(2), [point]), field("paths", LIST, [field("step", *pair)]),
                     field("term", *pair, encoding=dictionary(7, 8)))

    def of(size, below=numbers):
        return lambda values: fixed_lists(values, size, below)

    def octets(values):
        return numbers(values, "b")

    def points(values):
        its = [it or (None, None) for it in values]
        return structs(values, numbers([x for x, _ in its]), strings([y for _, y in its]))
    pairs, triples, squares, nones, ends = of(2), of(3, octets), of(2, of(2)), of(0, strings), of(2, points)
    first = batch(pairs([[1, 2], None, [None, -3]]), triples([[0, 1, 0], [None, 1, None], [1, 1, 1]]),
                  squares([[[1, 2], [3, 4]], [None, [5, None]], None]), nones([[], None, []]),
                  ends([[(1, "a"), None], None, [(None, "b,c"), (2, None)]]), lists([[[1, 1], [2, 3]], [], None], pairs),
                  octets([1, None, 0]))
    more = batch(pairs([None, None]), triples([[0, 0, 0], [1, None, 0]]), squares([None, [[6, 7], None]]), nones([None, []]),
                 ends([None, [(3, ""), (4, "d")]]), lists([None, [None, [8, 9]]], pairs), octets([2, 0]))
    return b"".join([columns, dictionary_batch(3, strings(["one", "two"])), dictionary_batch(7, pairs([[0, 0], [7, None]])), first,
                     dictionary_batch(7, pairs([None]), True), more, END_MARKER])


def shared_columns():
    """Two columns of one dictionary, one of them below a struct, whose types each have their own version of a part of a type
    below them."""
    inner = [field("i", INT32), field("d", date(1)), field("t", time(2)), field("s", timestamp(1, "UTC")),
             field("u", duration(1)), field("f", fixed_size_binary(16)), field("b", BINARY),
             field("l", LARGE_LIST, [field("o", BOOL)]), field("w", UTF8, nullable=False)]
    lists = LIST, [field("r", STRUCT, inner)]
    below = field("z", *lists, nullable=False, encoding=dictionary(7, 8))
    return field("x", *lists, encoding=dictionary(7)), field("y", STRUCT, [field("n", NULL), below])


def shown():
    """A schema and a batch of ten rows with values that are shown in braces, in brackets, as words and in few digits."""
    def halves(values):
        return numbers(values, "h")
    number, more = integer(16, True), [None] * 7
    fields = [field("n", number), field("long name", BINARY)]
    columns = [field("s", STRUCT, fields), field("b", BOOL), field("l", LIST, [field("item", number)]),
               field("t", LIST, [field("item", BOOL)]), field("d", number)]
    pairs = structs([(), (), None, *more], halves([-300, None, None, *more]), strings([b"\xab\x0c", None, None, *more]))
    return schema(*columns), batch(pairs, bools([True, False, None, *more]), lists([[1, None, -3], [], None, *more], halves),
        lists([[True, None, False], [], None, *more], bools), halves([0, 1, 9, 10, 11, 99, 100, -1, -9, -10]))


def frames():
    """The frames keyed by their names."""
    columns, rows = shown()
    none = field("a", NULL), field("b", NULL)
    one_id = field("a", UTF8, encoding=dictionary(7, 8)), field("b", BINARY, encoding=dictionary(7))
    below = field("i", UTF8, encoding=dictionary(2))
    return {
        "EVERY_TYPE": every_type(),
        "FOUR_FIELDS": four_fields(),
        "ENCODED": schema(field("k", UTF8, encoding=dictionary(5, 8, True, True))),
        "ONE_CHILD": schema(field("s", STRUCT, none[:1])),
        "TWO_CHILDREN": schema(field("s", STRUCT, none)),
        "INT_WITH_A_CHILD": schema(field("s", INT32, none[:1])),
        "ONE_TYPE": schema(*shared_columns()),
        "SHARED_ID": schema(*one_id),
        "NESTED": schema(field("o", STRUCT, [below], encoding=dictionary(1))),
        "LEAST_SCHEMA": schema(field("k", UTF8, encoding=dictionary(-2 ** 63))),
        "LEAST_VALUES": dictionary_batch(-2 ** 63, strings(["x"])),
        "LEAST_ROWS": batch(numbers([0])),
        "SHOWN": columns,
        "SHOWN_ROWS": rows,
    }
