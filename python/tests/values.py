"""Values of dates, times, intervals, decimals, fixed-size lists and maps, and lists and dicts that are not shared."""
import datetime
import decimal

import arrowflow

from tools import frames
from common import raised_by

MICROSECOND, DAY = datetime.timedelta(microseconds=1), datetime.timedelta(days=1)
SECOND, MILLI, MICRO, NANO = range(4)


def one_column(kind, numbers, form):
    """The values of a column with these units."""
    data = frames.schema(frames.field("x", kind)) + frames.batch(frames.numbers(numbers, form)) + frames.END_MARKER
    return next(arrowflow.open(data)).column("x").to_pylist()


def at(*parts):
    return datetime.datetime(*parts)


def dates():
    last = (datetime.date.max - datetime.date(1970, 1, 1)).days
    yield "days", one_column(frames.date(0), [0, -1, None, 19000, last, last + 1, 2**31 - 1, -2**31], "i"), [
        datetime.date(1970, 1, 1), datetime.date(1969, 12, 31), None, datetime.date(2022, 1, 8), datetime.date.max, last + 1,
            2**31 - 1, -2**31]
    day = 86_400_000
    yield "days in milliseconds", one_column(frames.date(1), [0, -day, 19000 * day, 5, day * (last + 1), 2**63 - 1, None], "q"), [
        datetime.date(1970, 1, 1), datetime.date(1969, 12, 31), datetime.date(2022, 1, 8), 5, day * (last + 1), 2**63 - 1, None]


def times():
    yield "seconds of a day", one_column(frames.time(SECOND), [0, 86_399, 86_400, -1, None], "i"), [
        datetime.time(0), datetime.time(23, 59, 59), 86_400, -1, None]
    yield "milliseconds of a day", one_column(frames.time(MILLI), [1, 86_399_999], "i"), [
        datetime.time(0, 0, 0, 1000), datetime.time(23, 59, 59, 999_000)]
    yield "microseconds of a day", one_column(frames.time(MICRO), [1, 86_400_000_000], "q"), [datetime.time(0, 0, 0, 1),
        86_400_000_000]
    yield "nanoseconds of a day", one_column(frames.time(NANO), [1000, 1001, -1000, 2**63 - 1], "q"), [datetime.time(0, 0, 0, 1),
        1001, -1000, 2**63 - 1]


def timestamps():
    last = (datetime.datetime.max - at(1970, 1, 1)) // MICROSECOND
    yield "seconds", one_column(frames.timestamp(SECOND), [0, -1, last // 10**6, last // 10**6 + 1, 2**63 - 1, None], "q"), [
        at(1970, 1, 1), at(1969, 12, 31, 23, 59, 59), at(9999, 12, 31, 23, 59, 59), last // 10**6 + 1, 2**63 - 1, None]
    yield "milliseconds", one_column(frames.timestamp(MILLI), [1, -1], "q"), [at(1970, 1, 1, 0, 0, 0, 1000), at(1969, 12, 31, 23,
        59, 59, 999_000)]
    yield "microseconds", one_column(frames.timestamp(MICRO), [last, last + 1, -2**63], "q"), [datetime.datetime.max, last + 1,
        -2**63]
    yield "nanoseconds", one_column(frames.timestamp(NANO), [1_000, 1_001, -1_000, -999], "q"), [
        at(1970, 1, 1, 0, 0, 0, 1), 1_001, at(1969, 12, 31, 23, 59, 59, 999_999), -999]


def zones():
    summer, utc = 1_750_000_000, datetime.timezone.utc
    instant = datetime.datetime.fromtimestamp(summer, utc)
    for name, offset, expected in (("UTC", 0, "UTC"), ("+02:30", 9000, "UTC+02:30"), ("-11:00", -39600, "UTC-11:00"),
            ("Nowhere/None", 0, "UTC"),
                                 ("../../etc/passwd", 0, "UTC"), ("/etc/localtime", 0, "UTC"), ("+99:99", 0, "UTC"), ("", None,
                                     None)):
        found = one_column(frames.timestamp(SECOND, name), [summer], "q")[0]
        shown = (found.utcoffset() and found.utcoffset().total_seconds() or 0, found.tzname()) if offset is not None else (None,
            found.tzname())
        yield f"a zone of {name!r}", shown, (offset, expected)
        yield f"the instant in {name!r}", found if found.tzinfo else found.replace(tzinfo=utc), instant
    berlin = one_column(frames.timestamp(NANO, "Europe/Berlin"), [summer * 10**9, summer * 10**9 + 1, 2**63 - 1, None], "q")
    try:
        import zoneinfo
        zone = zoneinfo.ZoneInfo("Europe/Berlin")
        yield "a zone that is known", (berlin[0].tzinfo is zone, str(berlin[0])), (True, "2025-06-15 17:06:40+02:00")
    except KeyError:
        yield "a zone of no list", berlin[0].tzinfo, utc
    yield "instants that are none", berlin[1:], [summer * 10**9 + 1, 2**63 - 1, None]
    last = (datetime.datetime.max - at(1970, 1, 1)) // MICROSECOND
    yield "the last instant in a zone", one_column(frames.timestamp(MICRO, "+02:00"), [last], "q"), [last]


def durations():
    longest = datetime.timedelta.max // MICROSECOND
    yield "durations in seconds", one_column(frames.duration(SECOND), [1, -1, 2**63 - 1, None], "q"), [
        datetime.timedelta(seconds=1), datetime.timedelta(seconds=-1), 2**63 - 1, None]
    yield "durations in microseconds", one_column(frames.duration(MICRO), [1, 2**63 - 1], "q"), [MICROSECOND,
        (2**63 - 1) * MICROSECOND]
    yield "the longest duration", one_column(frames.duration(MILLI), [longest // 1000, longest // 1000 + 1], "q"), [
        datetime.timedelta(microseconds=longest // 1000 * 1000), longest // 1000 + 1]
    yield "durations in nanoseconds", one_column(frames.duration(NANO), [1000, 999], "q"), [MICROSECOND, 999]


def intervals():
    """Intervals of each unit, in bytes that are written out: three slots, the second of which is null; also as a dictionary's values."""
    months, days, nanos = "0e000000 00000000 feffffff", "02000000f4010000 0000000000000000 ffffffff0cfeffff", (
        "01000000020000000300000000000000 00000000000000000000000000000000 ffffff7f000000800000000000000080")
    for unit, (name, written, expected) in enumerate((
            ("month_interval", months, [14, None, -2]), ("day_time_interval", days, [(2, 500), None, (-1, -500)]),
            ("month_day_nano_interval", nanos, [(1, 2, 3), None, (2**31 - 1, -2**31, -2**63)]))):
        kind, its = frames.interval(unit), frames.Column([(3, 1)], [b"\5", bytes.fromhex(written)])
        plain = frames.schema(frames.field("x", kind)) + frames.batch(its) + frames.END_MARKER
        column = next(arrowflow.open(plain, arrowflow.ALL_TYPES)).column("x")
        yield name, (column.type, column.to_pylist(), [column[it] for it in range(3)]), (name, expected, expected)
        yield f"the buffers of {name}", [bytes(it) for it in column.buffers()], [b"\5", bytes.fromhex(written)]
        yield f"{name} with the core", raised_by(arrowflow.sanitize, plain).kind, arrowflow.Kind.UNSUPPORTED
        encoded = b"".join([frames.schema(frames.field("x", kind, encoding=frames.dictionary(1))), frames.dictionary_batch(1, its),
                            frames.batch(frames.numbers([2, 1, None, 0, 2])), frames.END_MARKER])
        found = next(arrowflow.open(encoded, arrowflow.ALL_TYPES)).column("x").to_pylist()
        yield f"{name} by a dictionary", found, [expected[2], None, None, expected[0], expected[2]]


def decimals():
    """Decimals of each width, in bytes that are written out: three slots, the second of which is null; also as a dictionary's values."""
    for format, (name, width, precision, scale), written, expected in (
            ("d:9,2,32", ("decimal32(9, 2)", 32, 9, 2), "05000000 00000000 ceffffff", ("0.05", None, "-0.50")),
            ("d:18,-3,64", ("decimal64(18, -3)", 64, 18, -3), "0c00000000000000" + 8 * "00" + "ff" * 8, ("12e3", None, "-1e3")),
            ("d:38,0", ("decimal128(38, 0)", 128, 38, 0), "ff" * 15 + "7f" + 16 * "00" + 15 * "00" + "80", (
                "170141183460469231731687303715884105727", None, "-170141183460469231731687303715884105728")),
            ("d:76,76,256", ("decimal256(76, 76)", 256, 76, 76), "01" + 31 * "00" + 32 * "00" + 31 * "00" + "80", ("1e-76", None,
                "-5.7896044618658097711785492504343953926634992332820282019728792003956564819968"))):
        values = [None if it is None else decimal.Decimal(it) for it in expected]
        kind, its = frames.decimal(width, precision, scale), frames.Column([(3, 1)], [b"\5", bytes.fromhex(written)])
        plain = frames.schema(frames.field("x", kind)) + frames.batch(its) + frames.END_MARKER
        column = next(arrowflow.open(plain, arrowflow.ALL_TYPES)).column("x")
        with decimal.localcontext() as context:
            context.prec = 2
            found = column.to_pylist(), [column[it] for it in range(3)]
        # equal numbers may differ in their trailing zeros
        yield name, (column.type, column.format, *map(repr, found)), (name, format, repr(values), repr(values))
        yield f"the buffers of {name}", [bytes(it) for it in column.buffers()], [b"\5", bytes.fromhex(written)]
        yield f"{name} with the core", raised_by(arrowflow.sanitize, plain).kind, arrowflow.Kind.UNSUPPORTED
        encoded = b"".join([frames.schema(frames.field("x", kind, encoding=frames.dictionary(1))), frames.dictionary_batch(1, its),
                            frames.batch(frames.numbers([2, 1, None, 0, 2])), frames.END_MARKER])
        found = next(arrowflow.open(encoded, arrowflow.ALL_TYPES)).column("x").to_pylist()
        yield f"{name} by a dictionary", repr(found), repr([values[2], None, None, values[0], values[2]])
    for wrong in ((16, 4, 2), (128, 39, 0), (32, 9, 77)):
        data = frames.schema(frames.field("x", frames.decimal(*wrong)))
        yield f"a decimal of {wrong}", raised_by(arrowflow.sanitize, data, arrowflow.ALL_TYPES).kind, arrowflow.Kind.SCHEMA


def fixed_size_lists():
    """Fixed-size lists: of two numbers, one of them null, of no items, and of each other; a null list hides what is under it."""
    item, number = frames.field("item", frames.INT32), (b"\5", bytes.fromhex("01000000 00000000 07000000 08000000 fdffffff 00000000"))
    inner = frames.field("item", frames.fixed_size_list(2), [item])
    hidden = frames.Column([(3, 1), (6, 1)], [number[0], b"\x3d", number[1]])
    empty = frames.fixed_lists([[], None], 0, frames.numbers)
    deep = [[[1, None], None], None, [None, [2, 3]]]
    laid = frames.fixed_lists(deep, 2, lambda its: frames.fixed_lists(its, 2, frames.numbers))
    for size, below, its, expected in ((2, item, hidden, [[1, None], None, [-3, 0]]), (0, item, empty, [[], None]), (2, inner, laid, deep)):
        name, format = f"fixed_size_list[{size}]", f"+w:{size}"
        data = frames.schema(frames.field("x", frames.fixed_size_list(size), [below])) + frames.batch(its) + frames.END_MARKER
        column = next(arrowflow.open(data, arrowflow.ALL_TYPES)).column("x")
        yield name, (column.type, column.format, column.to_pylist(), [*column]), (name, format, expected, expected)
        yield f"slots of {name}", [column[at] for at in range(-1, len(expected) - 1)], [expected[-1], *expected[:-1]]
        child, = column.children
        yield f"the buffers of {name}", [bytes(it.buffers()[0] or b"") for it in (column, child)], its.buffers[:2]
        yield f"the child of {name}", (len(column.buffers()), len(child), child.null_count), (1, *its.nodes[1])
        yield f"{name} with the core", raised_by(arrowflow.sanitize, data).kind, arrowflow.Kind.UNSUPPORTED
        encoded = b"".join([frames.schema(frames.field("x", frames.fixed_size_list(size), [below], encoding=frames.dictionary(1))),
                            frames.dictionary_batch(1, its), frames.batch(frames.numbers([1, None, 0, 0])), frames.END_MARKER])
        column = next(arrowflow.open(encoded, arrowflow.ALL_TYPES)).column("x")
        found = column.to_pylist()
        found[2].append(5)
        yield f"{name} by a dictionary", (column.type, found), (f"dictionary<int32, {name}>", [expected[1], None, [*expected[0], 5], expected[0]])
    data = frames.schema(frames.field("x", frames.fixed_size_list(-1), [item]))
    yield "fixed-size lists of -1 items", raised_by(arrowflow.sanitize, data, arrowflow.ALL_TYPES).kind, arrowflow.Kind.SCHEMA


def maps():
    """Maps, of which one is null and one is empty; if the keys are sorted, the type and the flags say so."""
    pairs = [[("a", 1), ("b", None)], None, [], [("c", -3)]]
    laid = frames.lists(pairs, lambda its: frames.structs(its, frames.strings([key for key, _ in its]), frames.numbers([it for _, it in its])))
    entries = frames.field("entries", frames.STRUCT, [frames.field("key", frames.UTF8), frames.field("value", frames.integer(32, True))])
    for keys_sorted, name, flags in ((False, "map", 2), (True, "map[sorted]", 6)):
        kind, below = frames.map_of(entries, keys_sorted)
        data = frames.schema(frames.field("x", kind, below)) + frames.batch(laid) + frames.END_MARKER
        column = next(arrowflow.open(data, arrowflow.ALL_TYPES)).column("x")
        found = column.type, column.field.flags, column.field.keys_sorted, column.to_pylist(), column[3]
        yield name, found, (name, flags, keys_sorted, pairs, pairs[3])
        yield f"{name} with the core", raised_by(arrowflow.sanitize, data).kind, arrowflow.Kind.UNSUPPORTED


def nobody_else():
    """Rows with the same value of a dictionary have lists and dicts of their own."""
    item = frames.field("item", frames.integer(64, True))
    values = frames.lists([[1, 2], None], lambda them: frames.numbers(them, "q"))
    data = b"".join([frames.schema(frames.field("x", frames.LIST, [item], encoding=frames.dictionary(1))),
                     frames.dictionary_batch(1, values), frames.batch(frames.numbers([0, 0, 1, None])), frames.END_MARKER])
    column = next(arrowflow.open(data)).column(0)
    first, second, *rest = column.to_pylist()
    first.append(3)
    yield "a list of a row's own", (second, rest, column[0]), ([1, 2], [None, None], [1, 2])
    yield "a dictionary", (column.dictionary.to_pylist(), column.null_count), ([[1, 2], None], 1)


def of_long_dictionaries():
    """If a dictionary is far longer than what is used of it, the values are the same."""
    words = [f"word {it}" for it in range(1000)]
    data = b"".join([frames.schema(frames.field("x", frames.UTF8, encoding=frames.dictionary(1))), frames.dictionary_batch(1,
        frames.strings(words)),
                     frames.batch(frames.numbers([999, None, 0, 7])), frames.batch(frames.numbers([*range(1000)])),
                         frames.END_MARKER])
    first, second = arrowflow.open(data)
    yield "a few words", first.column("x").to_pylist(), ["word 999", None, "word 0", "word 7"]
    yield "all words", (second.column(0).to_pylist(), second.column(0)[5]), (words, "word 5")


def counts():
    """Nulls are counted in each byte of a bitmap, whatever comes after the last slot."""
    for size in (1, 7, 8, 9, 64, 1000):
        values = [it % 3 or None for it in range(size)]
        data = frames.schema(frames.field("x", frames.integer(16, True))) + frames.batch(frames.numbers(values,
            "h")) + frames.END_MARKER
        column = next(arrowflow.open(data)).column(0)
        yield f"{size} slots", (column.null_count, [*column], column[-1]), (values.count(None), values, values[-1])
        validity, numbers = column.buffers()
        yield f"buffers of {size}", (len(validity), numbers.cast("h").tolist()), ((size + 7) // 8, [it or 0 for it in values])
    none = frames.schema(frames.field("x", frames.integer(16, True))) + frames.batch(frames.numbers([1, 2],
        "h")) + frames.END_MARKER
    yield "no bitmap", next(arrowflow.open(none)).column(0).buffers()[0], None
    yield "a value past all", raised_by(lambda: next(arrowflow.open(none)).column(0)[2]).args, ("no slot 2 of 2",)
