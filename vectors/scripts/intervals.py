"""Streams with intervals, which are read with the set of all types. Months are numbers, intervals of the other units are tuples
of numbers: days and milliseconds, or months, days and nanoseconds.

SI and BI are the schema and the batch of doubles that floating.py has written out, in which the type has another code and the
values another length, and a body that is written out: what tools/ generates has to be equal. STATED and SHOWN come from
outside the model: if its answer differs, nothing is written."""
from tools import stream_model, typed_columns
from tools.frame_parts import Stream
from tools.frames import (END_MARKER, INT32, LARGE_LIST, LIST, STRUCT, UTF8, as_v4, batch, dictionary, dictionary_batch, field,
    fixed_size_binary, interval, lists, numbers, schema, strings, structs)
import changes
import floating
import kinds
import raw_frames
from raw_frames import FIELD, NODE, TYPE, VALIDITY, VALUES, column, stream
from results import ALL, OF_ALL
from table import MALFORMED, OWN, STANDARD
from worked_examples import CLEAN, column as columns, rejected, rows

MONTHS, DAY_TIMES, MONTH_DAY_NANOS = range(3)
MANY = {MONTHS: "months", DAY_TIMES: "day_times", MONTH_DAY_NANOS: "month_day_nanos"}
WORDS = {MONTHS: "months", DAY_TIMES: "days and milliseconds", MONTH_DAY_NANOS: "months, days and nanoseconds"}
WIDTHS = {MONTHS: 4, DAY_TIMES: 8, MONTH_DAY_NANOS: 16}

# The schema of one nullable column `d`, whose type has the unit 2, and a batch of one month, two days and three nanoseconds, and a null.
SI = floating.SD[:105] + b"\x0b" + floating.SD[106:]
BODY = bytes.fromhex("01 00 00 00 00 00 00 00  01 00 00 00 02 00 00 00 03 00 00 00 00 00 00 00" + 16 * " 00")
BI = floating.BD[:40] + b"\x28" + floating.BD[41:144] + b"\x20" + floating.BD[145:152] + BODY
ONE = Stream(schema=SI, batch=BI, end=END_MARKER)

# The numbers at the edges of 32 and of 64 bits.
LOW, HIGH, LEAST, MOST = -2 ** 31, 2 ** 31 - 1, -2 ** 63, 2 ** 63 - 1
A_DAY = 86_400_000_000_000
EDGES = {
    MONTHS: [0, 1, -1, 14, -2, 255, 256, HIGH, LOW],
    DAY_TIMES: [(0, 0), (2, 500), (-1, -500), (0, -1), (1, 0), (HIGH, LOW), (LOW, HIGH), (HIGH, HIGH), (LOW, LOW)],
    MONTH_DAY_NANOS: [(0, 0, 0), (1, 2, 3), (-1, 0, MOST), (0, -1, 0), (0, 0, -1), (HIGH, LOW, LEAST), (LOW, HIGH, MOST),
        (HIGH, HIGH, MOST), (LOW, LOW, LEAST)],
}
# In the form in which vectors/scripts/kinds.py has the other types: for each unit two values, the first of which has the least number,
# and the edges.
KINDS = [kinds.Kind("Interval", (unit,), its[-1], its[1], its) for unit, its in EDGES.items()]


def of(unit):
    """The function that makes a column of intervals of a unit."""
    return lambda values: typed_columns.intervals(values, unit)


months, day_times, month_day_nanos = map(of, MANY)


# ---- the schema and the batch, changed by names


def in_schema(*settings):
    """The schema with these settings, each a name and its bytes, and an end marker."""
    return ONE.changed(dict(settings))[:len(SI)] + END_MARKER


def of_unit(unit, *batches):
    """A stream of one column `d` of a unit."""
    return stream(schema(field("d", interval(unit))), *batches)


def schemas():
    """What a schema says about a column of intervals: the type, its table and the unit there."""
    unit, entry = f"{TYPE}.unit", f"{TYPE}.vtable.unit"

    def unequal(one, other, *names):
        """Two columns of one id, with these types."""
        return stream(schema(*(field(name, *kind, encoding=dictionary(0)) for name, kind in zip(names, (one, other)))))

    def listed(unit):
        return LIST, [field("item", interval(unit))]
    return {
        "month_day_nanos_and_no_batch": (STANDARD, "a column of months, days and nanoseconds", SI + END_MARKER),
        "day_times_and_no_batch": (STANDARD, "a column of days and milliseconds", in_schema((unit, "01"))),
        "months_and_no_batch": (STANDARD, "a column of months", in_schema((unit, "00"))),
        "interval_unit_of_3": (MALFORMED, "a unit of intervals that is none", in_schema((unit, "03"))),
        "interval_unit_of_minus_1": (MALFORMED, "a unit of intervals below 0", in_schema((unit, "ffff"))),
        "interval_unit_of_256": (MALFORMED, "a unit of intervals whose second byte is not 0", in_schema((unit, "0001"))),
        "no_interval_unit": (STANDARD, "intervals without a unit, which are months", in_schema((entry, "0000"))),
        "vtable_without_the_interval_unit": (STANDARD, "intervals whose vtable ends before the unit",
            in_schema((f"{TYPE}.vtable.size", "04"))),
        "interval_unit_outside": (MALFORMED, "a unit of intervals that does not lie inside", in_schema((entry, "ff7f"))),
        "interval_table_outside": (MALFORMED, "intervals whose type's table does not lie inside",
            in_schema((f"{FIELD}.type", "ffffff7f"))),
        "no_interval_table": (MALFORMED, "intervals whose type has no table", in_schema((f"{FIELD}.vtable.type", "0000"))),
        "second_schema_of_intervals": (MALFORMED, "two schemas with intervals", SI + SI + END_MARKER),
        "child_of_intervals": (MALFORMED, "intervals with a child",
            schema(field("d", interval(MONTH_DAY_NANOS), [field("a", INT32)])) + END_MARKER),
        "version_4_of_intervals": (STANDARD, "intervals whose messages are all of V4", stream(as_v4(SI), as_v4(BI))),
        "version_3_of_intervals": (OWN, "intervals, whose schema is of V3", in_schema(("schema.version", "02"))),
        "unequal_units_of_an_id": (OWN, "two columns of one id and other units of intervals",
            unequal([interval(DAY_TIMES)], [interval(MONTH_DAY_NANOS)], "k", "j")),
        "unequal_units_below_an_id": (OWN, "two columns of one id, of lists of intervals of other units",
            unequal(listed(MONTHS), listed(DAY_TIMES), "k", "j")),
    }


def too_short(unit):
    """Two intervals in one byte less than they need."""
    its = Stream(schema=schema(field("d", interval(unit))), batch=batch(of(unit)([*EDGES[unit][1:2], None])), end=END_MARKER)
    return its.changed({VALUES + ".length": f"{2 * WIDTHS[unit] - 1:02x}"})


def batches():
    """Columns of each unit, and the requirements on their buffers and nodes."""
    two = {unit: batch(of(unit)([EDGES[unit][1], None])) for unit in MANY}
    found = {
        "month_day_nanos": (STANDARD, "one month, two days and three nanoseconds, and a null", ONE.held()),
        "day_times": (STANDARD, "days and milliseconds, some below 0, and a null",
            of_unit(DAY_TIMES, batch(day_times([(2, 500), None, (-1, -500), (0, 0)])))),
        "months": (STANDARD, "months, some below 0, and a null", of_unit(MONTHS, batch(months([14, None, -2, 0])))),
        "interval_under_a_null": (STANDARD, "bits of an interval under a null", ONE.changed({"batch.body.1[16]": "01",
            "batch.body.1[31]": "80"})),
        "null_count_of_intervals_wrong": (OWN, "a number of null intervals that is not that of the bits",
            ONE.changed({f"{NODE}.null_count": "02"})),
        "null_count_of_intervals_of_minus_1": (OWN, "a number of null intervals of -1", ONE.changed({f"{NODE}.null_count": "ff" * 8})),
        "no_validity_of_intervals": (OWN, "intervals without a validity, and a null count of 1",
            ONE.changed({f"{VALIDITY}.length": "00"})),
        "not_nullable_intervals": (OWN, "a column of intervals that is not nullable, with a null",
            ONE.changed({f"{FIELD}.nullable": "00"})),
        "intervals_cut_off": (MALFORMED, "a batch of intervals without its last byte", SI + BI[:-1]),
        "intervals_without_an_end_marker": (STANDARD, "intervals in a stream that ends after its batch", SI + BI),
    }
    for unit, many in MANY.items():
        words, its = WORDS[unit], EDGES[unit]
        hidden = column([(len(its), 4)], b"\x55\x55", of(unit)(its).buffers[1] + b"w")
        found |= {
            f"{many}_too_short": (MALFORMED, f"{words} in a byte less than they need", too_short(unit)),
            f"edges_of_{many}": (STANDARD, f"{words} at all edges, and nulls between them", of_unit(unit, batch(of(unit)(its)),
                batch(of(unit)([it for edge in its for it in (edge, None)])))),
            f"hidden_in_{many}": (STANDARD, f"{words} under nulls and after the last", of_unit(unit, batch(hidden))),
        }
        for other, more in MANY.items():
            if other != unit:
                found[f"{more}_for_{many}"] = (STANDARD if WIDTHS[other] > WIDTHS[unit] else MALFORMED,
                    f"{words} in the bytes of {WORDS[other]}", of_unit(unit, two[other]))
    return found


# ---- below and next to other columns, and by dictionaries


def listed(unit):
    """Lists of structs of a unit, with nulls on each level."""
    its = [EDGES[unit][-1], None, EDGES[unit][0], None]
    below = structs([(), None, (), ()], of(unit)(its))
    return (STANDARD, f"lists of structs of {WORDS[unit]}, with nulls on each level",
        stream(schema(field("l", LIST, [field("item", STRUCT, [field("x", interval(unit))])])),
            batch(lists([its[:2], None, its[2:], []], lambda _: below))))


def nested():
    """Lists and structs of intervals."""
    its = [field(many, interval(unit)) for unit, many in MANY.items()]
    large = [[(1, 2, 3), None], [], None, [(0, -1, 0)]]
    held = [of(unit)([EDGES[unit][1], None, EDGES[unit][-1]]) for unit in MANY]
    return {
        **{f"lists_of_structs_of_{many}": listed(unit) for unit, many in MANY.items()},
        "lists_of_day_times": (STANDARD, "lists of days and milliseconds", stream(
            schema(field("l", LIST, [field("item", interval(DAY_TIMES))])),
            batch(lists([[(2, 500), (0, 0)], [(-1, -500)]], day_times)))),
        "struct_of_intervals": (STANDARD, "a struct of an interval of each unit", stream(schema(field("s", STRUCT, its)),
            batch(structs([()], *(of(unit)([EDGES[unit][1]]) for unit in MANY))))),
        "large_lists_of_month_day_nanos": (STANDARD, f"large lists of {WORDS[MONTH_DAY_NANOS]}, with nulls", stream(
            schema(field("l", LARGE_LIST, [field("item", interval(MONTH_DAY_NANOS))])),
            batch(typed_columns.large_lists(large, month_day_nanos)))),
        "intervals_beside_other_columns": (STANDARD, "intervals of each unit beside texts, and columns of the same bytes", stream(
            schema(*its, field("t", UTF8), field("n", INT32), field("a", fixed_size_binary(8)), field("b", fixed_size_binary(16))),
            batch(*held, strings(["1M2d3ns", None, "0M"]), *held))),
    }


def dictionaries():
    """Dictionaries of intervals, whose values are equal if their numbers are: a day is not 24 hours."""
    two = schema(field("c", interval(DAY_TIMES), encoding=dictionary(7, 8)))
    one = schema(field("k", interval(MONTH_DAY_NANOS), encoding=dictionary(0)))

    def sent(*values):
        """A batch of the first value after each of these dictionaries."""
        return stream(one, *(it for its in values for it in (dictionary_batch(0, month_day_nanos(its)), batch(numbers([0, None])))))
    return {
        "dictionary_of_day_times": (STANDARD, "a dictionary of two intervals",
            stream(two, dictionary_batch(7, day_times([(2, 500), (0, -1)])), batch(numbers([1, None, 0], "b")))),
        "dictionary_of_a_day_and_of_24_hours": (STANDARD, "a dictionary of a day, then one of as many nanoseconds",
            sent([(0, 1, 0)], [(0, 0, A_DAY)])),
        "dictionary_of_an_interval_sent_twice": (STANDARD, "a dictionary of an interval, and the same again",
            sent([(1, 2, 3)], [(1, 2, 3)])),
        "index_above_two_intervals": (MALFORMED, "an index above a dictionary of two intervals", stream(two,
            dictionary_batch(7, day_times([(2, 500), (0, -1)])), batch(numbers([2], "b")))),
        "dictionary_below_structs_of_intervals": (STANDARD, "a dictionary of months below structs and lists", below_structs()),
        **{f"growing_dictionary_of_{many}": (STANDARD, f"a dictionary of {WORDS[unit]} that grows by deltas",
            b"".join(growing(unit).values())) for unit, many in MANY.items()},
    }


def below_structs():
    item = field("item", STRUCT, [field("k", interval(MONTHS), encoding=dictionary(9, 16, False)), field("x", interval(DAY_TIMES))])
    its = structs([(), None, ()], numbers([2, 0, None], "H"), day_times([(1, 2), (0, 0), None]))
    return stream(schema(field("l", LIST, [item])), dictionary_batch(9, months([12, None, -12])),
        batch(lists([[1, 2], None, [3]], lambda _: its)))


def growing(unit):
    """A dictionary that is extended by two deltas between batches, over all edges."""
    its, to_column = EDGES[unit], of(unit)
    return {"schema": schema(field("k", interval(unit), encoding=dictionary(0, 8))),
        "dictionary": dictionary_batch(0, to_column(its[:4])), "first": batch(numbers([3, 0, None, 2], "b")),
        "delta": dictionary_batch(0, to_column([*its[4:], None]), True), "second": batch(numbers([*range(10), None], "b")),
        "last": dictionary_batch(0, to_column(its[:1]), True), "third": batch(numbers([10, 9], "b")), "end": END_MARKER}


def foreign():
    """Streams as FlatBuffers' own builder lays them out, which examples/foreign wrote: values that are the default are left
    out."""
    return {"intervals_of_another_writer": (STANDARD, "columns and a dictionary of another writer, who leaves out the unit of months",
        raw_frames.written_by_another(f"{OF_ALL}intervals_of_another_writer"))}


def vectors():
    """The vectors keyed by their names: whom each binds, what it is about, and its bytes."""
    found = {name: (STANDARD, *it) for name, it in kinds.vectors(KINDS).items()}
    for group in (schemas(), batches(), nested(), dictionaries(), foreign()):
        assert not found.keys() & group.keys()
        found.update(group)
    return found


def conditions():
    """For each unit what breaks its layout, as a column of it and as one of indices to it."""
    return kinds.changes(KINDS, ALL)


def of_each_length(types):
    """Connections that break at each offset, and a schema with each byte changed, with a set of types."""
    found = {"intervals_bytes": ("each byte of a schema of intervals set to some other values", "month_day_nanos",
        changes.each_byte(ONE, ["schema"], sorted({*changes.SOME, 2, 3, 10, 11}), types))}
    for unit, many in MANY.items():
        lines = changes.cuts(b"".join(growing(unit).values()), 8 if types == ALL else 0, types)
        name = f"growing_dictionary_of_{many}"
        found[f"{name}_cut"] = f"each length of a growing dictionary of {WORDS[unit]}", name, lines
    return found


# What is written for a vector in way 0, if that is not the vector itself.
WRITTEN = {"no_interval_unit": "months_and_no_batch", "vtable_without_the_interval_unit": "months_and_no_batch",
    "interval_under_a_null": "month_day_nanos", "version_4_of_intervals": "month_day_nanos",
    "intervals_without_an_end_marker": "month_day_nanos"}
# The vectors that are copied byte for byte, in way 0.
AS_IT_IS = ("month_day_nanos_and_no_batch day_times_and_no_batch months_and_no_batch month_day_nanos day_times months "
    "not_nullable_intervals").split()

# The lines that the texts of vectors have, as in vectors/scripts/worked_examples.py.
STATED = {
    "month_day_nanos_and_no_batch": ["take 144 schema", *columns("d: month_day_nano_interval"), "take 8 end", *CLEAN],
    "day_times_and_no_batch": columns("d: day_time_interval"), "months_and_no_batch": columns("d: month_interval"),
    "no_interval_unit": columns("d: month_interval"), "vtable_without_the_interval_unit": columns("d: month_interval"),
    **{f"interval_unit_of_{it}": rejected("Schema", 0) for it in ("3", "minus_1", "256")},
    "interval_unit_outside": rejected("Metadata", 0), "interval_table_outside": rejected("Metadata", 0),
    "no_interval_table": rejected("Metadata", 0), "second_schema_of_intervals": ["take 144 schema", *rejected("Order", 144)],
    "child_of_intervals": rejected("Schema", 0), "version_3_of_intervals": rejected("Version", 0),
    "unequal_units_of_an_id": rejected("Schema", 0), "unequal_units_below_an_id": rejected("Schema", 0),
    "month_day_nanos": ["take 144 schema", "take 192 batch of 2", *rows('x"01000000020000000300000000000000"=1M2d3ns', "null")],
    "day_times": rows('x"02000000f4010000"=2d500ms', "null", 'x"ffffffff0cfeffff"=-1d-500ms', 'x"0000000000000000"=0d0ms'),
    "months": rows("14=14M", "null", "-2=-2M", "0=0M"),
    "interval_under_a_null": rows('x"01000000020000000300000000000000"=1M2d3ns', "null"),
    "null_count_of_intervals_wrong": rejected("Layout", 144), "no_validity_of_intervals": rejected("Layout", 144),
    "not_nullable_intervals": [*columns("d: month_day_nano_interval not null"), "take 192 batch of 2"],
    **{f"{many}_too_short": rejected("Layout", 144) for many in MANY.values()},
    "day_times_for_months": rows("2=2M", "null"), "month_day_nanos_for_months": rows("1=1M", "null"),
    "month_day_nanos_for_day_times": rows('x"0100000002000000"=1d2ms', "null"), "months_for_day_times": rejected("Layout", 144),
    "months_for_month_day_nanos": rejected("Layout", 144), "day_times_for_month_day_nanos": rejected("Layout", 144),
    "edges_of_months": rows("0=0M", "1=1M", "-1=-1M", "14=14M", "-2=-2M", "255=255M", "256=256M", "2147483647=2147483647M",
        "-2147483648=-2147483648M"),
    "edges_of_day_times": rows('x"0000000000000000"=0d0ms', 'x"02000000f4010000"=2d500ms', 'x"ffffffff0cfeffff"=-1d-500ms',
        'x"00000000ffffffff"=0d-1ms', 'x"0100000000000000"=1d0ms', 'x"ffffff7f00000080"=2147483647d-2147483648ms',
        'x"00000080ffffff7f"=-2147483648d2147483647ms', 'x"ffffff7fffffff7f"=2147483647d2147483647ms',
        'x"0000008000000080"=-2147483648d-2147483648ms'),
    "edges_of_month_day_nanos": ['  row x"ffffff7f000000800000000000000080"=2147483647M-2147483648d-9223372036854775808ns',
        '  row x"00000080ffffff7fffffffffffffff7f"=-2147483648M2147483647d9223372036854775807ns'],
    "lists_of_day_times": [*columns("l: list"), "    column item: day_time_interval",
        *rows('[x"02000000f4010000"=2d500ms, x"0000000000000000"=0d0ms]', '[x"ffffffff0cfeffff"=-1d-500ms]')],
    "struct_of_intervals": rows('{"months": 1=1M, "day_times": x"02000000f4010000"=2d500ms, '
        '"month_day_nanos": x"01000000020000000300000000000000"=1M2d3ns}'),
    "dictionary_of_day_times": [*columns("c: dictionary<int8, day_time_interval> id 7"), "take * dictionary 7 of 2",
        '  value x"02000000f4010000"=2d500ms', '  value x"00000000ffffffff"=0d-1ms',
        *rows('1 -> x"00000000ffffffff"=0d-1ms', "null", '0 -> x"02000000f4010000"=2d500ms')],
    "dictionary_of_a_day_and_of_24_hours": ['  row 0 -> x"00000000010000000000000000000000"=0M1d0ns', "  row null",
        *rows('0 -> x"000000000000000000004f91944e0000"=0M0d86400000000000ns', "null")],
    "index_above_two_intervals": ["take * dictionary 7 of 2", "refuse Index at *"],
    "intervals_of_another_writer": [*columns("m: month_interval"), *columns("d: day_time_interval not null"),
        *columns("n: month_day_nano_interval"), *columns("l: list"), "    column item: month_day_nano_interval",
        *columns("k: dictionary<int32, month_interval> id 0"), "  value 12=12M", "  value -1=-1M", "take * batch of 2",
        '  row 14=14M, x"02000000f4010000"=2d500ms, null, [x"0000000000000000ffffffffffffffff"=0M0d-1ns, null], 1 -> -1=-1M'],
}
# The records that `show` prints of vectors, after that of the names.
SHOWN = {
    "month_day_nanos": ["0,1M2d3ns", "0,"], "day_times": ["0,2d500ms", "0,", "0,-1d-500ms", "0,0d0ms"],
    "months": ["0,14M", "0,", "0,-2M", "0,0M"], "lists_of_day_times": ["0,[2d500ms;0d0ms]", "0,[-1d-500ms]"],
    "struct_of_intervals": ["0,{months=1M;day_times=2d500ms;month_day_nanos=1M2d3ns}"],
    "dictionary_of_day_times": ["0,0d-1ms", "0,", "0,2d500ms"],
    "dictionary_of_a_day_and_of_24_hours": ["0,0M1d0ns", "0,", "1,0M0d86400000000000ns", "1,"],
    "large_lists_of_month_day_nanos": ["0,[1M2d3ns;null]", "0,[]", "0,", "0,[0M-1d0ns]"],
    "hidden_in_months": ["0,0M", "0,", "0,-1M", "0,", "0,-2M", "0,", "0,256M", "0,", "0,-2147483648M"],
}


def written_out():
    """What is written out, compared with what is generated and answered."""
    its = vectors()
    shown = {name: stream_model.answers(its[name][2], types=ALL)[1][0].decode().splitlines()[1:] for name in SHOWN}
    return [("the schema of intervals", schema(field("d", interval(MONTH_DAY_NANOS))), SI),
        ("the batch of an interval", batch(month_day_nanos([(1, 2, 3), None])), BI),
        *((f"what is shown of {it}", shown[it], expected) for it, expected in SHOWN.items())]
