"""Streams with decimals, which are read with the set of all types. A value is given by its whole number: 1.25 is 125 if the scale
is 2.

SC is the schema, written out by hand: that of doubles, which floating.py has written out, with another type and its table of
three numbers. BC is the batch of doubles with other lengths and a body that is written out: what tools/ generates has to be
equal. STATED and SHOWN come from outside the model: if its answer differs, nothing is written."""
from tools import stream_model, typed_columns
from tools.arrow_types import DECIMAL, DIGITS
from tools.frame_parts import Stream
from tools.frames import (END_MARKER, INT32, LARGE_LIST, LIST, STRUCT, UTF8, as_v4, batch, decimal, dictionary,
    dictionary_batch, field, fixed_size_binary, integer, lists, map_of, numbers, schema, strings, structs)
import changes
import floating
import kinds
from raw_frames import FIELD, NODE, TYPE, VALIDITY, VALUES, column, i32, stream
from results import ALL
from table import MALFORMED, OWN, STANDARD
from worked_examples import CLEAN, column as columns, rejected, rows

MANY = {width: f"decimal{width}" for width in DIGITS}
WORDS = {width: f"decimals of {width} bits" for width in DIGITS}
# The scale of the decimals of each width that have as many digits as possible, unless another one is given.
SCALES = {32: 2, 64: -3, 128: 0, 256: 76}

# The schema of one nullable column `d` of decimals of 128 bits with 5 digits, of which 2 are after the point: the type's vtable
# begins at 122, its table at 136, and the field's vector of no children at 152.
SC = floating.SD[:4] + bytes.fromhex("98 00 00 00") + floating.SD[8:105] + b"\x07" + floating.SD[106:108] + bytes.fromhex(
    "1c 00 00 00 28 00 00 00  01 00 00 00 64 00  0a 00 10 00 04 00 08 00 0c 00  00 00 00 00"
    "0e 00 00 00 05 00 00 00 02 00 00 00 80 00 00 00  00 00 00 00 00 00 00 00")
# A batch of 1.25, a null and -0.5.
BODY = bytes.fromhex("05 00 00 00 00 00 00 00  7d" + 15 * " 00" + 16 * " 00" + " ce" + 15 * " ff")
BC = floating.BD[:40] + b"\x38" + floating.BD[41:72] + b"\x03" + floating.BD[73:96] + b"\x03" + floating.BD[97:144] + b"\x30" + (
    floating.BD[145:152] + BODY)
ONE = Stream(schema=SC, batch=BC, end=END_MARKER)


def least_and_greatest(width):
    return -2 ** (width - 1), 2 ** (width - 1) - 1


def nines(width):
    return 10 ** DIGITS[width] - 1


# Numbers of as many digits as possible, and of few.
EDGES = {width: [0, 1, -1, 5, -50, 125, nines(width), -nines(width), 10 ** (DIGITS[width] - 1)] for width in DIGITS}
# In the form in which vectors/scripts/kinds.py has the other types: for each width two values, the first of which is the least of that
# many digits, and the edges.
KINDS = [kinds.Kind(DECIMAL.name, (DIGITS[width], SCALES[width], width), -nines(width), 125, its, name=MANY[width])
    for width, its in EDGES.items()]


def of(width):
    """The function that makes a column of decimals of a width."""
    return lambda values: typed_columns.decimals(values, width)


decimal32, decimal64, decimal128, decimal256 = map(of, MANY)


def kind(width):
    """The type of decimals of a width, with as many digits as possible."""
    return decimal(width, DIGITS[width], SCALES[width])


# ---- the schema and the batch, changed by names


def in_schema(*settings):
    """The schema with these settings, each a name and its bytes, and an end marker."""
    return ONE.changed(dict(settings))[:len(SC)] + END_MARKER


def with_numbers(**numbers_by_name):
    """The schema with these numbers in the type's table, and an end marker."""
    return in_schema(*((f"{TYPE}.{name}", i32(number).hex()) for name, number in numbers_by_name.items()))


def of_width(width, *batches):
    """A stream of one column `d` of a width."""
    return stream(schema(field("d", kind(width))), *batches)


def no_batch(*its):
    return stream(schema(*its))


def of_each_width():
    """The least and the greatest number of digits, and one less and one more."""
    found = {}
    for width, many in MANY.items():
        words, most = WORDS[width], DIGITS[width]
        found |= {
            f"{many}_of_1_digit": (STANDARD, f"{words} of one digit", with_numbers(bit_width=width, precision=1)),
            f"{many}_of_{most}_digits": (STANDARD, f"{words} of {most} digits", with_numbers(bit_width=width, precision=most)),
            f"{many}_of_no_digits": (OWN, f"{words} of no digits", with_numbers(bit_width=width, precision=0)),
            f"{many}_of_{most + 1}_digits": (OWN, f"{words} of {most + 1} digits", with_numbers(bit_width=width, precision=most + 1)),
        }
    return found


def out_of_range():
    """Widths, precisions and scales that are not allowed, some of which differ from an allowed one only in a higher byte."""
    def named(number):
        return f"minus_{-number}" if number < 0 else number
    return {
        **{f"decimals_of_{named(width)}_bits": (MALFORMED, f"decimals of {width} bits", with_numbers(bit_width=width))
            for width in (0, 8, 16, 127, 160, 512, 2 ** 16 + 128, -128)},
        **{f"decimals_of_{named(digits)}_digits": (OWN, f"decimals of {digits} digits", with_numbers(precision=digits))
            for digits in (-1, 2 ** 8 + 5, 2 ** 16 + 5, 2 ** 31 - 1, -2 ** 31)},
        **{f"scale_of_{named(scale)}": (OWN, f"decimals of a scale of {scale}", with_numbers(scale=scale))
            for scale in (77, -77, 2 ** 8 + 2, 2 ** 16 + 2, 2 ** 31 - 1, -2 ** 31)},
        **{f"scale_of_{named(scale)}": (STANDARD, f"decimals of a scale of {scale}", with_numbers(scale=scale))
            for scale in (76, 6, 0, -1, -76)},
    }


def schemas():
    """What a schema says about a column of decimals: the type, its table and the numbers there."""
    entry = f"{TYPE}.vtable"
    return {
        "decimals_and_no_batch": (STANDARD, "a column of decimals", SC + END_MARKER),
        "no_bit_width": (STANDARD, "decimals without a width, which are of 128 bits", in_schema((f"{entry}.bit_width", "0000"))),
        "no_scale": (STANDARD, "decimals without a scale, which is 0", in_schema((f"{entry}.scale", "0000"))),
        "no_precision_of_decimals": (OWN, "decimals without a precision, which is 0", in_schema((f"{entry}.precision", "0000"))),
        "vtable_without_the_bit_width": (STANDARD, "decimals whose vtable ends before the width", in_schema((f"{entry}.size", "08"))),
        "vtable_without_the_scale": (STANDARD, "decimals whose vtable ends before the scale", in_schema((f"{entry}.size", "06"))),
        "vtable_without_the_digits": (OWN, "decimals whose vtable ends before the precision", in_schema((f"{entry}.size", "04"))),
        **{f"{name}_of_decimals_outside": (MALFORMED, f"a {name.replace('_', ' ')} of decimals that does not lie inside",
            in_schema((f"{entry}.{name}", "ff7f"))) for name in ("precision", "scale", "bit_width")},
        "decimal_table_outside": (MALFORMED, "decimals whose type's table does not lie inside", in_schema((f"{FIELD}.type", "ffffff7f"))),
        "no_decimal_table": (MALFORMED, "decimals whose type has no table", in_schema((f"{FIELD}.vtable.type", "0000"))),
        "second_schema_of_decimals": (MALFORMED, "two schemas with decimals", SC + SC + END_MARKER),
        "child_of_decimals": (MALFORMED, "decimals with a child", no_batch(field("d", kind(128), [field("a", INT32)]))),
        "version_4_of_decimals": (STANDARD, "decimals whose messages are all of V4", stream(as_v4(SC), as_v4(BC))),
        "version_3_of_decimals": (OWN, "decimals, whose schema is of V3", in_schema(("schema.version", "02"))),
    }


def of_other_fields():
    """Decimals below other fields and by dictionaries, of a width that is not allowed, and of unequal types by one dictionary."""
    sixteen = decimal(16, 4, 2)

    def unequal(one, other):
        """Two columns of one id, with these types."""
        return no_batch(*(field(name, *it, encoding=dictionary(0)) for name, it in (("k", one), ("j", other))))
    return {
        "decimals_of_16_bits_below_a_list": (MALFORMED, "lists of decimals of 16 bits",
            no_batch(field("l", LIST, [field("item", sixteen)]))),
        "decimals_of_16_bits_below_a_struct": (MALFORMED, "structs of decimals of 16 bits",
            no_batch(field("s", STRUCT, [field("a", INT32), field("d", sixteen)]))),
        "decimals_of_16_bits_by_a_dictionary": (MALFORMED, "a dictionary of decimals of 16 bits",
            no_batch(field("k", sixteen, encoding=dictionary(0)))),
        "unequal_digits_of_an_id": (OWN, "two columns of one id, of decimals of 4 and of 5 digits",
            unequal([decimal(64, 4, 2)], [decimal(64, 5, 2)])),
        "unequal_scales_of_an_id": (OWN, "two columns of one id, of decimals of other scales",
            unequal([decimal(64, 4, 2)], [decimal(64, 4, -2)])),
        "unequal_bit_widths_of_an_id": (OWN, "two columns of one id, of decimals of 32 and of 64 bits",
            unequal([decimal(32, 4, 2)], [decimal(64, 4, 2)])),
        "unequal_scales_below_an_id": (OWN, "two columns of one id, of lists of decimals of other scales",
            unequal(*((LIST, [field("item", decimal(128, 4, scale))]) for scale in (0, 1)))),
    }


def too_short(width):
    """Two decimals in one byte less than they need."""
    its = Stream(schema=schema(field("d", kind(width))), batch=batch(of(width)([125, None])), end=END_MARKER)
    return its.changed({VALUES + ".length": f"{width // 4 - 1:02x}"})


def batches():
    """Columns of each width, and the requirements on their buffers and nodes."""
    two = {width: batch(of(width)([125, None])) for width in MANY}
    found = {
        "decimals": (STANDARD, "1.25, a null and -0.50", ONE.held()),
        "cents": (STANDARD, "decimals of 32 bits with two digits after the point",
            of_width(32, batch(decimal32([5, None, -50, 0, 100])))),
        "thousands": (STANDARD, "decimals of 64 bits with three zeros after their digits",
            of_width(64, batch(decimal64([12, None, -1, 0])))),
        "whole_decimals": (STANDARD, "decimals of 128 bits without a digit after the point",
            of_width(128, batch(decimal128([7, None, -70, 0])))),
        "fractions": (STANDARD, "decimals of 256 bits with all digits after the point",
            of_width(256, batch(decimal256([1, None, -1, 0])))),
        "bits_under_a_null_decimal": (STANDARD, "bits of a decimal under a null", ONE.changed({"batch.body.1[16]": "01",
            "batch.body.1[31]": "80"})),
        "null_count_of_decimals_wrong": (OWN, "a number of null decimals that is not that of the bits",
            ONE.changed({f"{NODE}.null_count": "02"})),
        "null_count_of_decimals_of_minus_1": (OWN, "a number of null decimals of -1", ONE.changed({f"{NODE}.null_count": "ff" * 8})),
        "no_validity_of_decimals": (OWN, "decimals without a validity, and a null count of 1", ONE.changed({f"{VALIDITY}.length": "00"})),
        "not_nullable_decimals": (OWN, "a column of decimals that is not nullable, with a null", ONE.changed({f"{FIELD}.nullable": "00"})),
        "decimals_cut_off": (MALFORMED, "a batch of decimals without its last byte", SC + BC[:-1]),
        "decimals_without_an_end_marker": (STANDARD, "decimals in a stream that ends after its batch", SC + BC),
    }
    for width, many in MANY.items():
        words, its, most = WORDS[width], EDGES[width], 10 ** DIGITS[width]
        hidden = column([(len(its), 4)], b"\x55\x55", of(width)(its).buffers[1] + b"w")
        found |= {
            f"{many}_too_short": (MALFORMED, f"{words} in a byte less than they need", too_short(width)),
            f"edges_of_{many}": (STANDARD, f"{words} of few digits and of all, and nulls between them",
                of_width(width, batch(of(width)(its)), batch(of(width)([it for edge in its for it in (edge, None)])))),
            f"extremes_of_{many}": (OWN,
                f"the least and the greatest number of {width} bits, and others of more digits than the precision",
                of_width(width, batch(of(width)([*least_and_greatest(width), most, -most])))),
            f"hidden_in_{many}": (STANDARD, f"{words} under nulls and after the last", of_width(width, batch(hidden))),
        }
        for other, more in MANY.items():
            if other != width:
                found[f"{more}_for_{many}"] = (STANDARD if other > width else MALFORMED, f"{words} in the bytes of those of {other} bits",
                    of_width(width, two[other]))
    return found


# ---- below and next to other columns, and by dictionaries


def listed(width):
    """Lists of structs of a width, with nulls on each level."""
    its = [nines(width), None, -nines(width), None]
    below = structs([(), None, (), ()], of(width)(its))
    return (STANDARD, f"lists of structs of {WORDS[width]}, with nulls on each level",
        stream(schema(field("l", LIST, [field("item", STRUCT, [field("x", kind(width))])])),
            batch(lists([its[:2], None, its[2:], []], lambda _: below))))


def mapped():
    """Maps from decimals of 32 bits to decimals of 256."""
    pair = [field("key", decimal(32, 4, 2), nullable=False), field("value", decimal(256, 40, -1))]
    entries = field("entries", STRUCT, pair, nullable=False)

    def pairs(its):
        return structs(its, decimal32([key for key, _ in its]), decimal256([value for _, value in its]))
    return stream(schema(field("m", *map_of(entries))), batch(lists([[(125, 7), (-5, None)], None, [], [(0, -10 ** 39)]], pairs)))


def nested():
    """Lists, structs and maps of decimals."""
    its = [field(many, kind(width)) for width, many in MANY.items()]
    held = [of(width)([125, None, nines(width)]) for width in MANY]
    plain = [integer(32, True), integer(64, True), fixed_size_binary(16), fixed_size_binary(32)]
    return {
        **{f"lists_of_structs_of_{many}": listed(width) for width, many in MANY.items()},
        "lists_of_cents": (STANDARD, "lists of decimals of 32 bits", stream(schema(field("l", LIST, [field("item", kind(32))])),
            batch(lists([[5, 125], [-50]], decimal32)))),
        "struct_of_decimals": (STANDARD, "a struct of a decimal of each width", stream(schema(field("s", STRUCT, its)),
            batch(structs([()], *(of(width)([125]) for width in MANY))))),
        "large_lists_of_decimals": (STANDARD, "large lists of decimals of 256 bits, with nulls", stream(
            schema(field("l", LARGE_LIST, [field("item", decimal(256, 50, 1))])),
            batch(typed_columns.large_lists([[10 ** 49, None], [], None, [-5]], decimal256)))),
        "maps_of_decimals": (STANDARD, "maps of decimals of 32 bits to such of 256", mapped()),
        "decimals_beside_other_columns": (STANDARD, "decimals of each width beside texts, and columns of the same bytes", stream(
            schema(*its, field("t", UTF8), *(field(f"c{at}", it) for at, it in enumerate(plain))),
            batch(*held, strings(["1.25", None, "125e3"]), *held))),
    }


def dictionaries():
    """Dictionaries of decimals, whose values are equal if their numbers are."""
    two = schema(field("c", kind(32), encoding=dictionary(7, 8)))
    one = schema(field("k", kind(256), encoding=dictionary(0)))

    def sent(*values):
        """A batch of the first value after each of these dictionaries."""
        return stream(one, *(it for its in values for it in (dictionary_batch(0, decimal256(its)), batch(numbers([0, None])))))
    return {
        "dictionary_of_cents": (STANDARD, "a dictionary of two decimals of 32 bits",
            stream(two, dictionary_batch(7, decimal32([5, -50])), batch(numbers([1, None, 0], "b")))),
        "dictionary_of_a_decimal_and_of_its_high_bits": (STANDARD, "a dictionary of a decimal, then one of the same lowest 128 bits",
            sent([1], [1 + 2 ** 128])),
        "dictionary_of_a_decimal_sent_twice": (STANDARD, "a dictionary of a decimal, and the same again", sent([-1], [-1])),
        "index_above_two_decimals": (MALFORMED, "an index above a dictionary of two decimals",
            stream(two, dictionary_batch(7, decimal32([5, -50])), batch(numbers([2], "b")))),
        "dictionary_below_structs_of_decimals": (STANDARD, "a dictionary of decimals of 128 bits below structs and lists", below_structs()),
        **{f"growing_dictionary_of_{many}": (STANDARD, f"a dictionary of {WORDS[width]} that grows by deltas",
            b"".join(growing(width).values())) for width, many in MANY.items()},
    }


def below_structs():
    item = field("item", STRUCT, [field("k", kind(128), encoding=dictionary(9, 16, False)), field("x", kind(64))])
    its = structs([(), None, ()], numbers([2, 0, None], "H"), decimal64([1, 0, None]))
    return stream(schema(field("l", LIST, [item])), dictionary_batch(9, decimal128([12, None, -12])),
        batch(lists([[1, 2], None, [3]], lambda _: its)))


def growing(width):
    """A dictionary that is extended by two deltas between batches, over all edges."""
    its, to_column = EDGES[width], of(width)
    return {"schema": schema(field("k", kind(width), encoding=dictionary(0, 8))),
        "dictionary": dictionary_batch(0, to_column(its[:4])), "first": batch(numbers([3, 0, None, 2], "b")),
        "delta": dictionary_batch(0, to_column([*its[4:], None]), True), "second": batch(numbers([*range(10), None], "b")),
        "last": dictionary_batch(0, to_column(its[:1]), True), "third": batch(numbers([10, 9], "b")), "end": END_MARKER}


def foreign():
    """Streams as another writer lays them out: there are none."""
    return {}


def vectors():
    """The vectors keyed by their names: whom each binds, what it is about, and its bytes."""
    found = {name: (STANDARD, *it) for name, it in kinds.vectors(KINDS).items()}
    for group in (of_each_width(), out_of_range(), schemas(), of_other_fields(), batches(), nested(), dictionaries()):
        assert not found.keys() & group.keys()
        found.update(group)
    return found


def conditions():
    """For each width what breaks its layout, as a column of it and as one of indices to it."""
    return kinds.changes(KINDS, ALL)


def of_each_length(types):
    """Connections that break at each offset, and a schema with each byte changed, with a set of types."""
    found = {"decimals_bytes": ("each byte of a schema of decimals set to some other values", "decimals",
        changes.each_byte(ONE, ["schema"], sorted({*changes.SOME, 2, 3, 7, 32, 38, 39, 64, 76, 77}), types))}
    for width, many in MANY.items():
        lines = changes.cuts(b"".join(growing(width).values()), 8 if types == ALL else 0, types)
        name = f"growing_dictionary_of_{many}"
        found[f"{name}_cut"] = f"each length of a growing dictionary of {WORDS[width]}", name, lines
    return found


# What is written for a vector in way 0, if that is not the vector itself.
WRITTEN = {"no_bit_width": "decimals_and_no_batch", "vtable_without_the_bit_width": "decimals_and_no_batch",
    "no_scale": "scale_of_0", "vtable_without_the_scale": "scale_of_0", "bits_under_a_null_decimal": "decimals",
    "version_4_of_decimals": "decimals", "decimals_without_an_end_marker": "decimals"}
# The vectors that are copied byte for byte, in way 0.
AS_IT_IS = ("decimals_and_no_batch scale_of_76 scale_of_6 scale_of_0 scale_of_minus_1 scale_of_minus_76 decimal32_of_1_digit "
    "decimal32_of_9_digits decimal64_of_1_digit decimal64_of_18_digits decimal128_of_1_digit decimal128_of_38_digits decimal256_of_1_digit "
    "decimal256_of_76_digits decimals cents thousands whole_decimals fractions not_nullable_decimals extremes_of_decimal32 "
    "extremes_of_decimal64 extremes_of_decimal128 extremes_of_decimal256 maps_of_decimals").split()

# 1.25, 1 and -1 as decimals of 256 bits.
W125, W1, WM1 = (f'x"{first}{31 * rest}"' for first, rest in (("7d", "00"), ("01", "00"), ("ff", "ff")))

# The lines that the texts of vectors have, as in vectors/scripts/worked_examples.py.
STATED = {
    "decimals_and_no_batch": ["take 160 schema", *columns("d: decimal128(5, 2)"), "take 8 end", *CLEAN],
    **{f"decimal{width}_of_{digits}_digit{'s' * (digits > 1)}": [*columns(f"d: decimal{width}({digits}, 2)"), *CLEAN]
        for width, most in ((32, 9), (64, 18), (128, 38), (256, 76)) for digits in (1, most)},
    **{f"decimal{width}_of_{digits}_digits": rejected("Schema", 0)
        for width, more in ((32, 10), (64, 19), (128, 39), (256, 77)) for digits in ("no", more)},
    **{f"decimals_of_{it}_bits": rejected("Schema", 0) for it in ("0", "8", "16", "127", "160", "512", "65664", "minus_128")},
    **{f"decimals_of_{it}_digits": rejected("Schema", 0) for it in ("minus_1", "261", "65541", "2147483647", "minus_2147483648")},
    **{f"scale_of_{it}": rejected("Schema", 0) for it in ("77", "minus_77", "258", "65538", "2147483647", "minus_2147483648")},
    "scale_of_76": [*columns("d: decimal128(5, 76)"), *CLEAN], "scale_of_minus_76": [*columns("d: decimal128(5, -76)"), *CLEAN],
    "scale_of_6": columns("d: decimal128(5, 6)"), "scale_of_0": columns("d: decimal128(5, 0)"),
    "scale_of_minus_1": columns("d: decimal128(5, -1)"),
    "no_bit_width": columns("d: decimal128(5, 2)"), "vtable_without_the_bit_width": columns("d: decimal128(5, 2)"),
    "no_scale": columns("d: decimal128(5, 0)"), "vtable_without_the_scale": columns("d: decimal128(5, 0)"),
    "no_precision_of_decimals": rejected("Schema", 0), "vtable_without_the_digits": rejected("Schema", 0),
    **{f"{it}_of_decimals_outside": rejected("Metadata", 0) for it in ("precision", "scale", "bit_width")},
    "decimal_table_outside": rejected("Metadata", 0), "no_decimal_table": rejected("Metadata", 0),
    "second_schema_of_decimals": ["take 160 schema", *rejected("Order", 160)], "child_of_decimals": rejected("Schema", 0),
    "version_3_of_decimals": rejected("Version", 0), **{it: rejected("Schema", 0) for it in of_other_fields()},
    "decimals": ["take 160 schema", "take 208 batch of 3", *rows("125=1.25", "null", "-50=-0.50")],
    "cents": rows("5=0.05", "null", "-50=-0.50", "0=0.00", "100=1.00"),
    "thousands": [*columns("d: decimal64(18, -3)"), *rows("12=12e3", "null", "-1=-1e3", "0=0e3")],
    "whole_decimals": rows("7=7", "null", "-70=-70", "0=0"),
    "fractions": rows(f"{W1}=0.{75 * '0'}1", "null", f"{WM1}=-0.{75 * '0'}1", f'x"{32 * "00"}"=0.{76 * "0"}'),
    "bits_under_a_null_decimal": rows("125=1.25", "null", "-50=-0.50"),
    "null_count_of_decimals_wrong": rejected("Layout", 160), "no_validity_of_decimals": rejected("Layout", 160),
    "not_nullable_decimals": [*columns("d: decimal128(5, 2) not null"), "take 208 batch of 3"],
    **{f"decimal{width}_too_short": ["refuse Layout at *"] for width in DIGITS},
    "decimal64_for_decimal32": rows("125=1.25", "null"), "decimal256_for_decimal32": rows("125=1.25", "null"),
    "decimal128_for_decimal64": rows("125=125e3", "null"), "decimal256_for_decimal128": rows("125=125", "null"),
    "decimal32_for_decimal64": ["refuse Layout at *"], "decimal128_for_decimal256": ["refuse Layout at *"],
    "edges_of_decimal32": rows("0=0.00", "1=0.01", "-1=-0.01", "5=0.05", "-50=-0.50", "125=1.25", "999999999=9999999.99",
        "-999999999=-9999999.99", "100000000=1000000.00"),
    "edges_of_decimal64": rows("0=0e3", "1=1e3", "-1=-1e3", "5=5e3", "-50=-50e3", "125=125e3",
        "999999999999999999=999999999999999999e3", "-999999999999999999=-999999999999999999e3", "100000000000000000=100000000000000000e3"),
    "edges_of_decimal128": rows("0=0", "1=1", "-1=-1", "5=5", "-50=-50", "125=125", *(f"{it}={it}" for it in (
        "99999999999999999999999999999999999999", "-99999999999999999999999999999999999999", "10000000000000000000000000000000000000"))),
    "edges_of_decimal256": rows(f'x"{32 * "00"}"=0.{76 * "0"}', f"{W1}=0.{75 * '0'}1", f"{WM1}=-0.{75 * '0'}1", f"*=0.{75 * '0'}5",
        f"*=-0.{74 * '0'}50", f"{W125}=0.{73 * '0'}125", f"*=0.{76 * '9'}", f"*=-0.{76 * '9'}", f"*=0.1{75 * '0'}"),
    "extremes_of_decimal32": rows("-2147483648=-21474836.48", "2147483647=21474836.47", "1000000000=10000000.00",
        "-1000000000=-10000000.00"),
    "extremes_of_decimal64": rows("-9223372036854775808=-9223372036854775808e3", "9223372036854775807=9223372036854775807e3",
        "1000000000000000000=1000000000000000000e3", "-1000000000000000000=-1000000000000000000e3"),
    "extremes_of_decimal128": rows(*(f"{it}={it}" for it in ("-170141183460469231731687303715884105728",
        "170141183460469231731687303715884105727", f"1{38 * '0'}", f"-1{38 * '0'}"))),
    "extremes_of_decimal256": rows(
        f'x"{31 * "00"}80"=-5.7896044618658097711785492504343953926634992332820282019728792003956564819968',
        f'x"{31 * "ff"}7f"=5.7896044618658097711785492504343953926634992332820282019728792003956564819967',
        f"*=1.{76 * '0'}", f"*=-1.{76 * '0'}"),
    "lists_of_cents": [*columns("l: list"), "    column item: decimal32(9, 2)", *rows("[5=0.05, 125=1.25]", "[-50=-0.50]")],
    "struct_of_decimals": rows('{"decimal32": 125=1.25, "decimal64": 125=125e3, "decimal128": 125=125, '
        f'"decimal256": {W125}=0.{73 * "0"}125}}'),
    "maps_of_decimals": ["      column key: decimal32(4, 2) not null", "      column value: decimal256(40, -1)",
        *rows(f'[{{"key": 125=1.25, "value": x"07{31 * "00"}"=7e1}}, {{"key": -5=-0.05, "value": null}}]', "null", "[]",
            f'[{{"key": 0=0.00, "value": *=-1{39 * "0"}e1}}]')],
    "dictionary_of_cents": [*columns("c: dictionary<int8, decimal32(9, 2)> id 7"), "take * dictionary 7 of 2", "  value 5=0.05",
        "  value -50=-0.50", *rows("1 -> -50=-0.50", "null", "0 -> 5=0.05")],
    "dictionary_of_a_decimal_and_of_its_high_bits": [f"  row 0 -> {W1}=0.{75 * '0'}1", "  row null",
        *rows(f'0 -> x"01{15 * "00"}01{15 * "00"}"=0.{37 * "0"}340282366920938463463374607431768211457', "null")],
    "index_above_two_decimals": ["take * dictionary 7 of 2", "refuse Index at *"],
}
# The records that `show` prints of vectors, after that of the names.
SHOWN = {
    "decimals": ["0,1.25", "0,", "0,-0.50"], "cents": ["0,0.05", "0,", "0,-0.50", "0,0.00", "0,1.00"],
    "thousands": ["0,12e3", "0,", "0,-1e3", "0,0e3"], "whole_decimals": ["0,7", "0,", "0,-70", "0,0"],
    "fractions": [f"0,0.{75 * '0'}1", "0,", f"0,-0.{75 * '0'}1", f"0,0.{76 * '0'}"],
    "lists_of_cents": ["0,[0.05;1.25]", "0,[-0.50]"], "dictionary_of_cents": ["0,-0.50", "0,", "0,0.05"],
    "struct_of_decimals": [f"0,{{decimal32=1.25;decimal64=125e3;decimal128=125;decimal256=0.{73 * '0'}125}}"],
    "maps_of_decimals": ["0,[{key=1.25;value=7e1};{key=-0.05;value=null}]", "0,", "0,[]", f"0,[{{key=0.00;value=-1{39 * '0'}e1}}]"],
    "large_lists_of_decimals": [f"0,[1{48 * '0'}.0;null]", "0,[]", "0,", "0,[-0.5]"],
    "hidden_in_decimal32": ["0,0.00", "0,", "0,-0.01", "0,", "0,-0.50", "0,", "0,9999999.99", "0,", "0,1000000.00"],
}


def written_out():
    """What is written out, compared with what is generated and answered."""
    its = vectors()
    shown = {name: stream_model.answers(its[name][2], types=ALL)[1][0].decode().splitlines()[1:] for name in SHOWN}
    return [("the schema of decimals", schema(field("d", decimal(128, 5, 2))), SC),
        ("the batch of decimals", batch(decimal128([125, None, -50])), BC),
        *((f"what is shown of {it}", shown[it], expected) for it, expected in SHOWN.items())]
