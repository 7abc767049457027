"""Streams with floating-point numbers, which are read with the set of all types. Numbers are given by their bits, as columns hold
them.

SD and BD are written out, by an encoder that is not part of this repository: what tools/ generates has to be equal."""
from tools import floats, typed_columns
from tools.arrow_types import FLOATING
from tools.floats import BYTES, DOUBLE, EXPONENT, FRACTION, HALF, SINGLE
from tools.frame_parts import Stream
from tools.frames import (END_MARKER, INT32, LARGE_LIST, LIST, STRUCT, UTF8, as_v4, batch, dictionary, dictionary_batch, field,
    floating, integer, lists, numbers, schema, strings, structs)
import changes
import kinds
import raw_frames
from layouts import Conditions
from raw_frames import FIELD, NODE, TYPE, VALIDITY, VALUES, column, stream
from results import ALL, OF_ALL
from table import MALFORMED, OWN, STANDARD

# The schema of one nullable column `d` of doubles, and a batch of 1.5 and a null.
SD = bytes.fromhex("""
ff ff ff ff 88 00 00 00   10 00 00 00 0c 00 18 00
04 00 06 00 08 00 10 00   0c 00 00 00 04 00 01 00
18 00 00 00 00 00 00 00   00 00 00 00 00 00 00 00
08 00 0c 00 04 00 08 00   08 00 00 00 00 00 00 00
04 00 00 00 01 00 00 00   18 00 00 00 10 00 14 00
04 00 08 00 09 00 0c 00   00 00 10 00 00 00 00 00
14 00 00 00 10 00 00 00   01 03 00 00 14 00 00 00
18 00 00 00 01 00 00 00   64 00 06 00 06 00 04 00
06 00 00 00 02 00 00 00   00 00 00 00 00 00 00 00
""")
BD = bytes.fromhex("""
ff ff ff ff 90 00 00 00   10 00 00 00 0c 00 18 00
04 00 06 00 08 00 10 00   0c 00 00 00 04 00 03 00
20 00 00 00 00 00 00 00   18 00 00 00 00 00 00 00
0a 00 18 00 08 00 10 00   14 00 00 00 00 00 00 00
10 00 00 00 00 00 00 00   02 00 00 00 00 00 00 00
0c 00 00 00 20 00 00 00   00 00 00 00 01 00 00 00
02 00 00 00 00 00 00 00   01 00 00 00 00 00 00 00
00 00 00 00 02 00 00 00   00 00 00 00 00 00 00 00
01 00 00 00 00 00 00 00   08 00 00 00 00 00 00 00
10 00 00 00 00 00 00 00   01 00 00 00 00 00 00 00
00 00 00 00 00 00 f8 3f   00 00 00 00 00 00 00 00
""")
ONE = Stream(schema=SD, batch=BD, end=END_MARKER)

WORDS = {HALF: "half", SINGLE: "single", DOUBLE: "double"}
MANY = {HALF: "halves", SINGLE: "singles", DOUBLE: "doubles"}


def of(precision):
    """The function that makes a column of numbers of a precision."""
    return typed_columns.column_of(FLOATING.form((precision,)))


halves, singles, doubles = map(of, WORDS)


def bits(precision, *values):
    """The bits of numbers, of which None is null."""
    return [None if it is None else floats.nearest(precision, it) for it in values]


def edges(precision):
    """The numbers at the edges of a precision: both zeros, the least and the greatest subnormal and normal ones, both infinities,
    and NaNs, quiet and signaling, with payloads and signs."""
    width, size = FRACTION[precision], 8 * BYTES[precision]
    sign, infinite, quiet = 1 << size - 1, ((1 << EXPONENT[precision]) - 1) << width, 1 << width - 1
    its = [0, 1, (1 << width) - 1, 1 << width, infinite - 1, infinite, infinite + 1, infinite | quiet, infinite | quiet | 5]
    return [it | minus for minus in (0, sign) for it in its] + [(1 << size) - 1]


def nan(precision, payload):
    """A NaN with a payload."""
    return ((1 << EXPONENT[precision]) - 1) << FRACTION[precision] | payload


# ---- the schema and the batch, changed by names


def in_schema(*settings):
    """The schema with these settings, each a name and its bytes, and an end marker."""
    return ONE.changed(dict(settings))[:len(SD)] + END_MARKER


def schema_of(precision):
    """The schema of one column `d` of a precision."""
    return schema(field("d", floating(precision)))


def of_precision(precision, *batches):
    return stream(schema_of(precision), *batches)


def schemas():
    """What a schema says about a floating-point column: the type, its table and the precision there."""
    precision, entry = f"{TYPE}.precision", f"{TYPE}.vtable.precision"
    child = field("d", floating(DOUBLE), [field("a", INT32)])
    return {
        "doubles_and_no_batch": (STANDARD, "a column of doubles", SD + END_MARKER),
        "singles_and_no_batch": (STANDARD, "a column of singles", in_schema((precision, "01"))),
        "halves_and_no_batch": (STANDARD, "a column of halves", in_schema((precision, "00"))),
        "precision_of_3": (MALFORMED, "a precision that is none", in_schema((precision, "03"))),
        "precision_of_minus_1": (MALFORMED, "a precision below 0", in_schema((precision, "ffff"))),
        "precision_of_256": (MALFORMED, "a precision whose second byte is not 0", in_schema((precision, "0001"))),
        "no_precision": (STANDARD, "a floating-point column without a precision, which is of halves", in_schema((entry, "0000"))),
        "vtable_without_the_precision": (STANDARD, "a floating-point column whose vtable ends before the precision",
            in_schema((f"{TYPE}.vtable.size", "04"))),
        "type_table_outside": (MALFORMED, "a floating-point column whose type's table does not lie inside",
            in_schema((f"{FIELD}.type", "ffffff7f"))),
        "no_type_table": (MALFORMED, "a floating-point column whose type has no table", in_schema((f"{FIELD}.vtable.type", "0000"))),
        "precision_outside": (MALFORMED, "a precision that does not lie inside", in_schema((entry, "ff7f"))),
        "unions": (OWN, "a type that no set has", in_schema((f"{FIELD}.type_type", "0e"))),
        "second_schema": (MALFORMED, "two schemas with doubles", SD + SD + END_MARKER),
        "child_of_doubles": (MALFORMED, "doubles with a child", schema(child) + END_MARKER),
        "big_endian_doubles": (OWN, "a schema of doubles that says it is big-endian", in_schema(("schema.header.endianness", "01"))),
        "version_4_of_doubles": (STANDARD, "doubles whose messages are all of V4", stream(as_v4(SD), as_v4(BD))),
        "version_3_of_doubles": (OWN, "doubles, whose schema is of V3", in_schema(("schema.version", "02"))),
        "unequal_precisions_of_an_id": (OWN, "two columns of one id and other precisions", stream(schema(
            field("k", floating(SINGLE), encoding=dictionary(0)), field("j", floating(DOUBLE), encoding=dictionary(0))))),
    }


def batches():
    """Columns of each precision, and the requirements on their buffers and nodes."""
    last = [1, 0x3ff, 0x400, 0x7bff, 0x8001, 0x7c00, 0xfc00]
    ends = [0, 1 << 63, 1, 0xfffffffffffff, 0x10000000000000, 0x7fefffffffffffff]
    none = [0x7ff << 52, 0xfff << 52, 0x7ff8 << 48, (0x7ff << 52) + 1, (1 << 64) - 1]
    bare = ONE.changed({f"{FIELD}.nullable": "00"})
    return {
        "doubles": (STANDARD, "1.5 and a null", ONE.held()),
        "singles": (STANDARD, "0.1 and -0.0 as singles", of_precision(SINGLE, batch(singles([0x3dcccccd, 0x80000000])))),
        "halves": (STANDARD, "1.0, what is no number, and a null, as halves", of_precision(HALF, batch(halves([0x3c00, 0x7e01, None])))),
        "ends_of_doubles": (STANDARD, "both zeros, the least and the greatest doubles", of_precision(DOUBLE, batch(doubles(ends)))),
        "no_numbers": (STANDARD, "doubles that are infinite, and what is no number", of_precision(DOUBLE, batch(doubles(none)))),
        "ends_of_halves": (STANDARD, "the least and the greatest halves, and infinite ones", of_precision(HALF, batch(halves(last)))),
        "doubles_too_short": (MALFORMED, "doubles in a byte less than they need", ONE.changed({VALUES + ".length": "0f"})),
        "bit_under_a_null": (STANDARD, "a bit under a null double", ONE.changed({"batch.body.1[8]": "01"})),
        "null_count_wrong": (OWN, "a number of null doubles that is not that of the bits", ONE.changed({f"{NODE}.null_count": "02"})),
        "doubles_for_singles": (STANDARD, "singles in the bytes of doubles", stream(schema_of(SINGLE), BD)),
        "singles_for_doubles": (MALFORMED, "doubles in the bytes of singles", stream(SD, batch(singles([1, 2])))),
        "not_nullable_doubles": (OWN, "a column of doubles that is not nullable, with a null", bare),
        "null_count_not_told": (OWN, "a number of null doubles of -1", ONE.changed({f"{NODE}.null_count": "ff" * 8})),
        "no_validity_and_a_null": (OWN, "doubles without a validity, and a null count of 1", ONE.changed({f"{VALIDITY}.length": "00"})),
        "doubles_cut_off": (MALFORMED, "a batch of doubles without its last byte", SD + BD[:-1]),
        "doubles_without_an_end_marker": (STANDARD, "doubles in a stream that ends after its batch", SD + BD),
    }


# ---- below and next to other columns, and by dictionaries


def listed(precision):
    """Lists of structs of a precision, with nulls on each level."""
    its = [nan(precision, 1), None, 0, None]
    below = structs([(), None, (), ()], of(precision)(its))
    return (STANDARD, f"lists of structs of {MANY[precision]}, with nulls on each level",
        stream(schema(field("l", LIST, [field("item", STRUCT, [field("x", floating(precision))])])),
            batch(lists([its[:2], None, its[2:], []], lambda _: below))))


def nested():
    """Lists and structs of floating-point numbers."""
    tenth = bits(SINGLE, 0.1), bits(DOUBLE, 0.1)
    pair = [field("x", floating(SINGLE)), field("y", floating(DOUBLE))]
    named = {f"lists_of_structs_of_{MANY[it]}": listed(it) for it in WORDS}
    large = [[bits(HALF, 1.0)[0], None], [], None, [nan(HALF, 7)]]
    return named | {
        "lists_of_doubles": (STANDARD, "lists of doubles", stream(schema(field("l", LIST, [field("item", floating(DOUBLE))])),
            batch(lists([bits(DOUBLE, 1.0, 0.5), bits(DOUBLE, 1e21)], doubles)))),
        "struct_of_a_single_and_a_double": (STANDARD, "a struct of a single and a double, both 0.1", stream(schema(
            field("s", STRUCT, pair)), batch(structs([()], *(to_column(it) for to_column, it in zip((singles, doubles), tenth)))))),
        "large_lists_of_halves": (STANDARD, "large lists of halves, with nulls", stream(schema(
            field("l", LARGE_LIST, [field("item", floating(HALF))])), batch(typed_columns.large_lists(large, halves)))),
        "beside_other_columns": (STANDARD, "columns of each precision beside a text and an unsigned integer of the same bits", stream(
            schema(*(field(WORDS[it], floating(it)) for it in WORDS), field("t", UTF8), field("n", integer(64, False))),
            batch(*(of(it)([bits(it, 2.5)[0], nan(it, 3), None]) for it in WORDS), strings(["a,b", None, "1.5"]),
                doubles([bits(DOUBLE, 2.5)[0], nan(DOUBLE, 3), None])))),
    }


def dictionaries():
    """Dictionaries of floating-point numbers, whose values are equal if their bits are."""
    quarter = bits(DOUBLE, 0.25, 1e-7)
    eight = schema(field("c", floating(DOUBLE), encoding=dictionary(7, 8)))
    one = schema(field("k", floating(DOUBLE), encoding=dictionary(0)))

    def sent(*values):
        """A batch of the first value after each of these dictionaries."""
        return stream(one, *(it for its in values for it in (dictionary_batch(0, doubles(its)), batch(numbers([0, None])))))
    return {
        "dictionary_of_doubles": (STANDARD, "a dictionary of two doubles", stream(eight, dictionary_batch(7, doubles(quarter)),
            batch(numbers([1, None, 0], "b")))),
        "dictionary_of_another_zero": (STANDARD, "a dictionary of 0.0, then one of -0.0", sent([0], [1 << 63])),
        "dictionary_of_another_payload": (STANDARD, "a dictionary of what is no number, then one with another payload",
            sent([nan(DOUBLE, 1 << 51)], [nan(DOUBLE, 1 << 51 | 1)])),
        "dictionary_of_no_number_sent_twice": (STANDARD, "a dictionary of what is no number, and the same again",
            sent([nan(DOUBLE, 1)], [nan(DOUBLE, 1)])),
        "dictionary_of_both_zeros": (STANDARD, "a dictionary of -0.0 and 0.0, then one of 0.0 and -0.0",
            sent([1 << 63, 0], [0, 1 << 63])),
        "index_above_two_doubles": (MALFORMED, "an index above a dictionary of two doubles", stream(eight,
            dictionary_batch(7, doubles(quarter)), batch(numbers([2], "b")))),
        "dictionary_below_structs_of_singles": (STANDARD, "a dictionary of singles below structs and lists", below_structs()),
        **{f"growing_dictionary_of_{MANY[it]}": (STANDARD, f"a dictionary of {MANY[it]} that grows by deltas",
            b"".join(growing(it).values())) for it in WORDS},
    }


def below_structs():
    item = field("item", STRUCT, [field("k", floating(SINGLE), encoding=dictionary(9, 16, False)), field("x", floating(HALF))])
    its = structs([(), None, ()], numbers([2, 0, None], "H"), halves([0x3c00, 0x8000, None]))
    return stream(schema(field("l", LIST, [item])), dictionary_batch(9, singles(bits(SINGLE, 0.5, None, 3e38))),
        batch(lists([[1, 2], None, [3]], lambda _: its)))


def growing(precision):
    """A dictionary that is extended by two deltas between batches, over all edges: equal numbers with other bits are other
    values."""
    its, size = edges(precision), len(edges(precision))
    return {"schema": schema(field("k", floating(precision), encoding=dictionary(0, 8))),
        "dictionary": dictionary_batch(0, of(precision)(its[:9])), "first": batch(numbers([8, 0, None, 6], "b")),
        "delta": dictionary_batch(0, of(precision)([*its[9:], None]), True),
        "second": batch(numbers([*range(size + 1), None], "b")),
        "last": dictionary_batch(0, of(precision)(its[:1]), True), "third": batch(numbers([size + 1, 9], "b")), "end": END_MARKER}


# ---- each precision, in the form in which vectors/scripts/kinds.py has the other types


def kind_of(precision):
    """A precision as a kind: a NaN with a payload, and -0.0, and nine edges."""
    its = edges(precision)
    return kinds.Kind(FLOATING.name, (precision,), nan(precision, 1), its[9], [*its[:8], its[-1]], name=WORDS[precision])


def each():
    """Each precision with its index, and the frames of both its streams."""
    for at, precision in enumerate(WORDS):
        it = kind_of(precision)
        yield it, kinds.INDICES[at], kinds.alone(it), kinds.by_a_dictionary(it, kinds.INDICES[at])


def of_kinds():
    """Each precision alone, by a dictionary, and at all its edges, also under nulls."""
    found = {}
    for it, _, plain, encoded in each():
        found[f"{it.name}_alone"] = (STANDARD,
            f"a column of {it.words}s, with a null, without rows, without nulls, and of nine slots", b"".join(plain.values()))
        found[f"{it.name}_by_a_dictionary"] = (STANDARD,
            f"a dictionary of {it.words}s that grows and is then replaced by a shorter one, and by one of nine values",
            b"".join(encoded.values()))
    for precision, many in MANY.items():
        its = edges(precision)
        hidden = column([(len(its), len(its) // 2)], bytes([0x55] * 2 + [0xfd]), of(precision)(its).buffers[1] + b"w")
        found[f"edges_of_{many}"] = (STANDARD, f"{many} at all edges, and nulls between them", of_precision(precision,
            batch(of(precision)(its)), batch(of(precision)([it for edge in its for it in (edge, None)]))))
        found[f"hidden_in_{many}"] = (STANDARD, f"{many} under nulls and after the last", of_precision(precision, batch(hidden)))
    return found


def tenths():
    """Numbers of few digits, and those at which the text of a number gets an exponent."""
    small = [1e-7, 1e-6, 1.5e-6, 1e-5, 1.5e-5, 1e-4, 0.1, 0.3, 2 / 3]
    large = [1.0, 10.0, 2048.5, 123456.789, 1e12, 1e13, 1.5e13, 1e15, 1.5e15, 1e16, 1e17]
    return {f"tens_of_{MANY[it]}": (STANDARD, f"{MANY[it]} of few digits, from small to large, and some below 0", of_precision(it,
        batch(of(it)(bits(it, *small, *large))), batch(of(it)(bits(it, *(-number for number in small[:4] + large[6:])))))) for it in WORDS}


def foreign():
    """Streams as FlatBuffers' own builder lays them out, which examples/foreign wrote: values that are the default are left
    out."""
    return {"floats_of_another_writer": (STANDARD, "columns and a dictionary of another writer, who leaves out the precision of halves",
        raw_frames.written_by_another(f"{OF_ALL}floats_of_another_writer"))}


def vectors():
    """The vectors keyed by their names: whom each binds, what it is about, and its bytes."""
    found = {}
    for group in (schemas(), batches(), nested(), dictionaries(), of_kinds(), tenths(), foreign()):
        assert not found.keys() & group.keys()
        found.update(group)
    return found


def conditions():
    """For each precision what breaks its layout, as a column of it and as one of indices to it."""
    found = {}
    for it, index, plain, encoded in each():
        for name, nine, its in ((f"{it.name}_alone", it.nine, plain), (f"{it.name}_by_a_dictionary", kinds.by_index(index)[1], encoded)):
            found[name] = "each condition of nine slots by itself", name, Conditions(nine, its, ALL).all()
    return found


def of_each_length(types):
    """Connections that break at each offset, and a schema with each byte changed, with a set of types."""
    found = {"doubles_bytes": ("each byte of a schema of doubles set to each other value", "doubles",
        changes.each_byte(ONE, ["schema"], types=types))}
    for precision, many in MANY.items():
        name = f"growing_dictionary_of_{many}"
        lines = changes.cuts(b"".join(growing(precision).values()), 8 if types == ALL else 0, types)
        found[f"{name}_cut"] = f"each length of a growing dictionary of {many}", name, lines
    return found


# What is written for a vector in way 0, if that is not the vector itself: the schema is written completely, in V5, nothing under
# a null or after the last value, and an end marker at the end.
WRITTEN = {"no_precision": "halves_and_no_batch", "vtable_without_the_precision": "halves_and_no_batch", "bit_under_a_null": "doubles",
    "version_4_of_doubles": "doubles", "doubles_without_an_end_marker": "doubles"}
# The vectors that are copied byte for byte, in way 0.
AS_IT_IS = ("doubles_and_no_batch singles_and_no_batch halves_and_no_batch doubles singles halves ends_of_doubles no_numbers ends_of_halves "
    "not_nullable_doubles").split()


def written_out():
    """What is written out, compared with what is generated."""
    return [("the schema of doubles", schema_of(DOUBLE), SD), ("the batch of 1.5", batch(doubles([0x3ff8 << 48, None])), BD)]
