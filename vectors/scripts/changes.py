"""Regular families of streams: changes of one vector, each with how the stream then ends."""
import struct

from tools import custom_metadata, frames, streams, typed_columns
from tools.frame_parts import Stream
from tools.frames import END_MARKER, LARGE_UTF8, NULL, UTF8, batch, dictionary, dictionary_batch, field, integer, schema, strings
import kinds
import levels
import own
import replaced
import slots
from raw_frames import NODE, ONE, column
from results import CORE, ending

# The number of texts of one letter, and the number of numbers whose validity is the byte A5 repeated.
LETTERS, SLOTS = 130, 200
MOST_ROWS = 2 ** 31 - 1
# Values of a byte at edges.
SOME = [0x00, 0x01, 0x7f, 0x80, 0xfe, 0xff]


def texts_of_a_letter():
    return Stream(schema=schema(field("t", UTF8)), batch=batch(strings(["a"] * LETTERS)), end=END_MARKER)


def large_texts_of_a_letter():
    return Stream(schema=schema(field("t", LARGE_UTF8)), batch=batch(typed_columns.large_strings([b"a"] * LETTERS)), end=END_MARKER)


def nulls_of_a5():
    validity = b"\xa5" * (SLOTS // 8)
    its = column([(SLOTS, SLOTS // 2)], validity, bytes(range(SLOTS)))
    return Stream(schema=schema(field("n", integer(8, False))), batch=batch(its), end=END_MARKER)


def nulls():
    return Stream(schema=schema(field("c", NULL)), batch=batch(frames.nulls(1)), end=END_MARKER)


def one_delta():
    """A dictionary of one text, which a delta extends by a null, and a batch of both."""
    parts = {"dictionary": streams.letters("a"), "delta": streams.letters([None], True),
        "batch": batch(frames.numbers([1, 0, None]))}
    return Stream(schema=streams.letters_schema(), **parts, end=END_MARKER)


def column_with_a_pair():
    """The one column, with a pair on the schema and on the column."""
    return Stream(schema=custom_metadata.numbers_with(custom_metadata.PAIR, custom_metadata.PAIR), batch=batch(frames.numbers([5])), end=END_MARKER)


def nulls_by_a_dictionary():
    delta, rows = dictionary_batch(0, frames.nulls(1), True), batch(frames.numbers([1, 0, None]))
    return Stream(schema=schema(field("k", NULL, encoding=dictionary(0))), dictionary=dictionary_batch(0, frames.nulls(1)),
        delta=delta, batch=rows, end=END_MARKER)


def bases():
    """The vectors that are here only for their changes."""
    return {
        "texts_of_a_letter": (f"{LETTERS} texts of one letter", texts_of_a_letter().held()),
        "large_texts_of_a_letter": (f"{LETTERS} large texts of one letter", large_texts_of_a_letter().held()),
        "one_delta": ("a dictionary of one text that grows by a null", one_delta().held()),
        "noted_column": ("a column with a pair, below a schema with one", column_with_a_pair().held()),
        "one_null": ("one null", nulls().held()),
        "nulls_by_a_growing_dictionary": ("a dictionary of one null that grows by another", nulls_by_a_dictionary().held()),
        "nulls_of_a5": (f"{SLOTS} numbers whose validity is A5 again and again", nulls_of_a5().held()),
    }


# ---- lines


def line(of, settings, types=CORE):
    """The line for some changes at once."""
    prefix = ", ".join(f"{name} at {of.place(name)} := {words}" for name, words in settings.items())
    return f"{prefix} -> {ending(of.changed(settings), types)}"


def ranges(answers, prefix):
    """A line for each range of consecutive numbers that have the same answer; `prefix` returns the text before the answer."""
    first, lines = None, []
    for number, answer in answers:
        if first is not None and number == last + 1 and answer == known:
            last = number
            continue
        if first is not None:
            lines.append(f"{prefix(first, last)} -> {known}")
        first, last, known = number, number, answer
    return [*lines, f"{prefix(first, last)} -> {known}"]


def cuts(held, bounds, types=CORE):
    """The stream cut to each length: those that end at the end of a message are valid, all others end too early."""
    def prefix(first, last):
        return f"length {first}" if first == last else f"length {first}..{last}"
    lines = ranges([(length, ending(held[:length], types)) for length in range(len(held) + 1)], prefix)
    valid = [it for it in lines if it.endswith("end clean")]
    assert len(valid) == bounds
    return ["binds standard", *valid, "binds malformed", *(it for it in lines if it not in valid)]


def each_byte(of, frames=None, values=range(256), types=CORE):
    """Each byte of a stream, or of some of its frames, set to each of these values except its own."""
    held, lines = of.held(), []
    for place, name in enumerate(of.names()):
        def prefix(first, last, name=name, place=place):
            return f"{name} at {place} := {first:02x}" if first == last else f"{name} at {place} := {first:02x}..{last:02x}"
        if frames is None or name.split(".")[0] in frames:
            others = [it for it in values if it != held[place]]
            lines += ranges([(it, ending(held[:place] + bytes([it]) + held[place + 1:], types)) for it in others], prefix)
    return ["binds own", *lines]


def number(value):
    return struct.pack("<q", value).hex()


def of_rows(rows):
    return {"batch.header.length": number(rows), f"{NODE}.length": number(rows)}


def falling(of, width):
    """One decreasing pair of offsets: each pair of all texts, and for each number of texts the last pair and the one after it."""
    def set_to(at, value):
        return {f"batch.body.1[{width * at}]": value.to_bytes(width, "little").hex()}
    lines = [line(of, set_to(at, at + 2)) for at in range(LETTERS)]
    lines += [line(of, {**of_rows(rows), **set_to(rows - 1, rows + 1)}) for rows in range(1, LETTERS)]
    after = [line(of, {**of_rows(rows), **set_to(rows, rows + 2)}) for rows in range(LETTERS - 1)]
    return ["binds malformed", *lines, "binds standard", *after]


def null_counts():
    """For each number of slots the right number of nulls, and one more."""
    of = nulls_of_a5()
    zeros = [sum(0xa5 >> at % 8 & 1 == 0 for at in range(rows)) for rows in range(SLOTS + 1)]
    its = [[line(of, {**of_rows(rows), f"{NODE}.null_count": number(zeros[rows] + more)}) for rows in range(SLOTS + 1)]
        for more in (0, 1)]
    return ["binds standard", *its[0], "binds own", *its[1]]


def first_parts(held):
    """The parts of a stream of a schema and an end marker; of each vector only the first element."""
    return Stream(most=1, schema=held[:-len(END_MARKER)], end=END_MARKER)


def fields_at_the_limit(held):
    """The fields of all levels but the upper one."""
    of = first_parts(held)
    names = "schema.header.fields.0", "schema.header.fields.0.children.0.to_vtable"
    first, second = map(of.place, names)
    return ["binds own", line(of, {names[0]: struct.pack("<I", second - first).hex()})]


def pairs_at_the_limit(held):
    return ["binds own", line(first_parts(held), {"schema.header.custom_metadata.count": "00000000"})]


def names_at_the_limit(held):
    return ["binds own", line(first_parts(held), {"schema.header.fields.count": "00200000"})]


def rows_at_the_limit():
    """A batch of as many nulls as a batch may have, and of one more, and the same for a dictionary that is extended by one."""
    of, its = nulls(), nulls_by_a_dictionary()
    def known(rows):
        return {"dictionary.header.data.length": number(rows), "dictionary.header.data.nodes.0.length": number(rows)}
    return {"rows_at_the_limit": ["binds own", *(line(of, of_rows(rows)) for rows in (MOST_ROWS, MOST_ROWS + 1))],
        "values_at_the_limit": ["binds own", *(line(its, known(rows)) for rows in (MOST_ROWS - 1, MOST_ROWS))]}


def changes():
    """The files of changes keyed by their names: what each is about, its base, and its lines."""
    its, rows = own.limits(), rows_at_the_limit()
    growing = b"".join(streams.growing_dictionary())
    return kinds.changes() | levels.changes(line) | slots.changes(line) | replaced.changes(line) | {
        "int32_column_cut": ("each length of one batch", "int32_column", cuts(ONE.held(), 3)),
        "growing_dictionary_cut": ("each length of a growing dictionary", "growing_dictionary", cuts(growing, 8)),
        "int32_column_bytes": ("each byte of one batch set to each other value", "int32_column", each_byte(ONE)),
        "one_delta_bytes": ("each byte of a dictionary and of a delta set to some other values", "one_delta",
            each_byte(one_delta(), ["dictionary", "delta"], SOME)),
        "noted_column_bytes": ("each byte of a schema with custom metadata set to some other values", "noted_column",
            each_byte(column_with_a_pair(), ["schema"], SOME)),
        "falling_offsets": ("one pair of offsets that falls", "texts_of_a_letter", falling(texts_of_a_letter(), 4)),
        "falling_large_offsets": ("one pair of large offsets that falls", "large_texts_of_a_letter",
            falling(large_texts_of_a_letter(), 8)),
        "null_counts": ("the number of nulls of each number of slots, and one more", "nulls_of_a5", null_counts()),
        "fields_at_the_limit": ("65,535 fields, one level less than are too many", "shared_fields_17_deep",
            fields_at_the_limit(its["shared_fields_17_deep"][1])),
        "pairs_at_the_limit": ("65,536 pairs, one less than are too many", "pairs_over_the_limit",
            pairs_at_the_limit(its["pairs_over_the_limit"][1])),
        "rows_at_the_limit": ("a batch of 2^31 - 1 rows, and of one more", "one_null", rows["rows_at_the_limit"]),
        "values_at_the_limit": ("a dictionary of 2^31 - 2 values, and of one more, that grows by one",
            "nulls_by_a_growing_dictionary", rows["values_at_the_limit"]),
        "names_at_the_limit": ("8,192 names of 8,192 bytes, one less than are too many", "names_over_the_limit",
            names_at_the_limit(its["names_over_the_limit"][1])),
    }
