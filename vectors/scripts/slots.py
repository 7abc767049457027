"""Texts with letters of several bytes, cut into slots within letters and between them: each slot that is not null has to be valid
UTF-8 by itself, whatever is next to it."""
from tools.frame_parts import Stream
from tools.frames import END_MARKER, LARGE_UTF8, UTF8, batch, field, schema
from layouts import number
from raw_frames import column, i32, i64

# Letters of one byte; of two, three and four; valid UTF-8, two bytes that are not, valid UTF-8, and a byte that is not.
LETTERS = {"letters_of_one_byte": b"abcdef", "letters_of_many_bytes": "é€\U0001f600".encode(), "letters_and_other_bytes":
    b"a\xff\xfe\xc3\xa9\x80"}
# For the letters the validities, as bits, and the offsets of slots: slots of valid UTF-8, and others.
SLOTS = {
    "letters_of_one_byte": ([("", (0, 1, 3, 3, 6)), ("", (2, 3)), ("", (0,))], []),
    "letters_of_many_bytes": ([("", (0, 2, 5, 9)), ("", (0, 9)), ("", (2, 5)), ("1001", (0, 2, 3, 5, 9)), ("010", (0, 3, 3, 9)),
        ("101", (3, 3, 5, 9))], [*(("", its) for at in (1, 3, 4, 6, 7, 8) for its in ((0, at, 9), (at, 9), (0, at))),
        ("1101", (0, 2, 3, 5, 9)), ("1011", (0, 2, 3, 5, 9)), ("1001", (0, 2, 3, 3, 9))]),
    "letters_and_other_bytes": ([("101", (0, 1, 3, 5)), ("", (3, 5))], [("111", (0, 1, 3, 5)), ("101", (0, 1, 3, 4)), ("", (3, 6))]),
}
WIDTHS = {"": (UTF8, i32, 4), "large_": (LARGE_UTF8, i64, 8)}


def streams():
    """Four empty texts before such letters, in each of the widths of offsets."""
    for word, (kind, offsets, width) in WIDTHS.items():
        for name, held in LETTERS.items():
            its = column([(4, 0)], b"\x0f", offsets(0, 0, 0, 0, 0), held)
            yield word + name, name, Stream(schema=schema(field("t", kind)), batch=batch(its), end=END_MARKER), offsets, width


def settings(validity, places, offsets, width):
    """The slots between these offsets; the bits of a validity begin at the first slot."""
    count = len(places) - 1
    valid = {"batch.header.buffers.0.length": number(bool(validity))}
    if validity:
        valid["batch.body.0"] = f"{int(validity[::-1], 2):02x}"
    return {"batch.header.length": number(count), "batch.header.nodes.0.length": number(count),
        "batch.header.nodes.0.null_count": number(validity.count("0")), **valid,
        "batch.header.buffers.1.length": number(width * len(places)), "batch.body.1[0]": offsets(*places).hex()}


def vectors():
    return {name: (f"four empty texts before {name.replace('_', ' ')}", its.held()) for name, _, its, _, _ in streams()}


def changes(line):
    found = {}
    for name, letters, its, offsets, width in streams():
        texts, others = ([line(its, settings(*slots, offsets, width)) for slots in rows] for rows in SLOTS[letters])
        found[name] = f"slots of {name.replace('_', ' ')}", name, ["binds standard", *texts, "binds malformed", *others]
    return found
