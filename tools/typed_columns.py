"""Columns of each kind with each length and with nulls at each place, and hashes over their layout: made with no Arrow library,
by frames.py. The tests of arrow_builder build the same columns and store them.

KINDS below says what slot i has; KINDS in crates/arrow_builder_tests/src/tests/lengths.rt says it in words.
"""
from tools import frames
from tools.arrow_types import BITS, BY_NAME, DECIMAL, INT, NULLS, WITH_OFFSETS

LENGTHS = [0, 1, 7, 8, 9, 63, 64, 65]

# Which slots are null: none, the first, the last, all, each third.
NULL_SLOTS = [
    lambda slot, length: False,
    lambda slot, length: slot == 0,
    lambda slot, length: slot == length - 1,
    lambda slot, length: True,
    lambda slot, length: slot % 3 == 2,
]

STRINGS = ["", "a", "é€", "0123456789"]


def number(bits, signed, slot):
    """The least number, the greatest, 0, and the number of the slot, in turn."""
    least, greatest = (-2 ** (bits - 1), 2 ** (bits - 1) - 1) if signed else (0, 2 ** bits - 1)
    return [least, greatest, 0, slot][slot % 4]


def integers(bits, signed):
    return (lambda slot: number(bits, signed, slot)), column_of(INT.form((bits, signed)))


def string(slot):
    return STRINGS[slot % 4].encode()


def large_strings(values):
    return frames.strings(values, "q")


def fixed(values, width):
    return slots(values, BY_NAME["FixedSizeBinary"].form((width,)))


def slots(values, form):
    """Values of one size each, by their Form: a number, bytes, or a tuple of several numbers."""
    packed = (bytes(form.width) if it is None else form.packed(it) for it in values)
    return frames.Column([frames.node(values)], [frames.validity(values), b"".join(packed)])


def column_of(form):
    """The function that makes a column from values of a type without children, by its Form."""
    if form.layout == NULLS:
        return lambda values: frames.nulls(len(values))
    if form.layout == BITS:
        return frames.bools
    if form.layout in WITH_OFFSETS:
        return lambda values: frames.strings(values, form.slot)
    return lambda values: slots(values, form)


def decimals(values, width):
    """Decimals of this many bits, each given by its whole number, whatever their precision and their scale are."""
    return column_of(DECIMAL.form((1, 0, width)))(values)


def intervals(values, unit):
    """Months, of which each value may be a number; pairs of days and milliseconds; or triples of months, days and nanoseconds."""
    return column_of(BY_NAME["Interval"].form((unit,)))(values)


def bytes_of_number(values):
    return frames.numbers(values, "b")


def items(slot):
    return [[], [-128, 127], [None], [slot, 1, 2]][slot % 4]


def large_lists(values, of):
    return frames.lists(values, of, "q")


def pair(slot):
    return ([-128, 127, None, slot][slot % 4], string(slot))


def pairs(values):
    """Structs of a number and a text; below a null both are null."""
    parts = [value or (None, None) for value in values]
    return frames.structs(values, bytes_of_number([part[0] for part in parts]),
                          frames.strings([part[1] for part in parts]))


def pairs_in_list(slot):
    return [[], [(127, b"a")], [None, (slot, b"a")], [(None, b""), (1, b"bc")]][slot % 4]


# For each kind the value of a slot, and the column of such values.
KINDS = [
    (lambda slot: None, lambda values: frames.nulls(len(values))),
    (lambda slot: slot % 3 == 0, frames.bools),
    *(integers(bits, signed) for bits, signed in INT.cases),
    *2 * [integers(32, True)],      # days, and times of day in seconds
    *2 * [integers(64, True)],      # timestamps, and lengths of time
    *2 * [(string, frames.strings)],
    *2 * [(string, large_strings)],
    (lambda slot: bytes([slot, 255, 0]), lambda values: fixed(values, 3)),
    (items, lambda values: frames.lists(values, bytes_of_number)),
    (items, lambda values: large_lists(values, bytes_of_number)),
    (pair, pairs),
    (pairs_in_list, lambda values: frames.lists(values, pairs)),
]


def summed(so_far, numbers):
    for it in numbers:
        so_far = (so_far * 16777619 + it + 1) % 2 ** 32
    return so_far


def sum_of(kind, length):
    """A hash over the nodes, the places of the buffers and the bytes, for all places of nulls and both alignments."""
    value, column = kind
    total = 1
    for is_null in NULL_SLOTS:
        values = [None if is_null(slot, length) else value(slot) for slot in range(length)]
        for align in (8, 64):
            nodes, places, body = frames.body_of([column(values)], align)
            total = summed(total, [it for pair in nodes + places for it in pair])
            total = summed(total, body)
    return total


def module():
    """The module that the tests hold: a row for each kind, with a hash for each length."""
    lines = "//! Sums over how columns are laid out: for each kind one for each length.\n\n"
    lines += f"pub(super) static SUMS: [&str; {len(KINDS)}] = [\n"
    for kind in KINDS:
        lines += '    "' + " ".join(f"{sum_of(kind, length):08x}" for length in LENGTHS) + '",\n'
    return lines + "];\n"
