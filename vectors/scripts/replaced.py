"""Dictionaries of each type that are replaced by others, columns of more than 64 slots with nulls over other values past these,
and two columns of one dictionary, whose types differ in one part."""
from tools import frames
from tools.frame_parts import Stream
from tools.frames import END_MARKER, batch, dictionary, dictionary_batch, field, numbers, schema
from kinds import KINDS
from raw_frames import stream

# How many slots, one more than a word has bits and some, and which of them are null.
SLOTS, NULLS = 70, (0, 63, 64, 65, 69)
# One type of each layout.
LAYOUTS = KINDS[:9] + [it for it in KINDS if it.name == "int32"]


def by_dictionaries(kinds):
    return schema(*(field(it.name, *it.kind, encoding=dictionary(at)) for at, it in enumerate(kinds)))


def sent(columns):
    return b"".join(dictionary_batch(at, it) for at, it in enumerate(columns))


def replaced():
    """Each dictionary is replaced by an equal one, by one that no batch uses and then by a longer one that begins with the first,
    and by one that differs at its end."""
    parts = [by_dictionaries(KINDS)]
    for step in ((0, 1), (0, 1), (1,), (0, 1, 0), (0, 1, 1)):
        parts.append(sent(it.as_column([(it.first, it.second)[at] for at in step]) for it in KINDS))
        parts += [batch(*(numbers([len(step) - 1, None, 0]) for _ in KINDS))] if len(step) > 1 else []
    return stream(*parts)


def hiding(its):
    """A column of which some slots are null over the values that they have."""
    if not its.buffers:
        return its
    validity = frames.bits([at not in NULLS for at in range(SLOTS)])
    return frames.Column([(SLOTS, len(NULLS)), *its.nodes[1:]], [validity, *its.buffers[1:]])


def many(it, first=0):
    """The nine values of a type again and again, from one of them on."""
    return [it.values[(first + at) % 9] for at in range(SLOTS)]


def of_70_slots():
    plain = schema(*(field(it.name, *it.kind) for it in KINDS))
    return stream(plain, batch(*(hiding(it.as_column(many(it))) for it in KINDS)))


def by_dictionaries_of_70_values():
    """Dictionaries of 70 values, then the same ones over other hidden values, and others whose value 66 differs."""
    def over(it, first):
        values = many(it)
        for at in NULLS:
            values[at] = many(it, first)[at]
        return values

    def other(it):
        values = many(it)
        values[66] = many(it, 1)[66]
        return values
    indices = hiding(numbers([200 if at in NULLS else SLOTS - 1 - at for at in range(SLOTS)]))
    rows = batch(*(indices for _ in LAYOUTS))
    steps = [[hiding(it.as_column(values(it))) for it in LAYOUTS] for values in (many, lambda it: over(it, 4), other)]
    return stream(by_dictionaries(LAYOUTS), *(part for columns in steps for part in (sent(columns), rows)))


def all_of():
    return {
        "each_type_replaced": ("a dictionary of each type that is replaced by an equal one, by a longer one, and by one that"
            " differs from that in its last value", replaced()),
        "each_type_of_70_slots": ("a column of each type of 70 slots, with nulls past the first 64 over other values", of_70_slots()),
        "each_layout_by_a_dictionary_of_70_values": ("a dictionary of 70 values, with nulls past the first 64, that is replaced by an"
            " equal one over other hidden values, and by one that differs in a value past the first 64", by_dictionaries_of_70_values()),
    }


def two_of_an_id():
    """Two columns of each type, by one dictionary each."""
    its = [field(f"{name}{at}", *it.kind, encoding=dictionary(at)) for at, it in enumerate(KINDS) for name in "ab"]
    return Stream(schema=schema(*its), end=END_MARKER)


def vectors():
    return all_of() | {"two_columns_of_an_id_of_each_type": ("two columns of each type by one dictionary", two_of_an_id().held())}


# A code of a type without a table, with the one that it is set to; and how the first byte of each part of a field is set to
# another value: the parts of its type, then those that belong to a type only below another field.
CODES = {1: 6, 6: 1, 4: 5, 5: 4, 19: 20, 20: 19, 12: 21, 21: 12}
OF_TYPE = {"type_type": CODES.get, "type.bit_width": lambda it: 8 if it > 8 else 16, "type.is_signed": lambda it: 1 - it,
    "type.unit": lambda it: it ^ 1, "type.byte_width": lambda it: it + 1, "type.timezone.bytes": lambda it: it ^ 32}
OF_FIELD = {"name.bytes": lambda it: it ^ 32, "nullable": lambda it: 1 - it}
OF_INDEX = {"dictionary.index_type.bit_width": lambda it: 8, "dictionary.index_type.is_signed": lambda it: 0,
    "dictionary.is_ordered": lambda it: 1}


def settings(of, path, rules):
    """Each part of a field set to another value by itself."""
    for part, other in rules.items():
        name = f"{path}.{part}"
        value = name in of.parts and other(of.held()[of.place(name)])
        is_time = part.endswith("bit_width") and f"{path}.type.unit" in of.parts
        if isinstance(value, int) and not isinstance(value, bool) and not is_time:
            yield {f"{name}[0]": f"{value:02x}"}


def changes(line):
    """Of each type the second column with each part of its type set to another value, then other parts of the first such column."""
    of, lines = two_of_an_id(), ["binds own"]
    for at in range(1, 2 * len(KINDS), 2):
        path = f"schema.header.fields.{at}"
        lines += [line(of, it) for it in settings(of, path, OF_TYPE)]
        for child in range(2):
            lines += [line(of, it) for it in settings(of, f"{path}.children.{child}", OF_TYPE | OF_FIELD)]
    lines += [line(of, it) for it in settings(of, "schema.header.fields.1", OF_FIELD | OF_INDEX)]
    name = "two_columns_of_an_id_of_each_type"
    return {name: ("two columns of each type by one dictionary, of which one is another one in one part", name, lines)}
