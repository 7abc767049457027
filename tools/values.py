"""Random columns, dictionaries and batches: streams of all types, written by tools/frames.py, and the rows that `arrowflow
show` has to print for them, by docs/FORMAT.md alone.

A kind is a type, one of the core or of those outside of it (floating-point numbers, decimals, intervals of each unit, fixed-size
lists, maps), with the kinds below it, and perhaps the dictionary that has its values. A value is None if it is null, else a
boolean, a number, bytes, a text, a list, a tuple of the numbers of an interval or of the fields of a struct; by a dictionary it
is an index. A map is a list of structs.
"""
from tools import floats, frames, typed_columns
from tools.arrow_types import BITS, BYTES, FIXED, FLOATING, INT, MAP, NULLS, TEXTS, TYPES
from tools.schema_model import ALL, CORE

WORDS = ["", "a", "b,c", 'say "no"', "é€", "line\nbreak", "return\r", "a;b", "x" * 40, "null", "0"]
NAMES = ["n", "column", "", "ä", "a b", 'q"', "c,d"]
# The most bytes of a slot.
WIDEST = 32


class Kind:
    """A type without children, with its parameters. Several numbers in a slot are a tuple."""

    def __init__(self, row, values):
        self.row, self.values, self.form = row, values, row.form(values)
        self.as_column = typed_columns.column_of(self.form)

    def field(self, name, nullable=True, encoding=None):
        return frames.field(name, frames.of_type(self.row.name, *self.values), nullable=nullable, encoding=encoding)

    def value(self, chance, held):
        return None if chance.random() < chance.nulls else self.any_value(chance)

    def any_value(self, chance):
        if self.row is FLOATING:
            return any_float(chance, *self.values)
        if self.form.layout == NULLS:
            return None
        if self.form.layout == BITS:
            return chance.random() < 0.5
        if self.form.layout == TEXTS:
            return chance.choice(WORDS).encode()
        if self.form.layout in (BYTES, FIXED):
            count = self.form.width if self.form.layout == FIXED else chance.choice([0, 1, 3, 20])
            return bytes(chance.randrange(256) for _ in range(count))
        return tuple(any_number(chance, *it) for it in self.form.numbers)

    def shown(self, value, held):
        if self.form.layout == BITS:
            return "true" if value else "false"
        if self.form.layout in (BYTES, FIXED):
            return value.hex()
        if self.form.layout == TEXTS:
            return value.decode()
        return floats.text(*self.values, value) if self.row is FLOATING else self.form.text(*value)


def any_number(chance, width, signed):
    """A number of this many bytes: the least, the greatest, 0, 1, any, or one of few digits."""
    bits = 8 * width
    low, high = (-2 ** (bits - 1), 2 ** (bits - 1) - 1) if signed else (0, 2 ** bits - 1)
    return chance.choice([low, high, 0, 1, chance.randint(low, high), chance.randint(max(low, -99), 99)])


def any_float(chance, precision):
    """A floating-point number by its bits: of each class, of few digits, or any."""
    width, size = floats.FRACTION[precision], 8 * floats.BYTES[precision]
    infinite = (1 << size - 1) - (1 << width)
    known = [0, 1, (1 << width) - 1, 1 << width, infinite - 1, infinite, infinite + 1, infinite | 1 << width - 1, (1 << size - 1) - 1]
    sign, what = chance.randrange(2) << size - 1, chance.randrange(4)
    if what == 0:
        return sign | chance.choice(known)
    if what == 1:
        return sign | floats.nearest(precision, round(chance.random() * 10 ** chance.randrange(5), chance.randrange(4)))
    if what == 2:
        return sign | floats.nearest(precision, float(f"{chance.randrange(1, 1000)}e{chance.randrange(-20, 20)}"))
    return chance.getrandbits(size)


def any_plain(chance, types):
    """A kind without children, of a set of types."""
    late = types == ALL and chance.random() < 0.4
    row = chance.choice([it for it in TYPES if it.children == 0 and it.is_core != late])
    return Kind(row, chance.choice([it for it in row.cases if row.form(it).width <= WIDEST]))


def inside(kind, value, held):
    """What is shown for a value inside of another."""
    return "null" if is_null(kind, value, held) else kind.shown(value, held)


def is_null(kind, value, held):
    """Whether a value is null, or an index of a value of the dictionary that is null."""
    return value is None or isinstance(kind, Encoded) and held[kind.number][value] is None


class Lists:
    """Lists of a kind, with offsets of 32 or of 64 bits."""

    def __init__(self, item, large):
        self.item, self.of = item, frames.LARGE_LIST if large else frames.LIST
        self.layout = typed_columns.large_lists if large else frames.lists

    def field(self, name, nullable=True, encoding=None):
        return frames.field(name, self.of, [self.item.field("item")], nullable, encoding)

    def value(self, chance, held):
        if chance.random() < chance.nulls:
            return None
        return [self.item.value(chance, held) for _ in range(chance.choice([0, 1, 2, 5]))]

    def as_column(self, values):
        return self.layout(values, self.item.as_column)

    def shown(self, value, held):
        return "[" + ";".join(inside(self.item, it, held) for it in value) + "]"


class FixedLists(Lists):
    """Lists of a kind, with `size` items each."""

    def __init__(self, item, size):
        super().__init__(item, False)
        self.size, self.of = size, frames.fixed_size_list(size)

    def value(self, chance, held):
        return None if chance.random() < chance.nulls else [self.item.value(chance, held) for _ in range(self.size)]

    def as_column(self, values):
        return frames.fixed_lists(values, self.size, self.item.as_column)


class Structs:
    """Structs of kinds, keyed by their names."""

    def __init__(self, parts):
        self.parts = parts

    def field(self, name, nullable=True, encoding=None):
        return frames.field(name, frames.STRUCT, [kind.field(part) for part, kind in self.parts], nullable, encoding)

    def value(self, chance, held):
        if chance.random() < chance.nulls:
            return None
        return tuple(kind.value(chance, held) for _, kind in self.parts)

    def as_column(self, values):
        children = [kind.as_column([it and it[at] for it in values]) for at, (_, kind) in enumerate(self.parts)]
        return frames.structs([None if it is None else () for it in values], *children)

    def shown(self, value, held):
        return "{" + ";".join(f"{part}={inside(kind, it, held)}" for (part, kind), it in zip(self.parts, value)) + "}"


class Maps(Lists):
    """Maps, by the names and kinds of the key and of the value: lists of structs."""

    def __init__(self, parts, keys_sorted):
        super().__init__(Structs(parts), False)
        self.keys_sorted = keys_sorted

    def field(self, name, nullable=True, encoding=None):
        return frames.field(name, *frames.map_of(self.item.field("entries"), self.keys_sorted), nullable, encoding)


class Encoded:
    """Values of a kind, given by their indices in the dictionary with this number."""

    def __init__(self, number, kind, bits, signed):
        self.number, self.kind, self.bits, self.signed = number, kind, bits, signed

    def field(self, name, nullable=True, encoding=None):
        return self.kind.field(name, nullable, frames.dictionary(self.number, self.bits, self.signed))

    def value(self, chance, held):
        places = min(len(held[self.number]), 2 ** (self.bits - self.signed))
        return chance.randrange(places) if places and chance.random() >= chance.nulls else None

    def as_column(self, values):
        return frames.numbers(values, INT.form((self.bits, self.signed)).slot)

    def shown(self, value, held):
        return self.kind.shown(held[self.number][value], held)


def any_kind(chance, levels, known, may_encode=True, types=CORE):
    """A kind of at most `levels` levels; `known` are those with dictionaries, keyed by their numbers."""
    if may_encode and chance.random() < 0.3:
        bits, signed = chance.choice(INT.cases)
        if known and chance.random() < 0.3:
            other = chance.choice([*known.values()])
            return Encoded(other.number, other.kind, bits, signed)
        number = chance.choice([it for it in (0, 1, 7, -1, 2 ** 63 - 1, -2 ** 63, *range(100, 140)) if it not in known])
        known[number] = Encoded(number, any_kind(chance, levels, known, False, types), bits, signed)
        return known[number]
    if levels > 2 and types == ALL and chance.random() < 0.2:
        parts = [(chance.choice(NAMES), any_kind(chance, levels - 2, known, may_encode, types)) for _ in range(MAP.entry_fields)]
        return Maps(parts, chance.random() < 0.5)
    if levels > 1 and types == ALL and chance.random() < 0.2:
        return FixedLists(any_kind(chance, levels - 1, known, may_encode, types), chance.choice([0, 1, 2, 3, 5]))
    if levels > 1 and chance.random() < 0.4:
        if chance.random() < 0.5:
            return Lists(any_kind(chance, levels - 1, known, may_encode, types), chance.random() < 0.5)
        count = chance.randrange(4)
        return Structs([(chance.choice(NAMES), any_kind(chance, levels - 1, known, may_encode, types)) for _ in range(count)])
    return any_plain(chance, types)


def quoted(field):
    return '"' + field.replace('"', '""') + '"' if any(it in field for it in ',"\r\n') else field


class Table:
    """A stream that is extended by chance, and the rows that are shown for it."""

    def __init__(self, chance, levels=4, types=CORE):
        chance.nulls = chance.choice([0, 0.1, 0.5, 1])
        self.chance, self.known, self.held, self.batches = chance, {}, {}, 0
        self.columns = [(chance.choice(NAMES), any_kind(chance, chance.randint(1, levels), self.known, types=types))
                        for _ in range(chance.randrange(5))]
        self.frames = [frames.schema(*(kind.field(name) for name, kind in self.columns))]
        self.rows = [",".join(quoted(it) for it in ["batch", *(name for name, _ in self.columns)])]

    def update(self, number):
        """A dictionary is added, extended, shortened, changed, or sent again, or stays as it is."""
        kind, old = self.known[number].kind, self.held.get(number)
        what = self.chance.choice(["new", "more", "more", "less", "same", "none", "none"]) if old is not None else "new"
        more = [kind.value(self.chance, {}) for _ in range(self.chance.choice([0, 1, 2, 5, 300 if self.chance.random() < 0.1 else 3]))]
        if what == "none":
            return
        new = {"new": more, "more": (old or []) + more, "less": (old or [])[:-1], "same": old}[what]
        is_delta = what == "more" and self.chance.random() < 0.7
        self.held[number] = new
        self.frames.append(frames.dictionary_batch(number, kind.as_column(more if is_delta else new), is_delta))

    def add_batch(self):
        for number in self.known:
            self.update(number)
        count = self.chance.choice([0, 1, 2, 3, 8, 9, 20, 65, self.chance.choice([200, 2_000])])
        columns = [[kind.value(self.chance, self.held) for _ in range(count)] for _, kind in self.columns]
        self.frames.append(frames.batch(*(kind.as_column(values) for (_, kind), values in zip(self.columns, columns)), length=count))
        for at in range(count):
            fields = ["" if is_null(kind, values[at], self.held) else kind.shown(values[at], self.held)
                      for (_, kind), values in zip(self.columns, columns)]
            self.rows.append(",".join(quoted(it) for it in [str(self.batches), *fields]))
        self.batches += 1

    def stream(self):
        return b"".join(self.frames)

    def text(self):
        return "".join(it + "\n" for it in self.rows).encode()


def any_table(chance, types=CORE):
    table = Table(chance, types=types)
    for _ in range(chance.randrange(6)):
        table.add_batch()
    if chance.random() < 0.8:
        table.frames.append(frames.END_MARKER)
    return table
