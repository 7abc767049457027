"""Random schemas with custom metadata, and the bytes of messages that have them.

A schema is what the model reads: a schema_model.Schema, whose fields are dicts. It is written by tools/frames.py, and what the
standard leaves to a writer is chosen by chance: a value that is the default may be left out, equal parts may be written once and
referred to by many offsets, the message may be of V4, and what no reader reads may lead anywhere.
"""
import struct

from tools import frames, schema_model
from tools.arrow_types import BY_CODE, BY_NAME, DECIMAL, DIGITS, FARTHEST, FIXED_SIZE_LIST, INT, MAP, STRUCT, TEXT, TYPES
from tools.frames import scalar, table, vector

V4, V5 = 3, 4
KEYS = [b"", b"k", b"key", b"k", "Schlüssel".encode(), b"\xff\xfe", b"\0", b"ARROW:extension:name", b"\xc3", b"k" * 40]
NAMES = ["", "n", "column", "ä", "a\\b\tc", "日本"]


def any_pairs(chance):
    """Pairs, some of which have an empty key, a repeated one, or one that is not UTF-8."""
    count = chance.choice([0, 0, 0, 1, 1, 2, 3, 7])
    pairs = [(chance.choice(KEYS), chance.choice(KEYS + [bytes([chance.randrange(256)])])) for _ in range(count)]
    return pairs + pairs[:1] if chance.random() < 0.2 else pairs


def any_type(chance, levels, types):
    """The code of a type of a set, what its table says, and its number of children; types outside of the core are likelier."""
    its = [it for it in TYPES if schema_model.is_taken(it.code, types) and (levels > 1 or it.children == 0)
           and (levels > 2 or it.entry_fields is None)]
    row = chance.choice([it for it in its for _ in range(1 if it.is_core else 3)])
    return row.code, chance.choice(row.cases) or None, chance.randrange(4) if row.children is None else row.children


def any_field(chance, levels, ids, may_encode=True, types=schema_model.CORE, entry_fields=None):
    """A field; `ids` are the numbers of dictionaries that no field has yet. With a number of `entry_fields` it is the field of a
    map's entries."""
    is_entry = entry_fields is not None
    code, said, count = (STRUCT.code, None, entry_fields) if is_entry else any_type(chance, levels, types)
    encoding, below = None, BY_CODE[code].entry_fields
    if may_encode and not is_entry and chance.random() < 0.2:
        encoding, may_encode = (next(ids), chance.choice(INT.cases), chance.random() < 0.3, 0), False
    return {"name": chance.choice(NAMES).encode(), "nullable": chance.random() < 0.5, "code": code, "type": said,
            "encoding": encoding, "children": [any_field(chance, levels - 1, ids, may_encode, types, below) for _ in range(count)],
            "pairs": any_pairs(chance)}


def with_other_pairs(chance, field):
    """The same field with other pairs on all levels."""
    return {**field, "pairs": any_pairs(chance), "children": [with_other_pairs(chance, below) for below in field["children"]]}


def any_schema(chance, types=schema_model.CORE):
    """A schema: fields occur twice, some of them with other pairs, and so do the ids of their dictionaries."""
    ids = iter([0, -1, *range(3, 1000)])
    fields = []
    for _ in range(chance.randrange(5)):
        fields.append(any_field(chance, chance.randint(1, 4), ids, types=types))
        if chance.random() < 0.4:
            known = chance.choice(fields)
            fields.append(known if chance.random() < 0.5 else with_other_pairs(chance, known))
    return schema_model.Schema(0, fields, any_pairs(chance))


def with_changes(field, known, changes):
    """The same field, in which one field, the field itself or one below it, has these changes."""
    if field is known:
        return {**field, **changes}
    return {**field, "children": [with_changes(it, known, changes) for it in field["children"]]}


def wrong_entries(field):
    """Changes of a map: it has no child, has two, or has one that is not a struct of two fields or is dictionary-encoded."""
    entries, = field["children"]
    key, value = entries["children"]
    others = [{"children": []}, {"children": [key]}, {"children": [key, value, key]}, {"encoding": (1000, (32, True), False, 0)},
              {"code": INT.code, "type": (32, True), "children": []}, {"code": BY_NAME["List"].code, "children": [value]}]
    return [{"children": its} for its in ([], [entries, entries], *([{**entries, **it}] for it in others))]


def wrong_decimals(field):
    """Changes of a decimal: it has a precision, scale or width that is not allowed, or a child."""
    precision, scale, width = field["type"]
    its = [*((it, scale, width) for it in (0, -1, DIGITS[width] + 1, precision + 256)),
           *((precision, it, width) for it in (FARTHEST + 1, -FARTHEST - 1, scale + 256)),
           *((precision, scale, it) for it in (0, 16, 512, width + 65_536))]
    return [*({"type": it} for it in its), {"children": [{**field, "encoding": None}]}]


def wrong_fixed_lists(field):
    """Changes of a fixed-size list: the size is negative, or it has no child or two."""
    item, = field["children"]
    return [*({"type": (it,)} for it in (-1, -2 ** 31, -256)), {"children": []}, {"children": [item, {**item, "encoding": None}]}]


def misfit(chance, schema):
    """The schema in which one map, one decimal or one fixed-size list is not allowed; None if no field is one of these."""
    wrong = {MAP.code: wrong_entries, DECIMAL.code: wrong_decimals, FIXED_SIZE_LIST.code: wrong_fixed_lists}
    its = [it for it in schema_model.all_fields(schema.fields) if it["code"] in wrong]
    if not its:
        return None
    known = chance.choice(its)
    found = [schema._replace(fields=[with_changes(it, known, changes) for it in schema.fields]) for changes in wrong[known["code"]](known)]
    # a dictionary below another one is rejected with another kind
    return chance.choice([it for it in found if not schema_model.is_unsupported(it, schema_model.ALL)])


class Held:
    """What is written once. It refers only to what has a lower height."""

    def __init__(self, value, height):
        self.value, self.height = value, height


class Sharing(frames.Buffer):
    """Writes what is shared after everything that refers to it: an offset leads forward."""

    def __init__(self):
        super().__init__()
        self.waiting = {}

    def put(self, value):
        return value[1] if value[0] == "shared" else super().put(value)

    def name(self, place, target):
        if isinstance(target, Held):
            self.waiting.setdefault(target, []).append(place)
        else:
            super().name(place, target)

    def put_shared(self):
        while self.waiting:
            held = max(self.waiting, key=lambda it: it.height)
            places = self.waiting.pop(held)
            target = self.put(held.value)
            for place in places:
                self.name(place, target)


def framed(root):
    """The frame of a message with this root table and no body."""
    buffer = Sharing()
    buffer.bytes += bytes(4)
    buffer.name(0, buffer.put(root))
    buffer.put_shared()
    buffer.align(8)
    return b"\xff" * 4 + struct.pack("<I", len(buffer.bytes)) + bytes(buffer.bytes)


class Straight:
    """Writes everything that a schema says, as this project's writer does: nothing is shared, and nothing left out except empty
    custom metadata."""

    def table(self, *fields):
        """A table whose last field is present."""
        while fields and fields[-1] is None:
            fields = fields[:-1]
        return table(*fields)

    def shared(self, _meaning, _height, value):
        return value

    def unless(self, _is_default, value):
        return value

    def unread(self):
        """A field that no reader reads, if there is one."""
        return []

    def string(self, held):
        return self.shared(("string", held), 0, ("text", held))

    def pair(self, key, value):
        fields = [self.unless(not held, self.string(held)) for held in (key, value)]
        return self.shared(("pair", key, value), 1, self.table(*fields))

    def pairs(self, pairs):
        return self.shared(("pairs", *pairs), 2, vector([self.pair(*pair) for pair in pairs])) if pairs else None

    def type_table(self, row, said):
        if not row.fields:
            return self.unless(True, table())
        return self.table(*((None if it is None else self.string(it)) if field.width == TEXT else
            self.unless(it == field.default, scalar(field.letter, it)) for field, it in zip(row.fields, said)))

    def encoding(self, said):
        if said is None:
            return None
        number, index, ordered, _ = said
        return self.table(self.unless(number == 0, scalar("q", number)),
                          self.unless(index == (32, True), self.type_table(INT, index)),
                          self.unless(not ordered, scalar("B", ordered)), self.unless(True, scalar("h", 0)))

    def field(self, field, level=1):
        children = vector([self.field(below, level + 1) for below in field["children"]])
        value = self.table(self.unless(not field["name"], self.string(field["name"])),
                           self.unless(not field["nullable"], scalar("B", field["nullable"])), scalar("B", field["code"]),
                           self.type_table(BY_CODE[field["code"]], field["type"]), self.encoding(field["encoding"]),
                           self.unless(not field["children"], children), self.pairs(field["pairs"]))
        return self.shared(("field", level, repr(field)), 40 - level, value)

    def schema(self, schema):
        fields = vector([self.field(field) for field in schema.fields])
        return self.table(self.unless(True, scalar("h", 0)), self.unless(not schema.fields, fields),
                          self.pairs(schema.pairs), *self.unread())

    def frame(self, schema, version=V5):
        """The frame of a schema message."""
        return framed(self.table(scalar("h", version), scalar("B", 1), self.schema(schema), scalar("q", 0), *self.unread()))


class ByChance(Straight):
    """Writes a schema in a random layout."""

    def __init__(self, chance):
        self.chance, self.held = chance, {}

    def table(self, *fields):
        return super().table(*fields) if self.chance.random() < 0.5 else table(*fields)

    def shared(self, meaning, height, value):
        if self.chance.random() < 0.5:
            return value
        return self.held.setdefault(meaning, ("shared", Held(value, height)))

    def unless(self, is_default, value):
        return None if is_default and self.chance.random() < 0.5 else value

    def unread(self):
        """After the fields of a schema or a message: an offset that leads outside."""
        return [scalar("I", 1 << 30)] if self.chance.random() < 0.2 else []

    def pairs(self, pairs):
        return super().pairs(pairs) if pairs or self.chance.random() < 0.5 else vector([])


def any_frame(chance, types=schema_model.CORE):
    """A random schema and a frame of it, sometimes of a version that is not read, or with a map, a decimal or a fixed-size list
    that is not allowed."""
    schema = any_schema(chance, types)
    if chance.random() < 0.2:
        schema = misfit(chance, schema) or schema
    return schema, ByChance(chance).frame(schema, chance.choice([V4] * 4 + [V5] * 8 + [0, 2, 5]))


def with_pairs(chance, stream):
    """The stream with other pairs in its schema."""
    schema = schema_model.first_schema(stream)
    fields = [with_other_pairs(chance, field) for field in schema.fields]
    size = 8 + int.from_bytes(stream[4:8], "little")
    return ByChance(chance).frame(schema._replace(fields=fields, pairs=any_pairs(chance))) + stream[size:]


def of_older_versions(chance, stream):
    """The stream with V4 as the version of some of its messages."""
    changed, place = bytearray(stream), 0
    while place < len(stream) and stream[place + 4:place + 8] != bytes(4):
        start, size = place + 8, int.from_bytes(stream[place + 4:place + 8], "little")
        metadata = schema_model.Metadata(stream[start:start + size])
        version = metadata.place_of(metadata.table(metadata.target(0)), 0)
        if chance.random() < 0.5:
            changed[start + version] = V4
        place = start + size + schema_model.read_message(metadata.held).body
    return bytes(changed)
