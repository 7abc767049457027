"""What `arrowflow schema` has to print for an input, by an independent model: written from docs/FORMAT.md, in another language,
with no code and no definition of the crates; the properties of a type come from tools/arrow_types.py. It reads a complete
list of bytes at once and keeps no state.

`answer(bytes)` returns standard output, standard error and the exit status; `first_schema(bytes)` returns the schema that they
are about, with custom metadata, which no text shows. Limits are the defaults; the set of types is the core, or the one that is
given.
"""
import collections
import functools

from tools.arrow_types import BY_CODE, INT, STRUCT, TEXT

MAX_METADATA = 67_108_864
MAX_BODY = 2 ** 36
LAST_PLACE = 2 ** 62
MAX_LEVELS = 32
MAX_FIELDS = 65_536
MAX_PAIRS = 65_536
READ_VERSIONS = (3, 4)
CORE, ALL = "core", "all"

Schema = collections.namedtuple("Schema", "endianness fields pairs")
Message = collections.namedtuple("Message", "version code header body schema")


class Unreadable(Exception):
    """A place that is read has nothing readable, or a limit of the tree is passed."""


class Rejected(Exception):
    """The kind with which a message is rejected."""


def is_taken(code, types):
    """Whether a set has the type with this code."""
    return code in BY_CODE and (types == ALL or BY_CODE[code].is_core)


def has_table(code, types):
    """Whether a set has the type with this code, and its table has fields."""
    return is_taken(code, types) and BY_CODE[code].fields != ()


def signed(number, width):
    return number - (1 << 8 * width) if number >> (8 * width - 1) else number


class Metadata:
    """A FlatBuffer, read by offsets; the tables of types are opened if the set has the type."""

    def __init__(self, held, types=CORE):
        self.held, self.types = held, types
        self.fields_seen = 0
        self.pairs_seen = 0
        self.text_bytes = 0

    def number(self, place, width):
        if place < 0 or place + width > len(self.held):
            raise Unreadable
        return int.from_bytes(self.held[place:place + width], "little")

    def target(self, place):
        offset = self.number(place, 4)
        if offset == 0:
            raise Unreadable
        return place + offset

    def table(self, place):
        vtable = place - signed(self.number(place, 4), 4)
        size = self.number(vtable, 2)
        if size < 4 or vtable + size > len(self.held):
            raise Unreadable
        return place, vtable, size

    def place_of(self, table, field):
        place, vtable, size = table
        if 4 + 2 * field + 2 > size:
            return None
        entry = self.number(vtable + 4 + 2 * field, 2)
        return place + entry if entry else None

    def scalar(self, table, field, width, default):
        place = self.place_of(table, field)
        return default if place is None else self.number(place, width)

    def string(self, table, field):
        """The bytes of a string, whatever they are, or None if it is absent."""
        place = self.place_of(table, field)
        if place is None:
            return None
        start = self.target(place)
        count = self.number(start, 4)
        held = self.held[start + 4:start + 4 + count]
        if len(held) < count:
            raise Unreadable
        self.text_bytes += count
        if self.text_bytes > MAX_METADATA:
            raise Unreadable
        return held

    def text(self, table, field):
        """The same for a string that has to be UTF-8."""
        held = self.string(table, field)
        try:
            (held or b"").decode("utf-8")
        except UnicodeDecodeError:
            raise Unreadable from None
        return held

    def child(self, table, field):
        place = self.place_of(table, field)
        return None if place is None else self.table(self.target(place))

    def vector(self, table, field, size):
        """The offset of the first element, and the number of elements."""
        place = self.place_of(table, field)
        if place is None:
            return 0, 0
        start = self.target(place)
        count = self.number(start, 4)
        if start + 4 + count * size > len(self.held):
            raise Unreadable
        return start + 4, count

    def tables(self, table, field):
        """The tables of a vector, opened one by one."""
        first, count = self.vector(table, field, 4)
        for number in range(count):
            yield self.table(self.target(first + 4 * number))


def values_of(metadata, opened, row):
    """The values of the fields of a type's table; None for a text that is absent."""
    return tuple(metadata.text(opened, at) if it.width == TEXT else type(it.default)(
        signed(metadata.scalar(opened, at, it.width, it.default), it.width)) for at, it in enumerate(row.fields))


def type_of(metadata, table, code):
    """What the table of a type says, or None if it is absent or not opened."""
    opened = metadata.child(table, 3) if has_table(code, metadata.types) else None
    return None if opened is None else values_of(metadata, opened, BY_CODE[code])


def encoding_of(metadata, table):
    """A dictionary's id, its indices' width and sign, whether it is ordered, and its kind."""
    encoding = metadata.child(table, 4)
    if encoding is None:
        return None
    index = metadata.child(encoding, 1)
    index_type = (32, True) if index is None else values_of(metadata, index, INT)
    return (signed(metadata.scalar(encoding, 0, 8, 0), 8), index_type,
            metadata.scalar(encoding, 2, 1, 0) != 0, metadata.scalar(encoding, 3, 2, 0))


def pair_of(metadata, table):
    """A KeyValue table: an absent key or value is empty."""
    metadata.pairs_seen += 1
    if metadata.pairs_seen > MAX_PAIRS:
        raise Unreadable
    return metadata.string(table, 0) or b"", metadata.string(table, 1) or b""


def pairs_of(metadata, table, field):
    return [pair_of(metadata, pair) for pair in metadata.tables(table, field)]


def field_of(metadata, table, level):
    metadata.fields_seen += 1
    if metadata.fields_seen > MAX_FIELDS or level > MAX_LEVELS:
        raise Unreadable
    code = metadata.scalar(table, 2, 1, 0)
    return {
        "name": metadata.text(table, 0) or b"",
        "nullable": metadata.scalar(table, 1, 1, 0) != 0,
        "code": code,
        "type": type_of(metadata, table, code),
        "encoding": encoding_of(metadata, table),
        "children": fields_of(metadata, table, 5, level + 1),
        "pairs": pairs_of(metadata, table, 6),
    }


def fields_of(metadata, table, field, level):
    return [field_of(metadata, child, level) for child in metadata.tables(table, field)]


def all_fields(fields):
    for field in fields:
        yield field
        yield from all_fields(field["children"])


def batch_is_complete(metadata, batch):
    metadata.scalar(batch, 0, 8, 0)
    metadata.vector(batch, 1, 16)
    metadata.vector(batch, 2, 16)


def header_of(metadata, header, code):
    """The schema in a header, or None if the header is a batch, which has to be readable."""
    if code == 1:
        endianness = metadata.scalar(header, 0, 2, 0)
        return Schema(endianness, fields_of(metadata, header, 1, 1), pairs_of(metadata, header, 2))
    if code == 2:
        metadata.scalar(header, 0, 8, 0)
        metadata.scalar(header, 2, 1, 0)
        header = metadata.child(header, 1)
        if header is None:
            raise Unreadable
    batch_is_complete(metadata, header)
    return None


@functools.lru_cache(maxsize=16)
def read_message(held, types=CORE):
    """What a metadata says: the offset of its header, and the schema if it is one."""
    metadata = Metadata(held, types)
    root = metadata.table(metadata.target(0))
    version = metadata.scalar(root, 0, 2, 0)
    code = metadata.scalar(root, 1, 1, 0)
    body = signed(metadata.scalar(root, 3, 8, 0), 8)
    header = metadata.child(root, 2) if code in (1, 2, 3) else None
    schema = header_of(metadata, header, code) if header is not None else None
    every = all_fields(schema.fields) if schema else []
    if any(has_table(field["code"], types) and field["type"] is None for field in every):
        raise Unreadable
    return Message(version, code, header, body, schema)


def is_unsupported(schema, types=CORE):
    every = list(all_fields(schema.fields))
    nested = any(field["encoding"] and any(below["encoding"] for below in all_fields(field["children"])) for field in every)
    return (schema.endianness != 0 or nested or not all(is_taken(field["code"], types) for field in every)
            or any(field["encoding"] and field["encoding"][3] != 0 for field in every))


def form_of(field):
    """The Form of a field's type, or None if its widths or units are not allowed."""
    return BY_CODE[field["code"]].form(field["type"] or ())


def fits(field):
    """Whether the widths, units and children are allowed for the type."""
    if form_of(field) is None or field["encoding"] and INT.form(field["encoding"][1]) is None:
        return False
    row = BY_CODE[field["code"]]
    return row.children in (None, len(field["children"])) and (row.entry_fields is None or all(
        has_entries(it, row.entry_fields) for it in field["children"]))


def has_entries(field, count):
    """Whether a field is one of a map's entries: a struct of this many fields, which is not dictionary-encoded."""
    return field["code"] == STRUCT.code and field["encoding"] is None and len(field["children"]) == count


def value_type(field):
    return field["code"], field["type"], tuple(
        (below["name"], below["nullable"], below["encoding"], value_type(below)) for below in field["children"])


def has_one_type_an_id(fields):
    types = {}
    return all(types.setdefault(field["encoding"][0], value_type(field)) == value_type(field)
               for field in all_fields(fields) if field["encoding"])


def first_schema(stream, types=CORE):
    """The schema at the start, or None if there are fewer bytes than a message has."""
    if len(stream) < 8:
        return None
    if stream[:4] != b"\xff" * 4:
        raise Rejected("Continuation")
    size = int.from_bytes(stream[4:8], "little")
    if size > MAX_METADATA:
        raise Rejected("MetadataSize")
    if size == 0:
        raise Rejected("NoSchema")
    if len(stream) < 8 + size:
        return None
    try:
        message = read_message(stream[8:8 + size], types)
    except Unreadable:
        raise Rejected("Metadata") from None
    judge(message, 8 + size + message.body, types)
    return message.schema if len(stream) >= 8 + size + message.body else None


def judge(message, end, types=CORE):
    """Rejects anything that is not a first message, with the kind that has the least number."""
    if message.version not in READ_VERSIONS:
        raise Rejected("Version")
    if message.code not in (1, 2, 3) or message.header is None:
        raise Rejected("Header")
    if message.body < 0 or message.body > MAX_BODY or end > LAST_PLACE:
        raise Rejected("BodyLength")
    if message.code != 1:
        raise Rejected("Order")
    if is_unsupported(message.schema, types):
        raise Rejected("Unsupported")
    fields = message.schema.fields
    if not all(map(fits, all_fields(fields))) or not has_one_type_an_id(fields):
        raise Rejected("Schema")


def escaped(text):
    return b"".join(b"\\x%02x" % byte if byte < 32 or byte in (92, 127) else bytes([byte]) for byte in text)


def lines(fields, level=0):
    text = b""
    for field in fields:
        column = escaped(form_of(field).printed.encode())
        if field["encoding"]:
            number, index, ordered, _ = field["encoding"]
            column = b"dictionary<%s, %s> id %d" % (INT.form(index).printed.encode(), column, number) + (b" ordered" if ordered else b"")
        text += b"  " * level + escaped(field["name"]) + b": " + column
        text += (b"" if field["nullable"] else b" not null") + b"\n" + lines(field["children"], level + 1)
    return text


def answer(stream, types=CORE):
    try:
        schema = first_schema(stream, types)
    except Rejected as error:
        return b"", b"fault at byte 0: %s\n" % str(error).encode(), 1
    if schema is None:
        return b"", b"fault at byte 0: NoSchema\n", 1
    return lines(schema.fields), b"", 0
