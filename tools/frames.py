"""Writes the frames of a stream byte by byte, with no Arrow library: schemas, dictionary batches, record batches, and the end
marker.

A frame is the continuation word, the metadata's size in four bytes, the metadata, a FlatBuffer whose root is a table Message
(Message.fbs, Schema.fbs), and the body. The tables are laid out front to back, as the FlatBuffers internals document allows: a
vtable, its table, and then what the table's offsets refer to, in the order of the fields' numbers. Zero bytes fill the gaps, and
the end of the metadata until the body begins at a multiple of the alignment, 8 or 64 bytes. A body holds its buffers in order,
each at the end of the one before and padded to the alignment. A null is written as zeros, an empty text or an empty list; below a
null fixed-size list and below a null struct everything is null.

Run by itself (python3 -m tools.frames), it compares two frames, a metadata and some bodies with bytes that are written out here.
"""
import functools
import struct
import sys

from tools.arrow_types import BY_NAME, TEXT

END_MARKER = b"\xff\xff\xff\xff\0\0\0\0"


# Values of a table's fields. A scalar is a format of the module struct and a number.
def scalar(form, number):
    return ("scalar", form, number)


def text(words):
    return ("text", words.encode() if isinstance(words, str) else words)


def table(*fields):
    """A table with these fields in the order of their numbers; None where one is absent."""
    return ("table", fields)


def vector(elements):
    """A vector of offsets to tables."""
    return ("vector", elements)


def pairs(elements):
    """A vector of structs of two signed 64-bit numbers."""
    return ("pairs", elements)


class Buffer:
    def __init__(self):
        self.bytes = bytearray()

    def align(self, size, beyond=0):
        while len(self.bytes) % size != beyond:
            self.bytes.append(0)

    def put(self, value):
        """Appends the value, and returns its offset."""
        return {"text": self.put_text, "vector": self.put_vector, "pairs": self.put_pairs,
                "table": self.put_table}[value[0]](value[1])

    def name(self, place, target):
        """Writes the distance from a place to its target at that place."""
        struct.pack_into("<I", self.bytes, place, target - place)

    def put_text(self, words):
        self.align(4)
        place = len(self.bytes)
        self.bytes += struct.pack("<I", len(words)) + words + b"\0"
        return place

    def put_vector(self, elements):
        self.align(4)
        place = len(self.bytes)
        self.bytes += struct.pack("<I", len(elements)) + bytes(4 * len(elements))
        for number, element in enumerate(elements):
            self.name(place + 4 + 4 * number, self.put(element))
        return place

    def put_pairs(self, elements):
        self.align(8, beyond=4)
        place = len(self.bytes)
        self.bytes += struct.pack("<I", len(elements))
        for pair in elements:
            self.bytes += struct.pack("<qq", *pair)
        return place

    def put_table(self, fields):
        offsets, end = [], 4
        for field in fields:
            if field is None:
                offsets.append(0)
                continue
            size = struct.calcsize("<" + field[1]) if field[0] == "scalar" else 4
            end = (end + size - 1) // size * size
            offsets.append(end)
            end += size
        self.align(2)
        vtable = len(self.bytes)
        self.bytes += struct.pack(f"<HH{len(offsets)}H", 4 + 2 * len(offsets), end, *offsets)
        self.align(8)
        place = len(self.bytes)
        self.bytes += struct.pack("<i", place - vtable) + bytes(end - 4)
        for field, offset in zip(fields, offsets):
            if field is not None and field[0] == "scalar":
                struct.pack_into("<" + field[1], self.bytes, place + offset, field[2])
        for field, offset in zip(fields, offsets):
            if field is not None and field[0] != "scalar":
                self.name(place + offset, self.put(field))
        return place


def metadata(root, align=8):
    buffer = Buffer()
    buffer.bytes += bytes(4)
    buffer.name(0, buffer.put(root))
    buffer.align(align, beyond=(align - 8) % align)
    return bytes(buffer.bytes)


def key_values(noted):
    """The field with the pairs of a schema, of a field or of a message, which is absent if there are none. A key or a value that
    is None is absent."""
    return [vector([table(*(None if it is None else text(it) for it in pair)) for pair in noted])] if noted else []


def frame(code, header, body=b"", align=8, noted=()):
    """The frame of a message of version V5 with this header and body."""
    words = metadata(table(scalar("h", 4), scalar("B", code), header, scalar("q", len(body)), *key_values(noted)), align)
    return b"\xff\xff\xff\xff" + struct.pack("<i", len(words)) + words + body


def as_v4(words):
    """The same frame, which has no pairs on its message, as version V4: the number is at the same offset in all of them."""
    return words[:28] + b"\x03" + words[29:]


def metadata_in(words):
    """The metadata of a frame."""
    return words[8:8 + int.from_bytes(words[4:8], "little")]


def of_type(name, *values):
    """A type by its name in Schema.fbs: its code in the union Type, and its table with these values of its fields, None for an
    absent one; the vtable ends with the last field that is present."""
    row, fields = BY_NAME[name], []
    for it, value in zip(row.fields, values):
        fields.append(None if value is None else text(value) if it.width == TEXT else scalar(it.letter, value))
    while fields and fields[-1] is None:
        fields.pop()
    return row.code, table(*fields)


NULL, BINARY, UTF8, BOOL, LIST, STRUCT = map(of_type, ("Null", "Binary", "Utf8", "Bool", "List", "Struct_"))
LARGE_BINARY, LARGE_UTF8, LARGE_LIST = map(of_type, ("LargeBinary", "LargeUtf8", "LargeList"))
integer, floating, date, timestamp, interval, fixed_size_binary, fixed_size_list, duration = (functools.partial(of_type, it) for it in (
    "Int", "FloatingPoint", "Date", "Timestamp", "Interval", "FixedSizeBinary", "FixedSizeList", "Duration"))
INT32 = integer(32, True)


def map_of(entries, keys_sorted=False):
    """The type of maps, and its one child: the field of the entries. `keys_sorted` is None if the type's table leaves it out."""
    return of_type("Map", keys_sorted), [entries]


def decimal(width, precision, scale):
    """The type of decimals of this many bits; each of the three is None if the type's table leaves it out."""
    return of_type("Decimal", precision, scale, width)


def time(unit):
    return of_type("Time", unit, 32 if unit < 2 else 64)


def dictionary(number, bits=32, signed=True, ordered=False):
    index = integer(bits, signed)[1]
    return table(scalar("q", number), index, scalar("B", ordered), scalar("h", 0))


def field(name, kind, children=(), nullable=True, encoding=None, noted=()):
    code, type_table = kind
    return table(text(name), scalar("B", nullable), scalar("B", code), type_table, encoding, vector(children),
                 *key_values(noted))


def schema(*fields, align=8, noted=()):
    """The schema frame of these columns, little-endian."""
    return frame(1, table(scalar("h", 0), vector(fields), *key_values(noted)), align=align)


class Column:
    """The nodes, as pairs of a length and a number of nulls, and the bytes of the buffers of a column."""

    def __init__(self, nodes, buffers):
        self.nodes, self.buffers = nodes, buffers

    def __len__(self):
        return self.nodes[0][0]


def bits(truths):
    """A bitmap: bit j is bit j mod 8, from the least significant, of byte j div 8."""
    packed = bytearray((len(truths) + 7) // 8)
    for place, truth in enumerate(truths):
        packed[place // 8] |= truth << place % 8
    return bytes(packed)


def node(values):
    return (len(values), sum(value is None for value in values))


def validity(values):
    return bits([value is not None for value in values]) if None in values else b""


def offsets(values, form="i"):
    ends = [0]
    for value in values:
        ends.append(ends[-1] + len(value or ()))
    return struct.pack(f"<{len(ends)}{form}", *ends)


# Columns of values, of which None is null.
def nulls(count):
    return Column([(count, count)], [])


def bools(values):
    return Column([node(values)], [validity(values), bits([bool(value) for value in values])])


def numbers(values, form="i"):
    """Numbers, or the indices of a dictionary-encoded column, by a format of the module struct."""
    packed = struct.pack(f"<{len(values)}{form}", *(value or 0 for value in values))
    return Column([node(values)], [validity(values), packed])


def strings(values, form="i"):
    """Texts or byte strings, whose offsets have a format of the module struct."""
    plain = [value.encode() if isinstance(value, str) else value for value in values]
    return Column([node(plain)], [validity(plain), offsets(plain, form), b"".join(value or b"" for value in plain)])


def lists(values, of, form="i"):
    """Lists, whose items are a column made by `of`, with offsets of this format."""
    child = of([item for value in values for item in value or ()])
    return Column([node(values)] + child.nodes, [validity(values), offsets(values, form)] + child.buffers)


def fixed_lists(values, size, of):
    """Lists of `size` items each, whose items are a column made by `of`; under a null list each item is null."""
    assert all(value is None or len(value) == size for value in values)
    child = of([item for value in values for item in (size * [None] if value is None else value)])
    return Column([node(values)] + child.nodes, [validity(values)] + child.buffers)


def structs(values, *children):
    """Structs. Only the nulls are taken from `values`: the children are columns."""
    nodes = [node(values)] + [pair for child in children for pair in child.nodes]
    return Column(nodes, [validity(values)] + [buffer for child in children for buffer in child.buffers])


def body_of(columns, align=8):
    """The nodes of the columns, the places of their buffers in a body, and the body."""
    places, body = [], Buffer()
    for buffer in (buffer for column in columns for buffer in column.buffers):
        places.append((len(body.bytes), len(buffer)))
        body.bytes += buffer
        body.align(align)
    return [pair for column in columns for pair in column.nodes], places, bytes(body.bytes)


COMPRESSION = table(scalar("b", 0), scalar("b", 0))


def record_batch(length, nodes, places, compressed=False):
    return table(scalar("q", length), pairs(nodes), pairs(places), *([COMPRESSION] if compressed else []))


def batch(*columns, length=None, compressed=False, align=8):
    """The frame of a record batch of these columns, with as many rows as the first one has slots."""
    nodes, places, body = body_of(columns, align)
    rows = len(columns[0]) if length is None else length
    return frame(3, record_batch(rows, nodes, places, compressed), body, align)


def dictionary_batch(number, values, delta=False, compressed=False, align=8):
    """The frame of a dictionary batch: all values of dictionary `number`, or with `delta` those appended to it."""
    nodes, places, body = body_of([values], align)
    data = record_batch(len(values), nodes, places, compressed)
    return frame(2, table(scalar("q", number), data, scalar("B", delta)), body, align)


# The frame of a schema of one nullable signed 32-bit column `n`, written out: the generated frame has to be equal.
ONE_COLUMN = bytes.fromhex("""
ff ff ff ff 90 00 00 00   10 00 00 00 0c 00 18 00
04 00 06 00 08 00 10 00   0c 00 00 00 04 00 01 00
18 00 00 00 00 00 00 00   00 00 00 00 00 00 00 00
08 00 0c 00 04 00 08 00   08 00 00 00 00 00 00 00
04 00 00 00 01 00 00 00   18 00 00 00 10 00 14 00
04 00 08 00 09 00 0c 00   00 00 10 00 00 00 00 00
14 00 00 00 10 00 00 00   01 02 00 00 1c 00 00 00
24 00 00 00 01 00 00 00   6e 00 08 00 09 00 04 00
08 00 00 00 00 00 00 00   0e 00 00 00 20 00 00 00
01 00 00 00 00 00 00 00
""")

# The frame of a record batch of that column: 1, null and 3.
ONE_BATCH = bytes.fromhex("""
ff ff ff ff 90 00 00 00   10 00 00 00 0c 00 18 00
04 00 06 00 08 00 10 00   0c 00 00 00 04 00 03 00
20 00 00 00 00 00 00 00   18 00 00 00 00 00 00 00
0a 00 18 00 08 00 10 00   14 00 00 00 00 00 00 00
10 00 00 00 00 00 00 00   03 00 00 00 00 00 00 00
0c 00 00 00 20 00 00 00   00 00 00 00 01 00 00 00
03 00 00 00 00 00 00 00   01 00 00 00 00 00 00 00
00 00 00 00 02 00 00 00   00 00 00 00 00 00 00 00
01 00 00 00 00 00 00 00   08 00 00 00 00 00 00 00
0c 00 00 00 00 00 00 00   05 00 00 00 00 00 00 00
01 00 00 00 00 00 00 00   03 00 00 00 00 00 00 00
""")

# The metadata of the same schema with the pair of `k` and `v`, written out: its Schema table has one more field, and is at offset
# 56 after a vtable of 10 bytes. The pairs are at 152, and their table at 168, after everything that was there.
NOTED_COLUMN = bytes.fromhex("""
10 00 00 00 0c 00 18 00   04 00 06 00 08 00 10 00
0c 00 00 00 04 00 01 00   20 00 00 00 00 00 00 00
00 00 00 00 00 00 00 00   0a 00 10 00 04 00 08 00
0c 00 00 00 00 00 00 00   10 00 00 00 00 00 00 00
08 00 00 00 54 00 00 00   01 00 00 00 14 00 00 00
10 00 14 00 04 00 08 00   09 00 0c 00 00 00 10 00
10 00 00 00 10 00 00 00   01 02 00 00 1c 00 00 00
24 00 00 00 01 00 00 00   6e 00 08 00 09 00 04 00
08 00 00 00 00 00 00 00   0e 00 00 00 20 00 00 00
01 00 00 00 00 00 00 00   01 00 00 00 0c 00 00 00
08 00 0c 00 04 00 08 00   08 00 00 00 08 00 00 00
0c 00 00 00 01 00 00 00   6b 00 00 00 01 00 00 00
76 00 00 00 00 00 00 00
""")

# Columns, and their bodies at an alignment of 8: nodes, places of the buffers, and bytes.
BODIES = [
    (numbers([1, None, 3]), [(3, 1)], [(0, 1), (8, 12)],
     "05 00 00 00 00 00 00 00 01 00 00 00 00 00 00 00 03 00 00 00 00 00 00 00"),
    (strings(["a", None, "bc"]), [(3, 1)], [(0, 1), (8, 16), (24, 3)],
     "05 00 00 00 00 00 00 00 00 00 00 00 01 00 00 00 01 00 00 00 03 00 00 00 61 62 63 00 00 00 00 00"),
    (bools([True, False, None, True]), [(4, 1)], [(0, 1), (8, 1)],
     "0b 00 00 00 00 00 00 00 09 00 00 00 00 00 00 00"),
    (lists([[1, 2], None, []], numbers), [(3, 1), (2, 0)], [(0, 1), (8, 16), (24, 0), (24, 8)],
     "05 00 00 00 00 00 00 00 00 00 00 00 02 00 00 00 02 00 00 00 02 00 00 00 01 00 00 00 02 00 00 00"),
    (fixed_lists([[1, None], None], 2, numbers), [(2, 1), (4, 3)], [(0, 1), (8, 1), (16, 16)],
     "01 00 00 00 00 00 00 00 01 00 00 00 00 00 00 00 01 00 00 00 00 00 00 00 00 00 00 00 00 00 00 00"),
    (structs([(), None], numbers([5, None])), [(2, 1), (2, 1)], [(0, 1), (8, 1), (16, 8)],
     "01 00 00 00 00 00 00 00 01 00 00 00 00 00 00 00 05 00 00 00 00 00 00 00"),
    (strings(["d", "e"]), [(2, 0)], [(0, 0), (0, 12), (16, 2)],
     "00 00 00 00 01 00 00 00 02 00 00 00 00 00 00 00 64 65 00 00 00 00 00 00"),
]


def check():
    """Ends the program if what is generated differs from what is written out."""
    one_column = schema(field("n", INT32))
    if one_column != ONE_COLUMN:
        sys.exit("the layout of a schema differs from the bytes that are written out")
    if metadata_in(schema(field("n", INT32), noted=[("k", "v")])) != NOTED_COLUMN:
        sys.exit("the layout of a schema with a pair differs from the bytes that are written out")
    numbers_frame = batch(numbers([1, None, 3]))
    if numbers_frame != ONE_BATCH:
        sys.exit("the layout of a batch differs from the bytes that are written out")
    aligned = schema(field("n", INT32), align=64), batch(numbers([1, None, 3]), align=64)
    if [len(part) for part in aligned] != [192, 320]:
        sys.exit("the frames that are aligned to 64 bytes have other sizes than they should")
    for column, nodes, places, body in BODIES:
        if body_of([column]) != (nodes, places, bytes.fromhex(body)):
            sys.exit(f"a body differs from the one that is written out: {body}")


if __name__ == "__main__":
    check()
