"""The parts of frames by their names: the offset of each, found by following the bytes themselves, from the prefix through the
tables of Message.fbs and Schema.fbs to the buffers of the body.

A part of a frame is named by the path to it: `header.nodes.0.null_count`, `header.fields.0.name.bytes`. If a field is an offset,
its own name means the four bytes of the offset, and what it refers to has names that begin with this name. A table has
`to_vtable` and `vtable`, with `size`, `table_size` and an entry for each field; a vector or a text has `count`; `prefix` has
`continuation` and `size`, `root` is the offset to the Message, and `body.N` are the bytes of buffer N. Bytes that no part names
are `between`.
"""
import struct

from tools.arrow_types import TYPES

# The fields of each table in the order of their numbers: a number of bytes, `text`, a table, a vector of tables in brackets, or a
# vector of pairs of two numbers; a union is opened by the code before it.
TABLES = {
    "Message": "version:2 header_type:1 header:header body_length:8 custom_metadata:[KeyValue]",
    "Schema": "endianness:2 fields:[Field] custom_metadata:[KeyValue]",
    "Field": "name:text nullable:1 type_type:1 type:type dictionary:DictionaryEncoding children:[Field] custom_metadata:[KeyValue]",
    "KeyValue": "key:text value:text",
    "DictionaryEncoding": "id:8 index_type:Int is_ordered:1 dictionary_kind:2",
    "RecordBatch": "length:8 nodes:length,null_count buffers:offset,length",
    "DictionaryBatch": "id:8 data:RecordBatch is_delta:1",
    **{of.name: " ".join(f"{it.name}:{it.width}" for it in of.fields) for of in TYPES}, "": "",
}
FIELDS = {name: [tuple(it.split(":")) for it in words.split()] for name, words in TABLES.items()}
UNIONS = {"header": {1: "Schema", 2: "DictionaryBatch", 3: "RecordBatch"}, "type": {it.code: it.name for it in TYPES}}


class Parts:
    """The parts of one frame, which begins at an offset of a stream; of vectors all elements, or at most a given number."""

    def __init__(self, held, start=0, most=None):
        self.held, self.start, self.most, self.found = held, start, most, {}
        self.put("prefix.continuation", 0, 4)
        self.put("prefix.size", 4, 4)
        size = struct.unpack_from("<i", held, 4)[0]
        if size:
            self.put("root", 8, 4)
            self.table("", self.target(8), "Message")
            self.body(8 + size)

    def put(self, name, place, size):
        self.found[name] = range(self.start + place, self.start + place + size)

    def number(self, name):
        """The number in a part, 0 if it is absent."""
        its = self.found.get(name, range(self.start, self.start))
        return int.from_bytes(self.held[its.start - self.start:its.stop - self.start], "little")

    def target(self, place):
        return place + struct.unpack_from("<I", self.held, place)[0]

    def table(self, path, place, kind):
        """The parts of a table; fields whose entry is 0 or is after the end of the vtable are absent."""
        vtable = place - struct.unpack_from("<i", self.held, place)[0]
        size = struct.unpack_from("<H", self.held, vtable)[0]
        self.put(f"{path}to_vtable", place, 4)
        self.put(f"{path}vtable.size", vtable, 2)
        self.put(f"{path}vtable.table_size", vtable + 2, 2)
        for number, (name, what) in enumerate(FIELDS[kind]):
            at = vtable + 4 + 2 * number
            if at + 2 <= vtable + size:
                self.put(f"{path}vtable.{name}", at, 2)
                entry = struct.unpack_from("<H", self.held, at)[0]
                if entry:
                    self.field(path + name, place + entry, what)

    def field(self, path, place, what):
        if what.isdigit():
            return self.put(path, place, int(what))
        self.put(path, place, 4)
        at = self.target(place)
        if what == "text":
            self.put(f"{path}.count", at, 4)
            return self.put(f"{path}.bytes", at + 4, self.number(f"{path}.count"))
        if "," in what or what.startswith("["):
            return self.vector(path, at, what)
        return self.table(f"{path}.", at, UNIONS[what].get(self.number(f"{path}_type"), "") if what in UNIONS else what)

    def vector(self, path, place, what):
        self.put(f"{path}.count", place, 4)
        for number in range(self.number(f"{path}.count"))[:self.most]:
            if what.startswith("["):
                at = place + 4 + 4 * number
                self.put(f"{path}.{number}", at, 4)
                self.table(f"{path}.{number}.", self.target(at), what[1:-1])
            else:
                for half, name in enumerate(what.split(",")):
                    self.put(f"{path}.{number}.{name}", place + 4 + 16 * number + 8 * half, 8)

    def body(self, start):
        batch = "header.data." if "header.data.length" in self.found else "header."
        for number in range(self.number(f"{batch}buffers.count")):
            offset, length = (self.number(f"{batch}buffers.{number}.{it}") for it in ("offset", "length"))
            if length:
                self.put(f"body.{number}", start + offset, length)


class Stream:
    """Frames with names, and the stream that they are when some of their bytes are changed. A part is named after its frame; a
    byte of it by its index, so `NAME[2]` is its third byte."""

    def __init__(self, most=None, **frames):
        self.frames, self.parts, place = frames, {}, 0
        for name, held in frames.items():
            self.parts.update({f"{name}.{part}": its for part, its in Parts(held, place, most).found.items()})
            place += len(held)

    def held(self):
        return b"".join(self.frames.values())

    def place(self, name):
        part, _, at = name.partition("[")
        return self.parts[part][int(at.rstrip("]") or 0)]

    def changed(self, settings):
        """The stream in which parts have these bytes, which are given in hexadecimal digits."""
        held = bytearray(self.held())
        for name, words in settings.items():
            place, its = self.place(name), bytes.fromhex(words)
            held[place:place + len(its)] = its
        return bytes(held)

    def names(self):
        """The name of each byte of the stream."""
        found = [f"{name}.between" for name, held in self.frames.items() for _ in held]
        for part, its in self.parts.items():
            for at, place in enumerate(its):
                found[place] = part if len(its) == 1 else f"{part}[{at}]"
        return found


def split(held):
    """The frames of a stream."""
    place = 0
    while place < len(held):
        size = struct.unpack_from("<i", held, place + 4)[0]
        end = place + 8 + size + (Parts(held[place:]).number("body_length") if size else 0)
        yield held[place:end]
        place = end
