"""What `arrowflow check` and `arrowflow show` have to print for a stream, by an independent model: written from docs/FORMAT.md,
in another language, with no code and no definition of the crates. It reads a complete list of bytes, message by message.

`answers(bytes)` returns standard output, standard error and the exit status of each command. Limits are the defaults; the set of
types is the core, or the one that is given. Metadata is read by schema_model.py; the text of a floating-point number comes from
floats.py, that of an interval or a decimal from tools/arrow_types.py.
"""
import struct

from tools import floats, schema_model
from tools.arrow_types import BITS, BYTES, FIXED, FIXED_LISTS, FLOATING, INT, LISTS, NULLS, STRUCTS, TEXTS, WITH_OFFSETS
from tools.schema_model import CORE, Rejected, Unreadable, signed

MAX_ROWS = 2 ** 31 - 1


# ---- metadata of batches


class Batch:
    """What a dictionary batch or a record batch says about its rows, nodes and buffers; a record batch has no number."""

    def __init__(self, held, message):
        metadata = schema_model.Metadata(held)
        table, self.number, self.is_delta = message.header, None, False
        if message.code == 2:
            self.number = signed(metadata.scalar(table, 0, 8, 0), 8)
            self.is_delta = metadata.scalar(table, 2, 1, 0) != 0
            table = metadata.child(table, 1)
        self.length = signed(metadata.scalar(table, 0, 8, 0), 8)
        self.nodes = self.pairs(metadata, table, 1)
        self.buffers = self.pairs(metadata, table, 2)
        self.is_compressed = metadata.place_of(table, 3) is not None

    def pairs(self, metadata, table, field):
        first, count = metadata.vector(table, field, 16)
        return [struct.unpack_from("<qq", metadata.held, first + 16 * at) for at in range(count)]


def plain(field):
    """The field of a dictionary's values."""
    return {**field, "encoding": None}


def count_nodes(fields):
    return sum(1 if it["encoding"] else 1 + count_nodes(it["children"]) for it in fields)


# ---- columns


def form_of(field):
    """The Form of what a column itself holds; for an encoded one that of its indices."""
    return INT.form(field["encoding"][1]) if field["encoding"] else schema_model.form_of(field)


def bit(held, at):
    return held[at // 8] >> at % 8 & 1


class Column:
    """A node of a body: its slots, which of them are valid, and their contents."""

    def __init__(self, field, length, validity, held, children=()):
        self.field, self.length, self.validity, self.held, self.children = field, length, validity, held, children
        self.form, self.dictionary = form_of(field), None

    def is_valid(self, at):
        return self.form.layout != NULLS and (not self.validity or bit(self.validity, at) == 1)

    def numbers(self, at):
        """The numbers in a slot, or its bytes."""
        return self.form.unpacked(self.held[0], at)

    def index(self, at):
        return self.numbers(at)[0]

    def span(self, at, count=2):
        """The first and the last offset of a slot's values, or `count` offsets."""
        return struct.unpack_from(f"<{count}{self.form.slot}", self.held[0], self.form.width * at)

    def items(self, at):
        """The slots of the child that are the items of a list."""
        size = self.form.size
        return range(size * at, size * (at + 1)) if self.form.layout == FIXED_LISTS else range(*self.span(at))

    def leaf(self, at):
        """The bit, the numbers or the bytes of a slot of a type without children."""
        if self.form.layout == BITS:
            return bit(self.held[0], at)
        return self.held[1][slice(*self.span(at))] if self.form.layout in WITH_OFFSETS else self.numbers(at)

    def entry(self, at):
        """The column of a dictionary and the slot in it that an index refers to."""
        index = self.index(at)
        for column in self.dictionary:
            if index < column.length:
                return column, index
            index -= column.length
        raise AssertionError

    def is_null(self, at):
        if not self.is_valid(at):
            return True
        if not self.field["encoding"]:
            return False
        column, slot = self.entry(at)
        return column.is_null(slot)

    def inside(self, at):
        return "null" if self.is_null(at) else self.text(at)

    def text(self, at):
        """What is shown for a slot that is not null."""
        layout = self.form.layout
        if self.field["encoding"]:
            column, slot = self.entry(at)
            return column.text(slot)
        if layout == STRUCTS:
            return "{" + ";".join(f"{it.field['name'].decode()}={it.inside(at)}" for it in self.children) + "}"
        if layout in (LISTS, FIXED_LISTS):
            return "[" + ";".join(map(self.children[0].inside, self.items(at))) + "]"
        return text_of(self.field, self.form, self.leaf(at))


def text_of(field, form, leaf):
    """What is shown for a value of a type without children."""
    if form.layout == BITS:
        return "true" if leaf else "false"
    if form.layout == TEXTS:
        return leaf.decode()
    if form.layout in (BYTES, FIXED):
        return (leaf if form.layout == BYTES else leaf[0]).hex()
    return floats.text(*field["type"], *leaf) if field["code"] == FLOATING.code else form.text(*leaf)


class Body:
    """Takes nodes and buffers from the front, in pre-order; anything that is not a column is Layout."""

    def __init__(self, batch, held):
        self.nodes, self.buffers, self.held = iter(batch.nodes), iter(batch.buffers), held
        self.every = []

    def need(self, holds):
        if not holds:
            raise Rejected("Layout")

    def buffer(self):
        offset, length = next(self.buffers, (0, -1))
        self.need(length >= 0 and (length == 0 or offset >= 0 and offset + length <= len(self.held)))
        return self.held[offset:offset + length] if length else b""

    def column(self, field):
        length, nulls = next(self.nodes, (-1, 0))
        self.need(0 <= length <= MAX_ROWS)
        form = form_of(field)
        if form.layout == NULLS:
            return self.keep(Column(field, length, b"", []))
        validity = self.buffer()
        self.need(not validity or 8 * len(validity) >= length)
        zeros = length - sum(bin(byte).count("1") for byte in validity[:length // 8]) - sum(
            bit(validity, at) for at in range(length // 8 * 8, length)) if validity else 0
        self.need(nulls in (-1, zeros))
        column = self.keep(Column(field, length, validity, []))
        if form.layout == STRUCTS:
            column.children = [self.column(it) for it in field["children"]]
            self.need(all(it.length >= length for it in column.children))
        elif form.layout == FIXED_LISTS:
            column.children = [self.column(field["children"][0])]
            self.need(column.children[0].length >= form.size * length)
        elif form.layout in WITH_OFFSETS:
            column.held = [self.buffer()]
            if form.layout == LISTS:
                column.children = [self.column(field["children"][0])]
                self.rise(column, column.children[0].length)
            else:
                column.held.append(self.buffer())
                self.rise(column, len(column.held[1]))
        else:
            column.held = [self.values((length + 7) // 8 if form.layout == BITS else length * form.width)]
        return column

    def keep(self, column):
        self.every.append(column)
        return column

    def values(self, least):
        held = self.buffer()
        self.need(len(held) >= least)
        return held

    def rise(self, column, top):
        """If there are no slots, the offsets may be left out; otherwise the first is not below 0, none is less than the one
        before, and the last is at most the top."""
        offsets, length = column.held[0], column.length
        if not offsets and length == 0:
            return
        self.need(len(offsets) >= column.form.width * (length + 1))
        found = column.span(0, length + 1)
        self.need(found[0] >= 0 and found[-1] <= top and all(one <= other for one, other in zip(found, found[1:])))

    def columns(self, fields, rows, dictionaries):
        """The columns, checked in three passes: Layout, Text, Index."""
        columns = [self.column(it) for it in fields]
        self.need(all(it.length == rows for it in columns))
        for column in self.every:
            if column.form.layout == TEXTS:
                self.check_texts(column)
        for column in self.every:
            if column.field["encoding"]:
                column.dictionary = list(dictionaries.get(column.field["encoding"][0], []))
                count = sum(it.length for it in column.dictionary)
                if any(column.is_valid(at) and not 0 <= column.index(at) < count for at in range(column.length)):
                    raise Rejected("Index")
        return columns

    def check_texts(self, column):
        try:
            for at in range(column.length):
                if column.is_valid(at):
                    column.text(at)
        except UnicodeDecodeError:
            raise Rejected("Text") from None


# ---- streams


def quoted(field):
    return '"' + field.replace('"', '""') + '"' if any(it in field for it in ',"\r\n') else field


class Reader:
    """The messages at the start of a stream: the lines of `check`, and the records of `show`."""

    def __init__(self, stream, types=CORE):
        self.types = types
        self.stream, self.place, self.schema, self.dictionaries, self.batches = stream, 0, None, {}, 0
        self.lines, self.records, self.is_done = [], [], False

    def run(self):
        """Reads all messages; returns the kind with which the stream ends, or no kind."""
        try:
            while self.message():
                pass
        except Rejected as error:
            return str(error)
        if self.is_done:
            return None
        if self.schema is None:
            return "NoSchema"
        if len(self.stream) > self.place:
            return "Truncated"
        self.lines.append(f"at {self.place}: end of input")
        return None

    def message(self):
        """Reads a message; returns whether it was complete, and not an end marker."""
        stream, place = self.stream, self.place
        if len(stream) - place < 8:
            return False
        if stream[place:place + 4] != b"\xff" * 4:
            raise Rejected("Continuation")
        size = int.from_bytes(stream[place + 4:place + 8], "little", signed=True)
        if size < 0 or size > schema_model.MAX_METADATA:
            raise Rejected("MetadataSize")
        if size == 0:
            if self.schema is None:
                raise Rejected("NoSchema")
            self.lines.append(f"at {place}: end marker")
            self.is_done = True
            return False
        start = place + 8 + size
        if len(stream) < start:
            return False
        held = stream[place + 8:start]
        try:
            message = schema_model.read_message(held, self.types)
        except Unreadable:
            raise Rejected("Metadata") from None
        batch = self.judge(message, held, start)
        if len(stream) < start + message.body:
            return False
        self.take(message, batch, stream[start:start + message.body])
        self.place = start + message.body
        return True

    def judge(self, message, held, start):
        """Rejects metadata with the least kind; returns the batch, if it is one."""
        if self.schema is None:
            schema_model.judge(message, start + message.body, self.types)
            return None
        if message.version not in schema_model.READ_VERSIONS:
            raise Rejected("Version")
        if message.code not in (1, 2, 3) or message.header is None:
            raise Rejected("Header")
        if message.body < 0 or message.body > schema_model.MAX_BODY:
            raise Rejected("BodyLength")
        if message.code == 1:
            raise Rejected("Order")
        batch = Batch(held, message)
        if batch.is_compressed:
            raise Rejected("Compressed")
        batch.fields, known = self.schema.fields, 0
        if message.code == 2:
            found = [it for it in schema_model.all_fields(self.schema.fields) if it["encoding"] and it["encoding"][0] == batch.number]
            if not found:
                raise Rejected("UnknownId")
            if batch.is_delta and batch.number not in self.dictionaries:
                raise Rejected("NoBase")
            batch.fields = [plain(found[0])]
            known = self.count(batch.number) if batch.is_delta else 0
        lengths = [it for it, _ in batch.nodes[:count_nodes(batch.fields)]]
        if any(not 0 <= it <= MAX_ROWS for it in [batch.length, *lengths]) or known + batch.length > MAX_ROWS:
            raise Rejected("Rows")
        return batch

    def count(self, number):
        return sum(it.length for it in self.dictionaries[number])

    def take(self, message, batch, body):
        """Records the effects of a complete message: dictionaries, lines and records."""
        if batch is None:
            self.schema = message.schema
            self.lines.append(f"at {self.place}: schema, {len(self.schema.fields)} columns")
            self.records.append(["batch", *(it["name"].decode() for it in self.schema.fields)])
            return
        columns = Body(batch, body).columns(batch.fields, batch.length, self.dictionaries)
        if message.code == 2:
            self.dictionaries[batch.number] = (self.dictionaries[batch.number] if batch.is_delta else []) + columns
            self.lines.append(f"at {self.place}: dictionary {batch.number}, now {self.count(batch.number)} values")
            return
        self.lines.append(f"at {self.place}: batch {self.batches}, {batch.length} rows")
        self.records.append((self.batches, batch.length, columns))
        self.batches += 1

    def rows(self):
        return sum(it[1] for it in self.records if isinstance(it, tuple))

    def text(self):
        """The records of `show`."""
        found = []
        for it in self.records:
            if isinstance(it, list):
                found.append(it)
            else:
                number, length, columns = it
                found += ([str(number), *("" if column.is_null(at) else column.text(at) for column in columns)] for at in range(length))
        return "".join(",".join(map(quoted, it)) + "\n" for it in found).encode()


def answers(stream, most_rows=100_000, types=CORE):
    """What `check` has to print, and `show`, or None for `show` if there are more rows than this."""
    reader = Reader(stream, types)
    kind = reader.run()
    fault, status = (f"fault at byte {reader.place}: {kind}\n".encode(), 1) if kind else (b"", 0)
    checked = "".join(it + "\n" for it in reader.lines).encode(), fault, status
    return checked, (reader.text(), fault, status) if reader.rows() <= most_rows else None
