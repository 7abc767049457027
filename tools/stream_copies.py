"""What is written for a stream in each way, made by tools/frames.py from the values that the model reads: by the chapters of
docs/FORMAT.md on bodies as written and on dictionaries. The schema is copied unchanged, so it has to be one of frames.py."""
import struct

from tools import frames, stream_model, typed_columns
from tools.arrow_types import FIXED_LISTS, LISTS, STRUCTS
from tools.frame_parts import split
from tools.frames import END_MARKER
from tools.schema_model import CORE, all_fields

# The ways as the program numbers them: whether deltas are sent, and the alignment.
WAYS = [(True, 8), (False, 8), (True, 64), (False, 64)]


def again(field, its):
    """A column of slots, each given by a column and an index in it, or None for a null."""
    its = [None if it is None or not it[0].is_valid(it[1]) else it for it in its]
    form, children = stream_model.form_of(field), field["children"]
    if form.layout == STRUCTS:
        return frames.structs([it and () for it in its], *(again(child, [it and (it[0].children[at], it[1]) for it in its])
            for at, child in enumerate(children)))
    if form.layout in (LISTS, FIXED_LISTS):
        items = [it and [(it[0].children[0], at) for at in it[0].items(it[1])] for it in its]

        def below(found):
            return again(children[0], found)
        return frames.fixed_lists(items, form.size, below) if form.layout == FIXED_LISTS else frames.lists(items, below, form.slot)
    return typed_columns.column_of(form)([it and it[0].leaf(it[1]) for it in its])


def aligned(frame, align):
    """A frame without a body, whose metadata is padded to the alignment."""
    words = frames.metadata_in(frame)
    words += bytes(-(len(words) + 8) % align)
    return frame[:4] + struct.pack("<i", len(words)) + words


def ids_in(fields):
    """The fields of values keyed by their ids, in pre-order."""
    found = {}
    for field in all_fields(fields):
        if field["encoding"]:
            found.setdefault(field["encoding"][0], stream_model.plain(field))
    return found


def values_of(field, columns):
    """The slots of a dictionary, and for each what distinguishes it from others."""
    its = [(column, at) for column in columns for at in range(column.length)]
    return its, [(again(field, [it]).nodes, again(field, [it]).buffers) for it in its]


class Copier(stream_model.Reader):
    """A reader that writes what it reads."""

    def __init__(self, held, way, types):
        super().__init__(held, types)
        self.has_deltas, self.align = WAYS[way]
        self.written, self.sent = [aligned(next(split(held)), self.align)], {}

    def take(self, message, batch, body):
        super().take(message, batch, body)
        if batch is not None and message.code == 3:
            for number, field in ids_in(self.schema.fields).items():
                self.send(number, field)
            columns = [again(it.field, [(it, at) for at in range(it.length)]) for it in self.records[-1][2]]
            self.written.append(frames.batch(*columns, length=batch.length, align=self.align))

    def send(self, number, field):
        """Sends a dictionary if it differs from what was sent."""
        its, values = values_of(field, self.dictionaries.get(number, []))
        known = self.sent.get(number)
        if values == known:
            return
        is_delta = self.has_deltas and known is not None and values[:len(known)] == known
        column = again(field, its[len(known):] if is_delta else its)
        self.written.append(frames.dictionary_batch(number, column, is_delta, align=self.align))
        self.sent[number] = values


def copy(held, way, types=CORE):
    """What is written for a stream that ends without a fault."""
    copier = Copier(held, way, types)
    assert copier.run() is None
    return b"".join(copier.written) + (END_MARKER if copier.is_done else b"")
