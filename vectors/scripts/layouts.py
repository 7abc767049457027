"""Columns of nine slots of each type, and each condition of their layout by itself: a column becomes invalid if anything is taken
from a buffer or added to a number of nulls, since the buffers are exactly as long as nine slots need, and the first slot is
null."""
from tools import frames
from tools.arrow_types import BITS, BYTES, TEXTS
from tools.frame_parts import Stream
from tools.frames import Column, batch
from raw_frames import FAR_BEFORE, i32, raw_batch
from results import CORE, ending

SLOTS = 9
FF = "ff" * 8
# Numbers of nulls that are wrong, and the one that means unknown.
NULLS, UNTOLD = [0, 2, 9, -2, -2 ** 63], -1


def number(value):
    return (value % 2 ** 64).to_bytes(8, "little").hex()


class Nine:
    """A column of nine slots, the first of which is null, over a value that it hides. `width` is that of its offsets, or 0;
    `lies` is the layout of its values, or for indices their number of bytes; `validities` are the buffers that are validity
    bitmaps."""

    def __init__(self, column, width=0, lies="", validities=(0,)):
        self.column, self.width, self.lies, self.validities = column, width, lies, validities
        self.has_validity = bool(column.buffers)
        if self.has_validity:
            self.column = Column([(SLOTS, 1), *column.nodes[1:]], [b"\xfe\x01", *column.buffers[1:]])

    def bare(self):
        """The same without a validity: the value under the null is visible."""
        if not self.has_validity:
            return self.column
        return Column([(SLOTS, 0), *self.column.nodes[1:]], [b"", *self.column.buffers[1:]])

    def spare(self):
        """Bits set after the last slot, other bytes under the null, and a last slot that ends before the last byte or item."""
        buffers = list(self.column.buffers)
        if self.has_validity:
            buffers[0] = b"\xfe\xff"
        if self.lies == BITS:
            buffers[1] = buffers[1][:1] + b"\xff"
        if isinstance(self.lies, int):
            buffers[1] = b"\xff" * self.lies + buffers[1][self.lies:]
        if self.width:
            buffers[1] = buffers[1][:-self.width] + (SLOTS - 1).to_bytes(self.width, "little")
        if self.lies in (TEXTS, BYTES):
            buffers[2] = b"\xff" + buffers[2][1:]
        return Column(self.column.nodes, buffers)

    def batches(self):
        """The column unchanged, with such bits and bytes, and without a validity."""
        return batch(self.column), batch(self.spare()), batch(self.bare())


def untold(columns):
    """Batches of columns by this project's own choices: with no number of nulls, with an absent validity far before the body, and
    without slots, in buffers far before the body."""
    def of(its, how, empty=False):
        nodes, places, body = frames.body_of(its)
        count = sum(len(it.nodes) for it in its)
        return raw_batch(0 if empty else SLOTS, [how(it) for it in nodes[:count]], [(FAR_BEFORE, 0) if empty or not length else
            (offset, length) for offset, length in places], body)
    plain, bare = [it.column for it in columns], [it.bare() for it in columns]
    return (of(plain, lambda it: (it[0], UNTOLD)), of(bare, lambda it: it), of(bare, lambda it: (it[0], UNTOLD)),
        of(plain, lambda it: (0, 0), True))


class Conditions:
    """Changes of the batch of nine slots, a frame `nine` of a stream that is read with a set of types."""

    def __init__(self, nine, around, types=CORE):
        self.nine, self.of, self.types, self.lines = nine, Stream(**around), types, []
        self.nodes, self.places, self.body = frames.body_of([nine.column])

    def add(self, settings):
        prefix = ", ".join(f"{name} at {self.of.place(name)} := {words}" for name, words in settings.items())
        self.lines.append(f"{prefix} -> {ending(self.of.changed(settings), self.types)}")

    def buffer(self, at, offset=None, length=None):
        name = f"nine.header.buffers.{at}"
        return {f"{name}.{it}": number(value) for it, value in (("offset", offset), ("length", length)) if value is not None}

    def node(self, at, length=None, nulls=None):
        name = f"nine.header.nodes.{at}"
        return {f"{name}.{it}": number(value) for it, value in (("length", length), ("null_count", nulls)) if value is not None}

    def uncounted(self):
        return {name: words for at in range(len(self.nodes)) for name, words in self.node(at, nulls=UNTOLD).items()}

    def malformed(self):
        """Buffers that are too short, are not inside the body or are missing, missing nodes, and short children."""
        for at, (_, length) in enumerate(self.places):
            self.add(self.empty() | self.buffer(at, length=-1))
            if not length:
                continue
            self.add(self.buffer(at, length=length - 1))
            self.add(self.buffer(at, length=-length))
            self.add(self.buffer(at, offset=-1))
            self.add(self.buffer(at, offset=len(self.body) - length + 1))
            self.add(self.buffer(at, offset=2 ** 63 - 1))
            self.add({**self.buffer(at, length=length - 1), **self.uncounted()})
            if at not in self.nine.validities:
                self.add(self.buffer(at, length=0))
        if self.places:
            self.add({"nine.header.buffers.count": i32(len(self.places) - 1).hex()})
        self.add({"nine.header.nodes.count": i32(len(self.nodes) - 1).hex()})
        for at in range(1, len(self.nodes)):
            self.add(self.node(at, self.nodes[at][0] - 1, UNTOLD))
        for name, words in self.bytes():
            self.add({name: words})

    def empty(self):
        """No slots, in no bytes."""
        settings = {"nine.header.length": number(0)}
        for at in range(len(self.nodes)):
            settings |= self.node(at, 0, 0)
        for at in range(len(self.places)):
            settings |= self.buffer(at, length=0)
        return settings

    def bytes(self):
        """Offsets that are negative, decrease or lead too far; texts that are not UTF-8; indices without a value."""
        width, lies, body = self.nine.width, self.nine.lies, "nine.body"
        if width:
            yield f"{body}.1[{width - 1}]", "80"
            yield f"{body}.1[{width}]", "09"
            yield f"{body}.1[{SLOTS * width}]", "0a"
            yield f"{body}.1[{SLOTS * width + width - 1}]", "01"
        if lies == TEXTS:
            yield from ((f"{body}.2[{at}]", word) for at, word in ((1, "ff"), (SLOTS - 1, "ff"), (1, "c3")))
        if isinstance(lies, int):
            yield f"{body}.1[{lies}]", "09"
            yield f"{body}.1[{2 * lies - 1}]", "80"
            yield f"{body}.1[{(SLOTS - 1) * lies}]", "09"
            if lies > 1:
                yield f"{body}.1[{lies + 1}]", "01"

    def own(self):
        """Numbers of nulls that are not those of the bits, and other bits."""
        for at in range(len(self.nodes)):
            for nulls in (*NULLS, UNTOLD):
                if nulls != self.nodes[at][1]:
                    self.add(self.node(at, nulls=nulls))
        for at in self.nine.validities if self.nine.has_validity else ():
            if self.places[at][1]:
                self.add(self.buffer(at, length=0))
        if self.nine.has_validity:
            self.add(self.buffer(0, FAR_BEFORE, 0))
            self.add({"nine.body.0[0]": "fc"})
            self.add({"nine.body.0[1]": "00"})

    def all(self):
        self.malformed()
        malformed, self.lines = self.lines, []
        self.own()
        return ["binds malformed", *malformed, "binds own", *self.lines]
