"""What a reader has to answer for a stream, call by call, in plain text: by the model in tools/stream_model.py, which was
written only from docs/FORMAT.md. vectors/README.md says what the lines mean."""
import json
import pathlib

from tools import schema_model, stream_model
from tools.arrow_types import BY_NAME, BYTES, DECIMAL, FIXED, FIXED_LISTS, FLOATING, LISTS, NUMBERS, STRUCTS, TEXTS
from tools.schema_model import ALL, CORE

TOP = pathlib.Path(__file__).resolve().parent.parent.parent
# The types besides floating point for which a vector gives the shown text after the value; and the most bytes of a value that it
# gives as a number.
WITH_TEXTS = BY_NAME["Interval"].code, DECIMAL.code
WIDEST = 16
# The prefix of the names of the vectors that are read with all types.
OF_ALL = "all/"


def types_of(name):
    """The set of types with which a vector, or a family, is read."""
    return ALL if folder_of(name) == OF_ALL else CORE


def folder_of(name):
    """The folder of a vector, or of a family."""
    return OF_ALL if name.startswith(OF_ALL) else ""


def place_of(name):
    """The place below vectors/ of a vector, of a file of it, or of a family."""
    return f"{'families' if name.endswith('.changes') else 'streams'}/{name}"


def names_in(files):
    """The names of the vectors and of the families that have these files: first those that are read with the core, each in
    order."""
    its = (it.removesuffix(".txt") for it in files if it.endswith((".txt", ".changes")))
    return sorted(its, key=lambda it: (folder_of(it), it))


def value(column, at):
    """A slot's value; by a dictionary, the index and what it refers to."""
    if not column.is_valid(at):
        return "null"
    if column.field["encoding"]:
        return f"{column.index(at)} -> {value(*column.entry(at))}"
    layout = column.form.layout
    if layout == TEXTS:
        return json.dumps(column.text(at), ensure_ascii=False)
    if layout in (BYTES, FIXED):
        return f'x"{column.text(at)}"'
    if layout in (LISTS, FIXED_LISTS):
        return "[" + ", ".join(value(column.children[0], it) for it in column.items(at)) + "]"
    if layout == NUMBERS:
        return number(column, at)
    if layout == STRUCTS:
        names = (json.dumps(it.field["name"].decode(), ensure_ascii=False) for it in column.children)
        return "{" + ", ".join(f"{name}: {value(it, at)}" for name, it in zip(names, column.children)) + "}"
    return column.text(at)


def number(column, at):
    """The number in a slot: for a floating-point one the bits, for several numbers or one of 32 bytes the bytes that they take;
    for these, for months and for decimals also the text that is shown."""
    form, its = column.form, column.numbers(at)
    if column.field["code"] == FLOATING.code:
        return f"0x{its[0]:0{2 * form.width}x}={column.text(at)}"
    held = str(its[0]) if len(its) == 1 and form.width <= WIDEST else f'x"{form.packed(its).hex()}"'
    return f"{held}={column.text(at)}" if column.field["code"] in WITH_TEXTS else held


def pairs(noted):
    return "".join(f' x"{key.hex()}"=x"{held.hex()}"' for key, held in noted)


def columns(fields, level=1):
    """The lines of a schema's columns, and of the custom metadata of each."""
    for field in fields:
        yield "  " * level + "column " + schema_model.lines([{**field, "children": []}]).decode().rstrip("\n")
        if field["pairs"]:
            yield "  " * level + "  metadata" + pairs(field["pairs"])
        yield from columns(field["children"], level + 1)


class LineWriter(stream_model.Reader):
    """A reader that writes a line about each message that it accepts."""

    def __init__(self, held, types):
        super().__init__(held, types)
        self.messages = []

    def take(self, message, batch, body):
        super().take(message, batch, body)
        self.now = message, batch

    def message(self):
        place, known = self.place, self.batches
        was_complete = super().message()
        if self.is_done:
            self.messages.append("take 8 end")
        elif was_complete:
            self.messages += [f"take {self.place - place} {it}" if not at else it for at, it in enumerate(self.item(known))]
        return was_complete

    def item(self, known):
        message, batch = self.now
        if batch is None:
            yield "schema"
            if self.schema.pairs:
                yield "  metadata" + pairs(self.schema.pairs)
            yield from columns(self.schema.fields)
        elif message.code == 2:
            yield f"dictionary {batch.number} of {self.count(batch.number)}"
            yield from (f"  value {value(it, at)}" for it in self.dictionaries[batch.number] for at in range(it.length))
        else:
            yield f"batch of {batch.length}"
            for at in range(batch.length):
                yield ("  row " + ", ".join(value(it, at) for it in self.records[-1][2])).rstrip()


def answers(held, types=CORE):
    """The lines of all calls of `read` in one piece and of `end`, with a set of types."""
    writer = LineWriter(held, types)
    kind = writer.run()
    left = len(held) - writer.place
    if writer.is_done:
        ending = ["take 0 nothing", "end clean"]
    elif kind in (None, "Truncated") or kind == "NoSchema" and not is_early_end(held, writer.place):
        ending = [f"take {left} nothing", f"hold {left}", f"end {kind} at {writer.place}" if kind else "end clean"]
    else:
        ending = [f"refuse {kind} at {writer.place}", f"end {kind} at {writer.place}"]
    return "".join(it + "\n" for it in [*writer.messages, *ending])


def ending(held, types=CORE):
    """How many batches and rows all calls return, and how the stream ends, with a set of types."""
    reader = stream_model.Reader(held, types)
    kind = reader.run()
    return f"batches {reader.batches} rows {reader.rows()} end {f'{kind} at {reader.place}' if kind else 'clean'}"


def is_early_end(held, place):
    """Whether an end marker is at this offset, which is an error before the schema."""
    return held[place:place + 8] == b"\xff" * 4 + bytes(4)
