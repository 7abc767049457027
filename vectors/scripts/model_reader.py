"""The model in tools/stream_model.py as a reader for vectors/runner.py."""
from tools import stream_model
from tools.arrow_types import BITS, BYTES, FIXED, FIXED_LISTS, LISTS, STRUCTS, TEXTS
from tools.schema_model import ALL
from vectors.scripts import results

# If a column of a batch, or a child, has more slots, only the number of rows or values is returned.
MOST = 100_000


class Rejection(Exception):
    """The stream is rejected; the text has the kind and the offset."""


REJECTED = Rejection


def value(column, at):
    """A slot's value as the runner defines it."""
    if not column.is_valid(at):
        return None
    if column.field["encoding"]:
        return value(*column.entry(at))
    layout = column.form.layout
    if layout == STRUCTS:
        return tuple(value(it, at) for it in column.children)
    if layout in (LISTS, FIXED_LISTS):
        return [value(column.children[0], it) for it in column.items(at)]
    leaf = column.leaf(at)
    if layout in (BITS, TEXTS, BYTES):
        return {BITS: bool, TEXTS: bytes.decode, BYTES: bytes}[layout](leaf)
    is_one = layout == FIXED or len(leaf) == 1 and column.form.width <= results.WIDEST
    return leaf[0] if is_one else column.form.packed(leaf)


def slots(column):
    """The most slots that a column or a child has."""
    return max(column.length, *map(slots, column.children), 0)


def elements(columns, count, its):
    """What `its` returns, or only the number of it."""
    return [*its()] if max(map(slots, columns), default=count) <= MOST else count


class Collector(stream_model.Reader):
    """A reader that collects the items of a stream."""

    def __init__(self, held, types):
        super().__init__(held, types)
        self.items = []

    def take(self, message, batch, body):
        super().take(message, batch, body)
        if batch is None:
            noted = ["metadata" + results.pairs(self.schema.pairs)] if self.schema.pairs else []
            self.items.append(("schema", noted + [it.removeprefix("  ") for it in results.columns(self.schema.fields)]))
        elif message.code == 2:
            columns = self.dictionaries[batch.number]
            self.items.append(("dictionary", batch.number, elements(columns, self.count(batch.number),
                lambda: (value(it, at) for it in columns for at in range(it.length)))))
        else:
            columns = self.records[-1][2]
            self.items.append(("batch", elements(columns, batch.length,
                lambda: (tuple(value(it, at) for it in columns) for at in range(batch.length)))))


def read(held, types=ALL):
    """The items of a stream."""
    reader = Collector(held, types)
    kind = reader.run()
    if kind:
        raise Rejection(f"{kind} at {reader.place}")
    return reader.items
