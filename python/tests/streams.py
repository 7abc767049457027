"""What the package returns for each example stream and each vector, compared with what the program `arrowflow` prints."""
import errno
import gc
import io
import os
import re

import arrowflow
from arrowflow import Kind

from common import PROGRAM, TOP, IntoAlone, ReadAlone, cut, elsewhere, python, raised_by, run
from consumer import batch_in, consumed, schema_in
from shown import Buffers, has_one_name_twice, numbers_alike, plain, records

COMMANDS = ("schema", "check", "show")
SIZES = (1, 13, 65536)


def copied(room, words, stream):
    """What a command, whose last word is a set of types, writes into a file, with its message and its status."""
    out = room / f"{stream.parent.name}.{stream.stem}.{'.'.join(map(str, words)).replace('/', '.')[-60:]}"
    _, said, status = run(*words, stream, out)
    return (out.read_bytes() if out.exists() else b""), said, status


def line_of(why):
    """The line that the program prints about an error."""
    return f"{str(why).partition(',')[0]}\n".encode()


def in_memory(call, data, limits):
    """What a call returns for a stream in memory, in the form of the program's output."""
    try:
        text = call(data, limits)
        return (text if isinstance(text, bytes) else text.encode()), b"", 0
    except arrowflow.ArrowflowError as why:
        return why.partial, line_of(why), 1


def in_pieces(data, size, limits):
    """A copy that is written while the pieces come, in the form of the program's output."""
    found, ending = [], (b"", 0)
    try:
        found += arrowflow.sanitize_pieces(cut(data, size), limits)
    except arrowflow.ArrowflowError as why:
        ending = line_of(why), 1
    return (b"".join(found), *ending)


# ---- batches


class Seen:
    """What was read of a stream: its batches, and how it ended."""

    def __init__(self, batches, why):
        self.batches = batches
        self.end = (why.kind, why.offset) if isinstance(why, arrowflow.ArrowflowError) else why and repr(why)
        self.values = repr([plain_rows(it) for it in batches])

    def report(self):
        kind, offset = self.end or (Kind.FINE, None)
        return kind, offset, len(self.batches), sum(len(it) for it in self.batches)


def plain_rows(batch):
    """The values of each column in the form of its buffers; for a column that cannot be a dict, its text from the buffers
    alone."""
    return [raw_values(it) if has_one_name_twice(it.field) else [plain(value, it.field) for value in it] for it in batch.columns]


def raw_values(column):
    of = Buffers(column)
    return [of.value(i) for i in range(of.slots)]


def opened(source, limits):
    """What a loop over a stream yields."""
    batches = []

    def loop():
        with arrowflow.open(source, limits) as stream:
            for it in stream:
                batches.append(it)
    return Seen(batches, raised_by(loop))


def fed(data, size, limits):
    """What a reader returns that is fed pieces of this size."""
    batches = []

    def feed():
        with arrowflow.Reader(limits) as reader:
            for piece in cut(data, size):
                batches.extend(reader.feed(piece))
            batches.extend(reader.end())
    return Seen(batches, raised_by(feed))


def by_capsule(source, limits):
    """What a consumer on another thread reads from a capsule, or the error that kept the capsule from being made."""
    stream = arrowflow.open(source, limits)
    why = raised_by(lambda: stream.schema)
    if why:
        return Seen([], why), True
    _, batches, status, text = consumed(stream.__arrow_c_stream__())
    del stream
    why = arrowflow._errors.error_of_stream(status, text) if status else None
    # a stream that ended well has no text
    return Seen(batches, why), (text is None) == (status == 0) and status in (0, errno.EINVAL)


# ---- the comparisons


def compare_texts(room, stream, limits, types, expected):
    data = stream.read_bytes()
    calls = {"schema": arrowflow.schema_text, "check": arrowflow.messages, "show": arrowflow.show, "copy": arrowflow.sanitize}
    for command, call in calls.items():
        yield f"{call.__name__}", in_memory(call, data, limits), expected[command]
    for size in SIZES:
        yield f"sanitize_pieces of {size}", in_pieces(data, size, limits), expected["copy"]
    if stream.parent.name != "examples":
        return
    for command in COMMANDS:
        words = ["-m", "arrowflow", "--types", types, command, stream]
        yield f"python -m arrowflow {command}", python(*words, env=env()), expected[command]
    words = ["-m", "arrowflow", "--types", types, "sanitize", stream, room / f"{stream.name}.{types}"]
    _, said, status = python(*words, env=env())
    yield "python -m arrowflow sanitize", (words[-1].read_bytes(), said, status), expected["copy"]


def env():
    return {**os.environ, "PYTHONPATH": str(TOP / "python")}


def compare_report(report, expected):
    """A report compared with the lines of `check`, and the schema's offsets."""
    batches = re.findall(rb"^at \d+: batch \d+, (\d+) rows$", expected["check"][0], re.M)
    yield "check", (report.batches, report.rows, min(report.kind, 1)), (len(batches), sum(map(int, batches)), expected["check"][2])
    said = f"fault at byte {report.offset}: {report.kind}\n".encode() if report.kind else b""
    yield "the line of check", said, expected["check"][1]


def compare_ways(stream, limits, report):
    """All ways to read a stream: they return the same values, and end as the report says."""
    data = stream.read_bytes()
    ways = {f"Reader {size}": fed(data, size, limits) for size in SIZES}
    ways["bytes"], ways["a path"] = opened(data, limits), opened(stream, limits)
    ways["a file"], ways["a raw file"] = opened(io.BytesIO(data), limits), opened(IntoAlone(data, 13), limits)
    ways["short reads"], ways["pieces"] = opened(ReadAlone(data, 65536), limits), opened(iter(cut(data, 7)), limits)
    ways["a capsule of bytes"], is_well = by_capsule(data, limits)
    yield "the text of a capsule's stream", is_well, True
    ways["a capsule of pieces"], is_well = by_capsule(cut(data, 13), limits)
    yield "the text of a capsule's stream of pieces", is_well, True
    first = ways["bytes"]
    expected = report.kind, report.offset if report.kind else None, report.batches, report.rows
    for name, seen in ways.items():
        yield f"{name} ends", seen.report(), expected
        yield f"{name} has values", seen.values == first.values, True


def compare_values(stream, limits, shown):
    """The values of columns compared with those in their buffers, and the records made from the buffers with `show`."""
    seen, unlike = opened(stream.read_bytes(), limits), []
    for batch in seen.batches:
        columns = [(it, Buffers(it)) for it in batch.columns]
        for column, of in columns:
            unlike += compare_column(column, [of.value(i) for i in range(of.slots)])
            nulls = sum(not of.has_value(i) for i in range(of.slots))
            if (column.null_count, len(column)) != (nulls, len(batch)):
                unlike.append(f"{column.name}: {column.null_count} nulls in {len(column)} slots")
        unlike += compare_rows(batch)
    yield "values, buffers and null counts", unlike, []
    # `show` begins with the names if a stream has a schema
    if shown[0]:
        schema = arrowflow.open(stream, limits).schema
        batches = [([Buffers(column) for column in it.columns], len(it)) for it in seen.batches]
        yield "records", *numbers_alike(records(schema.names, batches), shown[0], schema)


def compare_column(column, values):
    """What is wrong about a column with these values."""
    if has_one_name_twice(column.field):
        if values and raised_by(column.to_pylist) is None:
            yield f"{column.name}: a dict of one name twice"
    elif repr([plain(it, column.field) for it in column.to_pylist()]) != repr(values):
        yield f"{column.name}: {column.to_pylist()} for {values}"
    elif values and repr([column[0], column[-1]]) != repr([column.to_pylist()[k] for k in (0, -1)]):
        yield f"{column.name}: other values one by one"


def compare_rows(batch):
    """What is wrong about a batch's rows."""
    names = batch.schema.names
    if len({*names}) < len(names) or any(map(has_one_name_twice, batch.schema)):
        return
    columns = [it.to_pylist() for it in batch.columns]
    if repr(batch.to_pylist()) != repr([{name: it[i] for name, it in zip(names, columns)} for i in range(len(batch))]):
        yield f"rows: {batch.to_pylist()}"


def lines_of(field, level=0):
    """The lines of `arrowflow schema` for a field, without the numbers of dictionaries."""
    name = "".join(f"\\x{ord(it):02x}" if ord(it) < 32 or it in "\x7f\\" else it for it in field.name)
    yield f"{'  ' * level}{name}: {field.type}{' ordered' * field.ordered}{'' if field.nullable else ' not null'}"
    for it in (field.dictionary or field).children:
        yield from lines_of(it, level + 1)


def compare_schemas(stream, limits, expected):
    """The fields compared with what `schema` prints, and a schema that goes through a capsule."""
    if not expected[0]:
        return
    schema = arrowflow.open(stream, limits).schema
    found = "".join(f"{line}\n" for it in schema for line in lines_of(it))
    # the numbers of dictionaries, an empty zone and what comes after a zero byte do not go through the interface
    lines = re.sub(r"(dictionary<.*>) id -?\d+", r"\1", expected[0].decode()).replace(", ]", "]")
    if r"\x00" not in lines:
        yield "fields", re.sub(r"\\x..", "?", found), re.sub(r"\\x..", "?", lines)
    yield "a schema in a capsule", schema_in(schema.__arrow_c_schema__()), (schema, True)


def compare_arrays(stream, limits):
    """Batches and columns that go through capsules, after the stream and the first batch are gone."""
    batches = opened(stream, limits).batches
    expected = [repr(plain_rows(it)) for it in batches]
    capsules = [it.__arrow_c_array__() for it in batches]
    columns = [it.column(0).__arrow_c_array__() for it in batches if it.num_columns]
    first = [repr(raw_values(it.column(0))) for it in batches if it.num_columns]
    batches.clear()
    gc.collect()
    yield "batches in capsules", [repr(plain_rows(batch_in(it))) for it in capsules], expected
    again = [batch_in(it) for it in columns]
    yield "columns in capsules", [repr(raw_values(it._whole())) for it in again], first
    elsewhere(again.clear)


def compare_stream(room, stream, types):
    """What the package returns for a stream compared with what the program prints with this set of types, as (what, found,
    expected)."""
    limits, asked = arrowflow.ALL_TYPES if types == "all" else arrowflow.STANDARD, ["--types", types]
    expected = {command: run(PROGRAM, command, stream, *asked) for command in COMMANDS}
    expected["copy"] = copied(room, [PROGRAM, "copy", *asked], stream)
    report = arrowflow.check(stream.read_bytes(), limits)
    parts = (compare_texts(room, stream, limits, types, expected), compare_report(report, expected), compare_ways(stream, limits,
        report),
             compare_values(stream, limits, expected["show"]), compare_schemas(stream, limits, expected["schema"]),
             compare_arrays(stream, limits))
    return [(f"{what}: {stream.relative_to(TOP)} with {types}", found, right) for it in parts for what, found, right in it]
